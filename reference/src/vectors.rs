//! Points, matrices, boxes, and the shortest vector that a matrix sends to zero.

use crate::description::Matrix;
use crate::divisor::{shorten, Shortened};
use crate::{demand, Refusal};

/// An instance, a place, an element or a vector. The order of points is row order: last coordinate
/// fastest.
pub type Point = Vec<i32>;

/// The sum of the products of the coordinates.
pub fn dot(a: &[i32], b: &[i32]) -> i32 {
    a.iter().zip(b).map(|(x, y)| x * y).sum()
}

/// A matrix times a point.
pub fn times(matrix: &Matrix, point: &[i32]) -> Point {
    matrix.iter().map(|row| dot(row, point)).collect()
}

pub fn is_zero(vector: &[i32]) -> bool {
    vector.iter().all(|&word| word == 0)
}

pub fn within_one(vector: &[i32]) -> bool {
    vector.iter().all(|&word| (-1..=1).contains(&word))
}

/// The vectors of so many components, each from minus the reach to the reach.
pub fn vectors_within(components: usize, reach: i32) -> impl Iterator<Item = Point> {
    let base = 2 * reach as usize + 1;
    let number = base.pow(components as u32);
    let digit =
        move |vector: usize, place: usize| (vector / base.pow(place as u32) % base) as i32 - reach;
    (0..number).map(move |vector| (0..components).map(|place| digit(vector, place)).collect())
}

/// The place of a point in a list that is in row order and holds it.
pub fn number_in(points: &[Point], point: &Point) -> usize {
    points.partition_point(|other| other < point)
}

/// A vector that the rows send to zero; the zero vector if their rank is below r−1. For two loops
/// the row's second word and its first negated, for three the cross product of the rows.
fn sent_to_zero(rows: &Matrix) -> Point {
    match rows.as_slice() {
        [a] => vec![a[1], -a[0]],
        [a, b] => vec![
            a[1] * b[2] - a[2] * b[1],
            a[2] * b[0] - a[0] * b[2],
            a[0] * b[1] - a[1] * b[0],
        ],
        _ => Vec::new(),
    }
}

/// The shortest vector that the rows send to zero, turned so that its step is positive, with the
/// divisor that was taken out before. Declines by the first number if the rank is below r−1, by the
/// second if its step is 0.
pub fn shortest(rows: &Matrix, step: &[i32], rank: u32, still: u32) -> Result<Shortened, Refusal> {
    let mut short = shorten(&sent_to_zero(rows));
    demand(short.divisor != 0, rank)?;
    let gain = dot(step, &short.vector);
    demand(gain != 0, still)?;
    if gain < 0 {
        short.vector.iter_mut().for_each(|word| *word = -*word);
    }
    Ok(short)
}

/// The smallest box around some points.
pub struct Bounds {
    low: Point,
    high: Point,
}

impl Bounds {
    pub fn around(points: &[Point]) -> Bounds {
        let mut low = points[0].clone();
        let mut high = points[0].clone();
        for point in points {
            for (axis, &word) in point.iter().enumerate() {
                low[axis] = low[axis].min(word);
                high[axis] = high[axis].max(word);
            }
        }
        Bounds { low, high }
    }

    /// The number of points in the box.
    pub fn size(&self) -> i64 {
        let sides = self.low.iter().zip(&self.high);
        sides
            .map(|(&low, &high)| i64::from(high - low + 1))
            .product()
    }

    /// The number in row order of a point of the box.
    pub fn number(&self, point: &[i32]) -> usize {
        let axes = point.iter().zip(&self.low).zip(&self.high);
        axes.fold(0, |number, ((word, low), high)| {
            number * (high - low + 1) as usize + (word - low) as usize
        })
    }

    /// The points of the box in row order.
    pub fn points(&self) -> impl Iterator<Item = Point> + '_ {
        std::iter::successors(Some(self.low.clone()), |point| self.after(point))
    }

    /// The point after this one in row order.
    fn after(&self, point: &Point) -> Option<Point> {
        let mut next = point.clone();
        for axis in (0..next.len()).rev() {
            if next[axis] < self.high[axis] {
                next[axis] += 1;
                return Some(next);
            }
            next[axis] = self.low[axis];
        }
        None
    }
}
