//! Request 2.2: refusal 9 is never given, and first and last are the outermost whole points of the process's own line in the bounds.

use std::collections::BTreeMap;

use reference::board::GAUGE;
use reference::calls::{Accepted, Calls, Row};
use reference::description::{bytes_of, Description};
use reference::designs::{
    decimating, decimating_by_four, decimating_channels, longest_stride, polynomial_two,
};
use reference::random::Random;
use reference::random_description::{accepted, changed, given, refused};
use reference::random_stride::strided;
use reference::vectors::{shortest, times, within_one, Point};
use reference::Refusal;

use crate::{accept, results, streams_before};

fn increment(description: &Description) -> Point {
    let short = shortest(&description.place, &description.step, 7, 8);
    short.expect("an increment").vector
}

fn table(description: &Description) -> Vec<Row> {
    let calls = Calls::on(GAUGE, &description.bytes());
    let mut rows = vec![Row::default(); calls.accept().expect("an accepted description").processes];
    assert_eq!(calls.table(&mut rows), Ok(()));
    rows
}

fn inside(description: &Description, point: &[i32]) -> bool {
    let bounds = description.left.iter().zip(&description.right);
    bounds
        .zip(point)
        .all(|((left, right), index)| (left..=right).contains(&index))
}

/// On one of the faces of the bounds.
fn on_a_face(description: &Description, point: &[i32]) -> bool {
    let bounds = description.left.iter().zip(&description.right);
    bounds
        .zip(point)
        .any(|((left, right), index)| index == left || index == right)
}

/// The point so many times the increment on.
fn moved(point: &[i32], increment: &[i32], by: i32) -> Point {
    let words = point.iter().zip(increment);
    words.map(|(word, step)| word + by * step).collect()
}

/// All whole points in the bounds.
fn points(description: &Description) -> Vec<Point> {
    let mut points = vec![Point::new()];
    for (&left, &right) in description.left.iter().zip(&description.right) {
        let longer = |point: &Point| {
            let indices = (left..=right).collect::<Vec<i32>>();
            indices
                .into_iter()
                .map(|index| [point.as_slice(), &[index]].concat())
                .collect::<Vec<Point>>()
        };
        points = points.iter().flat_map(longer).collect();
    }
    points
}

/// What tests met: computing processes, such with several instances, such that begin on no face.
#[derive(Debug, Default)]
struct Met {
    computing: u32,
    several: u32,
    off_the_faces: u32,
}

impl Met {
    /// First and last of every row against a search over all points of the bounds and of the line.
    fn judge(&mut self, description: &Description) {
        let increment = increment(description);
        let loops = description.loops();
        let mut at: BTreeMap<Point, Vec<Point>> = BTreeMap::new();
        for point in points(description) {
            at.entry(times(&description.place, &point))
                .or_default()
                .push(point);
        }
        for row in table(description) {
            let all = at.remove(&row.point[..loops - 1]).unwrap_or_default();
            assert_eq!(row.count as usize, all.len());
            if all.is_empty() {
                continue;
            }
            let (first, last) = (&row.first[..loops], &row.last[..loops]);
            assert!(inside(description, first) && inside(description, last));
            assert!(!inside(description, &moved(first, &increment, -1)));
            assert!(!inside(description, &moved(last, &increment, 1)));
            for firing in 0..row.count as i32 {
                assert!(all.contains(&moved(first, &increment, firing)));
            }
            assert_eq!(moved(first, &increment, row.count as i32 - 1), last);
            self.computing += 1;
            self.several += u32::from(row.count > 1);
            self.off_the_faces += u32::from(!on_a_face(description, first));
        }
        assert!(at.is_empty());
    }
}

#[test]
fn first_and_last_are_outermost() {
    let mut random = Random::new(22);
    let mut met = Met::default();
    let mut longest = [0; 4];
    for _ in 0..2000 {
        let description = strided(&mut random);
        assert!(!within_one(&increment(&description)));
        met.judge(&description);
        let greatest = increment(&description).iter().map(|word| word.abs()).max();
        let loops = description.loops();
        longest[loops] = longest[loops].max(greatest.unwrap_or(0));
    }
    for design in [
        decimating(3, 3),
        decimating(63, 63),
        decimating_channels(),
        decimating_by_four(),
        longest_stride(),
    ] {
        met.judge(&design);
    }
    assert!(met.several > 4000 && met.off_the_faces > 4000, "{met:?}");
    assert!(longest[2] == 4 && longest[3] >= 20, "{longest:?}");
}

#[test]
fn short_increments_begin_on_a_face() {
    let mut random = Random::new(23);
    for _ in 0..500 {
        let description = accepted(&mut random);
        let mut met = Met::default();
        met.judge(&description);
        assert!(met.off_the_faces == 0 || !within_one(&increment(&description)));
    }
}

/// Accepted ones and those refused by each number after 9, all with a longer stride; 9 is never among them.
#[test]
fn answered_by_what_comes_after() {
    let mut random = Random::new(24);
    let mut answers: BTreeMap<u32, u32> = BTreeMap::new();
    let mut judge = |bytes: &[u8]| {
        let number = Calls::on(GAUGE, bytes)
            .accept()
            .err()
            .map_or(0, |Refusal(n)| n);
        assert_ne!(number, 9);
        let long = Description::read(bytes).is_ok_and(|description| {
            let increment = shortest(&description.place, &description.step, 7, 8);
            increment.is_ok_and(|increment| !within_one(&increment.vector))
        });
        if long && !(1..=8).contains(&number) {
            *answers.entry(number).or_default() += 1;
        }
    };
    for number in given() {
        (0..30).for_each(|_| judge(&refused(&mut random, GAUGE, number)));
    }
    for _ in 0..1000 {
        judge(&changed(&mut random));
        let mut words = strided(&mut random).words();
        let number = random.below(words.len() - 3) + 3;
        words[number] += random.pick(&[-2, -1, 1, 2]);
        judge(&bytes_of(&words));
    }
    let mut wide = decimating(2, 2);
    wide.place = vec![vec![4, 1]];
    (wide.left, wide.right) = (vec![-64, 0], vec![64, 30]);
    judge(&wide.bytes());
    let expected: Vec<u32> = [0].into_iter().chain(10..=17).collect();
    assert!(
        expected.iter().all(|number| answers.contains_key(number)),
        "{answers:?}"
    );
}

#[test]
fn design_two_with_place_2i_j_and_step_3i_j() {
    let mut description = polynomial_two(2);
    description.place = vec![vec![2, 1]];
    description.step = vec![3, 1];
    assert_eq!(increment(&description), [1, -2]);
    assert_eq!(accept(&description), Err(Refusal(13)));
    // a alone is accepted, so it is b that is declined.
    assert!(accept(&streams_before(&description, 1)).is_ok());
    assert_eq!(accept(&streams_before(&description, 2)), Err(Refusal(13)));
}

#[test]
fn the_decimating_filter() {
    let description = decimating(2, 2);
    let figures = Accepted {
        processes: 7,
        instances: 9,
        elements: 15,
        pipes: 3,
        words: 129,
        steps: 249,
        divisors: [1, 1, 1, 1, 0, 0, 0],
    };
    assert_eq!(accept(&description), Ok(figures));
    let rows = table(&description);
    assert_eq!((rows[2].first, rows[2].last), ([0, 2, 0], [1, 0, 0]));
    assert_eq!((rows[3].first, rows[3].last), ([1, 1, 0], [1, 1, 0]));
    assert!(!on_a_face(&description, &rows[3].first[..2]));
    // x alone is accepted too.
    let mut kept = streams_before(&description, 2);
    kept.maps.remove(0);
    kept.loading.remove(0);
    kept.body = longest_stride().body;
    assert!(accept(&kept).is_ok());
    let larger = decimating(3, 3);
    assert_eq!(
        accept(&larger).map(|it| (it.processes, it.steps)),
        Ok((10, 478))
    );
    let row = &table(&larger)[4];
    assert_eq!((row.first, row.last), ([1, 2, 0], [2, 0, 0]));
}

#[test]
fn the_longest_strides() {
    assert_eq!(increment(&decimating_by_four()), [-1, -4, 20]);
    assert!(table(&decimating_by_four())
        .iter()
        .any(|row| row.count == 2));
    assert_eq!(increment(&longest_stride()), [25, -28, 4]);
    assert!(accept(&longest_stride()).is_ok());
}

/// The filters' outputs against their sums written out.
#[test]
fn what_the_filters_compute() {
    let mut random = Random::new(25);
    let x = random.values(7);
    let w = random.values(5);
    let output = results(&decimating(2, 2), &[&[0; 3], x.as_slice(), &w].concat());
    for i in 0..3 {
        let sum = (0..3).fold(0, |sum: u32, j| {
            sum.wrapping_add(w[i + j].wrapping_mul(x[2 * i + j]))
        });
        assert_eq!(output[i], sum);
    }
    // Elements in row order: by tap or sample, then channel.
    let (h, x) = (random.values(5 * 4), random.values(11 * 4));
    let output = results(
        &decimating_channels(),
        &[h.as_slice(), &x, &[0; 16]].concat(),
    );
    for i in 0..4 {
        for k in 0..4 {
            let sum = (0..5).fold(0, |sum: u32, j| {
                sum.wrapping_add(h[4 * j + k].wrapping_mul(x[4 * (2 * i + j) + k]))
            });
            assert_eq!(output[20 + 44 + 4 * i + k], sum);
        }
    }
    let x = random.values(2 * 37);
    let output = results(&decimating_by_four(), &[&[0; 10], x.as_slice()].concat());
    for i in 0..2 {
        for j in 0..5 {
            let window = &x[37 * i + 4 * j..37 * i + 4 * j + 21];
            assert_eq!(
                output[5 * i + j],
                window.iter().fold(0, |sum: u32, &it| sum.wrapping_add(it))
            );
        }
    }
}
