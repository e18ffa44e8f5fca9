//! Random descriptions with a longer stride (request 2.2): an increment component outside −1 to 1.

use crate::board::Limits;
use crate::description::{Description, Matrix};
use crate::random::Random;
use crate::random_description::{filled, laid_out, map_of_place, matrix};
use crate::vectors::{dot, shortest, times, vectors_within, within_one, Point};

/// The most processes: enough for two instances at one process with a component of 20. There are none with a longer one, as its bounds
/// would hold over 1,024 processes.
const MOST: usize = 400;

/// A description with a longer stride that Accept accepts. In most of them some process runs several instances.
pub fn strided(random: &mut Random) -> Description {
    loop {
        let (nest, lines) = nest(random);
        let streams = random.below(4) + 1;
        let map = |random: &mut Random, nest: &Description| map(random, nest, &lines);
        if let Some(description) = filled(random, nest, streams, map) {
            return description;
        }
    }
}

/// Loops, step and place with a longer stride that pass refusals 5 to 10, without a stream, and short lines for streams.
fn nest(random: &mut Random) -> (Description, Vec<Point>) {
    loop {
        let loops = random.pick(&[2, 3, 3]);
        let reach = random.pick(&[2, 4, 4]);
        let place = matrix(random, loops, reach);
        let step = random.words(loops, -8, 8);
        let Ok(increment) = shortest(&place, &step, 7, 8).map(|it| it.vector) else {
            continue;
        };
        let lines = lines(&place, &step);
        if within_one(&increment) || lines.is_empty() {
            continue;
        }
        let bounds = bounds(random, &increment);
        if let Some(nest) = laid_out(random, bounds, step, place, MOST) {
            return (nest, lines);
        }
    }
}

/// Bounds between which the increment fits once or twice with a little room, or narrow ones.
fn bounds(random: &mut Random, increment: &[i32]) -> (Point, Point) {
    let often = random.pick(&[0, 1, 1, 1, 2]);
    let bounds = |word: &i32| {
        let left = random.between(-4, 2);
        (left, left + often * word.abs() + random.between(0, 2))
    };
    increment.iter().map(bounds).unzip()
}

/// The short vectors that may be a stream's line: components from −2 to 2, moves of at most 1, hops of at most the limit.
pub fn lines(place: &Matrix, step: &[i32]) -> Vec<Point> {
    let hops = 1..=Limits::GAUGE.hop;
    let line =
        |vector: &Point| within_one(&times(place, vector)) && hops.contains(&dot(step, vector));
    vectors_within(step.len(), 2).filter(line).collect()
}

/// A map that has one of the lines as its own, or that of place.
fn map(random: &mut Random, nest: &Description, lines: &[Point]) -> Matrix {
    if random.percent(10) {
        return map_of_place(random, nest);
    }
    let line = &lines[random.below(lines.len())];
    across(random, line, 2)
}

/// A matrix of words up to the reach that sends a vector to zero.
pub fn across(random: &mut Random, vector: &[i32], reach: i32) -> Matrix {
    let rows: Vec<Point> = vectors_within(vector.len(), reach)
        .filter(|row| dot(row, vector) == 0)
        .collect();
    (1..vector.len())
        .map(|_| rows[random.below(rows.len())].clone())
        .collect()
}
