//! Random descriptions: accepted ones, large ones, and ones that Accept declines by a given number.

use crate::board::{Limits, BENCH};
use crate::body::{Comparison, Guard, Line, Operation};
use crate::calls::Calls;
use crate::description::{bytes_of, Description, Matrix};
use crate::designs;
use crate::divisor::shorten;
use crate::geometry::{streams, Nest};
use crate::random::Random;
use crate::vectors::Point;
use crate::walk::walk;
use crate::Refusal;

/// The most processes of a small array.
const SMALL: usize = 60;

/// How many descriptions are tried for a refusal; far more than it takes.
const TRIED: usize = 1000;

/// A small description that Accept accepts.
pub fn accepted(random: &mut Random) -> Description {
    loop {
        let nest = nest(random);
        let streams = random.below(6) + 1;
        if let Some(description) = filled(random, nest, streams, map) {
            return description;
        }
    }
}

/// A nest with a body and so many streams whose maps come from a source, if some that pass refusals 11 to 17 are found soon.
pub fn filled(
    random: &mut Random,
    nest: Description,
    streams: usize,
    map: impl Fn(&mut Random, &Description) -> Matrix,
) -> Option<Description> {
    let walk = walk(&Nest::of(&nest, &Limits::GAUGE).ok()?);
    let mut description = nest;
    description.body = body(random, &description, streams);
    let mut found = Vec::new();
    for number in 0..streams {
        found.push(stream(
            random,
            &description,
            &walk,
            description.written(number),
            &map,
        )?);
    }
    (description.maps, description.loading) = found.into_iter().unzip();
    Some(description)
}

/// Loops, step and place that pass refusals 5 to 10, without a stream.
fn nest(random: &mut Random) -> Description {
    loop {
        let loops = random.pick(&[2, 3]);
        let bounds = (0..loops)
            .map(|_| bounds(random, if loops == 2 { 5 } else { 3 }))
            .unzip();
        let reach = random.pick(&[1, 2, 3, 8]);
        let step = random.words(loops, -reach, reach);
        let reach = random.pick(&[1, 1, 1, 1, 2, 4]);
        let place = matrix(random, loops, reach);
        if let Some(nest) = laid_out(random, bounds, step, place, SMALL) {
            return nest;
        }
    }
}

/// Loops of random directions with their layout, if they pass refusals 5 to 10 and have at most so many processes.
pub fn laid_out(
    random: &mut Random,
    (left, right): (Vec<i32>, Vec<i32>),
    step: Vec<i32>,
    place: Matrix,
    most: usize,
) -> Option<Description> {
    let directions = step.iter().map(|_| random.pick(&[1, 1, -1])).collect();
    let nest = Description {
        left,
        right,
        directions,
        step,
        place,
        maps: Vec::new(),
        loading: Vec::new(),
        body: Vec::new(),
    };
    let fits = |nest: Nest| nest.processes.len() <= most;
    Nest::of(&nest, &Limits::GAUGE)
        .is_ok_and(fits)
        .then_some(nest)
}

/// A left and a right bound with at most so many indices between.
pub fn bounds(random: &mut Random, most: i32) -> (i32, i32) {
    let further = random.between(0, most - 1);
    let left = match random.below(5) {
        0 | 1 => 0,
        2 | 3 => random.between(-3, 1),
        _ => random.between(-64, 64 - further),
    };
    (left, left + further)
}

/// A row fewer than there are loops, of words up to the reach.
pub fn matrix(random: &mut Random, loops: usize, reach: i32) -> Matrix {
    (1..loops)
        .map(|_| random.words(loops, -reach, reach))
        .collect()
}

/// Lines for so many streams, with guards for the nest's loops.
fn body(random: &mut Random, nest: &Description, streams: usize) -> Vec<Line> {
    let lines = random.below(8) + 1;
    (0..lines)
        .map(|_| Line {
            operation: random.pick(&Operation::ALL),
            target: random.below(streams + 2),
            first: random.below(streams + 2),
            second: random.below(streams + 2),
            guard: guard(random, nest),
        })
        .collect()
}

/// A guard, often of comparison 0. Most bounds are near those of the loop, so that the line runs in some instances and not in others; the
/// rest are any.
pub fn guard(random: &mut Random, nest: &Description) -> Guard {
    let loop_number = random.below(nest.loops());
    let comparison = if random.percent(40) {
        Comparison::Always
    } else {
        random.pick(&Comparison::ALL)
    };
    let (left, right) = (nest.left[loop_number], nest.right[loop_number]);
    let bound = if random.percent(80) {
        random.between((left - 1).max(-64), (right + 1).min(64))
    } else {
        random.between(-64, 64)
    };
    Guard::new(loop_number, comparison, bound)
}

/// An index map and a loading vector that pass refusals 11 to 17, if some are found soon.
fn stream(
    random: &mut Random,
    nest: &Description,
    walk: &[Point],
    written: bool,
    map: impl Fn(&mut Random, &Description) -> Matrix,
) -> Option<(Matrix, Vec<i32>)> {
    for _ in 0..60 {
        let map = map(random, nest);
        let still = vec![0; nest.loops() - 1];
        let loading = match tried(nest, walk, &map, &still, written) {
            Ok(()) => return Some((map, still)),
            Err(Refusal(16)) => random.words(still.len(), -1, 1),
            Err(_) => continue,
        };
        if tried(nest, walk, &map, &loading, written).is_ok() {
            return Some((map, loading));
        }
    }
    None
}

/// A random index map. Some are made from place, so that the stream is stationary.
fn map(random: &mut Random, nest: &Description) -> Matrix {
    if random.percent(20) {
        return map_of_place(random, nest);
    }
    let reach = random.pick(&[1, 1, 1, 2, 2, 4]);
    matrix(random, nest.loops(), reach)
}

/// Place's rows as an index map, shortened, in either order, the first with either sign.
pub fn map_of_place(random: &mut Random, nest: &Description) -> Matrix {
    let mut rows: Matrix = nest.place.iter().map(|row| shorten(row).vector).collect();
    if random.percent(50) {
        rows.reverse();
    }
    let sign = random.pick(&[1, -1]);
    rows[0].iter_mut().for_each(|word| *word *= sign);
    rows
}

/// What Accept says of a nest with one stream; the walk is the nest's.
fn tried(
    nest: &Description,
    walk: &[Point],
    map: &Matrix,
    loading: &[i32],
    written: bool,
) -> Result<(), Refusal> {
    let target = usize::from(!written);
    let mut description = nest.clone();
    description.maps = vec![map.clone()];
    description.loading = vec![loading.to_vec()];
    description.body = vec![Line::always(Operation::Copy, target, 0, 0)];
    streams(&description, walk, &Limits::GAUGE).map(|_| ())
}

/// A description near the limits of refusals 6 and 10 on a board, on either side.
pub fn large(random: &mut Random, board: u32) -> Description {
    let on_the = |gauge: i32, bench: i32| if board == BENCH { bench } else { gauge };
    let mut description = match random.below(8) {
        0 => designs::polynomial_one(on_the(63, 31)),
        1 => designs::polynomial_two(on_the(63, 31)),
        2 => designs::matrix_straight(on_the(15, 9)),
        3 => designs::matrix_moving(on_the(15, 7)),
        4 => designs::matrix_slanted(on_the(11, 7)),
        5 => designs::cleared_one(on_the(63, 31)),
        6 => designs::cleared_matrix(on_the(15, 9)),
        _ => designs::grid(on_the(32, 16), on_the(32, 16), 4),
    };
    if random.percent(20) {
        let number = random.below(description.loops());
        description.right[number] += random.between(-1, 1);
    }
    description
}

/// An accepted description with one word changed, whatever Accept says of it.
pub fn changed(random: &mut Random) -> Vec<u8> {
    let description = accepted(random);
    word_changed(random, &description)
}

/// A description with one word after its sizes changed.
pub fn word_changed(random: &mut Random, description: &Description) -> Vec<u8> {
    let mut words = description.words();
    let number = random.below(words.len() - 3) + 3;
    words[number] += random.pick(&[-2, -1, 1, 2]);
    bytes_of(&words)
}

/// The numbers by which Accept declines: 1 to 17 without 9, which is never given.
pub fn given() -> impl Iterator<Item = u32> {
    (1..=17).filter(|&number| number != 9)
}

/// A description that Accept declines by one of those numbers on a board.
pub fn refused(random: &mut Random, board: u32, number: u32) -> Vec<u8> {
    refused_from(random, board, number, accepted)
}

/// Such a description, made from accepted ones that come from a source.
pub fn refused_from(
    random: &mut Random,
    board: u32,
    number: u32,
    source: impl Fn(&mut Random) -> Description,
) -> Vec<u8> {
    let mut bytes = Vec::new();
    for _ in 0..TRIED {
        let base = source(random);
        for _ in 0..30 {
            bytes = spoiled(random, base.clone(), number);
            if Calls::on(board, &bytes).accept() == Err(Refusal(number)) {
                return bytes;
            }
        }
    }
    bytes
}

/// A description changed so that it may well be declined by the number.
fn spoiled(random: &mut Random, mut description: Description, number: u32) -> Vec<u8> {
    match number {
        1..=4 => return spoiled_bytes(random, &description, number),
        5 | 6 | 10 => spoil_bounds(random, &mut description, number),
        7 => make_dependent(random, &mut description.place),
        8 => description.step = random.words(description.loops(), -2, 2),
        _ => spoil_stream(random, &mut description, number),
    }
    description.bytes()
}

/// Bytes cut off or added, or a word out of range.
fn spoiled_bytes(random: &mut Random, description: &Description, number: u32) -> Vec<u8> {
    let mut words = description.words();
    let far = [
        0,
        1,
        -1,
        2,
        -2,
        3,
        4,
        5,
        -5,
        6,
        7,
        8,
        9,
        -9,
        65,
        -65,
        i32::MIN,
        i32::MAX,
    ];
    match number {
        2 => words[random.below(3)] = random.pick(&far),
        4 => {
            let number = random.below(words.len() - 3) + 3;
            words[number] = random.pick(&far);
        }
        _ => {}
    }
    let mut bytes = bytes_of(&words);
    match number {
        1 => bytes.truncate(random.below(12)),
        3 if random.percent(50) => bytes.truncate(12 + random.below(bytes.len() - 12)),
        3 => {
            let more = random.below(8) + 1;
            bytes.extend(random.bytes(more));
        }
        _ => {}
    }
    bytes
}

/// A left bound above its right, or bounds far apart.
fn spoil_bounds(random: &mut Random, description: &mut Description, number: u32) {
    if number == 5 {
        let number = random.below(description.loops());
        description.left[number] = random.between(-64, 64);
        return;
    }
    let most = if description.loops() == 2 { 128 } else { 40 };
    for (left, right) in description.left.iter_mut().zip(&mut description.right) {
        *left = -random.between(0, 64);
        *right = *left + random.between(0, most);
    }
}

/// Rows of a rank below r−1.
pub fn make_dependent(random: &mut Random, rows: &mut Matrix) {
    let factor = random.between(-1, 1);
    let source = if rows.len() == 1 {
        vec![0; 2]
    } else {
        rows[1].clone()
    };
    rows[0] = source.iter().map(|word| factor * word).collect();
}

/// One stream, or the step or a direction that all share, changed.
fn spoil_stream(random: &mut Random, description: &mut Description, number: u32) {
    let loops = description.loops();
    let stream = random.below(description.streams());
    match number {
        11 => make_dependent(random, &mut description.maps[stream]),
        12 => description.step = random.words(loops, -2, 2),
        14 => description.step = random.words(loops, -8, 8),
        15 => description.directions[random.below(loops)] *= -1,
        16 => description.loading[stream] = random.words(loops - 1, -1, 1),
        _ => description.maps[stream] = matrix(random, loops, 4),
    }
}
