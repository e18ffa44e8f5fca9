//! Descriptions that show divisors (request 2.7): each that place and a stream can have, and matrices that have none.

use crate::body::{Line, Operation};
use crate::description::{Description, Matrix};
use crate::designs;
use crate::vectors::{is_zero, shortest, times};

/// The most streams.
const STREAMS: usize = 6;

/// The largest word of a matrix.
const REACH: i32 = 4;

/// The spaced and the slanted array, every place of two loops, places and streams of every divisor in three, kept, moving and turned, and
/// refused ones.
pub fn divisor_cases() -> Vec<Description> {
    let mut cases: Vec<Description> = (0..=3).map(designs::spaced).collect();
    cases.extend([designs::spaced(63), designs::matrix_slanted(15)]);
    cases.extend(places_of_two_loops());
    cases.extend(places_of_three_loops());
    for sign in [1, -1] {
        cases.extend(moving_in_two_loops(sign));
        cases.extend(moving_in_three_loops(sign));
    }
    cases.extend(refused());
    cases
}

/// One instance, at 0, with streams of those index maps, none of them written. A stream that does not move is loaded along the first
/// coordinate.
pub fn one_instance(step: &[i32], place: &Matrix, maps: &[Matrix]) -> Description {
    let loops = step.len();
    let stationary = |map: &Matrix| {
        let line = shortest(map, step, 11, 12);
        line.is_ok_and(|line| is_zero(&times(place, &line.vector)))
    };
    let loading = |map: &Matrix| {
        let mut loading = vec![0; loops - 1];
        loading[0] = i32::from(stationary(map));
        loading
    };
    Description {
        left: vec![0; loops],
        right: vec![0; loops],
        directions: vec![1; loops],
        step: step.to_vec(),
        place: place.clone(),
        maps: maps.to_vec(),
        loading: maps.iter().map(loading).collect(),
        body: vec![Line::always(Operation::Copy, maps.len(), 0, 0)],
    }
}

// Places.

/// Every row as place, the zero row too, with up to six streams that it keeps: rows along it, from another one on each time.
fn places_of_two_loops() -> Vec<Description> {
    let rows = all_rows();
    let along = |place: &[i32; 2]| -> Vec<Matrix> {
        let parallel = |row: &&[i32; 2]| place[0] * row[1] == place[1] * row[0];
        let kept = rows.iter().filter(|row| !is_zero(&row[..]));
        kept.filter(parallel)
            .map(|row| vec![row.to_vec()])
            .collect()
    };
    // No row has a line whose step is 0.
    let step = [5, 1];
    let numbered = rows.iter().enumerate();
    numbered
        .map(|(number, place)| {
            let maps = some_from(&along(place), number);
            one_instance(&step, &vec![place.to_vec()], &maps)
        })
        .collect()
}

/// All rows of two loops.
fn all_rows() -> Vec<[i32; 2]> {
    let words = -REACH..=REACH;
    let rows = words
        .clone()
        .flat_map(|a| words.clone().map(move |b| [a, b]));
    rows.collect()
}

/// As many of a list as there may be streams, from a number on.
fn some_from(list: &[Matrix], number: usize) -> Vec<Matrix> {
    let from = list.iter().cycle().skip(number % list.len());
    from.take(STREAMS.min(list.len())).cloned().collect()
}

/// Places of every divisor, whose lines run along one loop or another, with six streams that each keeps.
fn places_of_three_loops() -> Vec<Description> {
    let squares = squares();
    let numbered = squares.iter().enumerate();
    numbered
        .map(|(number, square)| {
            let shaped = |square: &Square| matrix_of(square, number % 3);
            let maps: Vec<Matrix> = squares.iter().map(shaped).collect();
            one_instance(&[3, -2, 1], &shaped(square), &some_from(&maps, number + 1))
        })
        .collect()
}

/// Two rows of two words.
type Square = [[i32; 2]; 2];

/// For each determinant the first and the last square that has it or its negative.
fn squares() -> Vec<Square> {
    let rows = all_rows();
    let pairs = rows.iter().flat_map(|&a| rows.iter().map(move |&b| [a, b]));
    let all: Vec<Square> = pairs.collect();
    let has = |[[a, b], [c, d]]: &Square, size: i32| (a * d - b * c).abs() == size;
    let first = (1..=32).filter_map(|size| all.iter().find(|square| has(square, size)));
    let last = (1..=32).filter_map(|size| all.iter().rfind(|square| has(square, size)));
    first.chain(last).copied().collect()
}

/// A matrix whose divisor is the size of the square's determinant, with a line along loop 0, 1 or 2, or across loops 0 and 1.
fn matrix_of(square: &Square, shape: usize) -> Matrix {
    let row = |&[a, b]: &[i32; 2]| match shape {
        0 => vec![0, a, b],
        1 => vec![a, 0, b],
        2 => vec![a, b, 0],
        _ => vec![a, a, b],
    };
    square.iter().map(row).collect()
}

// Streams.

/// Place i with the multiples of (1,0), (0,1), (1,1) and (1,−1) as maps, six at a time. Both the factors and the rows take turns.
fn moving_in_two_loops(sign: i32) -> Vec<Description> {
    let rows = [[1, 0], [0, 1], [1, 1], [1, -1]];
    let factors = [1, 2, 3, 4, -1, -2, -3, -4];
    let map = |number: usize| {
        let row = rows[(number + number / factors.len()) % rows.len()];
        let factor = factors[number % factors.len()];
        vec![row.map(|word| factor * word).to_vec()]
    };
    let maps: Vec<Matrix> = (0..rows.len() * factors.len()).map(map).collect();
    six_at_a_time(&[2 * sign, sign], &vec![vec![1, 0]], &maps)
}

/// Place (i,j) with maps of every divisor and shape, six at a time.
fn moving_in_three_loops(sign: i32) -> Vec<Description> {
    let squares = squares();
    let numbered = squares.iter().enumerate();
    let maps: Vec<Matrix> = numbered
        .map(|(number, square)| matrix_of(square, number % 4))
        .collect();
    let place = vec![vec![1, 0, 0], vec![0, 1, 0]];
    six_at_a_time(&[3 * sign, -2 * sign, sign], &place, &maps)
}

/// The maps as streams of one instance each, as many as there may be.
fn six_at_a_time(step: &[i32], place: &Matrix, maps: &[Matrix]) -> Vec<Description> {
    maps.chunks(STREAMS)
        .map(|maps| one_instance(step, place, maps))
        .collect()
}

// Refusals 7 and 11.

/// Six streams of which each in its turn has a zero map or dependent rows; then place has.
fn refused() -> Vec<Description> {
    let (two, three) = (&moving_in_two_loops(1)[0], &moving_in_three_loops(1)[0]);
    let mut refused = Vec::new();
    for (base, matrix) in [
        (two, vec![vec![0, 0]]),
        (three, vec![vec![0; 3]; 2]),
        (three, vec![vec![4, -4, 2], vec![-2, 2, -1]]),
    ] {
        for number in 0..STREAMS {
            let mut description = base.clone();
            description.maps[number] = matrix.clone();
            refused.push(description);
        }
        let mut description = base.clone();
        description.place = matrix;
        refused.push(description);
    }
    refused
}
