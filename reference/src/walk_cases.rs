//! Descriptions that show the walk (request 2.4), and the boxes that refusal 17 holds against it.

use crate::body::{Line, Operation};
use crate::description::{Description, Matrix};
use crate::designs;
use crate::divisor_cases::one_instance;

/// Sheets, boxes that are not filled, loops that run from right to left, null processes between working ones, and the longest lines.
pub fn walk_cases() -> Vec<Description> {
    let mut cases = sheets();
    cases.extend(unfilled_in_two_loops());
    cases.extend(unfilled_in_three_loops());
    cases.extend(one_of_several());
    cases.extend(from_right_to_left());
    cases.extend(apart());
    cases.extend(long_lines());
    cases.extend(wide_grids());
    cases
}

/// The rows that pick one index of three.
const I: [i32; 3] = [1, 0, 0];
const J: [i32; 3] = [0, 1, 0];
const K: [i32; 3] = [0, 0, 1];

/// Loops of those bounds with their layout and streams of those index maps, none of them written.
fn unwritten<const R: usize>(
    bounds: [(i32, i32); R],
    step: [i32; R],
    place: &[[i32; R]],
    maps: &[&[[i32; R]]],
) -> Description {
    let matrix = |rows: &[[i32; R]]| -> Matrix { rows.iter().map(|row| row.to_vec()).collect() };
    let maps: Vec<Matrix> = maps.iter().map(|rows| matrix(rows)).collect();
    let (left, right) = bounds.into_iter().unzip();
    Description {
        left,
        right,
        ..one_instance(&step, &matrix(place), &maps)
    }
}

// Boxes.

/// Six streams of as many elements as there are instances, up to 4,096; one such stream on other places, and others on place (i,k) whose
/// boxes are filled or are twice as large.
fn sheets() -> Vec<Description> {
    let bounds = [(0, 63), (0, 63), (0, 0)];
    let mut sheets = [0, 1, 2, 63].map(designs::sheet).to_vec();
    for row in [J, [1, 1, 0], [1, -1, 0], [4, 1, 0]] {
        sheets.push(unwritten(bounds, [2, 1, 1], &[row, K], &[&[I, J]]));
    }
    for map in [
        [J, I],
        [[-1, 0, 0], J],
        [I, [1, 1, 0]],
        [[1, 1, 0], J],
        [[2, 0, 0], J],
    ] {
        sheets.push(unwritten(bounds, [2, 1, 1], &[I, K], &[&map]));
    }
    sheets
}

/// A box of which only the middle is untouched, smaller and larger; such with as many elements as there are instances, and with far fewer.
fn unfilled_in_two_loops() -> Vec<Description> {
    vec![
        unwritten([(0, 1), (0, 1)], [2, 1], &[[0, 1]], &[&[[1, 3]]]),
        unwritten([(-9, -7), (-64, -63)], [1, 1], &[[0, 1]], &[&[[1, 4]]]),
        unwritten([(-2, 1), (3, 6)], [2, 1], &[[1, 1]], &[&[[2, 3]]]),
        unwritten([(0, 2), (0, 2)], [2, 1], &[[1, 0]], &[&[[2, 2]]]),
        unwritten([(0, 63), (0, 63)], [2, 1], &[[1, 0]], &[&[[4, 4]]]),
    ]
}

/// Boxes of which the middle row is untouched, or the end of the first row and the beginning of the second, or two corners, with fewer
/// elements than there are instances, with as many, and with more, up to 633 by 633. What is touched looks the same from both ends, so no
/// first untouched element comes after the middle.
fn unfilled_in_three_loops() -> Vec<Description> {
    let all = (-64, 64);
    let (two, three, four, five) = ((0, 1), (0, 2), (0, 3), (0, 4));
    let thirty = (0, 29);
    vec![
        unwritten([two, two, all], [1; 3], &[J, K], &[&[[1, 3, 0], K]]),
        unwritten([three, two, all], [1; 3], &[J, K], &[&[[1, 4, 0], K]]),
        unwritten([two, five, five], [3, 1, 1], &[I, K], &[&[I, [1, 1, -3]]]),
        unwritten([two, two, four], [3, 1, 1], &[I, J], &[&[I, [1, -3, 1]]]),
        unwritten([two, three, five], [3, 1, 1], &[I, K], &[&[I, [1, 1, -3]]]),
        unwritten([two, (0, 14), all], [1, 1, 5], &[I, K], &[&[I, [1, 1, 4]]]),
        unwritten(
            [thirty, three, thirty],
            [1, 1, 3],
            &[I, K],
            &[&[I, [1, 1, 2]]],
        ),
        unwritten([two, two, four], [3, 1, 1], &[I, J], &[&[I, [-1, 3, -1]]]),
        unwritten(
            [all, (-15, 15), (0, 0)],
            [1; 3],
            &[I, K],
            &[&[[4, 4, 0], [4, -4, 0]]],
        ),
    ]
}

/// Six streams of which one is refused by 17, the last or another; and with one that 11 refuses before it or behind it.
fn one_of_several() -> Vec<Description> {
    let with = |changes: &[(usize, Matrix)]| {
        let mut sheet = designs::sheet(4);
        for (stream, map) in changes {
            sheet.maps[*stream] = map.clone();
        }
        sheet
    };
    let spaced = || vec![vec![1, 0, 0], vec![0, 2, 0]];
    let dependent = || vec![vec![1, 0, 0], vec![2, 0, 0]];
    let mut cases: Vec<Description> = [0, 3, 5].map(|it| with(&[(it, spaced())])).to_vec();
    cases.push(with(&[(1, spaced()), (2, dependent())]));
    cases.push(with(&[(1, dependent()), (2, spaced())]));
    cases
}

// Walks.

/// All directions −1 with a step that falls along them, that rises, or that does both, c written or not. The walk follows the step.
fn from_right_to_left() -> Vec<Description> {
    let mut cases = Vec::new();
    for product in [
        designs::matrix_straight(2),
        designs::matrix_moving(2),
        designs::matrix_slanted(2),
        designs::decimating_channels(),
    ] {
        let risen = product.step.iter().map(|word| -word).collect();
        for step in [product.step.clone(), risen, vec![2, -1, 1]] {
            let turned = Description {
                directions: vec![-1; 3],
                step,
                ..product.clone()
            };
            cases.push(Description {
                body: vec![Line::always(Operation::Copy, 3, 0, 0)],
                ..turned.clone()
            });
            cases.push(turned);
        }
    }
    cases
}

/// A stream that is kept on places with null processes between working ones, with whole rows of them, and with an order of processes that
/// is not that of the loops.
fn apart() -> Vec<Description> {
    let mut cases = Vec::new();
    for factor in [3, 4, -2] {
        let bounds = [(-1, 2), (0, 2)];
        cases.push(unwritten(bounds, [2, 1], &[[factor, 0]], &[&[[1, 0]]]));
    }
    for place in [
        [[2, 0, 0], [0, 2, 0]],
        [[3, 0, 0], J],
        [I, [0, 3, 0]],
        [[4, 0, 0], [0, -4, 0]],
        [[-1, 0, 0], [0, -1, 0]],
        [[0, -1, 0], I],
        [[-1, -1, 0], [-1, 1, 0]],
        [[2, 2, 0], [2, -2, 0]],
        [[3, 1, 0], [1, 3, 0]],
        [[2, 1, 0], [1, -2, 0]],
    ] {
        let bounds = [(0, 2), (-1, 1), (-3, 0)];
        for step in [[1, -2, 3], [1, 2, -3]] {
            cases.push(unwritten(bounds, step, &place, &[&[I, J]]));
        }
    }
    cases
}

/// As many instances at one process as there may be, as many with a process each, and long lines of longer strides.
fn long_lines() -> Vec<Description> {
    let mut channels = designs::decimating_channels();
    channels.right = vec![15, 15, 7];
    let (square, all) = ([(0, 63), (-63, 0)], (-64, 64));
    vec![
        unwritten([(0, 0), all], [2, 1], &[[1, 0]], &[&[[1, 0]]]),
        unwritten([all, (0, 0)], [2, 1], &[[1, 0]], &[&[[1, 0]]]),
        unwritten([(0, 0), (0, 0), all], [1, 1, -1], &[I, J], &[&[I, J]]),
        unwritten(square, [1, 3], &[[3, 4]], &[&[[1, 1]]]),
        unwritten(square, [-1, -3], &[[3, 4]], &[&[[1, 1]]]),
        unwritten(square, [1, 1], &[[1, -4]], &[&[[1, -3]]]),
        channels,
    ]
}

/// Six streams on a small grid, and on 1,024 processes with four instances each.
fn wide_grids() -> Vec<Description> {
    let mut wide = designs::matrix_twice(31);
    wide.right[2] = 3;
    vec![designs::matrix_twice(1), designs::matrix_twice(2), wide]
}
