//! The files of `examples/`: the report's designs, decimating filters, a filter with fractional coefficients, a product that clears its
//! accumulators, an array whose working processes lie apart and one that is too wide for the bench as descriptions, and replay scripts.

use crate::board::{BENCH, GAUGE};
use crate::description::Description;
use crate::designs;
use crate::replay::Script;

/// A description and the name of its file.
pub struct Example {
    pub name: &'static str,
    pub description: Description,
}

/// A replay script and the name of its file.
pub struct ExampleScript {
    pub name: &'static str,
    pub script: Script,
}

/// The polynomial product in designs one and two and the matrix product on three layouts, the small ones of document 01 and large ones,
/// request 2.2's decimating filter, for one channel and for several, request 2.1's fractional coefficients, request 2.5's cleared
/// accumulators, request 2.7's array with place 2i, and request 2.9's array of 272 processes, which the gauge holds and the bench does not.
pub fn examples() -> Vec<Example> {
    [
        ("polynomial-one", designs::polynomial_one(2)),
        ("polynomial-two", designs::polynomial_two(2)),
        ("polynomial-one-large", designs::polynomial_one(63)),
        ("polynomial-two-large", designs::polynomial_two(63)),
        ("matrix-straight", designs::matrix_straight(2)),
        ("matrix-moving", designs::matrix_moving(2)),
        ("matrix-slanted", designs::matrix_slanted(2)),
        ("matrix-straight-large", designs::matrix_straight(15)),
        ("decimating", designs::decimating(2, 2)),
        ("decimating-channels", designs::decimating_channels()),
        ("smoothing", designs::smoothing(5, 2)),
        ("cleared", designs::cleared_one(2)),
        ("spaced", designs::spaced(2)),
        ("matrix-wide", designs::grid(17, 16, 3)),
    ]
    .into_iter()
    .map(|(name, description)| Example { name, description })
    .collect()
}

/// Document 01's polynomial product in design two, the fractional filter on 16.16 numbers, the product that clears what c held, and the
/// matrix product on the slanted grid, on the gauge, and design two on the bench: forty steps, who is ready, all the others, and the
/// result.
pub fn example_scripts() -> Vec<ExampleScript> {
    let factors = vec![1, 2, 3, 4, 5, 6, 0, 0, 0, 0, 0];
    [
        (
            "polynomial-two",
            GAUGE,
            designs::polynomial_two(2),
            factors.clone(),
        ),
        (
            "smoothing",
            GAUGE,
            designs::smoothing(5, 2),
            smoothing_values(),
        ),
        (
            "cleared",
            GAUGE,
            designs::cleared_one(2),
            vec![1, 2, 3, 4, 5, 6, 9, 8, 7, 6, 5],
        ),
        (
            "matrix-slanted",
            GAUGE,
            designs::matrix_slanted(2),
            (1..=9).chain((1..=9).rev()).chain([0; 9]).collect(),
        ),
        (
            "polynomial-two-bench",
            BENCH,
            designs::polynomial_two(2),
            factors,
        ),
    ]
    .into_iter()
    .map(|(name, board, description, values)| ExampleScript {
        name,
        script: Script {
            description: description.bytes(),
            board,
            values,
            calls: vec![
                [1, 40, 0, 0],
                [2, 0, 0, 0],
                [1, u32::MAX, 0, 0],
                [4, 0, 0, 0],
            ],
        },
    })
    .collect()
}

/// Taps 0.25, 0.5, 0.25, eight samples, and six outputs that begin at 0, as 16.16 numbers.
fn smoothing_values() -> Vec<u32> {
    let taps = [0.25, 0.5, 0.25];
    let samples = [1.5, 2.0, 4.5, 3.0, 2.25, 2.0, 1.0, 0.5];
    [taps.as_slice(), &samples, &[0.0; 6]]
        .concat()
        .into_iter()
        .map(|value: f64| (value * 65536.0) as u32)
        .collect()
}
