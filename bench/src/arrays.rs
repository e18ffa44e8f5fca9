//! The arrays on which the calls are measured.

use reference::board::{BENCH, GAUGE};
use reference::description::Description;
use reference::designs;

/// A description with its name and the board that it is told.
pub struct Array {
    pub name: String,
    pub board: u32,
    pub description: Description,
}

impl Array {
    fn on_the_gauge(name: &str, description: Description) -> Array {
        Array {
            name: name.to_string(),
            board: GAUGE,
            description,
        }
    }
}

pub const TWICE: &str = "matrix twice 32x32x4";
pub const MOVING: &str = "matrix moving 16";

/// The report's designs, the matrix product on a slanted grid (request 2.7), design one with operation 6 (request 2.1), two designs with
/// guards (request 2.5) and request 2.2's as large as they may be, 1,024 processes with four instances each, with three streams and with
/// six, six streams with boxes of 4,096 elements (request 2.4), and last the bench's largest array: as many processes and as many instances
/// as it holds (request 2.9).
pub fn largest() -> Vec<Array> {
    let mut twice = designs::matrix_twice(31);
    twice.right[2] = 3;
    let on_the_gauge = [
        ("polynomial one 64", designs::polynomial_one(63)),
        ("fixed point one 64", designs::fixed_one(63)),
        ("cleared one 64", designs::cleared_one(63)),
        ("polynomial two 64", designs::polynomial_two(63)),
        ("matrix straight 16", designs::matrix_straight(15)),
        ("cleared matrix 16", designs::cleared_matrix(15)),
        (MOVING, designs::matrix_moving(15)),
        ("matrix slanted 16", designs::matrix_slanted(15)),
        ("matrix straight 32x32x4", designs::grid(32, 32, 4)),
        (TWICE, twice),
        ("sheet 64x64x1", designs::sheet(63)),
        ("decimating 64", designs::decimating(63, 63)),
    ];
    let on_the_gauge = on_the_gauge.map(|(name, design)| Array::on_the_gauge(name, design));
    on_the_gauge.into_iter().chain([on_the_bench()]).collect()
}

fn on_the_bench() -> Array {
    Array {
        name: "bench 16x16x4".to_string(),
        board: BENCH,
        description: designs::grid(16, 16, 4),
    }
}

/// One of the largest by its name.
pub fn named(name: &str) -> Option<Array> {
    largest().into_iter().find(|array| array.name == name)
}

/// Families of one design each, from 64 instances to 4,096.
pub fn families() -> Vec<Vec<Array>> {
    let family = |sides: &[i32], name: &str, design: fn(i32) -> Description| {
        let array = |&side: &i32| Array::on_the_gauge(&format!("{name} {side}"), design(side - 1));
        sides.iter().map(array).collect()
    };
    let straight = [4, 6, 8, 10, 13, 16];
    let moving = [4, 6, 8, 10, 13, 16];
    let two = [8, 14, 22, 32, 46, 64];
    vec![
        family(&straight, "matrix straight", designs::matrix_straight),
        family(&moving, "matrix moving", designs::matrix_moving),
        family(&two, "polynomial two", designs::polynomial_two),
    ]
}
