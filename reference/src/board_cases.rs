//! Descriptions that show what the boards hold (request 2.9).

use crate::body::{Line, Operation};
use crate::description::Description;
use crate::designs;

/// Arrays at the bench's limits and just beyond, and such that refusals 7 to 17 decline on the gauge: the bench's 6 or 10 comes before in
/// the larger ones.
pub fn board_cases() -> Vec<Description> {
    let mut cases = by_instances();
    cases.extend(by_processes());
    for last in [31, 32] {
        cases.extend(refused_polynomials(last));
    }
    for rows in [16, 17] {
        cases.extend(refused_grids(rows));
    }
    cases
}

/// Polynomial design one with loops 0..m and 0..n.
fn polynomial(m: i32, n: i32) -> Description {
    Description {
        right: vec![m, n],
        ..designs::polynomial_one(0)
    }
}

/// Loops 0..31 twice, which have 1,024 instances, 0..31 and 0..32, which have 1,056, and others on either side of 1,024 on few processes.
fn by_instances() -> Vec<Description> {
    let mut two = designs::polynomial_two(31);
    let mut cases = vec![
        polynomial(31, 31),
        polynomial(31, 32),
        polynomial(32, 30),
        polynomial(40, 24),
        polynomial(7, 63),
        two.clone(),
        designs::sheet(31),
        designs::matrix_straight(9),
        designs::matrix_straight(10),
        designs::decimating(31, 31),
    ];
    two.right[0] = 32;
    cases.push(two);
    cases
}

/// A box of 16 by 16 by 4, which has 256 processes, one of 17 by 16 by 3, which has 272, and others on either side of 256.
fn by_processes() -> Vec<Description> {
    let twice = Description {
        right: vec![15, 15, 3],
        ..designs::matrix_twice(0)
    };
    let mut cases = vec![
        designs::grid(16, 16, 4),
        designs::grid(16, 16, 5),
        designs::grid(17, 16, 3),
        designs::grid(16, 17, 1),
        designs::grid(33, 31, 1),
        designs::grid(32, 32, 1),
        designs::grid(33, 32, 1),
        twice,
        designs::matrix_moving(7),
        designs::matrix_moving(8),
        designs::matrix_slanted(7),
        designs::matrix_slanted(8),
    ];
    cases.extend([63, 64].map(four_apart));
    // 37 by 37 processes, of which 100 work once.
    cases.push(Description {
        place: vec![vec![4, 0, 0], vec![0, 4, 0]],
        ..designs::grid(10, 10, 1)
    });
    cases
}

/// A row of processes of which every fourth works once: place 4i, loops 0..last and 0..0, a stream i that is doubled.
fn four_apart(last: i32) -> Description {
    Description {
        right: vec![last, 0],
        place: vec![vec![4, 0]],
        maps: vec![vec![vec![1, 0]]],
        loading: vec![vec![1]],
        body: vec![Line::always(Operation::Add, 0, 0, 0)],
        ..designs::polynomial_one(0)
    }
}

/// Loops 0..31 and 0..last in arrays that 7, 8 and 11 to 17 decline in turn.
fn refused_polynomials(last: i32) -> Vec<Description> {
    changed(
        &polynomial(31, last),
        &[
            |it| it.place = vec![vec![0, 0]],
            |it| it.step = vec![1, 0],
            |it| it.maps[2] = vec![vec![0, 0]],
            |it| it.step = vec![1, 1],
            |it| it.maps[1] = vec![vec![1, 2]],
            |it| it.step = vec![8, 1],
            |it| it.directions = vec![-1, -1],
            |it| it.loading[0] = vec![0],
            |it| it.maps[1] = vec![vec![0, 2]],
        ],
    )
}

/// Boxes of so many by 16 by 3 in arrays that 11 to 17 decline in turn.
fn refused_grids(rows: i32) -> Vec<Description> {
    changed(
        &designs::grid(rows, 16, 3),
        &[
            |it| it.maps[2] = vec![vec![0; 3]; 2],
            |it| it.step = vec![1, 0, 1],
            |it| it.maps[1] = vec![vec![1, 2, 0], vec![0, 0, 1]],
            |it| it.step = vec![8, 1, 1],
            |it| it.directions = vec![-1; 3],
            |it| it.loading[2] = vec![0, 0],
            |it| it.maps[0] = vec![vec![1, 0, 0], vec![0, 0, 2]],
        ],
    )
}

/// The description under each of the changes.
fn changed(description: &Description, changes: &[fn(&mut Description)]) -> Vec<Description> {
    let with = |change: &fn(&mut Description)| {
        let mut changed = description.clone();
        change(&mut changed);
        changed
    };
    changes.iter().map(with).collect()
}
