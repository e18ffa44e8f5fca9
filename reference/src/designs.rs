//! The designs of document 01, of document 02 and of the report, as descriptions; `bytes` gives their bytes.

use crate::body::{Comparison, Guard, Line, Operation};
use crate::description::{Description, Matrix};

/// The first scratch number of three streams.
const SCRATCH: usize = 3;

/// The first scratch number of six streams.
const SCRATCH_OF_SIX: usize = 6;

/// Scratch := first times second, sum := sum + scratch, of three streams.
fn multiply_and_add(first: usize, second: usize, sum: usize) -> Vec<Line> {
    sum_of(Operation::Multiply, first, second, sum)
}

/// Scratch := first times second by an operation, sum := sum + scratch, of three streams.
fn sum_of(operation: Operation, first: usize, second: usize, sum: usize) -> Vec<Line> {
    vec![
        Line::always(operation, SCRATCH, first, second),
        add(sum, sum, SCRATCH),
    ]
}

/// Sum := sum + first times second, of six streams.
fn gain(first: usize, second: usize, sum: usize) -> [Line; 2] {
    [
        Line::always(Operation::Multiply, SCRATCH_OF_SIX, first, second),
        add(sum, sum, SCRATCH_OF_SIX),
    ]
}

/// Target := first + second.
fn add(target: usize, first: usize, second: usize) -> Line {
    Line::always(Operation::Add, target, first, second)
}

/// Request 2.5: a product of three streams with c := scratch under each of the guards before its lines.
fn cleared(guards: &[Guard], product: Description) -> Description {
    let clear = Line::always(Operation::Copy, 2, SCRATCH, SCRATCH);
    let clears = guards.iter().map(|&guard| clear.under(guard));
    Description {
        body: clears.chain(product.body).collect(),
        ..product
    }
}

/// A matrix of three loops.
type Rows = [[i32; 3]; 2];

/// Three loops from 0 in direction 1, without a loading vector.
fn three_loops(
    right: [i32; 3],
    step: [i32; 3],
    place: Rows,
    maps: &[Rows],
    body: Vec<Line>,
) -> Description {
    let matrix = |rows: &Rows| -> Matrix { rows.iter().map(|row| row.to_vec()).collect() };
    Description {
        left: vec![0; 3],
        right: right.to_vec(),
        directions: vec![1; 3],
        step: step.to_vec(),
        place: matrix(&place),
        maps: maps.iter().map(matrix).collect(),
        loading: vec![vec![0, 0]; maps.len()],
        body,
    }
}

/// The polynomial product with loops 0..n: streams a: i, b: j, c: i+j, step 2i+j.
fn polynomial(n: i32, place: [i32; 2], loading: [i32; 3]) -> Description {
    Description {
        left: vec![0, 0],
        right: vec![n, n],
        directions: vec![1, 1],
        step: vec![2, 1],
        place: vec![place.to_vec()],
        maps: vec![vec![vec![1, 0]], vec![vec![0, 1]], vec![vec![1, 1]]],
        loading: loading.iter().map(|&word| vec![word]).collect(),
        body: multiply_and_add(0, 1, 2),
    }
}

/// Polynomial product, design one: place i, loading 1 for a.
pub fn polynomial_one(n: i32) -> Description {
    polynomial(n, [1, 0], [1, 0, 0])
}

/// Polynomial product, design two: place i+j, loading 1 for c.
pub fn polynomial_two(n: i32) -> Description {
    polynomial(n, [1, 1], [0, 0, 1])
}

/// Request 2.7: the loops and the step of the polynomial product with place 2i: streams x: i and y: i, both with loading 1. Each y gains
/// its x n+1 times, and every second process is null.
pub fn spaced(n: i32) -> Description {
    Description {
        place: vec![vec![2, 0]],
        maps: vec![vec![vec![1, 0]]; 2],
        loading: vec![vec![1]; 2],
        body: vec![add(1, 1, 0)],
        ..polynomial_one(n)
    }
}

/// Request 2.1: design one with operation 6 in place of 3, for 16.16 numbers.
pub fn fixed_one(n: i32) -> Description {
    Description {
        body: sum_of(Operation::FixedMultiply, 0, 1, 2),
        ..polynomial_one(n)
    }
}

/// Request 2.1: a filter with fractional coefficients, on 16.16 numbers. Loops i over outputs 0..m and j over taps 0..n, step 2i+j, place
/// i; streams h: j, x: i+j, y: i with loading 1. Each y is the sum of h times x over its window.
pub fn smoothing(m: i32, n: i32) -> Description {
    Description {
        right: vec![m, n],
        maps: vec![vec![vec![0, 1]], vec![vec![1, 1]], vec![vec![1, 0]]],
        loading: vec![vec![0], vec![0], vec![1]],
        ..fixed_one(n)
    }
}

/// Request 2.5: design one that clears c itself, where i = 0 or j = n: each c is first used there.
pub fn cleared_one(n: i32) -> Description {
    let guards = [
        Guard::new(0, Comparison::Equal, 0),
        Guard::new(1, Comparison::Equal, n),
    ];
    cleared(&guards, polynomial_one(n))
}

/// Request 2.5: the polynomial product with loops i 1..3 and j −1..1, both in direction −1, and step −2i−j, which clears c where i is at
/// least 3 or j at most −1.
pub fn cleared_turned() -> Description {
    let guards = [
        Guard::new(0, Comparison::AtLeast, 3),
        Guard::new(1, Comparison::AtMost, -1),
    ];
    let turned = Description {
        left: vec![1, -1],
        right: vec![3, 1],
        directions: vec![-1, -1],
        step: vec![-2, -1],
        ..polynomial_one(2)
    };
    cleared(&guards, turned)
}

/// The matrix product with loops 0..n: streams a: (i,k), b: (k,j), c: (i,j), step i+j+k.
fn matrix(n: i32, place: Rows, loading_of_c: [i32; 2]) -> Description {
    let maps = [
        [[1, 0, 0], [0, 0, 1]],
        [[0, 0, 1], [0, 1, 0]],
        [[1, 0, 0], [0, 1, 0]],
    ];
    let mut product = three_loops([n; 3], [1; 3], place, &maps, multiply_and_add(0, 1, 2));
    product.loading[2] = loading_of_c.to_vec();
    product
}

/// Matrix product with place (i,j), loading (1,0) for c.
pub fn matrix_straight(n: i32) -> Description {
    matrix(n, [[1, 0, 0], [0, 1, 0]], [1, 0])
}

/// The matrix product with place (i,j) on so many processes, each with so many instances.
pub fn grid(rows: i32, columns: i32, instances: i32) -> Description {
    Description {
        right: vec![rows - 1, columns - 1, instances - 1],
        ..matrix_straight(0)
    }
}

/// Matrix product with place (i−k, j−k).
pub fn matrix_moving(n: i32) -> Description {
    matrix(n, [[1, 0, -1], [0, 1, -1]], [0, 0])
}

/// Matrix product with place (i+j, i−j), loading (1,0) for c: null processes stand between
/// working ones.
pub fn matrix_slanted(n: i32) -> Description {
    matrix(n, [[1, 1, 0], [1, -1, 0]], [1, 0])
}

/// Two matrix products side by side with place (i,j): streams a, b, c and d, e, f, loading (1,0) for c and f.
pub fn matrix_twice(n: i32) -> Description {
    let product = matrix_straight(n);
    Description {
        maps: [product.maps.as_slice(), &product.maps].concat(),
        loading: [product.loading.as_slice(), &product.loading].concat(),
        body: [gain(0, 1, 2), gain(3, 4, 5)].concat(),
        ..product
    }
}

/// Request 2.4: boxes of as many elements as there are instances, with n = 63 the largest that are accepted. Loops 0..n, 0..n and 0..0,
/// place (i,k), step i+j+k, six streams (i,j), of which the last gains the product of the first two, that of the next two, and the fifth.
pub fn sheet(n: i32) -> Description {
    let mut body = [gain(0, 1, 5), gain(2, 3, 5)].concat();
    body.push(add(5, 5, 4));
    let place = [[1, 0, 0], [0, 0, 1]];
    three_loops([n, n, 0], [1; 3], place, &[[[1, 0, 0], [0, 1, 0]]; 6], body)
}

/// Request 2.5: the matrix product with place (i,j) that clears c itself, where k = 0.
pub fn cleared_matrix(n: i32) -> Description {
    let guards = [Guard::new(2, Comparison::Equal, 0)];
    cleared(&guards, matrix_straight(n))
}

/// Request 2.5: a matrix of two rows times a column of two, loops 0..1, 0..0 and 0..1, the last from right to left, with place (i,j) and
/// step i+j−k, that clears c itself, where k = 1.
pub fn cleared_column() -> Description {
    let guards = [Guard::new(2, Comparison::Equal, 1)];
    let column = Description {
        right: vec![1, 0, 1],
        directions: vec![1, 1, -1],
        step: vec![1, 1, -1],
        ..matrix_straight(1)
    };
    cleared(&guards, column)
}

/// Request 2.2's decimating filter with loops 0..m and 0..n: place 2i+j, step 3i+j, streams y: i, x: 2i+j with loading 1, w: i+j.
/// Each y is the sum of w times x over its window, and the windows begin at every second x.
pub fn decimating(m: i32, n: i32) -> Description {
    Description {
        left: vec![0, 0],
        right: vec![m, n],
        directions: vec![1, 1],
        step: vec![3, 1],
        place: vec![vec![2, 1]],
        maps: vec![vec![vec![1, 0]], vec![vec![2, 1]], vec![vec![1, 1]]],
        loading: vec![vec![0], vec![1], vec![0]],
        body: multiply_and_add(1, 2, 0),
    }
}

/// A decimating filter for each of four channels, with its own five taps: loops i over outputs, j over taps, k over channels, place (i+2k,
/// i+j), step 3i+j+5k, streams h: (j,k), x: (2i+j,k), y: (i,k). The increment is (−2,2,1).
pub fn decimating_channels() -> Description {
    let maps = [
        [[0, 1, 0], [0, 0, 1]],
        [[2, 1, 0], [0, 0, 1]],
        [[1, 0, 0], [0, 0, 1]],
    ];
    let place = [[1, 0, 2], [1, 1, 0]];
    three_loops(
        [3, 4, 3],
        [3, 1, 5],
        place,
        &maps,
        multiply_and_add(0, 1, 2),
    )
}

/// Sums over windows of 21 that begin at every fourth value, in two channels: place (4i+4j+k, 4i−j), step 2i+j+k, streams y: (i,j), x:
/// (i,4j+k). The increment is (−1,−4,20): the longest stride with which a process has two instances.
pub fn decimating_by_four() -> Description {
    let maps = [[[1, 0, 0], [0, 1, 0]], [[1, 0, 0], [0, 4, 1]]];
    let place = [[4, 4, 1], [4, -1, 0]];
    three_loops([1, 4, 20], [2, 1, 1], place, &maps, vec![add(0, 0, 1)])
}

/// The longest stride of all, (25,−28,4): place (4i+4j+3k, 4i+3j−4k), step 2i+j, a stream (i+j,k) that is doubled.
pub fn longest_stride() -> Description {
    let maps = [[[1, 1, 0], [0, 0, 1]]];
    let place = [[4, 4, 3], [4, 3, -4]];
    three_loops([1; 3], [2, 1, 0], place, &maps, vec![add(0, 0, 0)])
}

/// An array that gets stuck if its links have one place.
pub fn needs_its_hops() -> Description {
    Description {
        left: vec![-64, -64],
        right: vec![-63, -63],
        directions: vec![1, -1],
        step: vec![-3, 1],
        place: vec![vec![1, 0]],
        maps: vec![vec![vec![-1, 1]], vec![vec![-2, -1]]],
        loading: vec![vec![0], vec![0]],
        body: vec![add(2, 0, 1)],
    }
}
