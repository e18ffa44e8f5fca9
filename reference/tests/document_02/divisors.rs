//! Request 2.7: the rule that shortens a vector hands back the divisor, and Accept answers it for place and for each stream.

use std::collections::{BTreeMap, BTreeSet};
use std::slice::from_ref;

use reference::board::GAUGE;
use reference::calls::{Calls, Row};
use reference::description::{Description, Matrix};
use reference::designs::{
    matrix_moving, matrix_slanted, matrix_straight, polynomial_one, polynomial_two, spaced,
};
use reference::divisor::shorten;
use reference::divisor_cases::one_instance;
use reference::random::Random;
use reference::random_description::accepted;
use reference::random_divisor::{dependent, divided};
use reference::vectors::{dot, is_zero, shortest, Point};
use reference::Refusal;

use crate::{accept, results};

/// Accept's divisors of an accepted description.
fn divisors(description: &Description) -> [u32; 7] {
    let answer = accept(description);
    answer.expect("an accepted description").divisors
}

/// The points of the processes that have an instance.
fn working(description: &Description) -> Vec<[i32; 2]> {
    let calls = Calls::on(GAUGE, &description.bytes());
    let mut rows = vec![Row::default(); calls.accept().expect("an accepted description").processes];
    assert_eq!(calls.table(&mut rows), Ok(()));
    let computing = rows.iter().filter(|row| row.count > 0);
    computing.map(|row| row.point).collect()
}

/// The vector before shortening: for two loops the row's second word and its first negated, for three the cross product of the two rows.
fn before(matrix: &Matrix) -> Point {
    match matrix.as_slice() {
        [row] => vec![row[1], -row[0]],
        [a, b] => [(1, 2), (2, 0), (0, 1)]
            .map(|(i, j)| a[i] * b[j] - a[j] * b[i])
            .to_vec(),
        _ => panic!("a matrix of two or three loops"),
    }
}

/// The greatest number that divides every word, by trial of all that can; 0 for the zero vector.
fn greatest(vector: &[i32]) -> u32 {
    let divides = |divisor: &i32| vector.iter().all(|word| word % divisor == 0);
    let trials = 1..=32;
    let found = trials.rev().find(divides).unwrap_or(1);
    if is_zero(vector) {
        0
    } else {
        found as u32
    }
}

fn times_number(vector: &[i32], number: i32) -> Point {
    vector.iter().map(|word| number * word).collect()
}

/// All words of matrices.
fn words() -> impl Iterator<Item = i32> + Clone {
    -4..=4
}

/// All rows of two loops.
fn rows_of_two() -> impl Iterator<Item = [i32; 2]> {
    words().flat_map(|a| words().map(move |b| [a, b]))
}

/// All rows of three loops.
fn rows_of_three() -> Vec<[i32; 3]> {
    let rows = rows_of_two().flat_map(|[a, b]| words().map(move |c| [a, b, c]));
    rows.collect()
}

// Designs.

#[test]
fn thirteen_values() {
    for (design, values) in [
        (
            polynomial_one(2),
            [3, 9, 11, 3, 61, 97, 1, 1, 1, 1, 0, 0, 0],
        ),
        (
            polynomial_two(2),
            [5, 9, 11, 3, 95, 141, 1, 1, 1, 1, 0, 0, 0],
        ),
        (
            matrix_slanted(2),
            [25, 27, 27, 11, 433, 303, 2, 1, 1, 1, 0, 0, 0],
        ),
        (spaced(2), [5, 9, 6, 2, 61, 81, 2, 1, 1, 0, 0, 0, 0]),
    ] {
        assert_eq!(accept(&design).map(|answer| answer.values()), Ok(values));
    }
}

#[test]
fn designs_of_divisor_1() {
    for n in 0..=6 {
        for design in [
            polynomial_one(n),
            polynomial_two(n),
            matrix_straight(n),
            matrix_moving(n),
        ] {
            assert_eq!(divisors(&design), [1, 1, 1, 1, 0, 0, 0]);
        }
    }
}

/// Every row of processes is worked, and in a row every second process between its first and its last that work.
#[test]
fn the_slanted_grid() {
    for n in [0, 1, 2, 5, 15] {
        assert_eq!(divisors(&matrix_slanted(n)), [2, 1, 1, 1, 0, 0, 0]);
        let mut rows: BTreeMap<i32, Vec<i32>> = BTreeMap::new();
        for [row, place] in working(&matrix_slanted(n)) {
            rows.entry(row).or_default().push(place);
        }
        assert!(rows.keys().copied().eq(0..=2 * n));
        for places in rows.values() {
            assert!(places.windows(2).all(|pair| pair[1] - pair[0] == 2));
        }
    }
}

/// Place 2i: every second process works. The same with other factors.
#[test]
fn the_spaced_row() {
    for n in 0..=4 {
        for factor in words().filter(|&factor| factor != 0) {
            let mut design = spaced(n);
            design.place = vec![vec![factor, 0]];
            assert_eq!(divisors(&design), [factor.unsigned_abs(), 1, 1, 0, 0, 0, 0]);
            let mut places: Vec<i32> = (0..=n).map(|i| factor * i).collect();
            places.sort();
            assert!(places
                .into_iter()
                .eq(working(&design).into_iter().map(|point| point[0])));
        }
    }
    let output = results(&spaced(2), &[5, 6, 7, 10, 20, 30]);
    assert_eq!(output, [5, 6, 7, 25, 38, 51]);
}

// One instance, so that a stream's elements fill its box whatever its map.

/// Place i and step 2i+j, with streams of those rows.
fn with_rows(rows: &[[i32; 2]]) -> Description {
    let maps: Vec<Matrix> = rows.iter().map(|row| vec![row.to_vec()]).collect();
    one_instance(&[2, 1], &vec![vec![1, 0]], &maps)
}

#[test]
fn each_stream_has_its_own() {
    let mut rows = [[4, 0], [0, 2], [3, 3]];
    assert_eq!(divisors(&with_rows(&rows)), [1, 4, 2, 3, 0, 0, 0]);
    rows.reverse();
    assert_eq!(divisors(&with_rows(&rows)), [1, 3, 2, 4, 0, 0, 0]);
    let six = [[-4, 0], [0, 1], [3, -3], [0, -2], [-4, -4], [0, 3]];
    assert_eq!(divisors(&with_rows(&six)), [1, 4, 1, 3, 2, 4, 3]);
}

#[test]
fn zero_past_the_streams_in_use() {
    for streams in 1..=6 {
        let mut expected = [0; 7];
        expected[0] = 1;
        expected[1..=streams].fill(4);
        assert_eq!(divisors(&with_rows(&vec![[0, 4]; streams])), expected);
    }
}

#[test]
fn the_largest() {
    let straight: Matrix = vec![vec![1, 0, 0], vec![0, 1, 0]];
    let slanted: Matrix = vec![vec![4, 4, 0], vec![4, -4, 0]];
    for (place, map, expected) in [
        (&straight, &slanted, [1, 32]),
        (&slanted, &straight, [32, 1]),
        (&slanted, &slanted, [32, 32]),
    ] {
        let description = one_instance(&[1, 1, 1], place, from_ref(map));
        assert_eq!(divisors(&description)[..2], expected);
    }
    let row: Matrix = vec![vec![4, -4]];
    let description = one_instance(&[2, 1], &row, from_ref(&row));
    assert_eq!(divisors(&description)[..2], [4, 4]);
}

/// The divisor is positive whatever the signs of the words and of the step, by which a line is turned.
#[test]
fn signs() {
    let mut turned = 0;
    for row in rows_of_two().filter(|row| !is_zero(&row[..])) {
        let maps = [vec![row.to_vec()]];
        for step in [[5, 1], [-5, -1]] {
            for place in [row, row.map(|word| -word)] {
                let description = one_instance(&step, &vec![place.to_vec()], &maps);
                let divisor = greatest(&row);
                assert_eq!(divisors(&description)[..2], [divisor, divisor]);
            }
            turned += i32::from(dot(&step, &before(&maps[0])) < 0);
        }
    }
    assert_eq!(turned, 80);
}

// The rule.

/// The divisor is the greatest common one, and the shortened vector times it is the vector; turned, it is the line of the matrix.
fn check_rule(matrix: &Matrix, step: &[i32]) -> u32 {
    let vector = before(matrix);
    let short = shorten(&vector);
    assert_eq!(short.divisor, greatest(&vector));
    let divisor = short.divisor as i32;
    if divisor == 0 {
        assert!(is_zero(&vector) && short.vector == vector);
    }
    assert_eq!(times_number(&short.vector, divisor), vector);
    let gain = dot(step, &vector).signum();
    match shortest(matrix, step, 7, 8) {
        Ok(line) => {
            assert!(dot(step, &line.vector) > 0);
            assert_eq!(line.vector, times_number(&short.vector, gain));
            assert_eq!(line.divisor, short.divisor);
        }
        Err(Refusal(number)) => {
            assert_eq!((divisor == 0, gain), (number == 7, 0));
        }
    }
    short.divisor
}

#[test]
fn every_matrix_of_two_loops() {
    let mut met = BTreeSet::new();
    for row in rows_of_two() {
        for step in [[2, 1], [-2, -1], [1, -1]] {
            met.insert(check_rule(&vec![row.to_vec()], &step));
        }
    }
    assert!(met.into_iter().eq(0..=4));
}

#[test]
fn every_matrix_of_three_loops() {
    let rows = rows_of_three();
    let mut met = BTreeSet::new();
    for top in &rows {
        for low in &rows {
            let sign = if (top[0] + low[1]) % 2 == 0 { 1 } else { -1 };
            let matrix = vec![top.to_vec(), low.to_vec()];
            met.insert(check_rule(&matrix, &[3 * sign, -2 * sign, sign]));
        }
    }
    // No determinant of such words is 23, 26, 27 or 29 to 31.
    assert!(met.into_iter().eq((0..=22).chain([24, 25, 28, 32])));
}

// How far apart the values of a matrix lie.

#[test]
fn values_of_two_loops_are_the_multiples_of_the_divisor() {
    for row in rows_of_two().filter(|row| !is_zero(&row[..])) {
        let divisor = shorten(&before(&vec![row.to_vec()])).divisor as i32;
        let points = (-16..=16).flat_map(|i| (-16..=16).map(move |j| [i, j]));
        let values: BTreeSet<i32> = points.map(|point| dot(&row, &point)).collect();
        for value in -8..=8 {
            assert_eq!(values.contains(&value), value % divisor == 0);
        }
    }
}

/// The whole points whose coordinates are at most 16: enough for every value that the test below looks at.
fn near_points() -> Vec<[i32; 3]> {
    let line = || -16..=16;
    let plane = line().flat_map(|i| line().map(move |j| [i, j]));
    plane
        .flat_map(|[i, j]| line().map(move |k| [i, j, k]))
        .collect()
}

/// Around 0 the values (y1,y2) are those for which the divisor divides y2 times the top row less y1 times the low row. The rows with a
/// value are those whose y1 is a multiple of h, the greatest divisor of the top row; there the values lie k apart, and h times k is the
/// divisor.
#[test]
fn values_of_three_loops() {
    let points = near_points();
    let rows = rows_of_three();
    let pairs = rows
        .iter()
        .flat_map(|top| rows.iter().map(move |low| (top, low)));
    let largest = (&[4, 4, 0], &[4, -4, 0]);
    let mut met = BTreeSet::new();
    for (top, low) in pairs.step_by(199).chain([largest]) {
        let short = shorten(&before(&vec![top.to_vec(), low.to_vec()]));
        if short.divisor == 0 {
            continue;
        }
        met.insert(short.divisor);
        let divisor = short.divisor as i32;
        let h = greatest(top) as i32;
        let k = divisor / h;
        assert_eq!(h * k, divisor);
        let values = points
            .iter()
            .map(|point| (dot(top, point), dot(low, point)));
        let near = |(y1, y2): &(i32, i32)| y1.abs() <= 2 * h && y2.abs() <= 2 * k;
        let values: BTreeSet<(i32, i32)> = values.filter(near).collect();
        for y1 in -2 * h..=2 * h {
            let divided = |y2: &i32| {
                let mut words = top.iter().zip(low);
                words.all(|(a, b)| (y2 * a - y1 * b) % divisor == 0)
            };
            let row: Vec<i32> = (-2 * k..=2 * k).filter(divided).collect();
            let found = values.iter().filter(|value| value.0 == y1);
            assert!(found.map(|value| value.1).eq(row.iter().copied()));
            assert_eq!(row.is_empty(), y1 % h != 0);
            assert!(row.is_empty() || row.len() >= 4);
            assert!(row.windows(2).all(|pair| pair[1] - pair[0] == k));
        }
    }
    assert!((1..=16).chain([32]).all(|divisor| met.contains(&divisor)));
}

// Arrays.

/// Accept's divisors are those of place and of the maps, none of them 0, and the working processes lie where place has a value.
#[test]
fn any_accepted_description() {
    let mut random = Random::new(71);
    for number in 0..1000 {
        let description = if number % 2 == 0 {
            accepted(&mut random)
        } else {
            divided(&mut random)
        };
        let mut expected = [0; 7];
        let matrices = [&description.place].into_iter().chain(&description.maps);
        for (divisor, matrix) in expected.iter_mut().zip(matrices) {
            *divisor = greatest(&before(matrix));
            assert!(*divisor > 0);
        }
        assert_eq!(divisors(&description), expected);
        let divisor = expected[0] as i32;
        for [y1, y2] in working(&description) {
            match description.place.as_slice() {
                [top, low] => {
                    let mut words = top.iter().zip(low);
                    assert!(words.all(|(a, b)| (y2 * a - y1 * b) % divisor == 0));
                }
                _ => assert_eq!(y1 % divisor, 0),
            }
        }
    }
}

/// A matrix whose vector is zero is refused: place by 7, a map by 11.
#[test]
fn matrices_without_a_divisor() {
    let mut random = Random::new(72);
    let mut met = BTreeSet::new();
    for _ in 0..300 {
        let description = dependent(&mut random);
        let zero = |matrix: &Matrix| is_zero(&before(matrix));
        let number = if zero(&description.place) { 7 } else { 11 };
        assert!(number == 7 || description.maps.iter().any(zero));
        assert_eq!(accept(&description), Err(Refusal(number)));
        met.insert((description.loops(), number));
    }
    assert_eq!(met.len(), 4);
}
