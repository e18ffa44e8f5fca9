//! Request 2.5: a body line has a guard of three words more, and runs only if that index compares so with the bound.

use std::cmp::Ordering;

use reference::board::GAUGE;
use reference::body::{run_instance, Comparison, Guard, Line, Operation};
use reference::calls::Calls;
use reference::description::{bytes_of, Description};
use reference::designs::{
    cleared_column, cleared_matrix, cleared_one, cleared_turned, matrix_moving, matrix_straight,
    polynomial_one, polynomial_two,
};
use reference::guard_words::{of_older_length, with_guard};
use reference::random::Random;
use reference::random_description::{accepted, given, guard, refused};
use reference::Refusal;

use crate::{accept, results, results_by_steps};

/// The product of 1,2,3 and 4,5,6.
const PRODUCT: [u32; 5] = [4, 13, 28, 27, 18];

/// The results by Run, by the highest ready step and by any: they are the same.
fn in_every_order(description: &Description, values: &[u32], random: &mut Random) -> Vec<u32> {
    let output = results(description, values);
    let highest = results_by_steps(description, values, |ready| ready[ready.len() - 1]);
    let any = results_by_steps(description, values, |ready| random.pick(ready));
    assert_eq!([&highest, &any], [&output; 2]);
    output
}

/// A description whose lines have other guards.
fn guarded(description: &Description, mut guard: impl FnMut() -> Guard) -> Description {
    let mut other = description.clone();
    for line in &mut other.body {
        line.guard = guard();
    }
    other
}

// The words.

#[test]
fn comparisons() {
    for word in 0..=3 {
        assert_eq!(Comparison::of_word(word).map(Comparison::word), Some(word));
    }
    for word in [-1, 4, i32::MIN, i32::MAX] {
        assert_eq!(Comparison::of_word(word), None);
    }
    for index in -64i32..=64 {
        for bound in -64..=64 {
            let expected = match index.cmp(&bound) {
                Ordering::Less => [true, false, true, false],
                Ordering::Equal => [true, true, true, true],
                Ordering::Greater => [true, false, false, true],
            };
            let held = Comparison::ALL.map(|comparison| comparison.holds(index, bound));
            assert_eq!(held, expected, "{index} {bound}");
        }
    }
}

#[test]
fn seven_words_a_line() {
    let mut description = polynomial_one(2);
    description.body[0].guard = Guard::new(1, Comparison::AtMost, -5);
    description.body[1].guard = Guard::new(0, Comparison::AtLeast, 64);
    let words = description.words();
    assert_eq!(words[22..29], [3, 3, 0, 1, 1, 2, -5]);
    assert_eq!(words[29..], [1, 2, 2, 3, 0, 3, 64]);
    assert_eq!(Description::read(&bytes_of(&words)), Ok(description));
}

/// Within their ranges the words change no answer; out of them they are 4, under every comparison and in every line.
#[test]
fn ranges() {
    let words = [i32::MIN, -65, -64, -1, 0, 1, 2, 3, 4, 64, 65, i32::MAX];
    for design in [polynomial_one(2), matrix_straight(2)] {
        let loops = design.loops() as i32;
        for (number, comparison, bound) in triples(&words) {
            let within = (0..loops).contains(&number)
                && (0..=3).contains(&comparison)
                && (-64..=64).contains(&bound);
            let expected = if within {
                accept(&design)
            } else {
                Err(Refusal(4))
            };
            for line in 0..design.body.len() {
                let bytes = with_guard(&design, line, [number, comparison, bound]);
                assert_eq!(Calls::on(GAUGE, &bytes).accept(), expected);
            }
        }
    }
}

/// Every three of a list.
fn triples(list: &[i32]) -> impl Iterator<Item = (i32, i32, i32)> + '_ {
    let pairs = list.iter().flat_map(|&a| list.iter().map(move |&b| (a, b)));
    pairs.flat_map(|(a, b)| list.iter().map(move |&c| (a, b, c)))
}

/// Zeros after the sizes, as many words as they give with so many for each line.
fn of_length(loops: usize, streams: usize, lines: usize, line_words: usize) -> Vec<u8> {
    let rows = loops - 1;
    let vectors = 4 * loops + streams * rows;
    let matrices = (streams + 1) * rows * loops;
    let mut words = vec![0; 3 + vectors + matrices + lines * line_words];
    words[..3].copy_from_slice(&[loops, streams, lines].map(|size| size as i32));
    bytes_of(&words)
}

/// A direction of 0 is 4, so what is 4 has the length that its sizes give.
#[test]
fn lengths() {
    let number = |bytes: &[u8]| Calls::on(GAUGE, bytes).accept().err();
    for loops in 2..=3 {
        for streams in 1..=6 {
            for lines in 1..=8 {
                for line_words in 0..=10 {
                    let bytes = of_length(loops, streams, lines, line_words);
                    let expected = Refusal(if line_words == 7 { 4 } else { 3 });
                    assert_eq!(number(&bytes), Some(expected));
                }
                let whole = of_length(loops, streams, lines, 7);
                let longer = [whole.as_slice(), &[0]].concat();
                for bytes in [&whole[..whole.len() - 1], &longer] {
                    assert_eq!(number(bytes), Some(Refusal(3)));
                }
            }
        }
    }
    assert_eq!(of_length(3, 6, 8, 7).len(), 500);
}

#[test]
fn the_older_length() {
    let mut random = Random::new(51);
    for _ in 0..500 {
        let description = accepted(&mut random);
        let older = of_older_length(&description);
        assert_eq!(
            older.len(),
            description.bytes().len() - 12 * description.body.len()
        );
        assert_eq!(Calls::on(GAUGE, &older).accept(), Err(Refusal(3)));
    }
}

// Accept and the guards.

/// The guard holds in some instance of the description.
fn holds_somewhere(guard: &Guard, description: &Description) -> bool {
    let number = guard.loop_number;
    (description.left[number]..=description.right[number])
        .any(|index| guard.comparison.holds(index, guard.bound))
}

/// Design one with loop 0 in direction −1 may not write c.
#[test]
fn a_target_is_written_though_its_line_never_runs() {
    let mut against = polynomial_one(2);
    against.directions[0] = -1;
    assert_eq!(accept(&against), Err(Refusal(15)));
    for guard in [
        Guard::new(0, Comparison::Equal, 64),
        Guard::new(1, Comparison::AtMost, -1),
        Guard::new(1, Comparison::AtLeast, 3),
    ] {
        assert!(!holds_somewhere(&guard, &against));
        against.body[1].guard = guard;
        assert_eq!(accept(&against), Err(Refusal(15)));
    }
    against.body.pop();
    assert!(accept(&against).is_ok());
}

/// Accept does not look at which guards within their ranges the lines have.
#[test]
fn answered_whatever_the_guards() {
    let mut random = Random::new(52);
    for number in given().filter(|&number| number > 4) {
        for _ in 0..10 {
            let bytes = refused(&mut random, GAUGE, number);
            let description = Description::read(&bytes).unwrap_or_else(|_| accepted(&mut random));
            let other = guarded(&description, || guard(&mut random, &description));
            assert_eq!(accept(&other), accept(&description));
        }
    }
    for _ in 0..300 {
        let description = accepted(&mut random);
        let other = guarded(&description, || guard(&mut random, &description));
        assert_eq!(accept(&other), accept(&description));
        let elements = accept(&other).map_or(0, |found| found.elements);
        in_every_order(&other, &random.values(elements), &mut random);
    }
}

// When a line runs.

#[test]
fn a_line_that_does_not_run_leaves_its_target() {
    let guard = Guard::new(1, Comparison::Equal, -2);
    let onto = |target| Line::always(Operation::Copy, target, 1, 1).under(guard);
    let onto_stream = vec![onto(0)];
    let onto_scratch = vec![
        Line::always(Operation::Add, 3, 0, 0),
        onto(3),
        Line::always(Operation::Copy, 0, 3, 3),
    ];
    for (body, left) in [(onto_stream, 7), (onto_scratch, 14)] {
        for (instance, value) in [([-2, 5], left), ([5, -2], 8), ([-2, -2], 8)] {
            let mut values = vec![7, 8];
            run_instance(&body, &instance, &mut values);
            assert_eq!(values, [value, 8]);
        }
    }
}

/// The index is the instance's own coordinate: not a count and not a distance from a bound.
#[test]
fn the_index_is_absolute() {
    let doubled = |guard: Guard, direction: i32| Description {
        left: vec![5, 0],
        right: vec![7, 0],
        directions: vec![direction, 1],
        step: vec![0, 1],
        place: vec![vec![1, 0]],
        maps: vec![vec![vec![1, 0]]],
        loading: vec![vec![1]],
        body: vec![Line::always(Operation::Add, 0, 0, 0).under(guard)],
    };
    let cases = [
        (Comparison::Equal, 0, [1, 1, 1]),
        (Comparison::Equal, 1, [1, 1, 1]),
        (Comparison::Equal, 5, [2, 1, 1]),
        (Comparison::Equal, 6, [1, 2, 1]),
        (Comparison::Equal, -6, [1, 1, 1]),
        (Comparison::AtMost, 2, [1, 1, 1]),
        (Comparison::AtMost, 6, [2, 2, 1]),
        (Comparison::AtLeast, 1, [2, 2, 2]),
        (Comparison::AtLeast, 7, [1, 1, 2]),
        (Comparison::AtLeast, 8, [1, 1, 1]),
    ];
    for direction in [1, -1] {
        for (comparison, bound, expected) in cases {
            let design = doubled(Guard::new(0, comparison, bound), direction);
            assert_eq!(
                results(&design, &[1; 3]),
                expected,
                "{comparison:?} {bound}"
            );
        }
    }
}

/// Under comparison 0 a line runs as it did before, whatever the guard's loop and bound are.
#[test]
fn comparison_0() {
    let mut random = Random::new(53);
    for _ in 0..300 {
        let before = guarded(&accepted(&mut random), || Guard::ALWAYS);
        let other = guarded(&before, || Guard {
            comparison: Comparison::Always,
            ..guard(&mut random, &before)
        });
        let elements = accept(&before).map_or(0, |found| found.elements);
        let values = random.values(elements);
        assert_eq!(results(&other, &values), results(&before, &values));
    }
    for design in [polynomial_one(2), polynomial_two(2)] {
        for (loop_number, bound) in [(0, -64), (0, 64), (1, -64), (1, 64)] {
            let guard = Guard::new(loop_number, Comparison::Always, bound);
            let values = [1, 2, 3, 4, 5, 6, 0, 0, 0, 0, 0];
            assert_eq!(results(&guarded(&design, || guard), &values)[6..], PRODUCT);
        }
    }
}

/// Whether an index compares so with a bound, by the comparison's word.
fn compares(index: i32, comparison: i32, bound: i32) -> bool {
    match comparison {
        1 => index == bound,
        2 => index <= bound,
        3 => index >= bound,
        _ => true,
    }
}

/// The guards of every loop, comparison and bound that lies between the loop's own or just beyond.
fn every_guard(description: &Description) -> Vec<Guard> {
    let mut guards = Vec::new();
    for loop_number in 0..description.loops() {
        for comparison in Comparison::ALL {
            let (left, right) = (
                description.left[loop_number],
                description.right[loop_number],
            );
            let bounds = left - 1..=right + 1;
            guards.extend(bounds.map(|bound| Guard::new(loop_number, comparison, bound)));
        }
    }
    guards
}

/// Scratch := a times b, c := scratch − c under the guard, c := c + a.
fn guarded_difference(guard: Guard) -> Vec<Line> {
    vec![
        Line::always(Operation::Multiply, 3, 0, 1),
        Line::always(Operation::Subtract, 2, 3, 2).under(guard),
        Line::always(Operation::Add, 2, 2, 0),
    ]
}

/// The same on one value of each stream.
fn difference(runs: bool, a: u32, b: u32, c: u32) -> u32 {
    let c = if runs {
        a.wrapping_mul(b).wrapping_sub(c)
    } else {
        c
    };
    c.wrapping_add(a)
}

/// Indices as a loop of that direction runs them.
fn turned(mut indices: [i32; 3], direction: i32) -> [i32; 3] {
    if direction == -1 {
        indices.reverse();
    }
    indices
}

/// Loops i 1..3 and j −1..1, c: i+j, in design one's layout and in design two's, in both directions.
#[test]
fn every_guard_of_two_loops() {
    let mut random = Random::new(54);
    let one = [1, -1].map(|direction| (polynomial_one(2), direction));
    let two = [1, -1].map(|direction| (polynomial_two(2), direction));
    for (mut design, direction) in one.into_iter().chain(two) {
        (design.left, design.right) = (vec![1, -1], vec![3, 1]);
        design.directions = vec![direction; 2];
        design.step = vec![2 * direction, direction];
        for guard in every_guard(&design) {
            design.body = guarded_difference(guard);
            let values = random.values(11);
            let mut expected = values.clone();
            for i in turned([1, 2, 3], direction) {
                for j in turned([-1, 0, 1], direction) {
                    let index = [i, j][guard.loop_number];
                    let runs = compares(index, guard.comparison.word(), guard.bound);
                    let [a, b, c] = [i - 1, 3 + j + 1, 6 + i + j].map(|place| place as usize);
                    expected[c] = difference(runs, expected[a], expected[b], expected[c]);
                }
            }
            assert_eq!(in_every_order(&design, &values, &mut random), expected);
        }
    }
}

/// Loops i 1..2, j −1..1 and k 0..3, the last two in direction −1, with c kept and with c moving.
#[test]
fn every_guard_of_three_loops() {
    let mut random = Random::new(55);
    for mut design in [matrix_straight(2), matrix_moving(2)] {
        (design.left, design.right) = (vec![1, -1, 0], vec![2, 1, 3]);
        design.directions = vec![1, -1, -1];
        design.step = vec![1, 1, -1];
        for guard in every_guard(&design) {
            design.body = guarded_difference(guard);
            let values = random.values(8 + 12 + 6);
            let mut expected = values.clone();
            for i in 1i32..=2 {
                for j in [1, 0, -1] {
                    for k in [3, 2, 1, 0] {
                        let index = [i, j, k][guard.loop_number];
                        let runs = compares(index, guard.comparison.word(), guard.bound);
                        let a = (4 * (i - 1) + k) as usize;
                        let b = (8 + 3 * k + j + 1) as usize;
                        let c = (20 + 3 * (i - 1) + j + 1) as usize;
                        expected[c] = difference(runs, expected[a], expected[b], expected[c]);
                    }
                }
            }
            assert_eq!(in_every_order(&design, &values, &mut random), expected);
        }
    }
}

// Cleared accumulators.

/// Design one whose c is cleared under i = 0 and under j = 2, and the same with other bounds and directions.
#[test]
fn a_product_from_any_c() {
    let mut random = Random::new(56);
    for design in [cleared_one(2), cleared_turned()] {
        assert_eq!(accept(&design), accept(&polynomial_one(2)));
        for _ in 0..50 {
            let values = [&[1, 2, 3, 4, 5, 6], random.values(5).as_slice()].concat();
            let output = in_every_order(&design, &values, &mut random);
            assert_eq!(output, [&values[..6], &PRODUCT].concat());
        }
    }
    // Without the guards each instance clears c anew.
    let unguarded = guarded(&cleared_one(2), || Guard::ALWAYS);
    let output = results(&unguarded, &[1, 2, 3, 4, 5, 6, 9, 8, 7, 6, 5]);
    assert_eq!(output[6..], [4, 8, 12, 15, 18]);
}

#[test]
fn a_column_from_any_c() {
    let mut random = Random::new(57);
    for _ in 0..50 {
        let values = [&[1, 2, 3, 4, 5, 6], random.values(2).as_slice()].concat();
        let output = in_every_order(&cleared_column(), &values, &mut random);
        assert_eq!(output, [1, 2, 3, 4, 5, 6, 17, 39]);
    }
}

#[test]
fn a_matrix_product_from_any_c() {
    let mut random = Random::new(58);
    for side in 1..=3 {
        let design = cleared_matrix(side as i32 - 1);
        let values = random.values(3 * side * side);
        let output = in_every_order(&design, &values, &mut random);
        for i in 0..side {
            for j in 0..side {
                let sum = (0..side).fold(0, |sum: u32, k| {
                    let (a, b) = (values[side * i + k], values[side * (side + k) + j]);
                    sum.wrapping_add(a.wrapping_mul(b))
                });
                assert_eq!(output[side * (2 * side + i) + j], sum);
            }
        }
    }
}

#[test]
fn polynomials_from_any_c() {
    let mut random = Random::new(59);
    for n in 0..=5 {
        let elements = 4 * n as usize + 3;
        let values = random.values(elements);
        let places = 2 * n as usize + 2;
        let zeros = [&values[..places], &vec![0; elements - places]].concat();
        assert_eq!(
            results(&cleared_one(n), &values),
            results(&polynomial_one(n), &zeros)
        );
    }
}
