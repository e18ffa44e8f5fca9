//! Request 2.10: how many step vectors get each answer of Accept, and refusal 34.

use std::collections::{BTreeMap, BTreeSet};

use reference::board::{BENCH, GAUGE};
use reference::board_cases::board_cases;
use reference::calls::Calls;
use reference::description::{words_of, Description};
use reference::designs::{
    cleared_column, cleared_one, decimating, fixed_one, grid, matrix_moving, matrix_straight,
    matrix_twice, polynomial_one, polynomial_two, spaced,
};
use reference::number_of;
use reference::random::Random;
use reference::random_board;
use reference::random_description::{accepted, changed, given, refused};
use reference::random_divisor::{dependent, divided};
use reference::random_stride::strided;
use reference::step_vectors::{step_vectors, COUNTS};
use reference::steps_text::steps_text;
use reference::vector_counts::{self, Record};
use reference::vectors::{dot, shortest, vectors_within};
use reference::Refusal;

type Counts = [u32; COUNTS];

/// Every count before a call.
const MARKED: Counts = [7; COUNTS];

/// The call's number and the counts that it leaves.
fn called(board: u32, description: &[u8], k: u32) -> (u32, Counts) {
    let mut counts = MARKED;
    let answer = step_vectors(board, description, k, &mut counts);
    (number_of(answer), counts)
}

/// The counts of a call that does not decline.
fn counts_on(board: u32, description: &Description, k: u32) -> Counts {
    let (number, counts) = called(board, &description.bytes(), k);
    assert_eq!(number, 0);
    counts
}

/// Counts of which all but these are 0.
fn only(some: &[(usize, u32)]) -> Counts {
    let mut counts = [0; COUNTS];
    for &(answer, count) in some {
        counts[answer] = count;
    }
    counts
}

fn accept_number(board: u32, bytes: &[u8]) -> u32 {
    number_of(Calls::on(board, bytes).accept())
}

/// A design with place 2i+j.
fn decimated(design: Description) -> Description {
    Description {
        place: vec![vec![2, 1]],
        ..design
    }
}

// Worked figures.

#[test]
fn design_one() {
    for design in [polynomial_one(2), fixed_one(2), cleared_one(2)] {
        for board in [GAUGE, BENCH] {
            for (k, counts) in [
                (0, only(&[(8, 1)])),
                (1, only(&[(0, 1), (8, 3), (12, 4), (15, 1)])),
                (2, only(&[(0, 6), (8, 5), (12, 8), (15, 6)])),
                (3, only(&[(0, 14), (8, 7), (12, 12), (14, 2), (15, 14)])),
            ] {
                assert_eq!(counts_on(board, &design, k), counts);
            }
        }
    }
}

/// Design two with place 2i+j gets to b, which it sends two processes on; in design one a moves and has a loading vector.
#[test]
fn with_place_2i_plus_j() {
    let two = only(&[(8, 1), (12, 4), (13, 4)]);
    assert_eq!(counts_on(GAUGE, &decimated(polynomial_two(2)), 1), two);
    let mut one = decimated(polynomial_one(2));
    let by_16 = only(&[(8, 1), (12, 2), (16, 6)]);
    assert_eq!(counts_on(GAUGE, &one, 1), by_16);
    one.loading[0] = vec![0];
    assert_eq!(counts_on(GAUGE, &one, 1), two);
}

/// The increment (0,1) and the line of a have step j, that of b has step i, and that of c has step i−j before it is turned.
#[test]
fn by_hand_for_design_one() {
    let answers = |i: i32, j: i32| {
        let design = Description {
            step: vec![i, j],
            ..polynomial_one(2)
        };
        accept_number(GAUGE, &design.bytes())
    };
    for i in -1..=1 {
        assert_eq!(answers(i, 0), 8);
    }
    for j in [-1, 1] {
        assert_eq!(answers(0, j), 12);
        assert_eq!(answers(j, j), 12);
    }
    assert_eq!(answers(1, -1), 0);
    assert_eq!(answers(-1, 1), 15);
}

// The counts.

/// Some descriptions, most of which the gauge does not decline by 1 to 7.
fn some(random: &mut Random) -> Vec<Vec<u8>> {
    let mut descriptions = Vec::new();
    for number in given().filter(|&number| number != 10) {
        descriptions.push(refused(random, GAUGE, number));
    }
    for _ in 0..6 {
        descriptions.push(accepted(random).bytes());
        descriptions.push(strided(random).bytes());
        descriptions.push(divided(random).bytes());
        descriptions.push(dependent(random).bytes());
        descriptions.push(changed(random));
    }
    descriptions.push(grid(17, 16, 3).bytes());
    descriptions.push(grid(33, 32, 1).bytes());
    descriptions
}

/// Every vector once: the counts are those of Accept on a description with that step, and make (2k+1) to the power r.
#[test]
fn each_vector_once() {
    let mut random = Random::new(2101);
    let mut met = [0; COUNTS];
    for (number, bytes) in (0..4).flat_map(|_| some(&mut random)).enumerate() {
        let Ok(description) = Description::read(&bytes) else {
            continue;
        };
        for board in [GAUGE, BENCH] {
            if (6..=7).contains(&accept_number(board, &bytes)) {
                continue;
            }
            let k = number as u32 % 4;
            let mut expected = [0; COUNTS];
            for_each_vector(description.loops(), k as i32, |step| {
                let other = Description {
                    step: step.to_vec(),
                    ..description.clone()
                };
                expected[accept_number(board, &other.bytes()) as usize] += 1;
            });
            let counts = counts_on(board, &description, k);
            assert_eq!(counts, expected);
            let sum: u32 = counts.iter().sum();
            assert_eq!(sum, (2 * k + 1).pow(description.loops() as u32));
            for (met, count) in met.iter_mut().zip(counts) {
                *met += count;
            }
        }
    }
    // 1 to 7 are those of the description as lent, and 9 is never given.
    for (answer, count) in met.into_iter().enumerate() {
        assert_eq!(count == 0, (1..=7).contains(&answer) || answer == 9);
    }
}

/// Vectors with entries from −k to k, by nested loops.
fn for_each_vector(loops: usize, k: i32, mut visit: impl FnMut(&[i32])) {
    for i in -k..=k {
        for j in -k..=k {
            if loops == 2 {
                visit(&[i, j]);
                continue;
            }
            for l in -k..=k {
                visit(&[i, j, l]);
            }
        }
    }
}

/// The counts do not depend on the description's own step, and none falls as k grows.
#[test]
fn whatever_its_own_step() {
    let mut random = Random::new(2102);
    for bytes in some(&mut random) {
        let (number, first) = called(GAUGE, &bytes, 1);
        if number != 0 {
            continue;
        }
        let mut description = Description::read(&bytes).expect("words in range");
        let more = counts_on(GAUGE, &description, 2);
        assert!(first.iter().zip(more).all(|(&first, more)| first <= more));
        for reach in [1, 8] {
            description.step = random.words(description.loops(), -reach, reach);
            assert_eq!(counts_on(GAUGE, &description, 1), first);
        }
        description.step = vec![0; description.loops()];
        assert_eq!(counts_on(GAUGE, &description, 1), first);
    }
}

/// 8 counts the vectors with which the increment has step 0. What no step changes comes at the end: of 0, 10, 11, 13, 16 and 17 one at most
/// has a count.
#[test]
fn what_depends_on_the_step() {
    let mut random = Random::new(2103);
    let mut ends = BTreeSet::new();
    for bytes in (0..3).flat_map(|_| some(&mut random)) {
        if called(GAUGE, &bytes, 4).0 != 34 || called(GAUGE, &bytes, 0).0 != 0 {
            continue;
        }
        let description = Description::read(&bytes).expect("words in range");
        let loops = description.loops();
        let counts = counts_on(GAUGE, &description, 2);
        let still = |step: &Vec<i32>| shortest(&description.place, step, 7, 8) == Err(Refusal(8));
        let still = vectors_within(loops, 2).filter(still).count();
        assert_eq!(counts[8], still as u32);
        let found: Vec<usize> = [0, 10, 11, 13, 16, 17]
            .into_iter()
            .filter(|&answer| counts[answer] > 0)
            .collect();
        assert!(found.len() <= 1, "{counts:?}");
        ends.extend(found);
    }
    assert_eq!(ends, BTreeSet::from([0, 10, 11, 13, 16, 17]));
}

/// Vectors and their negatives get the same answers, except that 15 can be accepted or refused later the other way round.
#[test]
fn turned_vectors() {
    let mut random = Random::new(2104);
    for bytes in some(&mut random) {
        let Ok(description) = Description::read(&bytes) else {
            continue;
        };
        let nobody_writes = (0..description.streams()).all(|stream| !description.written(stream));
        for step in vectors_within(description.loops(), 1) {
            let answer = |sign: i32| {
                let step = step.iter().map(|word| sign * word).collect();
                let turned = Description {
                    step,
                    ..description.clone()
                };
                accept_number(GAUGE, &turned.bytes())
            };
            let answers = [answer(1), answer(-1)];
            let same = answers[0] == answers[1];
            assert!(same || !nobody_writes && answers.contains(&15));
        }
    }
}

/// The bench differs only by its smaller pair: what it does not decline has the gauge's counts, or 10 in place of all after 8.
#[test]
fn on_the_bench() {
    let mut random = Random::new(2105);
    let mut met = BTreeSet::new();
    let cases = board_cases();
    let cases = cases.iter().map(Description::bytes);
    for bytes in cases.chain(some(&mut random)) {
        let (number, bench) = called(BENCH, &bytes, 1);
        let (gauge_number, gauge) = called(GAUGE, &bytes, 1);
        if number != 0 {
            assert!(number == gauge_number || number == 6 && [0, 7].contains(&gauge_number));
            met.insert(number);
            continue;
        }
        assert_eq!(gauge_number, 0);
        let sum: u32 = gauge.iter().sum();
        let crowded = only(&[(8, gauge[8]), (10, sum - gauge[8])]);
        assert!(bench == gauge || bench == crowded);
        met.insert(if bench == gauge { 0 } else { 10 });
    }
    assert!([0, 1, 2, 3, 4, 5, 6, 7, 10]
        .iter()
        .all(|it| met.contains(it)));
}

// What is declined.

/// 33 comes first, then 34, then the description's own 1 to 7 on that board; a refusal changes no count.
#[test]
fn order_of_refusals() {
    let mut random = Random::new(2106);
    let mut met: BTreeMap<u32, u32> = BTreeMap::new();
    let large = [grid(32, 32, 4), grid(17, 16, 3), polynomial_one(63)];
    let large = large.iter().map(Description::bytes);
    let descriptions: Vec<Vec<u8>> = some(&mut random).into_iter().chain(large).collect();
    let boards = [GAUGE, BENCH].into_iter().chain(random_board::OTHERS);
    for board in boards {
        for bytes in &descriptions {
            for k in [0, 1, 4, 34, 1 << 8, 1 << 16, 1 << 31, u32::MAX] {
                let (number, counts) = called(board, bytes, k);
                let own = accept_number(board, bytes);
                let expected = match () {
                    () if board > 1 => 33,
                    () if k > 3 => 34,
                    () if (1..=7).contains(&own) => own,
                    () => 0,
                };
                assert_eq!(number, expected);
                assert_eq!(counts == MARKED, number != 0);
                *met.entry(number).or_default() += 1;
            }
        }
    }
    assert!(met.into_keys().eq((0..=7).chain([33, 34])));
}

/// 34 comes before a description is looked at, 33 before k.
#[test]
fn nothing_is_lent() {
    assert_eq!(called(2, &[], 4), (33, MARKED));
    assert_eq!(called(2, &[], 0), (33, MARKED));
    assert_eq!(called(GAUGE, &[], 4), (34, MARKED));
    assert_eq!(called(BENCH, &[], u32::MAX), (34, MARKED));
    assert_eq!(called(GAUGE, &[], 3), (1, MARKED));
}

/// Its own step words are looked at: one out of range is 4.
#[test]
fn its_own_step_out_of_range() {
    for step in [[9, 1], [2, -9]] {
        let design = Description {
            step: step.to_vec(),
            ..polynomial_one(2)
        };
        assert_eq!(called(GAUGE, &design.bytes(), 1), (4, MARKED));
    }
}

/// Its own 8 and 10 to 17 decline nothing.
#[test]
fn its_own_later_refusals() {
    let mut random = Random::new(2107);
    let mut still = polynomial_one(2);
    for step in [[1, 0], [0, 0], [-8, 0]] {
        still.step = step.to_vec();
        assert_eq!(accept_number(GAUGE, &still.bytes()), 8);
        let counts = only(&[(0, 1), (8, 3), (12, 4), (15, 1)]);
        assert_eq!(counts_on(GAUGE, &still, 1), counts);
    }
    for number in given().filter(|&number| number > 7) {
        for board in [GAUGE, BENCH] {
            let bytes = refused(&mut random, board, number);
            let (answer, counts) = called(board, &bytes, 1);
            assert_eq!(answer, 0);
            let loops = words_of(&bytes)[0] as u32;
            assert_eq!(counts.iter().sum::<u32>(), 3_u32.pow(loops));
        }
    }
}

// Other arrays.

/// With place (i,j) the increment is along the third loop, as is c's line, and the lines of a and b are along the others. No entry may be
/// 0, and as c is written, the third is positive.
#[test]
fn matrix_products() {
    for k in 0..=3_u32 {
        let (all, ways) = ((2 * k + 1).pow(3), 2 * k);
        let still = (2 * k + 1).pow(2);
        let good = ways.pow(3) / 2;
        let line = all - still - 2 * good;
        let expected = only(&[(0, good), (8, still), (12, line), (15, good)]);
        assert_eq!(counts_on(GAUGE, &matrix_straight(2), k), expected);
        assert_eq!(counts_on(BENCH, &grid(4, 5, 2), k), expected);
    }
    let mut wide = matrix_twice(31);
    wide.right[2] = 3;
    let expected = counts_on(GAUGE, &grid(32, 32, 4), 1);
    assert_eq!(counts_on(GAUGE, &wide, 1), expected);
    assert_eq!(called(BENCH, &wide.bytes(), 1), (6, MARKED));
    assert_eq!(
        counts_on(BENCH, &grid(17, 16, 3), 1),
        only(&[(8, 9), (10, 18)])
    );
}

#[test]
fn other_designs() {
    for (design, counts) in [
        (matrix_moving(1), only(&[(0, 4), (8, 7), (12, 12), (15, 4)])),
        (cleared_column(), only(&[(0, 4), (8, 9), (12, 10), (15, 4)])),
        (spaced(2), only(&[(0, 3), (8, 3), (15, 3)])),
    ] {
        assert_eq!(counts_on(GAUGE, &design, 1), counts);
    }
}

#[test]
fn the_decimating_filter() {
    let filter = decimating(2, 2);
    let accepted = |i: i32, j: i32| {
        // The increment (1,−2), the lines (0,1), (1,−2) and (1,−1), of which the first is written, and their hops.
        let [still, y, w] = [dot(&[i, j], &[1, -2]), j, i - j];
        still != 0 && y > 0 && w != 0 && y <= 5 && w.abs() <= 5
    };
    for k in 0..=3 {
        let mut good = 0;
        for_each_vector(2, k, |step| good += u32::from(accepted(step[0], step[1])));
        assert_eq!(counts_on(GAUGE, &filter, k as u32)[0], good);
    }
}

// Texts and data.

#[test]
fn the_text_of_design_one() {
    let bytes = polynomial_one(2).bytes();
    let text = steps_text(GAUGE, 3, &bytes);
    let lines: Vec<&str> = text.lines().collect();
    assert_eq!(
        lines,
        [
            "14 accepted",
            "0 refused 1 under 12 bytes",
            "0 refused 2 a size out of range",
            "0 refused 3 not the length that the sizes give",
            "0 refused 4 a word out of range",
            "0 refused 5 a left bound above its right",
            "0 refused 6 over the limit of instances",
            "0 refused 7 place of rank below r-1",
            "7 refused 8 increment of step 0",
            "0 refused 9 never given",
            "0 refused 10 over the limit of processes",
            "0 refused 11 index map of rank below r-1",
            "12 refused 12 line of step 0",
            "0 refused 13 a component of the move outside -1 to 1",
            "2 refused 14 moving with a hop over the limit",
            "14 refused 15 written, with a line against the order of the loops",
            "0 refused 16 moving with a loading vector, or stationary with none",
            "0 refused 17 some element touched by no instance",
        ]
    );
    assert!(text.ends_with('\n'));
    assert_eq!(steps_text(GAUGE, 4, &bytes), "refused 34\n");
    assert_eq!(steps_text(2, 4, &bytes), "refused 33\n");
    assert_eq!(steps_text(GAUGE, 3, &bytes[..11]), "refused 1\n");
    assert_eq!(
        steps_text(BENCH, 0, &polynomial_one(63).bytes()),
        "refused 6\n"
    );
}

#[test]
fn lines_of_the_comparison() {
    let one = polynomial_one(2).bytes();
    let record = |k: u32, board: u32| Record {
        k,
        board,
        description: one.clone(),
    };
    let records = [record(1, GAUGE), record(4, BENCH), record(4, 2)];
    let text = vector_counts::text(&records);
    assert_eq!(
        text.lines().collect::<Vec<&str>>(),
        [
            "steps 0 1 0 0 0 0 0 0 0 3 0 0 0 4 0 0 1 0 0",
            "steps 34 7 7 7 7 7 7 7 7 7 7 7 7 7 7 7 7 7 7",
            "steps 33 7 7 7 7 7 7 7 7 7 7 7 7 7 7 7 7 7 7",
        ]
    );
    let input = vector_counts::input(&records);
    let heads = [[1, 0, 144], [4, 1, 144], [4, 2, 144]];
    for (record, head) in input.chunks(12 + one.len()).zip(heads) {
        assert_eq!(words_of(&record[..12]), head);
        assert_eq!(record[12..], one);
    }
}

/// Every count that can be is there in many records on both boards, every number by which the call declines, and own answers that decline
/// nothing.
#[test]
fn what_the_comparison_shows() {
    let records = vector_counts::records();
    assert!((1000..1300).contains(&records.len()));
    let text = vector_counts::text(&records);
    let mut lines = text.lines();
    let mut counted: BTreeMap<(u32, usize), u32> = BTreeMap::new();
    let mut declined: BTreeMap<u32, u32> = BTreeMap::new();
    let mut own: BTreeMap<(u32, u32), u32> = BTreeMap::new();
    let mut shapes = BTreeSet::new();
    for record in &records {
        let line = lines.next().expect("a line for each record");
        let numbers: Vec<u32> = line
            .split(' ')
            .skip(1)
            .map(|word| word.parse().expect("a number"))
            .collect();
        assert_eq!(numbers.len(), 1 + COUNTS);
        let (number, counts) = (numbers[0], &numbers[1..]);
        *declined.entry(number).or_default() += 1;
        if number != 0 {
            assert!(counts == MARKED);
            continue;
        }
        for (answer, _) in counts.iter().enumerate().filter(|(_, &count)| count > 0) {
            *counted.entry((record.board, answer)).or_default() += 1;
        }
        let answer = accept_number(record.board, &record.description);
        *own.entry((record.board, answer)).or_default() += 1;
        shapes.insert((record.board, words_of(&record.description)[0], record.k));
    }
    assert_eq!(lines.next(), None);
    let all: Vec<usize> = [0, 8].into_iter().chain(10..=17).collect();
    for board in [GAUGE, BENCH] {
        for &answer in &all {
            assert!(counted[&(board, answer)] >= 10, "{counted:?}");
            assert!(own[&(board, answer as u32)] >= 10, "{own:?}");
        }
    }
    assert_eq!((counted.len(), own.len()), (2 * all.len(), 2 * all.len()));
    assert!(declined.keys().copied().eq((0..=7).chain([33, 34])));
    assert!(declined.values().all(|&count| count >= 10), "{declined:?}");
    assert_eq!(shapes.len(), 2 * 2 * 4);
    assert!(records.iter().all(|record| record.description.len() <= 508));
    let size = vector_counts::input(&records).len();
    assert!(size < 300_000, "{size} bytes");
}

/// 33 and 34 stand beside numbers and descriptions that would be declined by what comes after.
#[test]
fn where_several_apply() {
    let mut met = BTreeSet::new();
    for record in vector_counts::records() {
        let own = accept_number(GAUGE, &record.description);
        met.insert((record.board > 1, record.k > 3, own.min(8)));
    }
    for own in 0..=7 {
        for (board, k) in [(true, true), (true, false), (false, true), (false, false)] {
            assert!(met.contains(&(board, k, own)));
        }
    }
}
