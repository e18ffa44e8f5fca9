//! The comparison: what Accept, Table and Plain run answer and leave in the lent lists, and the walk, for a few thousand descriptions.

use std::fmt::Display;

use crate::board::{BENCH, GAUGE};
use crate::board_cases::board_cases;
use crate::calls::{Calls, Row};
use crate::description::{bytes_of, Description, LINE_WORDS};
use crate::designs;
use crate::divisor_cases::divisor_cases;
use crate::generator;
use crate::guard_words::{guard_words, older_lengths};
use crate::made_cases::made_cases;
use crate::number_of;
use crate::random::Random;
use crate::random_board::{self, OTHERS};
use crate::random_description::{self, given};
use crate::random_divisor;
use crate::random_stride;
use crate::vectors::Point;
use crate::walk::walk_on;
use crate::walk_cases::walk_cases;
use crate::Refusal;

/// How many descriptions have a longer stride by intent.
const STRIDED: usize = 500;

/// How many of such are declined by each of 11 to 17.
const STRIDED_AND_REFUSED: usize = 15;

/// How many have a divisor above 1 by intent: accepted, declined by 7 or 11, and with a word changed.
const DIVIDED: usize = 100;
const DEPENDENT: usize = 30;
const DIVIDED_AND_CHANGED: usize = 50;

/// The most rows that are lent.
const ROWS: usize = 1024;

/// Every word of the lists before a call.
const MARK: u32 = 7;

/// The most elements of an array whose walk, rows and final values are printed whole.
const SMALL: usize = 12;

/// A description and the board word that its calls are told.
#[derive(Clone, Debug)]
pub struct Record {
    pub board: u32,
    pub description: Vec<u8>,
}

/// Descriptions that are told one board word.
pub fn on(board: u32, descriptions: impl IntoIterator<Item = Vec<u8>>) -> Vec<Record> {
    let record = |description| Record { board, description };
    descriptions.into_iter().map(record).collect()
}

/// The descriptions, each behind a word with its number of bytes and its board word.
pub fn input(records: &[Record]) -> Vec<u8> {
    let mut bytes = Vec::new();
    for Record { board, description } in records {
        bytes.extend((description.len() as u32).to_le_bytes());
        bytes.extend(board.to_le_bytes());
        bytes.extend(description);
    }
    bytes
}

/// What is printed for the descriptions.
pub fn text(records: &[Record]) -> String {
    let numbered = records.iter().enumerate();
    numbered
        .map(|(number, record)| record_text(number as u32, record))
        .collect()
}

/// Accept's thirteen values or its refusal, a line for the walk, one for Table and one for Plain run: for each its number, 0 if it did not
/// decline, and the sum of its list. The walk, the rows and the final values of a small array stand below. A description that is declined
/// counts as one process and one element.
fn record_text(number: u32, record: &Record) -> String {
    let calls = Calls::on(record.board, &record.description);
    let accepted = calls.accept();
    let (processes, elements) = accepted.map_or((1, 1), |found| (found.processes, found.elements));
    let small = accepted.is_ok() && elements <= SMALL;
    let first = accepted.map_or_else(
        |refusal| refusal.to_string(),
        |found| found.values().map(|value| value.to_string()).join(" "),
    );
    let walk = walk_text(record, small);
    let table = table_text(&calls, processes, small);
    let plain = plain_text(&calls, number, elements, small);
    format!("{first}\n{walk}{table}{plain}")
}

/// The walk: its number is 33 or one of 1 to 10, and its list the coordinates of the instances, which is empty if it is declined.
fn walk_text(record: &Record, small: bool) -> String {
    let walk = walk_on(record.board, &record.description);
    let answer = walk.as_ref().map(|_| ()).map_err(|&refusal| refusal);
    let numbers: Vec<i32> = walk.iter().flatten().flat_map(coordinates).collect();
    let words: Vec<u32> = numbers.iter().map(|&number| number as u32).collect();
    let mut text = format!("walk{}\n", call_text(answer, &words));
    if small {
        text.push_str(&line("along", &numbers));
    }
    text
}

/// An instance as in a row: three coordinates, the last 0 for two loops.
fn coordinates(instance: &Point) -> [i32; 3] {
    let mut words = [0; 3];
    words[..instance.len()].copy_from_slice(instance);
    words
}

/// Table with a row too few, with as many as there are processes, and with 1,024.
fn table_text(calls: &Calls, processes: usize, small: bool) -> String {
    let mut text = "table".to_string();
    let mut rows = Vec::new();
    for lent in [processes - 1, processes, ROWS] {
        rows = vec![marked_row(); ROWS];
        let answer = calls.table(&mut rows[..lent]);
        let seen = &rows[..(processes + 1).min(ROWS)];
        let words: Vec<u32> = seen.iter().flat_map(row_words).collect();
        text.push_str(&call_text(answer, &words));
    }
    text.push('\n');
    if small {
        for row in &rows[..processes] {
            text.push_str(&line("row", &row_numbers(row)));
        }
    }
    text
}

/// Plain run with a value too few, with an output too long, with both lists wrong, and with lists of the right length.
fn plain_text(calls: &Calls, number: u32, elements: usize, small: bool) -> String {
    let values = values(number, elements + 1);
    let mut text = "plain".to_string();
    let mut output = Vec::new();
    for (given, lent) in [
        (elements - 1, elements),
        (elements, elements + 1),
        (elements + 1, elements - 1),
        (elements, elements),
    ] {
        output = vec![MARK; elements + 1];
        let answer = calls.plain_run(&values[..given], &mut output[..lent]);
        text.push_str(&call_text(answer, &output));
    }
    text.push('\n');
    if small {
        text.push_str(&line("values", &values[..elements]));
        text.push_str(&line("final", &output[..elements]));
    }
    text
}

/// A call's number and the sum of its list.
fn call_text(answer: Result<(), Refusal>, words: &[u32]) -> String {
    format!(" {} {}", number_of(answer), sum(words))
}

/// A name and numbers.
pub fn line<T: Display>(name: &str, numbers: &[T]) -> String {
    let numbers: String = numbers.iter().map(|number| format!(" {number}")).collect();
    format!("{name}{numbers}\n")
}

/// The rule behind sums, modulo 2^32. It tells words apart that differ in one place.
pub fn mix(sum: u32, word: u32) -> u32 {
    sum.wrapping_mul(1_664_525)
        .wrapping_add(word)
        .wrapping_add(1_013_904_223)
}

/// The sum of a list's words.
pub fn sum(words: &[u32]) -> u32 {
    words.iter().fold(0, |sum, &word| mix(sum, word))
}

/// The values for the description of a number: those of Fill for the seed that is one above it.
pub fn values(number: u32, count: usize) -> Vec<u32> {
    generator::values(number + 1, count)
}

/// A row before a call.
fn marked_row() -> Row {
    let mark = MARK as i32;
    Row {
        point: [mark; 2],
        count: MARK,
        first: [mark; 3],
        last: [mark; 3],
        soak: [MARK; 6],
        drain: [MARK; 6],
    }
}

/// A row's numbers in document 01's order: point, count, first, last, soaks, drains.
fn row_numbers(row: &Row) -> Vec<i64> {
    let signed = |words: &[i32]| words.iter().map(|&word| i64::from(word)).collect();
    let unsigned = |words: &[u32]| words.iter().map(|&word| i64::from(word)).collect();
    let parts: [Vec<i64>; 6] = [
        signed(&row.point),
        unsigned(&[row.count]),
        signed(&row.first),
        signed(&row.last),
        unsigned(&row.soak),
        unsigned(&row.drain),
    ];
    parts.concat()
}

/// A row's numbers as words.
fn row_words(row: &Row) -> Vec<u32> {
    let numbers = row_numbers(row);
    numbers.into_iter().map(|number| number as u32).collect()
}

/// Some 4,600 descriptions: designs and cases on the gauge, random ones, of which three in ten are told the bench and a few no board, such
/// that show the boards, on both and on none, and made ones on the gauge.
pub fn records() -> Vec<Record> {
    let mut records = on(GAUGE, fixed_descriptions());
    records.extend(random_records(&mut Random::new(3)));
    for board in [GAUGE, BENCH] {
        records.extend(on(board, board_cases().iter().map(Description::bytes)));
        records.extend(on(board, [Vec::new()]));
    }
    records.extend(on(BENCH, limit_designs().iter().map(Description::bytes)));
    for board in OTHERS {
        records.extend(on(board, without_board()));
    }
    records.extend(on(GAUGE, made_cases()));
    records
}

/// The report's designs, document 01's cases, decimating filters, fixed point products, cleared accumulators, arrays at the limits, words
/// of lines at the ends of their ranges, descriptions of the older length, and such that show common divisors or the walk.
pub fn fixed_descriptions() -> Vec<Vec<u8>> {
    let designs = [
        report_designs(),
        worked_cases(),
        strides(),
        fixed_point(),
        cleared(),
        limit_designs(),
        divisor_cases(),
        walk_cases(),
    ];
    let mut descriptions: Vec<Vec<u8>> = designs.iter().flatten().map(Description::bytes).collect();
    descriptions.push(operation_seven());
    descriptions.extend(guard_words());
    descriptions.extend(older_lengths());
    descriptions
}

/// Nothing, a few bytes, a description that every board accepts, one that 7 declines, and one that 6 does on the bench.
fn without_board() -> Vec<Vec<u8>> {
    let mut dependent = designs::polynomial_one(2);
    dependent.place = vec![vec![0, 0]];
    vec![
        Vec::new(),
        vec![1; 11],
        designs::polynomial_two(2).bytes(),
        dependent.bytes(),
        designs::polynomial_one(63).bytes(),
    ]
}

/// Every refusal, accepted descriptions, such with a longer stride or a divisor above 1, and such with a word changed.
fn random_records(random: &mut Random) -> Vec<Record> {
    let mut records = Vec::new();
    for number in given() {
        // Large arrays take long to make, and most of those that are tried are declined by 6.
        let count = if number == 10 { 10 } else { 50 };
        for _ in 0..count {
            records.push(refused(random, number, random_description::accepted));
        }
    }
    for number in 11..=17 {
        for _ in 0..STRIDED_AND_REFUSED {
            records.push(refused(random, number, random_stride::strided));
        }
    }
    for description in random_descriptions(random) {
        let board = random_board::board(random);
        records.extend(on(random_board::or_none(random, board), [description]));
    }
    records
}

/// A description that is declined by a number on the board that it is told, if that names one.
fn refused(
    random: &mut Random,
    number: u32,
    source: impl Fn(&mut Random) -> Description,
) -> Record {
    let board = random_board::board(random);
    let description = random_description::refused_from(random, board, number, source);
    Record {
        board: random_board::or_none(random, board),
        description,
    }
}

/// Random descriptions, whatever Accept says of them.
fn random_descriptions(random: &mut Random) -> Vec<Vec<u8>> {
    let mut descriptions = Vec::new();
    for _ in 0..1550 {
        descriptions.push(random_description::accepted(random).bytes());
    }
    for _ in 0..STRIDED {
        descriptions.push(random_stride::strided(random).bytes());
    }
    for _ in 0..600 {
        descriptions.push(random_description::changed(random));
    }
    for _ in 0..DIVIDED {
        descriptions.push(random_divisor::divided(random).bytes());
    }
    for _ in 0..DEPENDENT {
        descriptions.push(random_divisor::dependent(random).bytes());
    }
    for _ in 0..DIVIDED_AND_CHANGED {
        let description = random_divisor::divided(random);
        descriptions.push(random_description::word_changed(random, &description));
    }
    descriptions
}

/// The report's designs for n = 0 to 6, and the array that needs its hops.
fn report_designs() -> Vec<Description> {
    let designs = |n| {
        [
            designs::polynomial_one(n),
            designs::polynomial_two(n),
            designs::matrix_straight(n),
            designs::matrix_moving(n),
            designs::matrix_slanted(n),
        ]
    };
    let mut all: Vec<Description> = (0..=6).flat_map(designs).collect();
    all.push(designs::needs_its_hops());
    all
}

/// Document 01's other cases: places, steps and an index map that are refused or just pass, bounds 0 to 0, and grids of 32 by 32 and 33 by
/// 32.
fn worked_cases() -> Vec<Description> {
    let two = |place: [i32; 2], step: [i32; 2]| Description {
        place: vec![place.to_vec()],
        step: step.to_vec(),
        ..designs::polynomial_two(2)
    };
    let one = |factor: i32| {
        let mut one = designs::polynomial_one(2);
        one.maps[2] = vec![vec![1, -1]];
        one.step = vec![factor, 1];
        one
    };
    vec![
        two([1, -1], [2, 1]),
        two([2, 1], [3, 1]),
        one(4),
        one(5),
        one(7),
        one(8),
        designs::polynomial_one(0),
        designs::grid(32, 32, 1),
        designs::grid(33, 32, 1),
    ]
}

/// Request 2.2's decimating filter in some sizes, others that decimate, and the longest stride.
fn strides() -> Vec<Description> {
    let mut strides: Vec<Description> = (0..=4).map(|n| designs::decimating(n, n)).collect();
    strides.extend([
        designs::decimating(63, 63),
        designs::decimating_channels(),
        designs::decimating_by_four(),
        designs::longest_stride(),
    ]);
    strides
}

/// Request 2.1's products: design one with operation 6 in some sizes, and a filter with fractional coefficients.
fn fixed_point() -> Vec<Description> {
    let mut products: Vec<Description> = (0..=4).map(designs::fixed_one).collect();
    products.extend([designs::smoothing(5, 2), designs::smoothing(63, 63)]);
    products
}

/// Design one with operation word 7, the first that is out of range.
fn operation_seven() -> Vec<u8> {
    let mut words = designs::fixed_one(2).words();
    let first = words.len() - 2 * LINE_WORDS;
    words[first] = 7;
    bytes_of(&words)
}

/// Request 2.5's products that clear what they add to, in some sizes.
fn cleared() -> Vec<Description> {
    let mut products: Vec<Description> = (0..=4).map(designs::cleared_one).collect();
    products.extend((0..=2).map(designs::cleared_matrix));
    products.extend([
        designs::cleared_turned(),
        designs::cleared_column(),
        designs::cleared_one(63),
        designs::cleared_matrix(15),
    ]);
    products
}

/// The report's designs as large as they may be and one size larger, and 1,024 processes with 4,096 instances.
fn limit_designs() -> Vec<Description> {
    let mut wider = designs::polynomial_one(63);
    wider.right[1] = 64;
    vec![
        designs::polynomial_one(63),
        designs::polynomial_two(63),
        wider,
        designs::matrix_straight(15),
        designs::matrix_straight(16),
        designs::matrix_moving(15),
        designs::matrix_slanted(11),
        designs::grid(32, 32, 4),
        designs::grid(32, 32, 5),
    ]
}
