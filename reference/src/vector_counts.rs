//! The comparison of Step vectors (request 2.10): what it answers and leaves in its counts, for some 1,200 calls.
//!
//! A record is three words, least byte first, and a description: k, the board word and the number of bytes, then the bytes. Every count is
//! 7 before the call.

use crate::board::{BENCH, GAUGE};
use crate::board_cases::board_cases;
use crate::compare::{fixed_descriptions, line};
use crate::description::Description;
use crate::designs;
use crate::geometry::number_of_instances;
use crate::made_cases::made_cases;
use crate::number_of;
use crate::random::Random;
use crate::random_board;
use crate::random_description::{self, given, matrix};
use crate::random_divisor;
use crate::random_stride;
use crate::step_vectors::{step_vectors, COUNTS, GREATEST};

/// Every count before a call.
const MARK: u32 = 7;

/// Numbers that are no k: the first one, such as have a byte or a half like a k, and the last one.
const OTHERS: [u32; 6] = [
    GREATEST + 1,
    34,
    (1 << 8) + 1,
    (1 << 16) + 3,
    1 << 31,
    u32::MAX,
];

/// The numbers that take turns as k.
const TURNS: [u32; 7] = [0, 1, 2, 3, 1, 2, 3];

/// The most instances of an array that is counted for k above 1, unless it is one of the largest.
const FEW: i64 = 300;

/// How many random descriptions there are of each kind.
const DECLINED: usize = 8;
const REFUSED: usize = 16;
const REFUSED_BY_10: usize = 8;
const STRIDED_AND_REFUSED: usize = 4;
const ACCEPTED: usize = 50;
const CHANGED: usize = 25;
const DISTURBED: usize = 60;
const STRIDED: usize = 30;
const DIVIDED: usize = 15;

/// Every how many of the made descriptions one is counted.
const MADE: usize = 5;

/// A record: what the call is told and lent.
#[derive(Clone, Debug)]
pub struct Record {
    pub k: u32,
    pub board: u32,
    pub description: Vec<u8>,
}

impl Record {
    fn new(k: u32, board: u32, description: &Description) -> Record {
        Record {
            k,
            board,
            description: description.bytes(),
        }
    }
}

/// The records' bytes.
pub fn input(records: &[Record]) -> Vec<u8> {
    let mut bytes = Vec::new();
    for record in records {
        let length = record.description.len() as u32;
        bytes.extend(
            [record.k, record.board, length]
                .map(u32::to_le_bytes)
                .concat(),
        );
        bytes.extend(&record.description);
    }
    bytes
}

/// What is printed for the records.
pub fn text(records: &[Record]) -> String {
    records.iter().map(record_text).collect()
}

/// The call's number, 0 if it does not decline, and the counts that it leaves.
fn record_text(record: &Record) -> String {
    let mut counts = [MARK; COUNTS];
    let answer = step_vectors(record.board, &record.description, record.k, &mut counts);
    line("steps", &[&[number_of(answer)], counts.as_slice()].concat())
}

/// Request 2.10's figures and order of refusals, the designs and cases of the other comparison, on the gauge, the largest arrays, such that
/// show the boards, random descriptions, and made ones.
pub fn records() -> Vec<Record> {
    let mut random = Random::new(210);
    [
        worked(),
        in_order(&mut random),
        in_turn(GAUGE, fixed_descriptions()),
        largest(),
        on_boards(),
        random_records(&mut random),
        in_turn(GAUGE, made_cases().into_iter().step_by(MADE)),
    ]
    .concat()
}

/// Design one, and both designs with place 2i+j, for every k on both boards.
fn worked() -> Vec<Record> {
    let slanted = |design: Description| Description {
        place: vec![vec![2, 1]],
        ..design
    };
    let mut records = Vec::new();
    for description in [
        designs::polynomial_one(2),
        slanted(designs::polynomial_one(2)),
        slanted(designs::polynomial_two(2)),
    ] {
        for board in [GAUGE, BENCH] {
            records.extend((0..=GREATEST).map(|k| Record::new(k, board, &description)));
        }
    }
    records
}

/// Nothing, an accepted description, and such that each of 1 to 7 declines, for all these numbers on all these boards.
fn in_order(random: &mut Random) -> Vec<Record> {
    let refused = |number: u32| random_description::refused(random, GAUGE, number);
    let mut descriptions = vec![Vec::new(), designs::polynomial_one(2).bytes()];
    descriptions.extend((1..=7).map(refused));
    let mut records = Vec::new();
    for description in descriptions {
        for board in [GAUGE, BENCH, 2, u32::MAX] {
            records.extend([2, GREATEST + 1, u32::MAX].map(|k| Record {
                k,
                board,
                description: description.clone(),
            }));
        }
    }
    records
}

/// Descriptions with each k in turn.
fn in_turn(board: u32, descriptions: impl IntoIterator<Item = Vec<u8>>) -> Vec<Record> {
    let turns = TURNS.into_iter().cycle();
    let record = |(k, description): (u32, Vec<u8>)| Record {
        k: in_time(k, &description),
        board,
        description,
    };
    turns.zip(descriptions).map(record).collect()
}

/// That k, or 1 if the array is large: it takes this implementation an Accept for each vector.
fn in_time(k: u32, description: &[u8]) -> u32 {
    let instances = Description::read(description).map_or(0, |it| number_of_instances(&it));
    if instances <= FEW {
        k
    } else {
        k.min(1)
    }
}

/// As many processes and instances as either board holds, with three streams and with six, the longest loops, and the largest boxes.
fn largest() -> Vec<Record> {
    let twice = |rows: i32| Description {
        right: vec![rows - 1, rows - 1, 3],
        ..designs::matrix_twice(0)
    };
    [
        (GREATEST, GAUGE, designs::grid(32, 32, 4)),
        (GREATEST, GAUGE, twice(32)),
        (GREATEST, GAUGE, designs::polynomial_one(63)),
        (GREATEST, GAUGE, designs::polynomial_two(63)),
        (GREATEST, GAUGE, designs::decimating(63, 63)),
        (2, GAUGE, designs::matrix_straight(15)),
        (2, GAUGE, designs::matrix_moving(15)),
        (2, GAUGE, designs::matrix_slanted(15)),
        (2, GAUGE, designs::sheet(63)),
        (GREATEST, BENCH, designs::grid(16, 16, 4)),
        (GREATEST, BENCH, twice(16)),
        (GREATEST, BENCH, designs::polynomial_one(31)),
        (GREATEST, BENCH, designs::matrix_moving(7)),
        (GREATEST, BENCH, designs::sheet(31)),
        (GREATEST, BENCH, designs::grid(17, 16, 3)),
        (GREATEST, GAUGE, designs::grid(33, 32, 1)),
    ]
    .map(|(k, board, description)| Record::new(k, board, &description))
    .to_vec()
}

/// Arrays at the bench's limits and beyond, accepted and refused, on both boards.
fn on_boards() -> Vec<Record> {
    let on = |board: u32| in_turn(board, board_cases().iter().map(Description::bytes));
    [GAUGE, BENCH].into_iter().flat_map(on).collect()
}

/// Random descriptions whose own answer is each of Accept's, such with a longer stride among them, and others.
pub fn random_records(random: &mut Random) -> Vec<Record> {
    let mut records = Vec::new();
    for number in given() {
        let count = match number {
            1..=7 => DECLINED,
            // Large arrays take long to make.
            10 => REFUSED_BY_10,
            _ => REFUSED,
        };
        for board in both().take(count) {
            let description = random_description::refused(random, board, number);
            records.push(random_record(random, board, description));
        }
    }
    for number in 11..=17 {
        for board in both().take(STRIDED_AND_REFUSED) {
            let strided = random_stride::strided;
            let description = random_description::refused_from(random, board, number, strided);
            records.push(random_record(random, board, description));
        }
    }
    for (board, description) in both().zip(random_descriptions(random)) {
        records.push(random_record(random, board, description));
    }
    records
}

/// The boards, again and again.
fn both() -> impl Iterator<Item = u32> {
    [GAUGE, BENCH].into_iter().cycle()
}

/// Accepted descriptions, such with a longer stride or a divisor above 1, with a word changed, with dependent rows, and with several
/// streams changed.
fn random_descriptions(random: &mut Random) -> Vec<Vec<u8>> {
    let mut descriptions = Vec::new();
    for _ in 0..ACCEPTED {
        descriptions.push(random_description::accepted(random).bytes());
    }
    for _ in 0..CHANGED {
        descriptions.push(random_description::changed(random));
    }
    for _ in 0..DISTURBED {
        descriptions.push(disturbed(random).bytes());
    }
    for _ in 0..STRIDED {
        descriptions.push(random_stride::strided(random).bytes());
    }
    for _ in 0..DIVIDED {
        descriptions.push(random_divisor::divided(random).bytes());
        descriptions.push(random_divisor::dependent(random).bytes());
    }
    descriptions
}

/// An accepted description in which some streams get any small index map and any loading vector.
fn disturbed(random: &mut Random) -> Description {
    let mut description = random_description::accepted(random);
    let loops = description.loops();
    let streams = description.maps.iter_mut().zip(&mut description.loading);
    for (map, loading) in streams {
        if random.percent(40) {
            *map = matrix(random, loops, 2);
            *loading = random.words(loops - 1, -1, 1);
        }
    }
    description
}

/// A description with some k, seldom another number, on the board or seldom on none.
fn random_record(random: &mut Random, board: u32, description: Vec<u8>) -> Record {
    let k = if random.percent(4) {
        random.pick(&OTHERS)
    } else {
        in_time(random.pick(&TURNS), &description)
    };
    Record {
        k,
        board: random_board::or_none(random, board),
        description,
    }
}
