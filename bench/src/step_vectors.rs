//! Whether Step vectors of the library and of the quick program answers what the second implementation answers, and leaves the same counts.

use reference::board::{BENCH, GAUGE};
use reference::number_of;
use reference::random::Random;
use reference::step_vectors;
use reference::vector_counts::{self, Record};

use crate::answers::MARK;
use crate::sides::{COUNTS, SIDES};

/// How many times the comparison's random descriptions come from the seed.
const ROUNDS: usize = 2;

/// Holds the comparison's calls, and more that come from a seed, against each other; how many calls there were.
pub fn check(seed: u64) -> usize {
    let mut random = Random::new(seed);
    let mut records = vector_counts::records();
    for _ in 0..ROUNDS {
        for record in vector_counts::random_records(&mut random) {
            records.extend(on_both(record));
        }
    }
    records.iter().for_each(check_record);
    records.len()
}

/// A call, and the same on the boards if it is told one of them.
fn on_both(record: Record) -> Vec<Record> {
    match record.board {
        GAUGE | BENCH => [GAUGE, BENCH]
            .map(|board| Record {
                board,
                ..record.clone()
            })
            .to_vec(),
        _ => vec![record],
    }
}

fn check_record(record: &Record) {
    let Record {
        k,
        board,
        description,
    } = record;
    let mut left = [MARK; COUNTS];
    let expected = step_vectors::step_vectors(*board, description, *k, &mut left);
    for side in SIDES {
        let mut counts = [MARK; COUNTS];
        let number = (side.step_vectors)(*board, description, *k, &mut counts);
        let name = side.name;
        assert_eq!((number, counts), (number_of(expected), left), "{name}");
    }
}
