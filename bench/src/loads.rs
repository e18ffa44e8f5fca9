//! Whether Fill and Make of the library and of the quick program answer what the second implementation answers, and leave the same in the
//! lent list.

use reference::generator;
use reference::loads::{self, all_sizes, Record};
use reference::number_of;
use reference::random::Random;

use crate::answers::MARK;
use crate::sides::SIDES;

/// How many seeds fill, and how many make descriptions of each of the sizes.
const FILLS: usize = 3000;
const MAKES: usize = 20;

/// The most places and bytes of a list that is far too long.
const PLACES: usize = 30_000;
const BYTES: usize = 600;

/// Holds the comparison's loads, and as many again that come from a seed, against each other; how many calls there were.
pub fn check(seed: u64) -> usize {
    let records = loads::records();
    records.iter().for_each(check_record);
    let mut random = Random::new(seed);
    records.len() + check_fills(&mut random) + check_makes(&mut random)
}

fn check_record(record: &Record) {
    let [n, ..] = record.told.map(|word| word as usize);
    let lent = record.lent as usize;
    if record.call == 0 {
        check_fill(record.seed, n, lent.min(PLACES));
    } else {
        check_make(record.seed, record.told, lent.min(BYTES));
    }
}

/// Random seeds for some numbers of values, at lists that are too short, exact and longer.
fn check_fills(random: &mut Random) -> usize {
    for _ in 0..FILLS {
        let other = random.below(24_577);
        let n = random.pick(&[0, 1, 2, 100, 500, other % 1000, other]);
        let places = random.pick(&[n.saturating_sub(1), n, n, n + 1, PLACES]);
        check_fill(random.bits() as u32, n, places);
    }
    FILLS
}

/// Random seeds for all sizes, at outputs that are too short, exact and longer.
fn check_makes(random: &mut Random) -> usize {
    for sizes in all_sizes() {
        let bytes = generator::made(1, sizes).map_or(0, |made| made.len());
        for _ in 0..MAKES {
            let lent = random.pick(&[0, bytes - 1, bytes, bytes, bytes + 1, BYTES]);
            check_make(random.bits() as u32, sizes, lent);
        }
    }
    MAKES * all_sizes().len()
}

fn check_fill(seed: u32, n: usize, places: usize) {
    let mut left = vec![MARK; places];
    let expected = number_of(generator::fill(seed, n, &mut left));
    for side in SIDES {
        let mut list = vec![MARK; places];
        let number = (side.fill)(seed, n, &mut list);
        assert_eq!(number, expected, "{}", side.name);
        assert!(list == left, "{}", side.name);
    }
}

fn check_make(seed: u32, sizes: [u32; 3], lent: usize) {
    let marked = vec![MARK as u8; lent];
    let mut left = marked.clone();
    let expected = generator::make(seed, sizes, &mut left);
    let bytes = expected.map_or(MARK, |bytes| bytes as u32);
    for side in SIDES {
        let mut output = marked.clone();
        let mut answer = [MARK];
        let number = (side.make)(seed, sizes, &mut output, &mut answer);
        let name = side.name;
        assert_eq!((number, answer), (number_of(expected), [bytes]), "{name}");
        assert!(output == left, "{name}");
    }
}
