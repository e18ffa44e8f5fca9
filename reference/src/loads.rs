//! The comparison of Fill and Make (request 2.3): what they answer and leave in their lists, for some 6,000 calls.
//!
//! A record is six words, least byte first: call, seed, three words that the call is told, and how many places it is lent. Call 0 is Fill,
//! told n and two words that it does not look at; its list is 4,096 words. Any other call is Make, told the sizes; its output is 512 bytes.
//! Every place is 7 before the call, and the last is never lent.

use crate::compare::{line, sum};
use crate::description::words_of;
use crate::generator::{fill, made, make, previous};
use crate::number_of;
use crate::random::Random;

/// The number of Fill; every other is Make's.
const FILL: u32 = 0;
const MAKE: u32 = 1;

/// Other numbers of Make, some with a byte or a half like Fill's.
const OTHER_MAKES: [u32; 5] = [2, 1 << 8, 1 << 16, 1 << 31, u32::MAX];

/// The places of Fill's list and of Make's output.
const PLACES: usize = 4096;
const BYTES: usize = 512;

/// Every place before a call.
const MARK: u8 = 7;

/// The most values of Fill, and the most words of a description, that are printed whole.
const VALUES_SHOWN: usize = 8;
const WORDS_SHOWN: usize = 36;

/// Sizes that are out of range in most places, some with a byte or a half that is within.
const FAR: [u32; 13] = [
    0,
    1,
    4,
    7,
    9,
    10,
    (1 << 8) + 2,
    (1 << 16) + 2,
    2 << 16,
    1 << 31,
    (1 << 31) + 2,
    u32::MAX - 1,
    u32::MAX,
];

/// How many random seeds fill, and how many random sizes are made.
const RANDOM_FILLS: usize = 2400;
const RANDOM_SIZES: usize = 200;

/// A record's words.
#[derive(Clone, Copy, Debug, PartialEq, Eq)]
pub struct Record {
    pub call: u32,
    pub seed: u32,
    pub told: [u32; 3],
    pub lent: u32,
}

/// The records' bytes.
pub fn input(records: &[Record]) -> Vec<u8> {
    let words = |record: &Record| {
        let [a, b, c] = record.told;
        [record.call, record.seed, a, b, c, record.lent]
    };
    let words = records.iter().flat_map(words);
    words.flat_map(u32::to_le_bytes).collect()
}

/// What is printed for the records.
pub fn text(records: &[Record]) -> String {
    records.iter().map(record_text).collect()
}

fn record_text(record: &Record) -> String {
    if record.call == FILL {
        fill_text(record)
    } else {
        make_text(record)
    }
}

/// Fill's number, the sum of the places that are lent and of the next, and the state n rounds before the last value written; a few values
/// stand below.
fn fill_text(record: &Record) -> String {
    let n = record.told[0] as usize;
    let lent = (record.lent as usize).min(PLACES - 1);
    let mut list = vec![u32::from(MARK); PLACES];
    let answer = fill(record.seed, n, &mut list[..lent]);
    let back = answer.map_or(0, |()| back(record.seed, &list[..n]));
    let (number, sum) = (number_of(answer), sum(&list[..=lent]));
    let mut text = format!("fill {number} {sum} {back}\n");
    if answer.is_ok() && n <= VALUES_SHOWN {
        text.push_str(&line("values", &list[..n]));
    }
    text
}

/// The state as many rounds before the last value as there are values; the seed if there are none.
fn back(seed: u32, values: &[u32]) -> u32 {
    let last = values.last().copied().unwrap_or(seed);
    values.iter().fold(last, |state, _| previous(state))
}

/// Make's number, the number of bytes and the sum of the bytes that are lent and of the next; the words of a short description stand below.
fn make_text(record: &Record) -> String {
    let lent = (record.lent as usize).min(BYTES - 1);
    let mut output = vec![MARK; BYTES];
    let answer = make(record.seed, record.told, &mut output[..lent]);
    let bytes = answer.unwrap_or(0);
    let seen: Vec<u32> = output[..=lent].iter().copied().map(u32::from).collect();
    let mut text = format!("make {} {bytes} {}\n", number_of(answer), sum(&seen));
    if answer.is_ok() && bytes <= 4 * WORDS_SHOWN {
        text.push_str(&line("words", &words_of(&output[..bytes])));
    }
    text
}

/// All sizes that Accept does not decline by 2.
pub fn all_sizes() -> Vec<[u32; 3]> {
    let of = |loops: u32| {
        let pairs = (1..=6).flat_map(|streams| (1..=8).map(move |lines| (streams, lines)));
        pairs.map(move |(streams, lines)| [loops, streams, lines])
    };
    [2, 3].into_iter().flat_map(of).collect()
}

/// Request 2.3's figures and order of refusals, many seeds and lengths for Fill, and all sizes, and others, for Make.
pub fn records() -> Vec<Record> {
    let mut random = Random::new(23);
    [
        worked(),
        chosen_fills(),
        long_fills(&mut random),
        random_fills(&mut random),
        makes(&mut random),
        wrong_sizes(&mut random),
        random_sizes(&mut random),
    ]
    .concat()
}

fn fill_of(seed: u32, n: u32, lent: u32) -> Record {
    Record {
        call: FILL,
        seed,
        told: [n, 0, 0],
        lent,
    }
}

fn make_of(seed: u32, sizes: [u32; 3], lent: u32) -> Record {
    Record {
        call: MAKE,
        seed,
        told: sizes,
        lent,
    }
}

/// The values of seed 1, descriptions that are printed whole, and calls to which one refusal applies or several.
fn worked() -> Vec<Record> {
    vec![
        fill_of(1, 5, 5),
        fill_of(0, 5, 4),
        fill_of(0, 0, 0),
        make_of(1, [2, 3, 2], 144),
        make_of(1, [2, 1, 1], 92),
        make_of(1, [3, 1, 1], 144),
        make_of(0, [4, 1, 1], 0),
        make_of(0, [2, 1, 1], 91),
        make_of(1, [4, 1, 1], 0),
        make_of(1, [2, 1, 1], 91),
    ]
}

/// One place fewer than n, as many, one more, and far more.
fn lents(n: u32) -> [u32; 5] {
    let (fewer, more) = (n.saturating_sub(1), n.saturating_add(1));
    [fewer, n, more, PLACES as u32 - 1, u32::MAX]
}

/// A few seeds, for small n with lists of all these lengths.
fn chosen_fills() -> Vec<Record> {
    let mut records = Vec::new();
    for seed in [0, 1, 2, 3, u32::MAX] {
        for n in [0, 1, 2, 5, 8, 9, 100] {
            records.extend(lents(n).map(|lent| fill_of(seed, n, lent)));
        }
    }
    records
}

/// Many values: as many as can be lent, about as many, and far more.
fn long_fills(random: &mut Random) -> Vec<Record> {
    let mut records = Vec::new();
    for n in [
        1000,
        2048,
        4093,
        4094,
        4095,
        4096,
        4097,
        1 << 16,
        1 << 31,
        u32::MAX,
    ] {
        for seed in [1, u32::MAX, any(random)] {
            records.extend(lents(n).map(|lent| fill_of(seed, n, lent)));
        }
        records.push(fill_of(0, n, n));
    }
    records
}

/// Small seeds, powers of two and the words below them, and random seeds, for some n up to 100.
fn random_fills(random: &mut Random) -> Vec<Record> {
    let powers = (0..u32::BITS).flat_map(|bit| [(1 << bit) - 1, 1 << bit]);
    let mut seeds: Vec<u32> = powers.chain(0..=600).collect();
    seeds.extend((0..RANDOM_FILLS).map(|_| any(random)));
    let record = |seed: u32| {
        let other = random.between(0, 100) as u32;
        let n = random.pick(&[0, 1, 5, 8, other, other]);
        Record {
            told: [n, any(random), any(random)],
            ..fill_of(seed, n, random.pick(&lents(n)))
        }
    };
    seeds.into_iter().map(record).collect()
}

/// All sizes with some seeds, each with outputs that are a byte too short, exact, a byte longer and far longer, and with seed zero.
fn makes(random: &mut Random) -> Vec<Record> {
    let mut records = Vec::new();
    for sizes in all_sizes() {
        let bytes = made(1, sizes).map_or(0, |made| made.len() as u32);
        let far = random.pick(&[BYTES as u32 - 1, BYTES as u32, u32::MAX]);
        let lents = [bytes - 1, bytes, bytes + 1, far];
        for seed in [1, u32::MAX, any(random), any(random), any(random)] {
            records.extend(lents.map(|lent| make_of(seed, sizes, lent)));
        }
        records.push(make_of(0, sizes, random.pick(&lents)));
        records.push(Record {
            call: random.pick(&OTHER_MAKES),
            ..make_of(any(random), sizes, random.pick(&lents))
        });
    }
    records
}

/// Sizes at the ends of their ranges and just beyond, together, and such that are far beyond in one place.
fn wrong_sizes(random: &mut Random) -> Vec<Record> {
    let mut all = Vec::new();
    for loops in [1, 2, 3, 4] {
        for streams in [0, 1, 6, 7] {
            all.extend([0, 1, 8, 9].map(|lines| [loops, streams, lines]));
        }
    }
    for place in 0..3 {
        for word in FAR {
            let mut sizes = random.pick(&all_sizes());
            sizes[place] = word;
            all.push(sizes);
        }
    }
    let records = |sizes: [u32; 3]| {
        let (short, long) = (random.below(92) as u32, random.pick(&[500, u32::MAX]));
        [
            make_of(any(random), sizes, short),
            make_of(any(random), sizes, long),
            make_of(0, sizes, random.pick(&[short, long])),
        ]
    };
    all.into_iter().flat_map(records).collect()
}

/// Random sizes, small or any.
fn random_sizes(random: &mut Random) -> Vec<Record> {
    let record = |_| {
        let sizes = [(); 3].map(|()| random.value());
        make_of(any(random), sizes, random.below(BYTES) as u32)
    };
    (0..RANDOM_SIZES).map(record).collect()
}

/// Any word.
fn any(random: &mut Random) -> u32 {
    random.bits() as u32
}
