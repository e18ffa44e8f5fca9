//! Request 2.3: Fill and Make by Marsaglia's generator, each state worked out from the one after it, and refusals 29, 30 and 31.

use std::collections::{BTreeMap, BTreeSet};

use reference::board::GAUGE;
use reference::calls::Calls;
use reference::compare;
use reference::description::{bytes_of, words_of, Description};
use reference::expected::replay_scripts;
use reference::fill_text::fill_text;
use reference::generator::{fill, made, make, previous, round, values};
use reference::loads::{self, all_sizes, Record};
use reference::number_of;
use reference::random::Random;
use reference::replay::Script;
use reference::Refusal;

/// The values of seed 1.
const OF_ONE: [u32; 5] = [
    270_369,
    67_634_689,
    2_647_435_461,
    307_599_695,
    2_398_689_233,
];

/// Sizes at the ends of their ranges and within.
const SOME_SIZES: [[u32; 3]; 5] = [[2, 1, 1], [2, 3, 2], [2, 6, 8], [3, 1, 1], [3, 6, 8]];

/// Seed zero, such at both ends, and random ones.
fn seeds(random: &mut Random, count: usize) -> Vec<u32> {
    let any = (0..count).map(|_| random.bits() as u32);
    [0, 1, 2, 1 << 31, u32::MAX]
        .into_iter()
        .chain(any)
        .collect()
}

// The rounds.

/// A round by single bits: each is combined with the one that a shift brings to its place.
fn by_bits(state: u32) -> u32 {
    let mut bits: Vec<u32> = (0..32).map(|place| state >> place & 1).collect();
    for shift in [13, -17, 5] {
        let before = bits.clone();
        for (place, bit) in (0..).zip(&mut bits) {
            let brought = usize::try_from(place - shift).ok();
            *bit ^= brought.and_then(|from| before.get(from)).unwrap_or(&0);
        }
    }
    (0..).zip(bits).map(|(place, bit)| bit << place).sum()
}

#[test]
fn shifts_by_13_17_and_5() {
    let mut random = Random::new(231);
    for _ in 0..20_000 {
        let state = random.value();
        assert_eq!(round(state), by_bits(state));
    }
    assert_eq!(round(0), 0);
}

#[test]
fn each_state_from_the_one_after_it() {
    for word in (0..=u32::MAX).step_by(1009).chain([u32::MAX]) {
        assert_eq!(previous(round(word)), word);
        assert_eq!(round(previous(word)), word);
    }
}

#[test]
fn two_seeds_never_meet_after_equal_rounds() {
    let mut random = Random::new(232);
    let powers = (0..32).map(|bit| 1 << bit);
    let any = (0..3000).map(|_| random.bits() as u32);
    let seeds: BTreeSet<u32> = (1..2000).chain(powers).chain(any).collect();
    let mut states: Vec<u32> = seeds.into_iter().collect();
    assert!(states.len() > 5000);
    for _ in 0..100 {
        states.iter_mut().for_each(|state| *state = round(*state));
        let apart: BTreeSet<u32> = states.iter().copied().collect();
        assert_eq!(apart.len(), states.len());
        assert!(!apart.contains(&0));
    }
}

// Fill.

#[test]
fn the_worked_values() {
    let mut list = [7; 6];
    assert_eq!(fill(1, 5, &mut list), Ok(()));
    assert_eq!(list[..5], OF_ONE);
    assert_eq!(list[5], 7);
    assert_eq!(values(1, 5), OF_ONE);
    // The first value is the state after the first round, and a later state is a seed as well.
    assert_eq!(values(OF_ONE[1], 3), OF_ONE[2..]);
    let back = (0..5).fold(OF_ONE[4], |state, _| previous(state));
    assert_eq!(back, 1);
}

/// 29 comes first, then 31; a refusal changes nothing, and what is lent past n stays.
#[test]
fn answers_of_fill() {
    let mut random = Random::new(233);
    for seed in seeds(&mut random, 30) {
        for n in 0..20 {
            for places in 0..22 {
                let mut list = vec![7; places];
                let answer = fill(seed, n, &mut list);
                let mut left = vec![7; places];
                let expected = match () {
                    () if seed == 0 => 29,
                    () if places < n => 31,
                    () => {
                        let states =
                            (1..=n).map(|rounds| (0..rounds).fold(seed, |it, _| round(it)));
                        left.splice(..n, states);
                        0
                    }
                };
                assert_eq!((number_of(answer), list), (expected, left));
            }
        }
        let far = fill(seed, usize::MAX, &mut [7; 3]);
        assert_eq!(number_of(far), if seed == 0 { 29 } else { 31 });
    }
}

#[test]
fn the_text_of_fill() {
    assert_eq!(
        fill_text(1, 5),
        "270369\n67634689\n2647435461\n307599695\n2398689233\n"
    );
    assert_eq!(fill_text(1, 0), "");
    assert_eq!(fill_text(9, 65_536).lines().count(), 65_536);
    assert_eq!(fill_text(9, 65_537), "refused 31\n");
    assert_eq!(fill_text(0, usize::MAX), "refused 29\n");
}

// Make.

#[test]
fn a_worked_description() {
    let words = [
        2, 1, 1, 50, 54, 2, 34, 1, -1, -5, -4, 1, 0, 2, 4, 0, 0, 2, 0, 1, 0, 1, 15,
    ];
    assert_eq!(made(1, [2, 1, 1]), Ok(bytes_of(&words)));
    // 67634689 is 129 · 524299 + 118, and −64 is the least bound.
    assert_eq!(OF_ONE[1] % 129, 118);
    assert_eq!(words[4], -64 + 118);
    // Of its first bounds, 50 to 2 are out of order.
    let answer = Calls::on(GAUGE, &bytes_of(&words)).accept();
    assert_eq!(answer, Err(Refusal(5)));
}

/// 29 comes first, then 30, which is Accept's 2, then 31; a refusal changes nothing, and what is lent past the bytes stays.
fn judge_make(seed: u32, sizes: [u32; 3], lent: usize) -> u32 {
    let head = bytes_of(&sizes.map(|size| size as i32));
    let good = Calls::on(GAUGE, &head).accept() != Err(Refusal(2));
    let mut output = vec![7; lent];
    let answer = make(seed, sizes, &mut output);
    let mut left = vec![7; lent];
    let bytes = made(seed, sizes).unwrap_or_default();
    let expected = match () {
        () if seed == 0 => Err(Refusal(29)),
        () if !good => Err(Refusal(30)),
        () if lent < bytes.len() => Err(Refusal(31)),
        () => {
            left[..bytes.len()].copy_from_slice(&bytes);
            Ok(bytes.len())
        }
    };
    assert_eq!((answer, output), (expected, left));
    number_of(answer)
}

#[test]
fn answers_of_make() {
    let mut random = Random::new(234);
    let mut met: BTreeMap<u32, u32> = BTreeMap::new();
    for sizes in all_sizes() {
        for seed in seeds(&mut random, 5) {
            let bytes = made(1, sizes).map_or(0, |made| made.len());
            for lent in [0, 11, bytes - 1, bytes, bytes + 1, 600] {
                *met.entry(judge_make(seed, sizes, lent)).or_default() += 1;
            }
        }
    }
    assert!(met.into_keys().eq([0, 29, 31]));
}

#[test]
fn sizes_that_accept_declines_by_2() {
    let mut random = Random::new(235);
    let mut met: BTreeMap<u32, u32> = BTreeMap::new();
    let words = [0, 1, 2, 3, 4, 6, 7, 8, 9, 258, 65_538, 1 << 31, u32::MAX];
    for loops in words {
        for streams in words {
            for lines in words {
                for (seed, lent) in [(0, 0), (0, 500), (random.value(), 0), (9, 91), (9, 500)] {
                    let number = judge_make(seed, [loops, streams, lines], lent);
                    *met.entry(number).or_default() += 1;
                }
            }
        }
    }
    assert!(met.keys().eq(&[0, 29, 30, 31]) && met[&30] > 4000);
}

/// The description with bounds that stand in order.
fn in_order(bytes: &[u8]) -> Vec<u8> {
    let mut words = words_of(bytes);
    let loops = words[0] as usize;
    for left in 3..3 + loops {
        if words[left] > words[left + loops] {
            words.swap(left, left + loops);
        }
    }
    bytes_of(&words)
}

/// A made description is declined by 5 if its bounds are out of order, and else is read with the sizes given.
#[test]
fn no_refusal_but_5() {
    let mut random = Random::new(236);
    let (mut read, mut declined) = (0, 0);
    for sizes in all_sizes() {
        for seed in (1..100).chain((0..100).map(|_| random.bits() as u32)) {
            let bytes = made(seed, sizes).expect("sizes in range");
            let ordered = in_order(&bytes);
            let description = Description::read(&ordered).expect("words in range");
            let (loops, streams) = (description.loops(), description.streams());
            let read_sizes = [loops, streams, description.body.len()].map(|size| size as u32);
            assert_eq!(read_sizes, sizes);
            assert_eq!(description.bytes(), ordered);
            match Description::read(&bytes) {
                Ok(_) => {
                    assert_eq!(bytes, ordered);
                    read += 1;
                }
                Err(refusal) => {
                    assert!(refusal == Refusal(5) && bytes != ordered);
                    declined += 1;
                }
            }
        }
    }
    assert!(read > 2000 && declined > 10_000);
}

/// For each word after the sizes all that refusal 4 lets pass, from the least on.
fn ranges(sizes: [u32; 3]) -> Vec<Vec<i32>> {
    let words = words_of(&made(1, sizes).expect("sizes in range"));
    let passes = |place: usize, word: i32| {
        let mut words = words.clone();
        words[place] = word;
        Description::read(&bytes_of(&words)) != Err(Refusal(4))
    };
    let range = |place| (-70..=70).filter(|&word| passes(place, word)).collect();
    (3..words.len()).map(range).collect()
}

/// A word for each state, from its range's least on by the remainder; the lowest bit is that by two.
#[test]
fn in_file_order_a_round_for_each_word() {
    let mut random = Random::new(237);
    for sizes in SOME_SIZES {
        let ranges = ranges(sizes);
        for seed in seeds(&mut random, 50).into_iter().skip(1) {
            let bytes = made(seed, sizes).expect("sizes in range");
            let states = values(seed, ranges.len());
            let drawn = ranges.iter().zip(states);
            let drawn = drawn.map(|(range, state)| range[state as usize % range.len()]);
            let sizes = sizes.map(|size| size as i32);
            let words: Vec<i32> = sizes.into_iter().chain(drawn).collect();
            assert_eq!(words_of(&bytes), words);
        }
    }
}

#[test]
fn every_value_is_drawn() {
    for sizes in [[2, 3, 2], [3, 1, 2]] {
        let mut missing: Vec<BTreeSet<i32>> =
            ranges(sizes).into_iter().map(BTreeSet::from_iter).collect();
        let mut seed = 0;
        while missing.iter().any(|words| !words.is_empty()) {
            seed += 1;
            assert!(seed < 20_000, "{missing:?}");
            let words = words_of(&made(seed, sizes).expect("sizes in range"));
            for (missing, word) in missing.iter_mut().zip(&words[3..]) {
                missing.remove(word);
            }
        }
    }
}

// Texts and data.

/// The comparison's values are Fill's, and its last descriptions are made: two of each of the sizes.
#[test]
fn what_the_comparison_shows() {
    for number in [0, 1, 9, 4000] {
        let mut list = [0; 30];
        assert_eq!(fill(number + 1, 30, &mut list), Ok(()));
        assert_eq!(compare::values(number, 30), list);
    }
    let records = compare::records();
    let mut met: BTreeMap<u32, u32> = BTreeMap::new();
    for (pair, sizes) in records[records.len() - 192..].chunks(2).zip(all_sizes()) {
        assert_ne!(pair[0].description, pair[1].description);
        for record in pair {
            assert_eq!(record.board, GAUGE);
            let head = bytes_of(&sizes.map(|size| size as i32));
            assert!(record.description.starts_with(&head));
            let answer = Calls::on(GAUGE, &record.description).accept();
            *met.entry(number_of(answer)).or_default() += 1;
        }
    }
    let all = [0, 5, 6, 10, 12, 13, 14, 15, 16, 17];
    assert!(met.keys().eq(&all), "{met:?}");
}

/// The scripts that run to their end are given Fill's values.
#[test]
fn values_of_the_scripts() {
    let scripts = replay_scripts();
    let script = Script::read(&scripts[0]).expect("a whole script");
    assert_eq!(script.values, values(11, 11));
}

#[test]
fn lines_of_the_loads() {
    let record = |call, seed, told, lent| Record {
        call,
        seed,
        told,
        lent,
    };
    let records = [
        record(0, 1, [5, 8, 9], 5),
        record(0, 77, [0, 0, 0], 0),
        record(0, 77, [9, 0, 0], 4095),
        record(0, 77, [9, 0, 0], 8),
        record(0, 0, [9, 0, 0], 8),
        record(0, 77, [4096, 0, 0], u32::MAX),
        record(1, 1, [2, 1, 1], 92),
        record(256, 1, [3, 1, 2], 511),
        record(1, 1, [2, 1, 1], 91),
        record(u32::MAX, 1, [4, 1, 1], 91),
        record(1, 0, [4, 1, 1], u32::MAX),
    ];
    let sum = |values: &[u32], marks: usize| compare::sum(&[values, &vec![7; marks]].concat());
    let of_bytes = |bytes: &[u8], marks: usize| {
        let words: Vec<u32> = bytes.iter().copied().map(u32::from).collect();
        sum(&words, marks)
    };
    let made = |sizes| made(1, sizes).expect("sizes in range");
    let expected = [
        format!("fill 0 {} 1", sum(&OF_ONE, 1)),
        "values 270369 67634689 2647435461 307599695 2398689233".to_string(),
        format!("fill 0 {} 77", sum(&[], 1)),
        "values".to_string(),
        format!("fill 0 {} 77", sum(&values(77, 9), 4096 - 9)),
        format!("fill 31 {} 0", sum(&[], 9)),
        format!("fill 29 {} 0", sum(&[], 9)),
        format!("fill 31 {} 0", sum(&[], 4096)),
        format!("make 0 92 {}", of_bytes(&made([2, 1, 1]), 1)),
        "words 2 1 1 50 54 2 34 1 -1 -5 -4 1 0 2 4 0 0 2 0 1 0 1 15".to_string(),
        format!("make 0 172 {}", of_bytes(&made([3, 1, 2]), 512 - 172)),
        format!("make 31 0 {}", sum(&[], 92)),
        format!("make 30 0 {}", sum(&[], 92)),
        format!("make 29 0 {}", sum(&[], 512)),
    ];
    assert_eq!(loads::text(&records).lines().collect::<Vec<_>>(), expected);
    let input = loads::input(&records);
    assert_eq!(input.len(), 24 * records.len());
    let first: Vec<i32> = words_of(&input[..24]);
    assert_eq!(first, [0, 1, 5, 8, 9, 5]);
}

/// Thousands of seeds for Fill, every refusal, and for all sizes outputs that are too short, exact and longer.
#[test]
fn what_the_loads_show() {
    let records = loads::records();
    assert!((5800..6200).contains(&records.len()));
    let text = loads::text(&records);
    let mut lines = text.lines().filter(|line| !line.starts_with(['v', 'w']));
    let (mut met, mut seeds, mut outputs) = (BTreeMap::new(), BTreeSet::new(), BTreeSet::new());
    for record in &records {
        let line = lines.next().expect("a line for each record");
        let words: Vec<&str> = line.split(' ').collect();
        let number: u32 = words[1].parse().expect("a number");
        *met.entry((words[0], number)).or_insert(0) += 1;
        if record.call == 0 {
            seeds.insert(record.seed);
            // What is back is the seed.
            let back = if number == 0 { record.seed } else { 0 };
            assert_eq!(words[3], back.to_string());
        } else if let Ok(bytes) = made(record.seed, record.told) {
            let more = (i64::from(record.lent) - bytes.len() as i64).clamp(-1, 2);
            outputs.insert((record.told, more, number));
        }
    }
    assert_eq!(lines.next(), None);
    assert!(seeds.len() > 3000 && seeds.contains(&u32::MAX));
    assert!((0..=600)
        .chain((0..32).map(|bit| 1 << bit))
        .all(|seed| seeds.contains(&seed)));
    for key in [
        ("fill", 0),
        ("fill", 31),
        ("make", 0),
        ("make", 29),
        ("make", 30),
        ("make", 31),
    ] {
        assert!(met[&key] >= 100, "{met:?}");
    }
    assert!(met[&("fill", 29)] >= 40 && met.len() == 7, "{met:?}");
    for sizes in all_sizes() {
        for (more, number) in [(-1, 31), (0, 0), (1, 0), (2, 0)] {
            assert!(outputs.contains(&(sizes, more, number)));
        }
    }
}
