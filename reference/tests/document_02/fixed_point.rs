//! Request 2.1: operation 6 multiplies two words as unsigned 16.16 numbers, and an operation word of 6 no longer meets refusal 4.

use reference::board::GAUGE;
use reference::body::Operation;
use reference::calls::Calls;
use reference::description::{bytes_of, Description};
use reference::designs::{fixed_one, polynomial_one, smoothing};
use reference::random::Random;
use reference::random_description::accepted;
use reference::Refusal;

use crate::{accept, results};

fn product(first: u32, second: u32) -> u32 {
    Operation::FixedMultiply.apply(first, second)
}

/// The product by halves of 16 bits, modulo 2^32; what is below 2^16 of the product of the low halves is dropped.
fn by_halves(first: u32, second: u32) -> u32 {
    let (a, b) = (first >> 16, first & 0xFFFF);
    let (c, d) = (second >> 16, second & 0xFFFF);
    (a.wrapping_mul(c) << 16)
        .wrapping_add(a.wrapping_mul(d))
        .wrapping_add(b.wrapping_mul(c))
        .wrapping_add((b * d) >> 16)
}

#[test]
fn products() {
    let cases = [
        (98_304, 98_304, 147_456),
        (65_536, 123_456_789, 123_456_789),
        (u32::MAX, u32::MAX, u32::MAX - 131_071),
        (65_535, 65_537, 65_535),
        (1, 65_535, 0),
        (0, u32::MAX, 0),
    ];
    for (first, second, value) in cases {
        assert_eq!(product(first, second), value);
        assert_eq!(product(second, first), value);
    }
    let mut random = Random::new(26);
    for pair in random.values(20_000).chunks_exact(2) {
        let (first, second) = (pair[0], pair[1]);
        assert_eq!(product(first, second), by_halves(first, second));
        assert_eq!(product(first >> 16, second), by_halves(first >> 16, second));
    }
}

/// 16.16 numbers of whole ones.
fn whole(numbers: &[u32]) -> Vec<u32> {
    numbers.iter().map(|number| number << 16).collect()
}

#[test]
fn design_one() {
    let values = whole(&[1, 2, 3, 4, 5, 6, 0, 0, 0, 0, 0]);
    let output = results(&fixed_one(2), &values);
    assert_eq!(
        output[6..],
        [262_144, 851_968, 1_835_008, 1_769_472, 1_179_648]
    );
    assert_eq!(output[6..], whole(&[4, 13, 28, 27, 18]));
    assert_eq!(results(&fixed_one(0), &[98_304, 98_304, 0])[2], 147_456);
    assert_eq!(accept(&fixed_one(2)), accept(&polynomial_one(2)));
}

/// Design one with a word as the operation of its first line.
fn with_operation(word: i32) -> Vec<u8> {
    let mut words = polynomial_one(2).words();
    assert_eq!(words[22], Operation::Multiply.word());
    words[22] = word;
    bytes_of(&words)
}

#[test]
fn the_last_operation() {
    for word in 0..=6 {
        assert!(Calls::on(GAUGE, &with_operation(word)).accept().is_ok());
    }
    for word in [-1, 7, i32::MIN, i32::MAX] {
        assert_eq!(
            Calls::on(GAUGE, &with_operation(word)).accept(),
            Err(Refusal(4)),
            "{word}"
        );
    }
}

/// Accept does not look at which of the operations a line has.
#[test]
fn answered_as_any_other() {
    let mut random = Random::new(27);
    for _ in 0..300 {
        let description = accepted(&mut random);
        let mut fixed: Description = description.clone();
        for line in &mut fixed.body {
            line.operation = Operation::FixedMultiply;
        }
        assert_eq!(accept(&fixed), accept(&description));
        let elements = accept(&fixed).map_or(0, |found| found.elements);
        results(&fixed, &random.values(elements));
    }
}

#[test]
fn what_the_filter_computes() {
    let mut random = Random::new(28);
    let (h, x) = (random.values(4), random.values(12));
    let output = results(&smoothing(8, 3), &[h.as_slice(), &x, &[0; 9]].concat());
    for i in 0..9 {
        let sum = (0..4).fold(0, |sum: u32, j| sum.wrapping_add(by_halves(h[j], x[i + j])));
        assert_eq!(output[4 + 12 + i], sum);
    }
}
