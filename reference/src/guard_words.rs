//! Descriptions that show the words of guards (request 2.5): at the ends of their ranges, just beyond, and left out.

use crate::description::{bytes_of, Description, LINE_WORDS};
use crate::designs;

/// Guards of the first and of the last line of a cleared product of two loops and of one of three: every comparison with the ends of the
/// other ranges, and each word just out of its own.
pub fn guard_words() -> Vec<Vec<u8>> {
    let mut descriptions = Vec::new();
    for product in [designs::cleared_one(2), designs::cleared_column()] {
        for line in [0, product.body.len() - 1] {
            for guard in guards(product.loops() as i32) {
                descriptions.push(with_guard(&product, line, guard));
            }
        }
    }
    descriptions
}

/// The words of guards at the ends of their ranges for so many loops, and such with one word just beyond.
fn guards(loops: i32) -> Vec<[i32; 3]> {
    let mut guards = vec![[0, -1, 0], [0, 4, 0]];
    for comparison in 0..=3 {
        for number in 0..loops {
            guards.extend([-64, 64].map(|bound| [number, comparison, bound]));
        }
        guards.extend([-65, 65].map(|bound| [0, comparison, bound]));
        guards.extend([-1, loops].map(|number| [number, comparison, 0]));
    }
    guards
}

/// A description with those words as the guard of a line: loop number, comparison and bound.
pub fn with_guard(description: &Description, line: usize, guard: [i32; 3]) -> Vec<u8> {
    let mut words = description.words();
    let after = words.len() - LINE_WORDS * (description.body.len() - line - 1);
    words[after - 3..after].copy_from_slice(&guard);
    bytes_of(&words)
}

/// Descriptions of the older length, of two loops and of three, with one line to four.
pub fn older_lengths() -> Vec<Vec<u8>> {
    [
        designs::polynomial_one(2),
        designs::cleared_one(2),
        designs::needs_its_hops(),
        designs::matrix_straight(2),
        designs::cleared_column(),
        designs::decimating_by_four(),
    ]
    .iter()
    .map(of_older_length)
    .collect()
}

/// A description without the guards of its lines.
pub fn of_older_length(description: &Description) -> Vec<u8> {
    let words = description.words();
    let (before, lines) = words.split_at(words.len() - LINE_WORDS * description.body.len());
    let lines = lines.chunks_exact(LINE_WORDS).flat_map(|line| &line[..4]);
    bytes_of(&before.iter().chain(lines).copied().collect::<Vec<i32>>())
}
