//! The text of the program that prints the counts of step vectors.

use crate::step_vectors::{step_vectors, COUNTS};

/// What each answer of Accept means.
const MEANINGS: [&str; COUNTS] = [
    "accepted",
    "under 12 bytes",
    "a size out of range",
    "not the length that the sizes give",
    "a word out of range",
    "a left bound above its right",
    "over the limit of instances",
    "place of rank below r-1",
    "increment of step 0",
    "never given",
    "over the limit of processes",
    "index map of rank below r-1",
    "line of step 0",
    "a component of the move outside -1 to 1",
    "moving with a hop over the limit",
    "written, with a line against the order of the loops",
    "moving with a loading vector, or stationary with none",
    "some element touched by no instance",
];

/// A line for each answer of Accept with its count, or the refusal.
pub fn steps_text(board: u32, k: u32, description: &[u8]) -> String {
    let mut counts = [0; COUNTS];
    match step_vectors(board, description, k, &mut counts) {
        Ok(()) => counts.into_iter().enumerate().map(count_text).collect(),
        Err(refusal) => format!("{refusal}\n"),
    }
}

/// The line of an answer: its count, its number if it is a refusal, and its meaning.
fn count_text((answer, count): (usize, u32)) -> String {
    let meaning = MEANINGS[answer];
    match answer {
        0 => format!("{count} {meaning}\n"),
        _ => format!("{count} refused {answer} {meaning}\n"),
    }
}
