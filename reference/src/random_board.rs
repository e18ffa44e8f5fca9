//! Random board words (request 2.9).

use crate::board::{BENCH, GAUGE};
use crate::random::Random;

/// Words that name no board: the first ones, such as look like a board in their lower or upper half, and the last ones.
pub const OTHERS: [u32; 10] = [
    2,
    3,
    33,
    1 << 8,
    1 << 16,
    (1 << 16) + 1,
    1 << 31,
    (1 << 31) + 1,
    u32::MAX - 1,
    u32::MAX,
];

/// A board, mostly the gauge.
pub fn board(random: &mut Random) -> u32 {
    if random.percent(70) {
        GAUGE
    } else {
        BENCH
    }
}

/// That board, or seldom a word that names none.
pub fn or_none(random: &mut Random, board: u32) -> u32 {
    if random.percent(4) {
        random.pick(&OTHERS)
    } else {
        board
    }
}
