//! Request 2.3: the generated load, by Marsaglia's generator. Fill writes values, Make a whole description.

use std::iter::successors;

use crate::description::{bytes_of, Sizes, LINE_WORDS};
use crate::{demand, Refusal};

/// The state after a round: each shifted word is combined by exclusive or with the unshifted one.
pub fn round(state: u32) -> u32 {
    let state = state ^ (state << 13);
    let state = state ^ (state >> 17);
    state ^ (state << 5)
}

/// The state before a round, worked out from the one after it.
pub fn previous(state: u32) -> u32 {
    let state = unshifted(state, |word| word << 5);
    let state = unshifted(state, |word| word >> 17);
    unshifted(state, |word| word << 13)
}

/// The word that gave this one when it was combined with itself shifted: each turn finds as many more of its bits as it was shifted by.
fn unshifted(combined: u32, shift: impl Fn(u32) -> u32) -> u32 {
    (0..u32::BITS).fold(combined, |word, _| combined ^ shift(word))
}

/// The states after one round, two, and so on.
fn states(seed: u32) -> impl Iterator<Item = u32> {
    successors(Some(round(seed)), |&state| Some(round(state)))
}

/// Fill: 29, 31.
pub fn fill(seed: u32, n: usize, list: &mut [u32]) -> Result<(), Refusal> {
    demand(seed != 0, 29)?;
    demand(list.len() >= n, 31)?;
    list[..n].copy_from_slice(&values(seed, n));
    Ok(())
}

/// The n values that Fill writes; all are 0 for seed zero, which it declines.
pub fn values(seed: u32, n: usize) -> Vec<u32> {
    states(seed).take(n).collect()
}

/// Make: 29, 30, 31. It answers the number of bytes.
pub fn make(seed: u32, sizes: [u32; 3], output: &mut [u8]) -> Result<usize, Refusal> {
    let bytes = made(seed, sizes)?;
    demand(output.len() >= bytes.len(), 31)?;
    output[..bytes.len()].copy_from_slice(&bytes);
    Ok(bytes.len())
}

/// The bytes that Make writes: 29, 30.
pub fn made(seed: u32, sizes: [u32; 3]) -> Result<Vec<u8>, Refusal> {
    demand(seed != 0, 29)?;
    let first = sizes.map(|size| size as i32);
    let sizes = Sizes::of(first).map_err(|_| Refusal(30))?;
    let drawn = drawn_words(&sizes).into_iter().zip(states(seed));
    let drawn = drawn.map(|(word, state)| word.by(state));
    let words: Vec<i32> = first.into_iter().chain(drawn).collect();
    Ok(bytes_of(&words))
}

/// How a word is drawn.
#[derive(Clone, Copy)]
enum Word {
    /// By the lowest bit: 1, or −1 if it is 0.
    Direction,
    /// From the least to the greatest of a range, by the remainder.
    Between(i32, i32),
}

impl Word {
    /// The word that a state gives.
    fn by(self, state: u32) -> i32 {
        match self {
            Word::Direction if state & 1 == 0 => -1,
            Word::Direction => 1,
            Word::Between(least, greatest) => {
                let size = (greatest - least + 1) as u32;
                least + (state % size) as i32
            }
        }
    }
}

/// The words after the sizes, in file order: bounds, directions, step, place and index maps, loading, lines.
fn drawn_words(sizes: &Sizes) -> Vec<Word> {
    let (loops, rows, streams) = (sizes.loops, sizes.loops - 1, sizes.streams);
    [
        vec![Word::Between(-64, 64); 2 * loops],
        vec![Word::Direction; loops],
        vec![Word::Between(-8, 8); loops],
        vec![Word::Between(-4, 4); (1 + streams) * rows * loops],
        vec![Word::Between(-1, 1); streams * rows],
        line(sizes).repeat(sizes.lines),
    ]
    .concat()
}

/// The words of a line: operation, target, first and second operand, loop number, comparison and bound.
fn line(sizes: &Sizes) -> [Word; LINE_WORDS] {
    let operand = Word::Between(0, sizes.streams as i32 + 1);
    [
        Word::Between(0, 6),
        operand,
        operand,
        operand,
        Word::Between(0, sizes.loops as i32 - 1),
        Word::Between(0, 3),
        Word::Between(-64, 64),
    ]
}
