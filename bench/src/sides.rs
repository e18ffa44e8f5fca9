//! The two programs that are held against the second implementation and against each other: the library and the quick program.

use reference::calls::Lent;

use crate::library;
use crate::quick;

/// The words of a row of the table.
pub const ROW_WORDS: usize = 21;

/// The values that Accept answers: six figures, the divisor of place and those of six streams.
pub const FIGURES: usize = 13;

/// The counts of Step vectors: accepted, then refusals 1 to 17.
pub const COUNTS: usize = 18;

/// Waiting, received and state.
pub type Memory<'a> = [&'a [u32]; 3];

/// Waiting and received.
pub type Lists<'a> = [&'a [u32]; 2];

/// Waiting, received and state, written.
pub type Written<'a> = [&'a mut [u32]; 3];

/// Two words that a call answers besides its number.
pub type Answer = [u32; 2];

/// The number of bytes that Make answers besides its number.
pub type Bytes = [u32; 1];

/// The calls of a program. Each answers 0 or the number by which it declines; all but the last two are told a board word and lent a
/// description.
pub struct Side {
    pub name: &'static str,
    pub accept: fn(u32, &[u8], &mut [u32; FIGURES]) -> u32,
    /// k and the counts.
    pub step_vectors: fn(u32, &[u8], u32, &mut [u32; COUNTS]) -> u32,
    pub table: fn(u32, &[u8], &mut [u32]) -> u32,
    /// Values and output.
    pub plain_run: fn(u32, &[u8], &[u32], &mut [u32]) -> u32,
    /// Values and the lists.
    pub start: fn(u32, &[u8], &[u32], Written) -> u32,
    /// Kind, number and stream, and the lists.
    pub step: fn(u32, &[u8], [u32; 3], Lent) -> u32,
    /// Steps, the lists and the answer.
    pub run: fn(u32, &[u8], u32, Lent, &mut Answer) -> u32,
    /// Ready words, the lists and the answer.
    pub ready: fn(u32, &[u8], &mut [u64], Memory, &mut Answer) -> u32,
    /// Pipe and side, the lists and the answer.
    pub window: fn(u32, &[u8], [u32; 2], Lists, &mut Answer) -> u32,
    /// Output and the lists.
    pub result: fn(u32, &[u8], &mut [u32], Memory) -> u32,
    /// Seed, number of values and list.
    pub fill: fn(u32, usize, &mut [u32]) -> u32,
    /// Seed, sizes, output and the answer.
    pub make: fn(u32, [u32; 3], &mut [u8], &mut Bytes) -> u32,
}

pub static LIBRARY: Side = Side {
    name: "library",
    accept: library::accept,
    step_vectors: library::step_vectors,
    table: library::table,
    plain_run: library::plain_run,
    start: library::start,
    step: library::step,
    run: library::run,
    ready: library::ready,
    window: library::window,
    result: library::result,
    fill: library::fill,
    make: library::make,
};

pub static QUICK: Side = Side {
    name: "quick",
    accept: quick::accept,
    step_vectors: quick::step_vectors,
    table: quick::table,
    plain_run: quick::plain_run,
    start: quick::start,
    step: quick::step,
    run: quick::run,
    ready: quick::ready,
    window: quick::window,
    result: quick::result,
    fill: quick::fill,
    make: quick::make,
};

pub static SIDES: [&Side; 2] = [&LIBRARY, &QUICK];
