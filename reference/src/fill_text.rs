//! The text of the fill program.

use crate::generator::fill;

/// The places of its list.
const PLACES: usize = 65_536;

/// A value to a line, or the refusal.
pub fn fill_text(seed: u32, n: usize) -> String {
    let mut list = vec![0; PLACES];
    match fill(seed, n, &mut list) {
        Ok(()) => list[..n].iter().map(|value| format!("{value}\n")).collect(),
        Err(refusal) => format!("{refusal}\n"),
    }
}
