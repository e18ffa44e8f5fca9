//! Request 2.10: Step vectors, which counts how many small step vectors get each answer of Accept.

use crate::board::Limits;
use crate::calls::Calls;
use crate::description::{bytes_of, words_of};
use crate::vectors::vectors_within;
use crate::{demand, number_of, Refusal};

/// The counts: accepted, then refusals 1 to 17.
pub const COUNTS: usize = 18;

/// The greatest k.
pub const GREATEST: u32 = 3;

/// Step vectors: 33, 34, then the description's own 1 to 7. Each count is that of the vectors with its answer.
pub fn step_vectors(
    board: u32,
    description: &[u8],
    k: u32,
    counts: &mut [u32; COUNTS],
) -> Result<(), Refusal> {
    Limits::of(board)?;
    demand(k <= GREATEST, 34)?;
    if let Err(refusal @ Refusal(1..=7)) = Calls::on(board, description).accept() {
        return Err(refusal);
    }
    let loops = words_of(description)[0] as usize;
    let mut found = [0; COUNTS];
    for vector in vectors_within(loops, k as i32) {
        let answer = Calls::on(board, &with_step(description, &vector)).accept();
        found[number_of(answer) as usize] += 1;
    }
    *counts = found;
    Ok(())
}

/// The description with other step coefficients, which stand behind the sizes, both bounds and the directions.
fn with_step(description: &[u8], step: &[i32]) -> Vec<u8> {
    let start = 4 * (3 + 3 * step.len());
    let step = bytes_of(step);
    let mut bytes = description.to_vec();
    bytes[start..start + step.len()].copy_from_slice(&step);
    bytes
}
