//! The proved library as safe functions: the numbers and lists of include/beqlanosh.h.

use reference::calls::Lent;

use crate::sides::{COUNTS, FIGURES};

// A slice is a pointer and a length, one after the other.
extern "C" {
    fn beqlanosh_accept(board: u32, bytes: *const u8, length: usize, figures: *mut u32) -> u32;
    fn beqlanosh_step_vectors(
        board: u32,
        bytes: *const u8,
        length: usize,
        k: u32,
        counts: *mut u32,
    ) -> u32;
    fn beqlanosh_table(
        board: u32,
        bytes: *const u8,
        length: usize,
        words: *mut u32,
        words_length: usize,
    ) -> u32;
    fn beqlanosh_plain_run(
        board: u32,
        bytes: *const u8,
        length: usize,
        values: *const u32,
        values_length: usize,
        output: *mut u32,
        output_length: usize,
    ) -> u32;
    fn beqlanosh_start(
        board: u32,
        bytes: *const u8,
        length: usize,
        values: *const u32,
        values_length: usize,
        waiting: *mut u32,
        waiting_length: usize,
        received: *mut u32,
        received_length: usize,
        state: *mut u32,
        state_length: usize,
    ) -> u32;
    fn beqlanosh_step(
        board: u32,
        bytes: *const u8,
        length: usize,
        kind: u32,
        number: u32,
        stream: u32,
        waiting: *const u32,
        waiting_length: usize,
        received: *mut u32,
        received_length: usize,
        state: *mut u32,
        state_length: usize,
    ) -> u32;
    fn beqlanosh_run(
        board: u32,
        bytes: *const u8,
        length: usize,
        steps: u32,
        waiting: *const u32,
        waiting_length: usize,
        received: *mut u32,
        received_length: usize,
        state: *mut u32,
        state_length: usize,
        answer: *mut u32,
    ) -> u32;
    fn beqlanosh_ready(
        board: u32,
        bytes: *const u8,
        length: usize,
        words: *mut u64,
        words_length: usize,
        waiting: *const u32,
        waiting_length: usize,
        received: *const u32,
        received_length: usize,
        state: *const u32,
        state_length: usize,
        answer: *mut u32,
    ) -> u32;
    fn beqlanosh_window(
        board: u32,
        bytes: *const u8,
        length: usize,
        pipe: u32,
        side: u32,
        waiting: *const u32,
        waiting_length: usize,
        received: *const u32,
        received_length: usize,
        answer: *mut u32,
    ) -> u32;
    fn beqlanosh_result(
        board: u32,
        bytes: *const u8,
        length: usize,
        output: *mut u32,
        output_length: usize,
        waiting: *const u32,
        waiting_length: usize,
        received: *const u32,
        received_length: usize,
        state: *const u32,
        state_length: usize,
    ) -> u32;
    fn beqlanosh_fill(seed: u32, n: usize, list: *mut u32, list_length: usize) -> u32;
    fn beqlanosh_make(
        seed: u32,
        loops: u32,
        streams: u32,
        lines: u32,
        output: *mut u8,
        output_length: usize,
        answer: *mut u32,
    ) -> u32;
}

pub fn accept(board: u32, bytes: &[u8], figures: &mut [u32; FIGURES]) -> u32 {
    // SAFETY: each pointer comes with its length from a slice or an array that is lent for the call.
    unsafe { beqlanosh_accept(board, bytes.as_ptr(), bytes.len(), figures.as_mut_ptr()) }
}

pub fn step_vectors(board: u32, bytes: &[u8], k: u32, counts: &mut [u32; COUNTS]) -> u32 {
    // SAFETY: as above.
    unsafe { beqlanosh_step_vectors(board, bytes.as_ptr(), bytes.len(), k, counts.as_mut_ptr()) }
}

pub fn table(board: u32, bytes: &[u8], words: &mut [u32]) -> u32 {
    // SAFETY: as above.
    unsafe {
        beqlanosh_table(
            board,
            bytes.as_ptr(),
            bytes.len(),
            words.as_mut_ptr(),
            words.len(),
        )
    }
}

pub fn plain_run(board: u32, bytes: &[u8], values: &[u32], output: &mut [u32]) -> u32 {
    // SAFETY: as above.
    unsafe {
        beqlanosh_plain_run(
            board,
            bytes.as_ptr(),
            bytes.len(),
            values.as_ptr(),
            values.len(),
            output.as_mut_ptr(),
            output.len(),
        )
    }
}

pub fn start(
    board: u32,
    bytes: &[u8],
    values: &[u32],
    [waiting, received, state]: [&mut [u32]; 3],
) -> u32 {
    // SAFETY: as above.
    unsafe {
        beqlanosh_start(
            board,
            bytes.as_ptr(),
            bytes.len(),
            values.as_ptr(),
            values.len(),
            waiting.as_mut_ptr(),
            waiting.len(),
            received.as_mut_ptr(),
            received.len(),
            state.as_mut_ptr(),
            state.len(),
        )
    }
}

pub fn step(board: u32, bytes: &[u8], [kind, number, stream]: [u32; 3], lent: Lent) -> u32 {
    // SAFETY: as above.
    unsafe {
        beqlanosh_step(
            board,
            bytes.as_ptr(),
            bytes.len(),
            kind,
            number,
            stream,
            lent.waiting.as_ptr(),
            lent.waiting.len(),
            lent.received.as_mut_ptr(),
            lent.received.len(),
            lent.state.as_mut_ptr(),
            lent.state.len(),
        )
    }
}

pub fn run(board: u32, bytes: &[u8], steps: u32, lent: Lent, answer: &mut [u32; 2]) -> u32 {
    // SAFETY: as above.
    unsafe {
        beqlanosh_run(
            board,
            bytes.as_ptr(),
            bytes.len(),
            steps,
            lent.waiting.as_ptr(),
            lent.waiting.len(),
            lent.received.as_mut_ptr(),
            lent.received.len(),
            lent.state.as_mut_ptr(),
            lent.state.len(),
            answer.as_mut_ptr(),
        )
    }
}

pub fn ready(
    board: u32,
    bytes: &[u8],
    words: &mut [u64],
    [waiting, received, state]: [&[u32]; 3],
    answer: &mut [u32; 2],
) -> u32 {
    // SAFETY: as above.
    unsafe {
        beqlanosh_ready(
            board,
            bytes.as_ptr(),
            bytes.len(),
            words.as_mut_ptr(),
            words.len(),
            waiting.as_ptr(),
            waiting.len(),
            received.as_ptr(),
            received.len(),
            state.as_ptr(),
            state.len(),
            answer.as_mut_ptr(),
        )
    }
}

pub fn window(
    board: u32,
    bytes: &[u8],
    [pipe, side]: [u32; 2],
    [waiting, received]: [&[u32]; 2],
    answer: &mut [u32; 2],
) -> u32 {
    // SAFETY: as above.
    unsafe {
        beqlanosh_window(
            board,
            bytes.as_ptr(),
            bytes.len(),
            pipe,
            side,
            waiting.as_ptr(),
            waiting.len(),
            received.as_ptr(),
            received.len(),
            answer.as_mut_ptr(),
        )
    }
}

pub fn result(
    board: u32,
    bytes: &[u8],
    output: &mut [u32],
    [waiting, received, state]: [&[u32]; 3],
) -> u32 {
    // SAFETY: as above.
    unsafe {
        beqlanosh_result(
            board,
            bytes.as_ptr(),
            bytes.len(),
            output.as_mut_ptr(),
            output.len(),
            waiting.as_ptr(),
            waiting.len(),
            received.as_ptr(),
            received.len(),
            state.as_ptr(),
            state.len(),
        )
    }
}

pub fn fill(seed: u32, n: usize, list: &mut [u32]) -> u32 {
    // SAFETY: as above.
    unsafe { beqlanosh_fill(seed, n, list.as_mut_ptr(), list.len()) }
}

pub fn make(
    seed: u32,
    [loops, streams, lines]: [u32; 3],
    output: &mut [u8],
    answer: &mut [u32; 1],
) -> u32 {
    // SAFETY: as above.
    unsafe {
        beqlanosh_make(
            seed,
            loops,
            streams,
            lines,
            output.as_mut_ptr(),
            output.len(),
            answer.as_mut_ptr(),
        )
    }
}
