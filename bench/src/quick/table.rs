//! Table: a row of 21 words for each process.

use super::description::Vector;
use super::pipes::Array;
use super::processes::Process;

/// The words of a row, and where its parts begin: point, count, first, last, soak, drain.
pub const ROW_WORDS: usize = 21;
const COUNT: usize = 2;
const FIRST: usize = 3;
const LAST: usize = 6;
const SOAK: usize = 9;
const DRAIN: usize = 15;

/// Writes the rows of all processes, which have room.
pub fn write(array: &Array, words: &mut [u32]) {
    let [low, sides] = [array.nest.space.low, array.nest.space.sides];
    let mut rows = words.chunks_exact_mut(ROW_WORDS).zip(&array.processes);
    for y in 0..sides[0] {
        for z in 0..sides[1] {
            if let Some((row, process)) = rows.next() {
                write_start(array, row, process);
                row[0] = (low[0] + y) as u32;
                row[1] = (low[1] + z) as u32;
            }
        }
    }
    for pipe in &array.pipes {
        let mut before = 0;
        for number in pipe.lane.numbers() {
            let (process, row) = (&array.processes[number], &mut words[ROW_WORDS * number..]);
            if process.count > 0 {
                let soak = array.soak(pipe, process, before);
                row[SOAK + pipe.stream] = soak;
                row[DRAIN + pipe.stream] = pipe.elements - soak - array.used(pipe, process);
                before += 1;
            } else {
                row[SOAK + pipe.stream] = pipe.elements;
            }
        }
    }
}

/// Count, first and last; zeros after them.
fn write_start(array: &Array, row: &mut [u32], process: &Process) {
    row.fill(0);
    row[COUNT] = process.count;
    if process.count > 0 {
        let last = array.instance(process, process.count - 1);
        write_instance(&mut row[FIRST..], process.first);
        write_instance(&mut row[LAST..], last);
    }
}

/// A signed number as its 32 bits.
fn write_instance(words: &mut [u32], instance: Vector) {
    for (word, index) in words.iter_mut().zip(instance) {
        *word = index as u32;
    }
}
