//! Request 2.4: the walk, which goes through the instances process by process in row order, along each process's own line from first to
//! last.

use std::iter::successors;

use crate::geometry::{Nest, Process};
use crate::vectors::Point;
use crate::Refusal;

/// The instances in the order of the walk.
pub fn walk(nest: &Nest) -> Vec<Point> {
    let processes = nest.processes.iter();
    processes
        .flat_map(|process| along(process, &nest.increment.vector))
        .collect()
}

/// The walk of a description for the board that a word names; declines by 33, then by 1 to 10, whatever its streams are.
pub fn walk_on(board: u32, description: &[u8]) -> Result<Vec<Point>, Refusal> {
    Nest::on(board, description).map(|nest| walk(&nest))
}

/// The instances of a process from first, by the increment, to last; none if it is null.
fn along<'a>(process: &'a Process, increment: &'a [i32]) -> impl Iterator<Item = Point> + 'a {
    let (first, last) = (process.instances.first(), process.instances.last());
    successors(first.cloned(), move |instance| {
        (Some(instance) != last).then(|| after(instance, increment))
    })
}

/// The point that is one increment on.
fn after(instance: &[i32], increment: &[i32]) -> Point {
    let words = instance.iter().zip(increment);
    words.map(|(word, step)| word + step).collect()
}
