//! The text of the walk program.

use crate::geometry::Nest;
use crate::vectors::{dot, times};
use crate::walk::walk;

/// A line with the numbers of processes and instances, then a line for each instance in the order of the walk: its process's point (y), its
/// step (t) and itself (x); or the refusal.
pub fn walk_text(board: u32, description: &[u8]) -> String {
    let nest = match Nest::on(board, description) {
        Ok(nest) => nest,
        Err(refusal) => return format!("{refusal}\n"),
    };
    let (processes, instances) = (nest.processes.len(), nest.instances.len());
    let mut text = format!("processes {processes} instances {instances}\n");
    for instance in walk(&nest) {
        text.push_str(&instance_text(&nest, &instance));
    }
    text
}

/// The line of an instance.
fn instance_text(nest: &Nest, instance: &[i32]) -> String {
    let point = numbers(&times(&nest.description.place, instance));
    let step = dot(&nest.description.step, instance);
    let instance = numbers(instance);
    format!("y{point} t {step} x{instance}\n")
}

/// Numbers in decimal, each behind a blank.
fn numbers(list: &[i32]) -> String {
    list.iter().map(|number| format!(" {number}")).collect()
}
