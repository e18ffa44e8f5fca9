//! The processes with their instances.

use super::description::Vector;
use super::nest::Nest;

/// A process: its first instance and how many it has; it is null if it has none.
#[derive(Clone, Copy, Default)]
pub struct Process {
    pub first: Vector,
    pub count: u32,
}

/// Counts the instances of each process in one pass, which comes to its first before its others.
pub fn processes(nest: &Nest) -> Vec<Process> {
    let mut processes = vec![Process::default(); nest.space.size() as usize];
    let (left, right) = (nest.description.left, nest.description.right);
    let upwards = nest.increment > [0; 3];
    let (from, sign) = if upwards { (left, 1) } else { (right, -1) };
    let strides = nest
        .numbering
        .strides
        .map(|stride| (sign * stride) as usize);
    let sides = [0, 1, 2].map(|number| right[number] - left[number] + 1);
    let mut outer = nest.numbering.of(from);
    for i in 0..sides[0] {
        let mut middle = outer;
        for j in 0..sides[1] {
            let mut number = middle;
            for k in 0..sides[2] {
                let process = &mut processes[number];
                if process.count == 0 {
                    process.first = [from[0] + sign * i, from[1] + sign * j, from[2] + sign * k];
                }
                process.count += 1;
                number = number.wrapping_add(strides[2]);
            }
            middle = middle.wrapping_add(strides[1]);
        }
        outer = outer.wrapping_add(strides[0]);
    }
    processes
}
