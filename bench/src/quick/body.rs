//! The body: its operations, its guards, and one instance.

use super::description::Vector;

/// Six streams and two numbers of scratch.
pub const REGISTERS: usize = 8;

/// What a line does with its operands.
#[derive(Clone, Copy)]
pub enum Operation {
    Copy,
    Add,
    Subtract,
    Multiply,
    Smaller,
    Larger,
    FixedMultiply,
}

impl Operation {
    /// The operation of a word; any of a word out of range, which is declined.
    pub fn of(word: i32) -> Operation {
        match word {
            1 => Operation::Add,
            2 => Operation::Subtract,
            3 => Operation::Multiply,
            4 => Operation::Smaller,
            5 => Operation::Larger,
            6 => Operation::FixedMultiply,
            _ => Operation::Copy,
        }
    }

    fn apply(self, first: u32, second: u32) -> u32 {
        match self {
            Operation::Copy => first,
            Operation::Add => first.wrapping_add(second),
            Operation::Subtract => first.wrapping_sub(second),
            Operation::Multiply => first.wrapping_mul(second),
            Operation::Smaller => first.min(second),
            Operation::Larger => first.max(second),
            Operation::FixedMultiply => ((u64::from(first) * u64::from(second)) >> 16) as u32,
        }
    }
}

/// A body line; it runs in the instances whose index of that number is from low to high.
pub struct Line {
    pub operation: Operation,
    pub target: usize,
    pub first: usize,
    pub second: usize,
    pub index: usize,
    pub low: i32,
    pub high: i32,
}

pub struct Body {
    pub lines: Vec<Line>,
}

impl Body {
    /// A stream is written if it is some line's target.
    pub fn writes(&self, stream: usize) -> bool {
        self.lines.iter().any(|line| line.target == stream)
    }

    /// Runs the lines in order on one value for each stream and on scratch.
    #[inline]
    pub fn run(&self, instance: Vector, registers: &mut [u32; REGISTERS]) {
        for line in &self.lines {
            let index = instance[line.index];
            if line.low <= index && index <= line.high {
                let (first, second) = (registers[line.first], registers[line.second]);
                registers[line.target] = line.operation.apply(first, second);
            }
        }
    }
}
