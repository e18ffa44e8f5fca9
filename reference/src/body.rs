//! The body: its operations, its guards, one instance, and the plain run.

use crate::geometry::Array;

/// What a line does with its operands.
#[derive(Clone, Copy, Debug, PartialEq, Eq, PartialOrd, Ord)]
pub enum Operation {
    Copy,
    Add,
    Subtract,
    Multiply,
    Smaller,
    Larger,
    FixedMultiply,
}

impl Operation {
    /// The operations in the order of their words.
    pub const ALL: [Operation; 7] = [
        Operation::Copy,
        Operation::Add,
        Operation::Subtract,
        Operation::Multiply,
        Operation::Smaller,
        Operation::Larger,
        Operation::FixedMultiply,
    ];

    /// The operation of a word, if it has one.
    pub fn of_word(word: i32) -> Option<Operation> {
        numbered(&Operation::ALL, word)
    }

    /// The word of an operation.
    pub fn word(self) -> i32 {
        self as i32
    }

    /// Values are unsigned 32-bit and arithmetic is modulo 2^32.
    pub fn apply(self, first: u32, second: u32) -> u32 {
        match self {
            Operation::Copy => first,
            Operation::Add => first.wrapping_add(second),
            Operation::Subtract => first.wrapping_sub(second),
            Operation::Multiply => first.wrapping_mul(second),
            Operation::Smaller => first.min(second),
            Operation::Larger => first.max(second),
            Operation::FixedMultiply => fixed_product(first, second),
        }
    }
}

/// Two words as unsigned 16.16 numbers: the exact product is divided by 2^16, rounded down, and taken modulo 2^32.
fn fixed_product(first: u32, second: u32) -> u32 {
    let exact = u128::from(first) * u128::from(second);
    ((exact >> 16) % (1 << 32)) as u32
}

/// How a guard compares an index with its bound.
#[derive(Clone, Copy, Debug, PartialEq, Eq, PartialOrd, Ord)]
pub enum Comparison {
    Always,
    Equal,
    AtMost,
    AtLeast,
}

impl Comparison {
    /// The comparisons in the order of their words.
    pub const ALL: [Comparison; 4] = [
        Comparison::Always,
        Comparison::Equal,
        Comparison::AtMost,
        Comparison::AtLeast,
    ];

    /// The comparison of a word, if it has one.
    pub fn of_word(word: i32) -> Option<Comparison> {
        numbered(&Comparison::ALL, word)
    }

    /// The word of a comparison.
    pub fn word(self) -> i32 {
        self as i32
    }

    /// The index compares so with the bound.
    pub fn holds(self, index: i32, bound: i32) -> bool {
        match self {
            Comparison::Always => true,
            Comparison::Equal => index == bound,
            Comparison::AtMost => index <= bound,
            Comparison::AtLeast => index >= bound,
        }
    }
}

/// One of a list by its number, if it has so many.
fn numbered<T: Copy>(all: &[T], word: i32) -> Option<T> {
    let number = usize::try_from(word).ok()?;
    all.get(number).copied()
}

/// A line's guard: the line runs only if that index of the instance compares so with the bound.
#[derive(Clone, Copy, Debug, PartialEq, Eq)]
pub struct Guard {
    pub loop_number: usize,
    pub comparison: Comparison,
    pub bound: i32,
}

impl Guard {
    /// The guard of a line that runs in every instance.
    pub const ALWAYS: Guard = Guard::new(0, Comparison::Always, 0);

    pub const fn new(loop_number: usize, comparison: Comparison, bound: i32) -> Guard {
        Guard {
            loop_number,
            comparison,
            bound,
        }
    }

    /// The line runs in the instance.
    pub fn lets_run(&self, instance: &[i32]) -> bool {
        self.comparison
            .holds(instance[self.loop_number], self.bound)
    }
}

/// A body line. The two numbers after the streams are scratch.
#[derive(Clone, Copy, Debug, PartialEq, Eq)]
pub struct Line {
    pub operation: Operation,
    pub target: usize,
    pub first: usize,
    pub second: usize,
    pub guard: Guard,
}

impl Line {
    /// A line that runs in every instance.
    pub fn always(operation: Operation, target: usize, first: usize, second: usize) -> Line {
        Line {
            operation,
            target,
            first,
            second,
            guard: Guard::ALWAYS,
        }
    }

    /// The line under a guard.
    pub fn under(self, guard: Guard) -> Line {
        Line { guard, ..self }
    }
}

/// Runs the lines in order on one value for each stream; scratch is zero at the start, and a line that does not run leaves its target.
pub fn run_instance(body: &[Line], instance: &[i32], values: &mut Vec<u32>) {
    let streams = values.len();
    values.extend([0, 0]);
    for line in body.iter().filter(|line| line.guard.lets_run(instance)) {
        let value = line
            .operation
            .apply(values[line.first], values[line.second]);
        values[line.target] = value;
    }
    values.truncate(streams);
}

/// The final values: what the plain run leaves in each element, in element order.
pub fn plain_run(array: &Array, values: &[u32]) -> Vec<u32> {
    let mut elements = values.to_vec();
    for instance in &array.instances {
        let used: Vec<usize> = (0..array.streams.len())
            .map(|stream| array.element(stream, instance))
            .collect();
        let mut hands: Vec<u32> = used.iter().map(|&element| elements[element]).collect();
        run_instance(&array.description.body, instance, &mut hands);
        for (&element, value) in used.iter().zip(hands) {
            elements[element] = value;
        }
    }
    elements
}
