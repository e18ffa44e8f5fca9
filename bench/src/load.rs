//! Fill and Make (request 2.3) as they are measured.

use std::hint::black_box;

use reference::generator;
use reference::number_of;

use crate::sides::{Bytes, Side};

/// The seed of all of them.
const SEED: u32 = 1;

/// As many values as an array has elements at most, and more bytes than a description has.
const VALUES: usize = 24_576;
const OUTPUT: usize = 512;

/// What a load is told besides its seed.
#[derive(Clone, Copy)]
enum Told {
    Fill(usize),
    Make([u32; 3]),
}

/// A call with what it writes.
pub struct Load {
    pub name: &'static str,
    /// The name of its call.
    pub call: &'static str,
    told: Told,
    list: Vec<u32>,
    output: Vec<u8>,
    answer: Bytes,
}

impl Load {
    /// As many values as can be needed, and the shortest and the longest description.
    pub fn all() -> [Load; 3] {
        [
            ("24576 values", "fill", Told::Fill(VALUES)),
            ("sizes 2 1 1", "make", Told::Make([2, 1, 1])),
            ("sizes 3 6 8", "make", Told::Make([3, 6, 8])),
        ]
        .map(|(name, call, told)| Load {
            name,
            call,
            told,
            list: vec![0; VALUES],
            output: vec![0; OUTPUT],
            answer: [0],
        })
    }

    pub fn named(name: &str) -> Option<Load> {
        Load::all().into_iter().find(|load| load.name == name)
    }

    /// How many calls are timed as one, so that looking at the clock counts for little.
    pub fn repeats(&self) -> u32 {
        match self.told {
            Told::Fill(_) => 1,
            Told::Make(_) => 200,
        }
    }

    /// Does the call; its number.
    pub fn call(&mut self, side: &Side) -> u32 {
        let seed = black_box(SEED);
        match black_box(self.told) {
            Told::Fill(n) => (side.fill)(seed, n, &mut self.list),
            Told::Make(sizes) => (side.make)(seed, sizes, &mut self.output, &mut self.answer),
        }
    }

    /// Does the call of the second implementation; its number.
    pub fn reference_call(&mut self) -> u32 {
        let seed = black_box(SEED);
        match black_box(self.told) {
            Told::Fill(n) => number_of(generator::fill(seed, n, &mut self.list)),
            Told::Make(sizes) => number_of(generator::make(seed, sizes, &mut self.output)),
        }
    }
}
