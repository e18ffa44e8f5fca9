//! The pipes of each stream, with their elements.

use std::ops::Range;

use super::boxes::{dot, times, Extent};
use super::description::{Point, Vector, STREAMS};
use super::lanes::{lanes, stride, Lane};
use super::nest::{Nest, Stream};
use super::processes::{processes, Process};

/// A lane that has a computing process.
#[derive(Clone, Copy)]
pub struct Pipe {
    pub stream: usize,
    pub lane: Lane,
    /// How many elements it has.
    pub elements: u32,
    /// Where its part of the waiting and received lists begins.
    pub part: usize,
    /// Of a moving stream: its first element, as a number in element order and by the stream's measure.
    first: usize,
    measure: i32,
}

/// The pass of a moving stream, index map times increment: from an element of a pipe to the next.
#[derive(Clone, Copy, Default)]
struct Pass {
    vector: Point,
    /// What it adds to a number in element order.
    number: usize,
    /// The row that measures elements: one of the index map's, turned so that the pass adds something to its value.
    row: Vector,
    /// What it adds.
    measure: i32,
}

impl Pass {
    /// The measure is by the row to which the pass adds the least, mostly 1.
    fn of(nest: &Nest, stream: &Stream) -> Pass {
        let vector = times(&stream.map, nest.increment);
        let axis =
            usize::from(vector[0] == 0 || vector[1] != 0 && vector[1].abs() < vector[0].abs());
        let sign = vector[axis].signum();
        Pass {
            vector,
            number: (vector[0] * stream.extent.sides[1] + vector[1]) as usize,
            row: stream.map[axis].map(|word| sign * word),
            measure: vector[axis].abs(),
        }
    }
}

/// An accepted description with its processes and pipes.
pub struct Array {
    pub nest: Nest,
    /// In row order.
    pub processes: Vec<Process>,
    /// By stream, then entry in row order.
    pub pipes: Vec<Pipe>,
    /// The lanes without a computing process, with their streams.
    pub empty: Vec<(usize, Lane)>,
    /// The number of the first pipe of each stream, and of all pipes.
    starts: [usize; STREAMS + 1],
    passes: [Pass; STREAMS],
}

impl Array {
    /// Declines by 33, then by 1 to 17.
    pub fn of(board: u32, bytes: &[u8]) -> Result<Array, u32> {
        let nest = Nest::of(board, bytes)?;
        let mut array = Array {
            processes: processes(&nest),
            pipes: Vec::new(),
            empty: Vec::new(),
            starts: [0; STREAMS + 1],
            passes: [Pass::default(); STREAMS],
            nest,
        };
        for number in 0..array.nest.streams.len() {
            array.lay_pipes(number);
        }
        Ok(array)
    }

    /// The numbers of a stream's pipes.
    pub fn pipes_of(&self, stream: usize) -> Range<usize> {
        self.starts[stream]..self.starts[stream + 1]
    }

    fn lay_pipes(&mut self, number: usize) {
        let stream = &self.nest.streams[number];
        if stream.moving {
            self.passes[number] = Pass::of(&self.nest, stream);
        }
        let mut part = self
            .pipes
            .last()
            .map_or(0, |pipe| pipe.part + pipe.elements as usize);
        for lane in lanes(self.nest.space.sides, stream.travel) {
            match self.pipe(number, lane, part) {
                Some(pipe) => {
                    part += pipe.elements as usize;
                    self.pipes.push(pipe);
                }
                None => self.empty.push((number, lane)),
            }
        }
        self.starts[number + 1..].fill(self.pipes.len());
    }

    /// The pipe on a lane, if some process computes there.
    fn pipe(&self, number: usize, lane: Lane, part: usize) -> Option<Pipe> {
        let computes = |process: &usize| self.processes[*process].count > 0;
        let one = lane.numbers().find(computes)?;
        let stream = &self.nest.streams[number];
        let mut pipe = Pipe {
            stream: number,
            lane,
            elements: 0,
            part,
            first: 0,
            measure: 0,
        };
        if stream.moving {
            let pass = &self.passes[number];
            let instance = self.processes[one].first;
            let element = times(&stream.map, instance);
            let before = stream.extent.room(element, pass.vector.map(|word| -word));
            let after = stream.extent.room(element, pass.vector);
            pipe.elements = (before + 1 + after) as u32;
            let back = (before as usize).wrapping_mul(pass.number);
            pipe.first = (stream.start + stream.numbering.of(instance)).wrapping_sub(back);
            pipe.measure = dot(pass.row, instance) - before * pass.measure;
        } else {
            pipe.elements = lane.numbers().filter(computes).count() as u32;
        }
        Some(pipe)
    }

    /// The soak of a process that computes; of a stationary stream so many compute before it.
    #[inline]
    pub fn soak(&self, pipe: &Pipe, process: &Process, before: u32) -> u32 {
        if self.nest.streams[pipe.stream].moving {
            let pass = &self.passes[pipe.stream];
            let further = (dot(pass.row, process.first) - pipe.measure) as u32;
            match pass.measure {
                1 => further,
                measure => further / measure as u32,
            }
        } else {
            before
        }
    }

    /// How many elements of its pipe a process that computes uses.
    pub fn used(&self, pipe: &Pipe, process: &Process) -> u32 {
        match self.nest.streams[pipe.stream].moving {
            true => process.count,
            false => 1,
        }
    }

    /// The instance of a process after so many others.
    pub fn instance(&self, process: &Process, number: u32) -> Vector {
        let mut instance = process.first;
        for (index, step) in instance.iter_mut().zip(self.nest.increment) {
            *index += number as i32 * step;
        }
        instance
    }

    /// The elements of a pipe in its order, by their numbers in element order.
    pub fn each_element(&self, pipe: &Pipe, mut visit: impl FnMut(usize)) {
        let stream = &self.nest.streams[pipe.stream];
        if stream.moving {
            let stride = self.passes[pipe.stream].number;
            let mut element = pipe.first;
            for _ in 0..pipe.elements {
                visit(element);
                element = element.wrapping_add(stride);
            }
        } else {
            for process in pipe.lane.numbers().map(|number| &self.processes[number]) {
                if process.count > 0 {
                    visit(stream.start + stream.numbering.of(process.first));
                }
            }
        }
    }

    /// The pipe of a stream that a process is on, if it is on one, and its place there.
    pub fn locate(&self, process: usize, stream: usize) -> Option<(usize, usize)> {
        let sides = self.nest.space.sides;
        let point = [process as i32 / sides[1], process as i32 % sides[1]];
        let space = Extent { low: [0; 2], sides };
        let travel = self.nest.streams[stream].travel;
        let place = space.room(point, travel.map(|word| -word)) as usize;
        let back = place.wrapping_mul(stride(sides, travel));
        let entry = process.wrapping_sub(back);
        let range = self.pipes_of(stream);
        let found = self.pipes[range.clone()].binary_search_by_key(&entry, |pipe| pipe.lane.entry);
        found.ok().map(|number| (range.start + number, place))
    }
}
