//! The network: where the words of a state stand, and which states are sound.

use super::description::STREAMS;
use super::lanes::Lane;
use super::pipes::{Array, Pipe};
use super::rules::{End, Port};

// The words of a port after its beginning.
pub const TAKEN: usize = 0;
pub const GIVEN: usize = 1;
pub const HAND: usize = 2;
pub const KEEP: usize = 3;
pub const LINK: usize = 4;

// The words of a pipe after its beginning.
pub const SENT: usize = 0;
pub const RECEIVED: usize = 1;
pub const LAST_LINK: usize = 2;

/// An array with the order of its state's words.
pub struct Network {
    pub array: Array,
    /// The words of a process, and where those of each stream begin among them.
    width: usize,
    offsets: [usize; STREAMS],
    /// Where the words of each stream's pipes begin.
    ends: [usize; STREAMS],
    /// How many there are.
    pub words: usize,
}

impl Network {
    pub fn new(array: Array) -> Network {
        let (mut width, mut offsets, mut ends) = (1, [0; STREAMS], [0; STREAMS]);
        for (offset, stream) in offsets.iter_mut().zip(&array.nest.streams) {
            *offset = width;
            width += LINK + stream.hop as usize;
        }
        let mut words = width * array.processes.len();
        for (number, stream) in array.nest.streams.iter().enumerate() {
            ends[number] = words;
            words += array.pipes_of(number).len() * (LAST_LINK + stream.hop as usize);
        }
        Network {
            array,
            width,
            offsets,
            ends,
            words,
        }
    }

    pub fn streams(&self) -> usize {
        self.array.nest.streams.len()
    }

    /// Where the words of a process begin, its firings.
    pub fn fired(&self, process: usize) -> usize {
        process * self.width
    }

    /// Where the words of a port begin.
    fn at(&self, process: usize, stream: usize) -> usize {
        process * self.width + self.offsets[stream]
    }

    /// Where the words of a pipe begin.
    pub fn pipe_at(&self, number: usize) -> usize {
        let stream = self.array.pipes[number].stream;
        let before = number - self.array.pipes_of(stream).start;
        self.ends[stream] + before * (LAST_LINK + self.array.nest.streams[stream].hop as usize)
    }
}

// Sound states.

impl Network {
    /// Each count is at most its total, each link holds at most its places, and taken and given go together.
    pub fn sound(&self, state: &[u32]) -> bool {
        let processes = self.array.processes.iter().enumerate();
        let mut firings =
            processes.map(|(number, process)| state[self.fired(number)] <= process.count);
        let mut pipes = self.array.pipes.iter().enumerate();
        let mut empty = self.array.empty.iter();
        firings.all(|sound| sound)
            && pipes.all(|(number, pipe)| self.pipe_sound(state, number, pipe))
            && empty.all(|&(stream, lane)| self.lane_empty(state, stream, lane))
    }

    fn pipe_sound(&self, state: &[u32], number: usize, pipe: &Pipe) -> bool {
        let (stream, total) = (&self.array.nest.streams[pipe.stream], pipe.elements);
        let end = self.pipe_at(number);
        let (mut put, received) = (state[end + SENT], state[end + RECEIVED]);
        let mut sound = put <= total && received <= total;
        for process in pipe.lane.numbers() {
            let at = self.at(process, pipe.stream);
            let (taken, given) = (state[at + TAKEN], state[at + GIVEN]);
            let keeps = !stream.moving && self.array.processes[process].count > 0;
            let between = keeps && taken > 0 && given < total;
            let excess = taken.wrapping_sub(given).wrapping_sub(u32::from(between));
            sound &= taken <= total && given <= total && excess <= u32::from(!keeps || between);
            sound &= put.wrapping_sub(taken) <= stream.hop;
            put = given;
        }
        sound && put.wrapping_sub(received) <= stream.hop
    }

    /// Without a pipe the totals are 0.
    fn lane_empty(&self, state: &[u32], stream: usize, lane: Lane) -> bool {
        let mut places = lane.numbers().map(|process| self.at(process, stream));
        places.all(|at| state[at + TAKEN] == 0 && state[at + GIVEN] == 0)
    }
}

// Rows.

impl Network {
    /// The row of a process at a place of a pipe, of whose processes so many compute before it.
    #[inline]
    fn port(&self, number: usize, pipe: &Pipe, place: usize, before: u32) -> Port {
        let process = pipe.lane.at(place);
        let (at, end) = (self.at(process, pipe.stream), self.pipe_at(number));
        let stride = pipe.lane.stride.wrapping_mul(self.width);
        let stream = &self.array.nest.streams[pipe.stream];
        let row = &self.array.processes[process];
        let (first, last) = (place == 0, place + 1 == pipe.lane.processes);
        let (after, room) = if last {
            (end + RECEIVED, end + LAST_LINK)
        } else {
            let next = at.wrapping_add(stride);
            (next + TAKEN, next + LINK)
        };
        let soak = self.array.soak(pipe, row, before);
        Port {
            at: at as u32,
            before: if first {
                end + SENT
            } else {
                at.wrapping_sub(stride) + GIVEN
            } as u32,
            after: after as u32,
            room: room as u32,
            fired: self.fired(process) as u32,
            soak: if row.count > 0 { soak } else { pipe.elements },
            count: row.count,
            total: pipe.elements,
            pipe: number as u32,
            hop: stream.hop as u8,
            keeps: !stream.moving && row.count > 0,
            first,
            last,
        }
    }

    /// The rows of all processes of a pipe, with their places.
    #[inline]
    pub fn each_port(&self, number: usize, mut visit: impl FnMut(usize, Port)) {
        let pipe = &self.array.pipes[number];
        let mut before = 0;
        for place in 0..pipe.lane.processes {
            let port = self.port(number, pipe, place, before);
            before += u32::from(port.count > 0);
            visit(place, port);
        }
    }

    /// The row of a process on a pipe of a stream, if it is on one.
    pub fn port_of(&self, process: usize, stream: usize) -> Option<Port> {
        let (number, place) = self.array.locate(process, stream)?;
        let pipe = &self.array.pipes[number];
        let others = pipe.lane.numbers().take(place);
        let computing = others.filter(|&other| self.array.processes[other].count > 0);
        Some(self.port(number, pipe, place, computing.count() as u32))
    }

    /// The row of a pipe's two ends.
    pub fn end(&self, number: usize) -> End {
        let pipe = &self.array.pipes[number];
        let end = self.pipe_at(number);
        let (first, last) = (pipe.lane.entry, pipe.lane.at(pipe.lane.processes - 1));
        let entry = self.at(first, pipe.stream);
        End {
            at: end as u32,
            after: (entry + TAKEN) as u32,
            room: (entry + LINK) as u32,
            before: (self.at(last, pipe.stream) + GIVEN) as u32,
            total: pipe.elements,
            part: pipe.part as u32,
            hop: self.array.nest.streams[pipe.stream].hop,
            stream: pipe.stream as u32,
            first: first as u32,
            last: last as u32,
        }
    }
}
