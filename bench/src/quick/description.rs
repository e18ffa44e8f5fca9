//! The description: its bytes, then its words, each in its range. Refusals 33 and 1 to 5. Two loops stand as three, of which the third runs
//! from 0 to 0, with a second row (0, 0, 1) of place and of every index map.

use super::body::{Body, Line, Operation};

/// The most streams.
pub const STREAMS: usize = 6;

/// The words of a body line.
const LINE_WORDS: usize = 7;

/// An instance, or a vector between two.
pub type Vector = [i32; 3];

/// A point of the process space or of a stream's box, or a vector between two.
pub type Point = [i32; 2];

/// The two rows of place or of an index map.
pub type Matrix = [Vector; 2];

/// The limits of refusals 6, 10 and 14.
pub struct Limits {
    pub instances: i32,
    pub processes: i32,
    pub hop: i32,
}

impl Limits {
    /// The limits of the board that a word names; declines by 33.
    pub fn of(board: u32) -> Result<Limits, u32> {
        let (instances, processes) = match board {
            0 => (4096, 1024),
            1 => (1024, 256),
            _ => return Err(33),
        };
        Ok(Limits {
            instances,
            processes,
            hop: 5,
        })
    }
}

/// A description whose words are in their ranges. Past the streams in use everything is 0.
pub struct Description {
    pub loops: usize,
    pub streams: usize,
    pub left: Vector,
    pub right: Vector,
    pub directions: Vector,
    pub step: Vector,
    pub place: Matrix,
    pub maps: [Matrix; STREAMS],
    pub loading: [Point; STREAMS],
    pub body: Body,
}

impl Description {
    /// Reads a description; declines by 1 to 5.
    pub fn read(bytes: &[u8]) -> Result<Description, u32> {
        if bytes.len() < 12 {
            return Err(1);
        }
        let mut words = Words::new(bytes);
        let [loops, streams, lines] =
            [(2, 3), (1, 6), (1, 8)].map(|(least, greatest)| words.word(least, greatest) as usize);
        if !words.in_range {
            return Err(2);
        }
        if bytes.len() != 4 * words_of(loops, streams, lines) {
            return Err(3);
        }
        let description = words.description(loops, streams, lines);
        if !words.in_range {
            return Err(4);
        }
        let mut bounds = description.left.iter().zip(&description.right);
        if bounds.any(|(left, right)| left > right) {
            return Err(5);
        }
        Ok(description)
    }

    pub fn instances(&self) -> i32 {
        let bounds = self.left.iter().zip(self.right);
        bounds.map(|(left, right)| right - left + 1).product()
    }

    /// The first non-zero component of a line has the other sign than that loop's direction.
    pub fn against(&self, line: Vector) -> bool {
        let mut components = line.iter().zip(self.directions);
        let first = components.find(|(&word, _)| word != 0);
        first.is_some_and(|(word, direction)| word * direction < 0)
    }
}

/// The number of words that the sizes give, the sizes included.
pub fn words_of(loops: usize, streams: usize, lines: usize) -> usize {
    let matrix = (loops - 1) * loops;
    3 + 4 * loops + matrix + streams * (matrix + loops - 1) + LINE_WORDS * lines
}

/// Hands out the words in file order, and remembers whether all were in their ranges.
struct Words<'a> {
    rest: std::slice::ChunksExact<'a, u8>,
    in_range: bool,
}

impl Words<'_> {
    fn new(bytes: &[u8]) -> Words<'_> {
        Words {
            rest: bytes.chunks_exact(4),
            in_range: true,
        }
    }

    /// The next word, from least to greatest.
    fn word(&mut self, least: i32, greatest: i32) -> i32 {
        let bytes = self.rest.next().and_then(|bytes| bytes.try_into().ok());
        let word = bytes.map_or(0, i32::from_le_bytes);
        self.in_range &= least <= word && word <= greatest;
        word
    }

    /// So many words, and the same word after them.
    fn list<const N: usize>(&mut self, count: usize, reach: i32, other: i32) -> [i32; N] {
        let mut list = [other; N];
        for word in &mut list[..count] {
            *word = self.word(-reach, reach);
        }
        list
    }

    fn matrix(&mut self, loops: usize) -> Matrix {
        let mut matrix = [[0; 3], [0, 0, 1]];
        for row in &mut matrix[..loops - 1] {
            *row = self.list(loops, 4, 0);
        }
        matrix
    }

    fn description(&mut self, loops: usize, streams: usize, lines: usize) -> Description {
        let left = self.list(loops, 64, 0);
        let right = self.list(loops, 64, 0);
        let directions: Vector = self.list(loops, 1, 1);
        self.in_range &= !directions.contains(&0);
        let step = self.list(loops, 8, 0);
        let place = self.matrix(loops);
        let mut maps = [[[0; 3]; 2]; STREAMS];
        for map in &mut maps[..streams] {
            *map = self.matrix(loops);
        }
        let mut loading = [[0; 2]; STREAMS];
        for vector in &mut loading[..streams] {
            *vector = self.list(loops - 1, 1, 0);
        }
        let lines = (0..lines).map(|_| self.line(loops, streams)).collect();
        Description {
            loops,
            streams,
            left,
            right,
            directions,
            step,
            place,
            maps,
            loading,
            body: Body { lines },
        }
    }

    fn line(&mut self, loops: usize, streams: usize) -> Line {
        let last = streams as i32 + 1;
        let operation = Operation::of(self.word(0, 6));
        let [target, first, second] = [(); 3].map(|()| self.word(0, last) as usize);
        let index = self.word(0, loops as i32 - 1) as usize;
        let comparison = self.word(0, 3);
        let bound = self.word(-64, 64);
        let (low, high) = match comparison {
            1 => (bound, bound),
            2 => (i32::MIN, bound),
            3 => (bound, i32::MAX),
            _ => (i32::MIN, i32::MAX),
        };
        Line {
            operation,
            target,
            first,
            second,
            index,
            low,
            high,
        }
    }
}
