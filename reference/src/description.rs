//! The description: bytes, then words, then a `Description`. Refusals 1 to 5.

use crate::body::{Comparison, Guard, Line, Operation};
use crate::{demand, Refusal};

/// Rows of words.
pub type Matrix = Vec<Vec<i32>>;

/// The words of a body line: operation, target, first and second operand, and its guard's loop number, comparison and bound.
pub const LINE_WORDS: usize = 7;

/// A loop nest with its layout in time and place, every word within its range.
#[derive(Clone, Debug, PartialEq, Eq)]
pub struct Description {
    /// Left bounds, one for each loop.
    pub left: Vec<i32>,
    /// Right bounds, one for each loop.
    pub right: Vec<i32>,
    /// Directions, 1 or −1.
    pub directions: Vec<i32>,
    /// Step coefficients.
    pub step: Vec<i32>,
    /// Place, a row fewer than there are loops.
    pub place: Matrix,
    /// The index map of each stream.
    pub maps: Vec<Matrix>,
    /// The loading vector of each stream.
    pub loading: Vec<Vec<i32>>,
    /// The body lines.
    pub body: Vec<Line>,
}

impl Description {
    /// The number of loops, r.
    pub fn loops(&self) -> usize {
        self.left.len()
    }

    /// The number of streams, m.
    pub fn streams(&self) -> usize {
        self.maps.len()
    }

    /// A stream is written if it is some line's target.
    pub fn written(&self, stream: usize) -> bool {
        self.body.iter().any(|line| line.target == stream)
    }

    /// Reads a description; declines by 1 to 5.
    pub fn read(bytes: &[u8]) -> Result<Description, Refusal> {
        demand(bytes.len() >= 12, 1)?;
        let words = words_of(bytes);
        let sizes = Sizes::of([words[0], words[1], words[2]])?;
        demand(bytes.len() == 4 * sizes.words(), 3)?;
        let description = read_words(&sizes, &words[3..])?;
        let bounds = description.left.iter().zip(&description.right);
        demand(bounds.into_iter().all(|(left, right)| left <= right), 5)?;
        Ok(description)
    }

    /// The words of the description in file order.
    pub fn words(&self) -> Vec<i32> {
        let mut words = vec![
            self.loops() as i32,
            self.streams() as i32,
            self.body.len() as i32,
        ];
        for part in [&self.left, &self.right, &self.directions, &self.step] {
            words.extend(part);
        }
        words.extend(self.place.iter().flatten());
        words.extend(self.maps.iter().flatten().flatten());
        words.extend(self.loading.iter().flatten());
        words.extend(self.body.iter().flat_map(line_words));
        words
    }

    /// The bytes of the description.
    pub fn bytes(&self) -> Vec<u8> {
        bytes_of(&self.words())
    }
}

/// The words of a line in file order.
fn line_words(line: &Line) -> [i32; LINE_WORDS] {
    [
        line.operation.word(),
        line.target as i32,
        line.first as i32,
        line.second as i32,
        line.guard.loop_number as i32,
        line.guard.comparison.word(),
        line.guard.bound,
    ]
}

/// Words as bytes, least byte first.
pub fn bytes_of(words: &[i32]) -> Vec<u8> {
    words.iter().flat_map(|word| word.to_le_bytes()).collect()
}

/// The whole words of bytes, least byte first.
pub fn words_of(bytes: &[u8]) -> Vec<i32> {
    let word = |bytes: &[u8]| i32::from_le_bytes([bytes[0], bytes[1], bytes[2], bytes[3]]);
    bytes.chunks_exact(4).map(word).collect()
}

/// The first three words.
pub struct Sizes {
    pub loops: usize,
    pub streams: usize,
    pub lines: usize,
}

impl Sizes {
    /// The sizes that the three words name; declines by 2.
    pub fn of([loops, streams, lines]: [i32; 3]) -> Result<Sizes, Refusal> {
        let size = |word: i32, least: i32, greatest: i32| {
            demand(least <= word && word <= greatest, 2).map(|()| word as usize)
        };
        Ok(Sizes {
            loops: size(loops, 2, 3)?,
            streams: size(streams, 1, 6)?,
            lines: size(lines, 1, 8)?,
        })
    }

    /// The number of words that the sizes give, the sizes included.
    fn words(&self) -> usize {
        let vectors = 4 * self.loops;
        let matrix = (self.loops - 1) * self.loops;
        let loading = self.loops - 1;
        3 + vectors + matrix + self.streams * (matrix + loading) + LINE_WORDS * self.lines
    }
}

/// Reads the words after the sizes; declines by 4.
fn read_words(sizes: &Sizes, words: &[i32]) -> Result<Description, Refusal> {
    let mut reader = Reader { words };
    let rows = sizes.loops - 1;
    let left = reader.list(sizes.loops, -64, 64)?;
    let right = reader.list(sizes.loops, -64, 64)?;
    let directions = reader.list(sizes.loops, -1, 1)?;
    demand(directions.iter().all(|&direction| direction != 0), 4)?;
    let step = reader.list(sizes.loops, -8, 8)?;
    let place = reader.matrix(rows, sizes.loops)?;
    let maps = (0..sizes.streams).map(|_| reader.matrix(rows, sizes.loops));
    let maps = maps.collect::<Result<_, _>>()?;
    let loading = (0..sizes.streams).map(|_| reader.list(rows, -1, 1));
    let loading = loading.collect::<Result<_, _>>()?;
    let body = (0..sizes.lines).map(|_| reader.line(sizes));
    let body = body.collect::<Result<_, _>>()?;
    Ok(Description {
        left,
        right,
        directions,
        step,
        place,
        maps,
        loading,
        body,
    })
}

/// Hands out the words in file order, each checked against its range.
struct Reader<'a> {
    words: &'a [i32],
}

impl Reader<'_> {
    /// The next word, from least to greatest.
    fn word(&mut self, least: i32, greatest: i32) -> Result<i32, Refusal> {
        let (&word, rest) = self.words.split_first().ok_or(Refusal(3))?;
        self.words = rest;
        demand(least <= word && word <= greatest, 4)?;
        Ok(word)
    }

    fn list(&mut self, length: usize, least: i32, greatest: i32) -> Result<Vec<i32>, Refusal> {
        (0..length).map(|_| self.word(least, greatest)).collect()
    }

    /// Matrix words run from −4 to 4.
    fn matrix(&mut self, rows: usize, columns: usize) -> Result<Matrix, Refusal> {
        (0..rows).map(|_| self.list(columns, -4, 4)).collect()
    }

    /// A word that names something, from 0 to the last.
    fn number(&mut self, last: usize) -> Result<usize, Refusal> {
        self.word(0, last as i32).map(|word| word as usize)
    }

    /// A body line; targets and operands run from 0 to m+1.
    fn line(&mut self, sizes: &Sizes) -> Result<Line, Refusal> {
        Ok(Line {
            operation: Operation::of_word(self.word(0, 6)?).ok_or(Refusal(4))?,
            target: self.number(sizes.streams + 1)?,
            first: self.number(sizes.streams + 1)?,
            second: self.number(sizes.streams + 1)?,
            guard: self.guard(sizes.loops)?,
        })
    }

    /// A line's guard; loop number and bound have their ranges under comparison 0 too.
    fn guard(&mut self, loops: usize) -> Result<Guard, Refusal> {
        Ok(Guard {
            loop_number: self.number(loops - 1)?,
            comparison: Comparison::of_word(self.word(0, 3)?).ok_or(Refusal(4))?,
            bound: self.word(-64, 64)?,
        })
    }
}
