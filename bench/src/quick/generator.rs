//! The generated load of request 2.3: Fill and Make.

use std::slice::ChunksExactMut;

use super::demand;
use super::description::words_of;

/// A round of Marsaglia's generator.
fn round(mut state: u32) -> u32 {
    state ^= state << 13;
    state ^= state >> 17;
    state ^= state << 5;
    state
}

/// Fills the first n places; declines by 29 and 31.
pub fn fill(seed: u32, n: usize, list: &mut [u32]) -> Result<(), u32> {
    demand(seed != 0, 29)?;
    let places = list.get_mut(..n).ok_or(31_u32)?;
    let mut state = seed;
    for place in places {
        state = round(state);
        *place = state;
    }
    Ok(())
}

/// Makes a description and answers its number of bytes; declines by 29, 30 and 31.
pub fn make(seed: u32, sizes: [u32; 3], output: &mut [u8]) -> Result<usize, u32> {
    demand(seed != 0, 29)?;
    let [loops, streams, lines] = sizes;
    let within = matches!((loops, streams, lines), (2..=3, 1..=6, 1..=8));
    demand(within, 30)?;
    let bytes = 4 * words_of(loops as usize, streams as usize, lines as usize);
    let output = output.get_mut(..bytes).ok_or(31_u32)?;
    let mut places = output.chunks_exact_mut(4);
    for (size, place) in sizes.into_iter().zip(places.by_ref()) {
        place.copy_from_slice(&size.to_le_bytes());
    }
    let mut drawer = Drawer {
        state: seed,
        places,
    };
    if loops == 2 {
        drawer.parts::<2>(streams, lines);
    } else {
        drawer.parts::<3>(streams, lines);
    }
    Ok(bytes)
}

/// Draws words into places, in file order.
struct Drawer<'a> {
    state: u32,
    places: ChunksExactMut<'a, u8>,
}

impl Drawer<'_> {
    /// The words after the sizes of a description with so many loops.
    fn parts<const LOOPS: u32>(&mut self, streams: u32, lines: u32) {
        let rows = LOOPS - 1;
        self.words::<-64, 129>(2 * LOOPS);
        self.each(LOOPS, |state| 2 * (state & 1) as i32 - 1);
        self.words::<-8, 17>(LOOPS);
        self.words::<-4, 9>((1 + streams) * rows * LOOPS);
        self.words::<-1, 3>(streams * rows);
        for _ in 0..lines {
            self.words::<0, 7>(1);
            self.each(3, |state| (state % (streams + 2)) as i32);
            self.words::<0, LOOPS>(1);
            self.words::<0, 4>(1);
            self.words::<-64, 129>(1);
        }
    }

    /// So many words of a range, from its least on.
    fn words<const LEAST: i32, const SIZE: u32>(&mut self, count: u32) {
        self.each(count, |state| LEAST + (state % SIZE) as i32);
    }

    /// So many words, each by the next state.
    fn each(&mut self, count: u32, word: impl Fn(u32) -> i32) {
        for place in self.places.by_ref().take(count as usize) {
            self.state = round(self.state);
            place.copy_from_slice(&word(self.state).to_le_bytes());
        }
    }
}
