//! The ready set: a bit for each step by its rank, a bit for each word of them that is not 0, and a bit for each word of those.

pub struct ReadySet {
    ranks: Vec<u64>,
    words: Vec<u64>,
    blocks: u64,
}

/// The bit of a number in a word.
#[inline]
fn bit(number: usize) -> u64 {
    1 << (number % 64)
}

impl ReadySet {
    /// An empty set for ranks below a limit of at most 64^3.
    pub fn new(limit: usize) -> ReadySet {
        let words = limit.div_ceil(64);
        ReadySet {
            ranks: vec![0; words],
            words: vec![0; words.div_ceil(64)],
            blocks: 0,
        }
    }

    #[inline]
    pub fn insert(&mut self, rank: usize) {
        let (word, block) = (rank / 64, rank / 4096);
        self.ranks[word] |= bit(rank);
        self.words[block] |= bit(word);
        self.blocks |= bit(block);
    }

    #[inline]
    pub fn remove(&mut self, rank: usize) {
        let (word, block) = (rank / 64, rank / 4096);
        self.ranks[word] &= !bit(rank);
        if self.ranks[word] == 0 {
            self.words[block] &= !bit(word);
            if self.words[block] == 0 {
                self.blocks &= !bit(block);
            }
        }
    }

    #[inline]
    pub fn lowest(&self) -> Option<usize> {
        if self.blocks == 0 {
            return None;
        }
        let block = self.blocks.trailing_zeros() as usize;
        let word = 64 * block + self.words[block].trailing_zeros() as usize;
        Some(64 * word + self.ranks[word].trailing_zeros() as usize)
    }
}
