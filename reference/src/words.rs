//! Reading the state's words: a process on a pipe, and a link.

use crate::network::Network;
use crate::pipes::{Pipe, Station};

// The words of a station after its beginning.
pub const TAKEN: usize = 0;
pub const GIVEN: usize = 1;
pub const HAND: usize = 2;
pub const KEEP: usize = 3;
pub const STATION_LINK: usize = 4;

// The words of a pipe after its beginning.
pub const SENT: usize = 0;
pub const RECEIVED: usize = 1;
pub const LAST_LINK: usize = 2;

/// A process on a pipe of a stream, with its words.
pub struct At<'a> {
    pub process: usize,
    pub station: &'a Station,
    pub pipe: &'a Pipe,
    /// It keeps the first element: the stream is stationary and the process computes.
    pub keeps: bool,
    pub taken: u32,
    pub given: u32,
    pub firings: u32,
}

impl At<'_> {
    /// The pipe's number of elements.
    pub fn total(&self) -> u32 {
        self.pipe.elements.len() as u32
    }

    /// Taken elements that are not given and not kept are in the hand.
    pub fn hand_full(&self) -> bool {
        let kept = u32::from(self.keeps);
        self.taken == self.given.saturating_add(kept + 1)
    }

    /// The element in a full hand, for a process that does not keep: the pipe's element of index
    /// given.
    pub fn in_hand(&self) -> Option<usize> {
        if self.hand_full() {
            self.pipe.elements.get(self.given as usize).copied()
        } else {
            None
        }
    }

    pub fn keep_filled(&self) -> bool {
        self.taken >= 1 && self.given < self.total()
    }

    /// The element is soaked, drained or used: no firing that uses it is still to come.
    pub fn done_with(&self, element: usize) -> bool {
        let firing = self.station.uses.iter().position(|&used| used == element);
        firing.is_none_or(|firing| (firing as u32) < self.firings)
    }

    /// Taken exceeds given by 0 or 1; with a keep by 0 before the first take and once the keep is
    /// given, by 1 or 2 between.
    pub fn balanced(&self) -> bool {
        let excess = i64::from(self.taken) - i64::from(self.given);
        if !self.keeps {
            (0..=1).contains(&excess)
        } else if self.taken == 0 || self.given == self.total() {
            excess == 0
        } else {
            (1..=2).contains(&excess)
        }
    }
}

/// A link: where its places begin, how many there are and how many are filled.
pub struct Link {
    start: usize,
    pub places: usize,
    pub fill: i64,
}

impl Link {
    pub fn has_element(&self) -> bool {
        self.fill > 0
    }

    pub fn has_free_place(&self) -> bool {
        self.fill < self.places as i64
    }

    /// Puts a value behind the others.
    pub fn put(&self, state: &mut [u32], value: u32) {
        state[self.start + self.fill as usize] = value;
    }

    /// Takes the oldest out, moves the others down and clears the place of the youngest.
    pub fn pull(&self, state: &mut [u32]) -> u32 {
        let filled = &mut state[self.start..self.start + self.fill as usize];
        let oldest = filled[0];
        filled.rotate_left(1);
        filled[filled.len() - 1] = 0;
        oldest
    }
}

impl Network {
    pub fn firings(&self, state: &[u32], process: usize) -> u32 {
        state[self.layout.firings[process]]
    }

    pub fn station_word(&self, process: usize, stream: usize, word: usize) -> usize {
        self.layout.stations[process][stream] + word
    }

    pub fn pipe_word(&self, pipe: usize, word: usize) -> usize {
        self.layout.pipes[pipe] + word
    }

    /// The process on its pipe of the stream, if there is one.
    pub fn at(&self, state: &[u32], process: usize, stream: usize) -> Option<At<'_>> {
        let station = self.array.stations[process][stream].as_ref()?;
        let computes = !self.array.processes[process].null();
        Some(At {
            process,
            station,
            pipe: &self.array.pipes[station.pipe],
            keeps: computes && !self.array.streams[stream].moving,
            taken: state[self.station_word(process, stream, TAKEN)],
            given: state[self.station_word(process, stream, GIVEN)],
            firings: self.firings(state, process),
        })
    }

    /// The link before a position of a pipe; after the last process, the pipe's last link. Its fill
    /// is what was put in and not yet taken out.
    pub fn link(&self, state: &[u32], number: usize, position: usize) -> Link {
        let pipe = &self.array.pipes[number];
        let put = match position.checked_sub(1) {
            None => self.pipe_word(number, SENT),
            Some(before) => self.station_word(pipe.processes[before], pipe.stream, GIVEN),
        };
        let (pulled, start) = match pipe.processes.get(position) {
            None => (
                self.pipe_word(number, RECEIVED),
                self.pipe_word(number, LAST_LINK),
            ),
            Some(&process) => (
                self.station_word(process, pipe.stream, TAKEN),
                self.station_word(process, pipe.stream, STATION_LINK),
            ),
        };
        Link {
            start,
            places: self.places[pipe.stream],
            fill: i64::from(state[put]) - i64::from(state[pulled]),
        }
    }

    pub fn link_into(&self, state: &[u32], at: &At) -> Link {
        self.link(state, at.station.pipe, at.station.position)
    }

    pub fn link_out_of(&self, state: &[u32], at: &At) -> Link {
        self.link(state, at.station.pipe, at.station.position + 1)
    }

    pub fn last_link(&self, state: &[u32], pipe: usize) -> Link {
        self.link(state, pipe, self.array.pipes[pipe].processes.len())
    }

    /// How many elements a pipe has received.
    pub fn received(&self, state: &[u32], pipe: usize) -> usize {
        state[self.pipe_word(pipe, RECEIVED)] as usize
    }
}
