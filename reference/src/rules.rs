//! The five rules: when a step is ready in a sound state, and what a ready step does.

use crate::body::run_instance;
use crate::network::{Network, Step};
use crate::words::{At, GIVEN, HAND, KEEP, RECEIVED, SENT, TAKEN};

// When a step is ready.

impl Network {
    /// A step is ready if its rule can be carried out in the state.
    pub fn ready(&self, state: &[u32], step: Step) -> bool {
        match step {
            Step::Send { pipe } => self.send_ready(state, pipe),
            Step::Take { process, stream } => self
                .at(state, process, stream)
                .is_some_and(|at| self.take_ready(state, &at)),
            Step::Fire { process } => self.fire_ready(state, process),
            Step::Give { process, stream } => self
                .at(state, process, stream)
                .is_some_and(|at| self.give_ready(state, &at)),
            Step::Receive { pipe } => self.last_link(state, pipe).has_element(),
        }
    }

    /// Send: there is a next waiting value, and the first link has a free place.
    fn send_ready(&self, state: &[u32], pipe: usize) -> bool {
        let sent = state[self.pipe_word(pipe, SENT)] as usize;
        sent < self.array.pipes[pipe].elements.len() && self.link(state, pipe, 0).has_free_place()
    }

    /// Take: the hand is empty, and the link has an element.
    fn take_ready(&self, state: &[u32], at: &At) -> bool {
        !at.hand_full() && self.link_into(state, at).has_element()
    }

    /// Fire: each moving stream has its element for the next instance in hand, and each keep is
    /// filled.
    fn fire_ready(&self, state: &[u32], process: usize) -> bool {
        let next = self.firings(state, process) as usize;
        next < self.array.processes[process].count()
            && (0..self.array.streams.len()).all(|stream| {
                self.at(state, process, stream).is_some_and(|at| {
                    if at.keeps {
                        at.keep_filled()
                    } else {
                        at.in_hand().is_some() && at.in_hand() == at.station.uses.get(next).copied()
                    }
                })
            })
    }

    /// Give: there is something to give, and the next link has a free place.
    fn give_ready(&self, state: &[u32], at: &At) -> bool {
        self.word_to_give(at).is_some() && self.link_out_of(state, at).has_free_place()
    }

    /// The word that a give empties: the hand if its element is soaked, drained or used, or the
    /// keep after all firings and all other elements.
    fn word_to_give(&self, at: &At) -> Option<usize> {
        let stream = at.pipe.stream;
        if at.hand_full() {
            let done = at.keeps || at.in_hand().is_some_and(|element| at.done_with(element));
            return done.then(|| self.station_word(at.process, stream, HAND));
        }
        let all_fired = at.firings as usize == self.array.processes[at.process].count();
        let others_given = at.taken == at.total() && at.given.checked_add(1) == Some(at.total());
        (at.keeps && all_fired && others_given).then(|| self.station_word(at.process, stream, KEEP))
    }
}

// What a ready step does.

impl Network {
    /// Carries out a step that is ready. Waiting and received are in pipe order, E long.
    pub fn apply(&self, waiting: &[u32], received: &mut [u32], state: &mut [u32], step: Step) {
        match step {
            Step::Send { pipe } => self.send(waiting, state, pipe),
            Step::Take { process, stream } => self.take(state, process, stream),
            Step::Fire { process } => self.fire(state, process),
            Step::Give { process, stream } => self.give(state, process, stream),
            Step::Receive { pipe } => self.receive(received, state, pipe),
        }
    }

    /// The next waiting value is copied into the first link.
    fn send(&self, waiting: &[u32], state: &mut [u32], pipe: usize) {
        let sent = self.pipe_word(pipe, SENT);
        let value = waiting[self.array.pipes[pipe].start + state[sent] as usize];
        self.link(state, pipe, 0).put(state, value);
        state[sent] += 1;
    }

    /// The oldest element of the link goes to the hand, or to the keep if it is the first of a
    /// stationary stream.
    fn take(&self, state: &mut [u32], process: usize, stream: usize) {
        let Some(at) = self.at(state, process, stream) else {
            return;
        };
        let value = self.link_into(state, &at).pull(state);
        let target = if at.keeps && at.taken == 0 {
            KEEP
        } else {
            HAND
        };
        state[self.station_word(process, stream, target)] = value;
        state[self.station_word(process, stream, TAKEN)] += 1;
    }

    /// The next instance runs on the hands of moving and the keeps of stationary streams.
    fn fire(&self, state: &mut [u32], process: usize) {
        let words: Vec<usize> = (0..self.array.streams.len())
            .map(|stream| {
                let held = if self.array.streams[stream].moving {
                    HAND
                } else {
                    KEEP
                };
                self.station_word(process, stream, held)
            })
            .collect();
        let mut values: Vec<u32> = words.iter().map(|&word| state[word]).collect();
        let next = self.firings(state, process) as usize;
        let instance = &self.array.processes[process].instances[next];
        run_instance(&self.array.description.body, instance, &mut values);
        for (word, value) in words.into_iter().zip(values) {
            state[word] = value;
        }
        state[self.layout.firings[process]] += 1;
    }

    /// The hand or the keep goes into the next link and is emptied.
    fn give(&self, state: &mut [u32], process: usize, stream: usize) {
        let Some(at) = self.at(state, process, stream) else {
            return;
        };
        let Some(word) = self.word_to_give(&at) else {
            return;
        };
        let value = state[word];
        self.link_out_of(state, &at).put(state, value);
        state[word] = 0;
        state[self.station_word(process, stream, GIVEN)] += 1;
    }

    /// The oldest element of the last link goes into the pipe's next received place.
    fn receive(&self, received: &mut [u32], state: &mut [u32], pipe: usize) {
        let place = self.array.pipes[pipe].start + self.received(state, pipe);
        received[place] = self.last_link(state, pipe).pull(state);
        state[self.pipe_word(pipe, RECEIVED)] += 1;
    }
}
