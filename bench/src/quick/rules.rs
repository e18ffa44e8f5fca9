//! The five rules, in a sound state, over rows that say where a step's words stand.

use super::body::{Body, REGISTERS};
use super::description::Vector;
use super::network::{GIVEN, HAND, KEEP, LAST_LINK, LINK, RECEIVED, SENT, TAKEN};

/// A process on a pipe: at which indices the words of its rules stand in a state, and what else they ask.
#[derive(Clone, Copy, Default)]
pub struct Port {
    /// Of taken, with given, hand, keep and the places of the link into the port behind it.
    pub at: u32,
    /// Of what was put into that link.
    pub before: u32,
    /// Of what was taken out of the link out of the port.
    pub after: u32,
    /// Of that link's first place.
    pub room: u32,
    /// Of the process's firings.
    pub fired: u32,
    pub soak: u32,
    pub count: u32,
    pub total: u32,
    pub pipe: u32,
    pub hop: u8,
    pub keeps: bool,
    /// It is the first or the last process of its pipe.
    pub first: bool,
    pub last: bool,
}

/// The same for the two ends of a pipe.
#[derive(Clone, Copy)]
pub struct End {
    /// Of sent, with received and the places of the last link behind it.
    pub at: u32,
    /// Of what was taken out of the first link.
    pub after: u32,
    /// Of the first link's first place.
    pub room: u32,
    /// Of what was put into the last link.
    pub before: u32,
    pub total: u32,
    /// Where its part of the waiting and received lists begins.
    pub part: u32,
    pub hop: u32,
    pub stream: u32,
    /// The first and the last process of the pipe.
    pub first: u32,
    pub last: u32,
}

/// Takes the oldest of so many values out of a link and moves the others down.
#[inline]
fn pull(state: &mut [u32], first: usize, fill: u32) -> u32 {
    let oldest = state[first];
    let youngest = first + fill as usize - 1;
    for place in first..youngest {
        state[place] = state[place + 1];
    }
    state[youngest] = 0;
    oldest
}

impl Port {
    #[inline]
    fn counts(&self, state: &[u32]) -> (u32, u32) {
        (
            state[self.at as usize + TAKEN],
            state[self.at as usize + GIVEN],
        )
    }

    /// How many elements the port holds when its hand is full.
    #[inline]
    fn full(&self) -> u32 {
        1 + u32::from(self.keeps)
    }

    /// The link has an element, and the hand is empty.
    #[inline]
    pub fn can_take(&self, state: &[u32]) -> bool {
        let (taken, given) = self.counts(state);
        taken - given < self.full() && state[self.before as usize] > taken
    }

    /// The oldest element of the link goes to the hand, or the first of a stationary stream to the keep; how many the link held.
    #[inline]
    pub fn take(&self, state: &mut [u32]) -> u32 {
        let at = self.at as usize;
        let taken = state[at + TAKEN];
        let fill = state[self.before as usize] - taken;
        let to = if self.keeps && taken == 0 { KEEP } else { HAND };
        state[at + to] = pull(state, at + LINK, fill);
        state[at + TAKEN] = taken + 1;
        fill
    }

    /// The next instance has its element: the keep is filled, or the element of that firing is in hand.
    #[inline]
    pub fn can_use(&self, state: &[u32]) -> bool {
        let (taken, given) = self.counts(state);
        if self.keeps {
            taken > 0 && given < self.total
        } else {
            taken > given && given == self.soak + state[self.fired as usize]
        }
    }

    /// The word that an instance uses.
    #[inline]
    fn used(&self) -> usize {
        self.at as usize + if self.keeps { KEEP } else { HAND }
    }

    /// The next link has a free place, and there is something to give: an element in hand that is soaked, drained or used, or the keep
    /// after all firings and all others.
    #[inline]
    pub fn can_give(&self, state: &[u32]) -> bool {
        let (taken, given) = self.counts(state);
        let fired = state[self.fired as usize];
        let done = if self.keeps {
            taken - given == 2 || taken - given == 1 && taken == self.total && fired == self.count
        } else {
            taken > given && (given < self.soak + fired || given >= self.soak + self.count)
        };
        done && given - state[self.after as usize] < u32::from(self.hop)
    }

    /// The hand or the keep goes into the next link; how many that held.
    #[inline]
    pub fn give(&self, state: &mut [u32]) -> u32 {
        let at = self.at as usize;
        let (taken, given) = self.counts(state);
        let fill = given - state[self.after as usize];
        let from = if taken - given == self.full() {
            HAND
        } else {
            KEEP
        };
        state[self.room as usize + fill as usize] = state[at + from];
        state[at + from] = 0;
        state[at + GIVEN] = given + 1;
        fill
    }
}

impl End {
    #[inline]
    fn sent(&self) -> usize {
        self.at as usize + SENT
    }

    #[inline]
    fn received(&self) -> usize {
        self.at as usize + RECEIVED
    }

    /// A value waits, and the first link has a free place.
    #[inline]
    pub fn can_send(&self, state: &[u32]) -> bool {
        let sent = state[self.sent()];
        sent < self.total && sent - state[self.after as usize] < self.hop
    }

    /// The next waiting value is copied into the first link.
    #[inline]
    pub fn send(&self, waiting: &[u32], state: &mut [u32]) {
        let sent = state[self.sent()];
        let fill = sent - state[self.after as usize];
        state[(self.room + fill) as usize] = waiting[(self.part + sent) as usize];
        state[self.sent()] = sent + 1;
    }

    /// The last link has an element.
    #[inline]
    pub fn can_receive(&self, state: &[u32]) -> bool {
        state[self.before as usize] > state[self.received()]
    }

    /// The oldest element of the last link goes into the pipe's next received place.
    #[inline]
    pub fn receive(&self, received: &mut [u32], state: &mut [u32]) {
        let count = state[self.received()];
        let fill = state[self.before as usize] - count;
        received[(self.part + count) as usize] = pull(state, self.at as usize + LAST_LINK, fill);
        state[self.received()] = count + 1;
    }

    pub fn wholly_received(&self, state: &[u32]) -> bool {
        state[self.received()] == self.total
    }
}

/// An instance is left, and it has the element of every stream.
#[inline]
pub fn can_fire(ports: &[Port], state: &[u32]) -> bool {
    state[ports[0].fired as usize] < ports[0].count && ports.iter().all(|port| port.can_use(state))
}

/// The instance runs on the hands of moving and the keeps of stationary streams.
#[inline]
pub fn fire(ports: &[Port], body: &Body, instance: Vector, state: &mut [u32]) {
    let mut registers = [0; REGISTERS];
    for (register, port) in registers.iter_mut().zip(ports) {
        *register = state[port.used()];
    }
    body.run(instance, &mut registers);
    for (register, port) in registers.iter().zip(ports) {
        state[port.used()] = *register;
    }
    state[ports[0].fired as usize] += 1;
}
