//! Run: always the lowest ready step, and after it a new test of the steps that it may have made ready or not.

use super::description::STREAMS;
use super::network::Network;
use super::ready_set::ReadySet;
use super::rules::{can_fire, fire, End, Port};

// The ranks of a process, some of them not in use: takes by stream, fire, gives by stream.
const RANKS: usize = 16;
const FIRE: usize = STREAMS;
const GIVES: usize = STREAMS + 1;

/// The rows of all ports and pipes, and the ready steps.
pub struct Runner<'a> {
    network: &'a Network,
    streams: usize,
    /// By process, then stream.
    ports: Vec<Port>,
    ends: Vec<End>,
    /// By stream, from the number of a process to that of the next on a pipe.
    strides: [usize; STREAMS],
    /// The rank of the first step of the first process, and that of the first receive.
    takes: usize,
    receives: usize,
    ready: ReadySet,
}

impl Runner<'_> {
    /// The rows, and the ready steps of a sound state.
    pub fn new<'a>(network: &'a Network, state: &[u32]) -> Runner<'a> {
        let (processes, pipes) = (network.array.processes.len(), network.array.pipes.len());
        let takes = pipes.next_multiple_of(RANKS);
        let receives = takes + RANKS * processes;
        let mut runner = Runner {
            network,
            streams: network.streams(),
            ports: vec![Port::default(); processes * network.streams()],
            ends: Vec::with_capacity(pipes),
            strides: [0; STREAMS],
            takes,
            receives,
            ready: ReadySet::new(receives + pipes),
        };
        for pipe in 0..pipes {
            runner.add_pipe(pipe, state);
        }
        for process in 0..processes {
            runner.test_fire(process, state);
        }
        runner
    }

    /// Does so many steps, fewer only when none is ready; how many, and whether one is ready.
    pub fn run(
        &mut self,
        steps: u32,
        waiting: &[u32],
        received: &mut [u32],
        state: &mut [u32],
    ) -> [u32; 2] {
        for done in 0..steps {
            let Some(rank) = self.ready.lowest() else {
                return [done, 0];
            };
            if rank < self.takes {
                self.send(rank, waiting, state);
            } else if rank < self.receives {
                let (process, place) = ((rank - self.takes) / RANKS, rank % RANKS);
                match place {
                    FIRE => self.fire(process, state),
                    GIVES.. => self.give(process, place - GIVES, state),
                    _ => self.take(process, place, state),
                }
            } else {
                self.receive(rank - self.receives, received, state);
            }
        }
        [steps, u32::from(self.ready.lowest().is_some())]
    }

    /// Adds the rows of a pipe and its ready steps other than fires.
    fn add_pipe(&mut self, number: usize, state: &[u32]) {
        let pipe = &self.network.array.pipes[number];
        let (stream, lane) = (pipe.stream, pipe.lane);
        self.strides[stream] = lane.stride;
        self.network.each_port(number, |place, port| {
            let process = lane.at(place);
            self.ports[process * self.streams + stream] = port;
            let rank = self.takes + RANKS * process + stream;
            if port.can_take(state) {
                self.ready.insert(rank);
            }
            if port.can_give(state) {
                self.ready.insert(rank + GIVES);
            }
        });
        let end = self.network.end(number);
        if end.can_send(state) {
            self.ready.insert(number);
        }
        if end.can_receive(state) {
            self.ready.insert(self.receives + number);
        }
        self.ends.push(end);
    }

    #[inline]
    fn port(&self, process: usize, stream: usize) -> &Port {
        &self.ports[process * self.streams + stream]
    }

    #[inline]
    fn ports(&self, process: usize) -> &[Port] {
        &self.ports[process * self.streams..][..self.streams]
    }

    /// The rank of a process's first step.
    #[inline]
    fn rank(&self, process: usize) -> usize {
        self.takes + RANKS * process
    }
}

// Tests of steps that may have become ready.

impl Runner<'_> {
    #[inline]
    fn test_send(&mut self, pipe: usize, state: &[u32]) {
        if self.ends[pipe].can_send(state) {
            self.ready.insert(pipe);
        }
    }

    #[inline]
    fn test_take(&mut self, process: usize, stream: usize, state: &[u32]) {
        if self.port(process, stream).can_take(state) {
            self.ready.insert(self.rank(process) + stream);
        }
    }

    #[inline]
    fn test_fire(&mut self, process: usize, state: &[u32]) {
        if can_fire(self.ports(process), state) {
            self.ready.insert(self.rank(process) + FIRE);
        }
    }

    #[inline]
    fn test_give(&mut self, process: usize, stream: usize, state: &[u32]) {
        if self.port(process, stream).can_give(state) {
            self.ready.insert(self.rank(process) + GIVES + stream);
        }
    }
}

// Steps.

impl Runner<'_> {
    /// After a send the first process may take.
    fn send(&mut self, pipe: usize, waiting: &[u32], state: &mut [u32]) {
        let end = self.ends[pipe];
        end.send(waiting, state);
        if !end.can_send(state) {
            self.ready.remove(pipe);
        }
        self.test_take(end.first as usize, end.stream as usize, state);
    }

    /// After a take the process may fire or give, take on only after its first, and what stands before the link may put into it.
    fn take(&mut self, process: usize, stream: usize, state: &mut [u32]) {
        let port = *self.port(process, stream);
        let fill = port.take(state);
        let rank = self.rank(process);
        if !port.can_take(state) {
            self.ready.remove(rank + stream);
        }
        if port.can_give(state) {
            self.ready.insert(rank + GIVES + stream);
        } else if port.can_use(state) {
            self.test_fire(process, state);
        }
        if fill == u32::from(port.hop) {
            if port.first {
                self.test_send(port.pipe as usize, state);
            } else {
                self.test_give(process.wrapping_sub(self.strides[stream]), stream, state);
            }
        }
    }

    /// After a fire the process may give, and fire again only if it keeps every element.
    fn fire(&mut self, process: usize, state: &mut [u32]) {
        let ports = &self.ports[process * self.streams..][..self.streams];
        let array = &self.network.array;
        let instance = array.instance(&array.processes[process], state[ports[0].fired as usize]);
        fire(ports, &array.nest.description.body, instance, state);
        let rank = self.rank(process);
        if !can_fire(ports, state) {
            self.ready.remove(rank + FIRE);
        }
        for (stream, port) in ports.iter().enumerate() {
            if port.can_give(state) {
                self.ready.insert(rank + GIVES + stream);
            }
        }
    }

    /// After a give the process may take, give on only its keep, and what stands behind the link may take out of it.
    fn give(&mut self, process: usize, stream: usize, state: &mut [u32]) {
        let port = *self.port(process, stream);
        let fill = port.give(state);
        let rank = self.rank(process);
        if !port.can_give(state) {
            self.ready.remove(rank + GIVES + stream);
        }
        if port.can_take(state) {
            self.ready.insert(rank + stream);
        }
        if fill == 0 {
            if port.last {
                self.ready.insert(self.receives + port.pipe as usize);
            } else {
                self.test_take(process.wrapping_add(self.strides[stream]), stream, state);
            }
        }
    }

    /// After a receive the last process may give.
    fn receive(&mut self, pipe: usize, received: &mut [u32], state: &mut [u32]) {
        let end = self.ends[pipe];
        end.receive(received, state);
        if !end.can_receive(state) {
            self.ready.remove(self.receives + pipe);
        }
        self.test_give(end.last as usize, end.stream as usize, state);
    }
}
