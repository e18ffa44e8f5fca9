//! The nine calls and what they decline. A declined call changes no lent word.

use crate::board::Limits;
use crate::body::plain_run;
use crate::description::Description;
use crate::geometry::Array;
use crate::network::{Network, Step};
use crate::{demand, Refusal};

/// The calls that are lent one description and told one board word.
#[derive(Clone, Debug)]
pub struct Calls {
    accepted: Result<Network, Refusal>,
}

/// What Accept answers.
#[derive(Clone, Copy, Debug, PartialEq, Eq)]
pub struct Accepted {
    pub processes: usize,
    pub instances: usize,
    /// E.
    pub elements: usize,
    pub pipes: usize,
    pub words: usize,
    pub steps: u64,
    /// Request 2.7: the divisor of place, then those of the streams; 0 past the streams in use.
    pub divisors: [u32; 7],
}

impl Accepted {
    /// The thirteen values in their order.
    pub fn values(&self) -> [u64; 13] {
        let [place, a, b, c, d, e, f] = self.divisors.map(u64::from);
        [
            self.processes as u64,
            self.instances as u64,
            self.elements as u64,
            self.pipes as u64,
            self.words as u64,
            self.steps,
            place,
            a,
            b,
            c,
            d,
            e,
            f,
        ]
    }
}

/// A row of the table. Words past the loops and streams in use are 0.
#[derive(Clone, Copy, Debug, Default, PartialEq, Eq)]
pub struct Row {
    pub point: [i32; 2],
    pub count: u32,
    pub first: [i32; 3],
    pub last: [i32; 3],
    pub soak: [u32; 6],
    pub drain: [u32; 6],
}

/// The lists that Step and Run are lent. The waiting list never changes.
pub struct Lent<'a> {
    pub waiting: &'a [u32],
    pub received: &'a mut [u32],
    pub state: &'a mut [u32],
}

/// What Run answers: the steps done, and whether any is ready.
#[derive(Clone, Copy, Debug, PartialEq, Eq)]
pub struct Ran {
    pub done: u64,
    pub ready: bool,
}

/// What Ready answers: how many processes are ready, and the lowest (P when none).
#[derive(Clone, Copy, Debug, PartialEq, Eq)]
pub struct ReadyProcesses {
    pub count: usize,
    pub lowest: usize,
}

/// The number of words that Ready sets.
pub const READY_WORDS: usize = 16;

impl Calls {
    /// Looks at a description for the board that a word names.
    pub fn on(board: u32, description: &[u8]) -> Calls {
        match Limits::of(board) {
            Ok(limits) => Calls::within(description, &limits),
            Err(refusal) => Calls {
                accepted: Err(refusal),
            },
        }
    }

    /// Looks at a description under some limits.
    pub fn within(description: &[u8], limits: &Limits) -> Calls {
        let accepted = Description::read(description)
            .and_then(|description| Array::of(&description, limits))
            .map(Network::new);
        Calls { accepted }
    }

    /// The network, or the refusal by which every call declines first.
    pub fn network(&self) -> Result<&Network, Refusal> {
        self.accepted.as_ref().map_err(|&refusal| refusal)
    }

    /// Accept: 33, then 1 to 17.
    pub fn accept(&self) -> Result<Accepted, Refusal> {
        let network = self.network()?;
        let array = &network.array;
        Ok(Accepted {
            processes: array.processes.len(),
            instances: array.instances.len(),
            elements: array.number_of_elements(),
            pipes: array.pipes.len(),
            words: network.words(),
            steps: array.total_steps(),
            divisors: divisors(array),
        })
    }

    /// Table: 18.
    pub fn table(&self, rows: &mut [Row]) -> Result<(), Refusal> {
        let array = &self.network()?.array;
        let processes = array.processes.len();
        demand(rows.len() >= processes, 18)?;
        for (process, row) in rows.iter_mut().take(processes).enumerate() {
            *row = table_row(array, process);
        }
        Ok(())
    }

    /// Start: 20, 26, 21.
    pub fn start(
        &self,
        values: &[u32],
        waiting: &mut [u32],
        received: &mut [u32],
        state: &mut [u32],
    ) -> Result<(), Refusal> {
        let network = self.network()?;
        let elements = network.array.number_of_elements();
        demand(values.len() == elements && waiting.len() == elements, 20)?;
        demand(received.len() == elements, 26)?;
        demand(state.len() >= network.words(), 21)?;
        for pipe in &network.array.pipes {
            for (place, &element) in pipe.elements.iter().enumerate() {
                waiting[pipe.start + place] = values[element];
            }
        }
        received.fill(0);
        state[..network.words()].fill(0);
        Ok(())
    }

    /// Step: 20, 26, 21, 22, 23, 24.
    pub fn step(&self, lent: Lent, kind: u32, number: u32, stream: u32) -> Result<(), Refusal> {
        let network = self.sound(lent.waiting, lent.received, lent.state)?;
        let step = named_step(&network.array, kind, number, stream).ok_or(Refusal(23))?;
        demand(network.ready(lent.state, step), 24)?;
        network.apply(lent.waiting, lent.received, lent.state, step);
        Ok(())
    }

    /// Run: 20, 26, 21, 22. Always the lowest ready step.
    pub fn run(&self, lent: Lent, steps: u64) -> Result<Ran, Refusal> {
        let network = self.sound(lent.waiting, lent.received, lent.state)?;
        let mut done = 0;
        let mut next = network.lowest_ready(lent.state);
        while let Some(step) = next {
            if done == steps {
                break;
            }
            network.apply(lent.waiting, lent.received, lent.state, step);
            done += 1;
            next = network.lowest_ready(lent.state);
        }
        Ok(Ran {
            done,
            ready: next.is_some(),
        })
    }

    /// Ready: 20, 26, 21, 22, 27.
    pub fn ready(
        &self,
        waiting: &[u32],
        received: &[u32],
        state: &[u32],
        words: &mut [u64],
    ) -> Result<ReadyProcesses, Refusal> {
        let network = self.sound(waiting, received, state)?;
        demand(words.len() >= READY_WORDS, 27)?;
        let processes: Vec<usize> = (0..network.array.processes.len())
            .filter(|&process| process_ready(network, state, process))
            .collect();
        words[..READY_WORDS].fill(0);
        for process in &processes {
            words[process / 64] |= 1 << (process % 64);
        }
        Ok(ReadyProcesses {
            count: processes.len(),
            lowest: processes
                .first()
                .copied()
                .unwrap_or(network.array.processes.len()),
        })
    }

    /// Window: 20, 26, 19. Side 0 is waiting, side 1 received.
    pub fn window<'a>(
        &self,
        waiting: &'a [u32],
        received: &'a [u32],
        pipe: u32,
        side: u32,
    ) -> Result<&'a [u32], Refusal> {
        let network = self.lists(waiting, received)?;
        let pipe = network.array.pipes.get(pipe as usize).ok_or(Refusal(19))?;
        let list = match side {
            0 => waiting,
            1 => received,
            _ => return Err(Refusal(19)),
        };
        Ok(&list[pipe.start..pipe.start + pipe.elements.len()])
    }

    /// Result: 20, 26, 21, 22, 25, 28.
    pub fn result(
        &self,
        waiting: &[u32],
        received: &[u32],
        state: &[u32],
        output: &mut [u32],
    ) -> Result<(), Refusal> {
        let network = self.sound(waiting, received, state)?;
        let pipes = &network.array.pipes;
        let wholly =
            |number: usize| network.received(state, number) == pipes[number].elements.len();
        demand((0..pipes.len()).all(wholly), 25)?;
        demand(output.len() == network.array.number_of_elements(), 28)?;
        for pipe in pipes {
            for (place, &element) in pipe.elements.iter().enumerate() {
                output[element] = received[pipe.start + place];
            }
        }
        Ok(())
    }

    /// Plain run: 20, 28.
    pub fn plain_run(&self, values: &[u32], output: &mut [u32]) -> Result<(), Refusal> {
        let array = &self.network()?.array;
        demand(values.len() == array.number_of_elements(), 20)?;
        demand(output.len() == array.number_of_elements(), 28)?;
        output.copy_from_slice(&plain_run(array, values));
        Ok(())
    }

    /// The checks of the lists: 20, 26.
    fn lists(&self, waiting: &[u32], received: &[u32]) -> Result<&Network, Refusal> {
        let network = self.network()?;
        let elements = network.array.number_of_elements();
        demand(waiting.len() == elements, 20)?;
        demand(received.len() == elements, 26)?;
        Ok(network)
    }

    /// The checks of the lists and of the state: 20, 26, 21, 22.
    fn sound(&self, waiting: &[u32], received: &[u32], state: &[u32]) -> Result<&Network, Refusal> {
        let network = self.lists(waiting, received)?;
        demand(state.len() >= network.words(), 21)?;
        demand(network.sound(state), 22)?;
        Ok(network)
    }
}

/// The divisor of place, then those of the streams; 0 past the streams in use.
fn divisors(array: &Array) -> [u32; 7] {
    let mut divisors = [array.divisor, 0, 0, 0, 0, 0, 0];
    for (divisor, stream) in divisors[1..].iter_mut().zip(&array.streams) {
        *divisor = stream.divisor;
    }
    divisors
}

/// The row of a process; a null row has zeros after its point and the pipes' lengths as soak.
fn table_row(array: &Array, number: usize) -> Row {
    let process = &array.processes[number];
    let mut row = Row {
        count: process.count() as u32,
        ..Row::default()
    };
    fill(&mut row.point, &process.point);
    if let (Some(first), Some(last)) = (process.instances.first(), process.instances.last()) {
        fill(&mut row.first, first);
        fill(&mut row.last, last);
    }
    for (stream, station) in array.stations[number].iter().enumerate() {
        if let Some(station) = station {
            row.soak[stream] = station.soak as u32;
            row.drain[stream] = station.drain as u32;
        }
    }
    row
}

/// Copies a point into the first words of a row's part.
fn fill(words: &mut [i32], point: &[i32]) {
    words[..point.len()].copy_from_slice(point);
}

/// The step that Step's words name, if there is such a kind, process or pipe, stream, and the
/// process is on a pipe of that stream.
fn named_step(array: &Array, kind: u32, number: u32, stream: u32) -> Option<Step> {
    let number = number as usize;
    let pipe = || (number < array.pipes.len()).then_some(number);
    let process = || (number < array.processes.len()).then_some(number);
    let on_pipe = || {
        let stream = stream as usize;
        let station = array.stations.get(number)?.get(stream)?;
        station.is_some().then_some((number, stream))
    };
    match kind {
        0 => pipe().map(|pipe| Step::Send { pipe }),
        1 => on_pipe().map(|(process, stream)| Step::Take { process, stream }),
        2 => process().map(|process| Step::Fire { process }),
        3 => on_pipe().map(|(process, stream)| Step::Give { process, stream }),
        4 => pipe().map(|pipe| Step::Receive { pipe }),
        _ => None,
    }
}

/// The process can take, fire or give.
fn process_ready(network: &Network, state: &[u32], process: usize) -> bool {
    network.ready(state, Step::Fire { process })
        || (0..network.array.streams.len()).any(|stream| {
            network.ready(state, Step::Take { process, stream })
                || network.ready(state, Step::Give { process, stream })
        })
}
