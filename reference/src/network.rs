//! The network: its steps, the order of the state's words, and sound states.

use crate::geometry::Array;
use crate::words::{GIVEN, LAST_LINK, SENT, STATION_LINK, TAKEN};

/// One step of the network.
#[derive(Clone, Copy, Debug, PartialEq, Eq)]
pub enum Step {
    Send { pipe: usize },
    Take { process: usize, stream: usize },
    Fire { process: usize },
    Give { process: usize, stream: usize },
    Receive { pipe: usize },
}

/// An array with its links and the order of its state's words.
#[derive(Clone, Debug)]
pub struct Network {
    pub array: Array,
    /// The places of a link, by stream.
    pub places: Vec<usize>,
    /// The order of the state's words.
    pub layout: Layout,
    /// Every step in the order in which Run looks for the lowest ready one.
    steps: Vec<Step>,
}

/// Where the words of each process, each of its streams and each pipe begin, and how many there are.
#[derive(Clone, Debug, Default)]
pub struct Layout {
    pub firings: Vec<usize>,
    pub stations: Vec<Vec<usize>>,
    pub pipes: Vec<usize>,
    pub words: usize,
}

impl Network {
    /// The network of an array: each link has hop places.
    pub fn new(array: Array) -> Network {
        let hops = array.streams.iter().map(|stream| stream.hop).collect();
        Network::with_places(array, hops)
    }

    /// A network whose links have other numbers of places, by stream.
    pub fn with_places(array: Array, places: Vec<usize>) -> Network {
        let layout = layout(&array, &places);
        let steps = steps_in_order(&array);
        Network {
            array,
            places,
            layout,
            steps,
        }
    }

    /// The number of state words.
    pub fn words(&self) -> usize {
        self.layout.words
    }

    /// Every step in Run's order.
    pub fn steps(&self) -> &[Step] {
        &self.steps
    }

    /// Every ready step in Run's order.
    pub fn ready_steps<'a>(
        &'a self,
        state: &'a [u32],
    ) -> impl DoubleEndedIterator<Item = Step> + 'a {
        let steps = self.steps.iter().copied();
        steps.filter(|&step| self.ready(state, step))
    }

    /// The lowest ready step.
    pub fn lowest_ready(&self, state: &[u32]) -> Option<Step> {
        self.ready_steps(state).next()
    }
}

/// For each process its firings, and for each stream taken, given, hand, keep and the places of the
/// link into it; then for each pipe sent, received and the places of its last link.
fn layout(array: &Array, places: &[usize]) -> Layout {
    let mut layout = Layout::default();
    for _ in &array.processes {
        layout.firings.push(layout.words);
        layout.words += 1;
        let mut stations = Vec::new();
        for places in places {
            stations.push(layout.words);
            layout.words += STATION_LINK + places;
        }
        layout.stations.push(stations);
    }
    for pipe in &array.pipes {
        layout.pipes.push(layout.words);
        layout.words += LAST_LINK + places[pipe.stream];
    }
    layout
}

/// Sends by pipe, then by process takes by stream, fire, gives by stream, then receives.
fn steps_in_order(array: &Array) -> Vec<Step> {
    let pipes = 0..array.pipes.len();
    let mut steps: Vec<Step> = pipes.clone().map(|pipe| Step::Send { pipe }).collect();
    for (process, stations) in array.stations.iter().enumerate() {
        let on_pipes = || (0..stations.len()).filter(|&stream| stations[stream].is_some());
        steps.extend(on_pipes().map(|stream| Step::Take { process, stream }));
        steps.push(Step::Fire { process });
        steps.extend(on_pipes().map(|stream| Step::Give { process, stream }));
    }
    steps.extend(pipes.map(|pipe| Step::Receive { pipe }));
    steps
}

impl Network {
    /// Each count is between 0 and its total, each link's fill between 0 and its places, and taken
    /// exceeds given as it may. The state has all its words.
    pub fn sound(&self, state: &[u32]) -> bool {
        let processes = 0..self.array.processes.len();
        let pipes = 0..self.array.pipes.len();
        processes
            .into_iter()
            .all(|process| self.process_sound(state, process))
            && pipes.into_iter().all(|pipe| self.pipe_sound(state, pipe))
    }

    fn process_sound(&self, state: &[u32], process: usize) -> bool {
        let count = self.array.processes[process].count();
        self.firings(state, process) as usize <= count
            && (0..self.array.streams.len()).all(|stream| match self.at(state, process, stream) {
                Some(at) => at.taken <= at.total() && at.given <= at.total() && at.balanced(),
                // Without a pipe the totals are 0.
                None => {
                    state[self.station_word(process, stream, TAKEN)] == 0
                        && state[self.station_word(process, stream, GIVEN)] == 0
                }
            })
    }

    fn pipe_sound(&self, state: &[u32], number: usize) -> bool {
        let pipe = &self.array.pipes[number];
        let total = pipe.elements.len();
        state[self.pipe_word(number, SENT)] as usize <= total
            && self.received(state, number) <= total
            && (0..=pipe.processes.len()).all(|position| {
                let link = self.link(state, number, position);
                0 <= link.fill && link.fill <= link.places as i64
            })
    }
}
