//! The lists that the calls are lent, with the calls on one description.

use reference::board::GAUGE;
use reference::calls::{Accepted, Calls, Lent, Ran, ReadyProcesses};
use reference::description::Description;
use reference::network::{Network, Step};
use reference::Refusal;

#[derive(Clone)]
pub struct Lists {
    pub calls: Calls,
    pub waiting: Vec<u32>,
    pub received: Vec<u32>,
    pub state: Vec<u32>,
}

impl Lists {
    /// Zeroed lists of the right lengths for an accepted description.
    pub fn new(description: &Description) -> Lists {
        let calls = Calls::on(GAUGE, &description.bytes());
        let accepted = calls.accept().expect("an accepted description");
        Lists {
            calls,
            waiting: vec![0; accepted.elements],
            received: vec![0; accepted.elements],
            state: vec![0; accepted.words],
        }
    }

    /// Lists after Start on the values.
    pub fn started(description: &Description, values: &[u32]) -> Lists {
        let mut lists = Lists::new(description);
        lists.start(values).expect("a proper start");
        lists
    }

    pub fn accepted(&self) -> Accepted {
        self.calls.accept().expect("an accepted description")
    }

    pub fn network(&self) -> &Network {
        self.calls.network().expect("an accepted description")
    }

    /// Waiting, received and state, to be compared.
    pub fn words(&self) -> (Vec<u32>, Vec<u32>, Vec<u32>) {
        (
            self.waiting.clone(),
            self.received.clone(),
            self.state.clone(),
        )
    }

    pub fn start(&mut self, values: &[u32]) -> Result<(), Refusal> {
        let (waiting, received) = (&mut self.waiting, &mut self.received);
        self.calls.start(values, waiting, received, &mut self.state)
    }

    pub fn step_words(&mut self, kind: u32, number: u32, stream: u32) -> Result<(), Refusal> {
        let lent = Lent {
            waiting: &self.waiting,
            received: &mut self.received,
            state: &mut self.state,
        };
        self.calls.step(lent, kind, number, stream)
    }

    pub fn step(&mut self, step: Step) -> Result<(), Refusal> {
        let (kind, number, stream) = step_words(step);
        self.step_words(kind, number, stream)
    }

    pub fn run(&mut self, steps: u64) -> Result<Ran, Refusal> {
        let lent = Lent {
            waiting: &self.waiting,
            received: &mut self.received,
            state: &mut self.state,
        };
        self.calls.run(lent, steps)
    }

    pub fn ready(&self, words: &mut [u64]) -> Result<ReadyProcesses, Refusal> {
        self.calls
            .ready(&self.waiting, &self.received, &self.state, words)
    }

    pub fn window(&self, pipe: u32, side: u32) -> Result<&[u32], Refusal> {
        self.calls.window(&self.waiting, &self.received, pipe, side)
    }

    pub fn result(&self, output: &mut [u32]) -> Result<(), Refusal> {
        self.calls
            .result(&self.waiting, &self.received, &self.state, output)
    }

    /// Result into a list of the right length.
    pub fn results(&self) -> Result<Vec<u32>, Refusal> {
        let mut output = vec![0; self.accepted().elements];
        self.result(&mut output).map(|()| output)
    }

    pub fn plain_run(&self, values: &[u32]) -> Vec<u32> {
        let mut output = vec![0; values.len()];
        self.calls
            .plain_run(values, &mut output)
            .expect("values of the right length");
        output
    }
}

/// The words by which Step names a step.
pub fn step_words(step: Step) -> (u32, u32, u32) {
    match step {
        Step::Send { pipe } => (0, pipe as u32, 0),
        Step::Take { process, stream } => (1, process as u32, stream as u32),
        Step::Fire { process } => (2, process as u32, 0),
        Step::Give { process, stream } => (3, process as u32, stream as u32),
        Step::Receive { pipe } => (4, pipe as u32, 0),
    }
}
