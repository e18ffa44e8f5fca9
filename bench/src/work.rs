//! An array with everything that its calls are lent, and its calls, one by one.

use std::hint::black_box;

use reference::calls::{Lent, READY_WORDS};
use reference::step_vectors::GREATEST;

use crate::arrays::Array;
use crate::sides::{Side, COUNTS, FIGURES, QUICK, ROW_WORDS};

/// A call as it is measured.
#[derive(Clone, Copy, PartialEq)]
pub enum Call {
    Accept,
    /// For the greatest k.
    StepVectors,
    Table,
    PlainRun,
    Start,
    /// The last pipe's part of the received list.
    Window,
    /// The first send, from the start.
    Step,
    /// Halfway.
    Ready,
    /// At the end.
    Result,
    /// A run of no step, from the start.
    RunNone,
    /// A run from the start to the end.
    RunAll,
}

impl Call {
    pub const ALL: [(Call, &'static str); 11] = [
        (Call::Accept, "accept"),
        (Call::StepVectors, "step vectors"),
        (Call::Table, "table"),
        (Call::PlainRun, "plain run"),
        (Call::Start, "start"),
        (Call::Window, "window"),
        (Call::Step, "step"),
        (Call::Ready, "ready"),
        (Call::Result, "result"),
        (Call::RunNone, "run 0"),
        (Call::RunAll, "run"),
    ];

    pub fn named(name: &str) -> Option<Call> {
        let mut all = Call::ALL.into_iter();
        all.find(|(_, other)| *other == name).map(|(call, _)| call)
    }
}

/// Received values and a state.
#[derive(Clone, PartialEq)]
pub struct Stage {
    pub received: Vec<u32>,
    pub state: Vec<u32>,
}

impl Stage {
    pub fn lent<'a>(&'a mut self, waiting: &'a [u32]) -> Lent<'a> {
        Lent {
            waiting,
            received: &mut self.received,
            state: &mut self.state,
        }
    }

    pub fn memory<'a>(&'a self, waiting: &'a [u32]) -> [&'a [u32]; 3] {
        [waiting, &self.received, &self.state]
    }
}

/// An array with its stages in Run's order, and the lists that its calls write.
pub struct Work {
    pub board: u32,
    pub bytes: Vec<u8>,
    pub figures: [u32; FIGURES],
    pub counts: [u32; COUNTS],
    pub values: Vec<u32>,
    pub waiting: Vec<u32>,
    pub started: Stage,
    pub halfway: Stage,
    pub ended: Stage,
    /// The words that the first send changes, from 0.
    sent: Vec<usize>,
    pub rows: Vec<u32>,
    pub output: Vec<u32>,
    pub words: [u64; READY_WORDS],
    pub answer: [u32; 2],
    pub new_waiting: Vec<u32>,
    pub stage: Stage,
}

impl Work {
    /// The values are Fill's for seed 1; they and the stages are made by the quick program.
    pub fn new(array: &Array) -> Work {
        let (board, bytes) = (array.board, array.description.bytes());
        let mut figures = [0; FIGURES];
        assert_eq!((QUICK.accept)(board, &bytes, &mut figures), 0);
        let [processes, _, elements, _, words, steps, ..] = figures.map(|figure| figure as usize);
        let empty = Stage {
            received: vec![0; elements],
            state: vec![0; words],
        };
        let mut work = Work {
            board,
            bytes,
            figures,
            counts: [0; COUNTS],
            values: vec![0; elements],
            waiting: vec![0; elements],
            started: empty.clone(),
            halfway: empty.clone(),
            ended: empty.clone(),
            sent: Vec::new(),
            rows: vec![0; ROW_WORDS * processes],
            output: vec![0; elements],
            words: [0; READY_WORDS],
            answer: [0; 2],
            new_waiting: vec![0; elements],
            stage: empty,
        };
        assert_eq!((QUICK.fill)(1, elements, &mut work.values), 0);
        assert_eq!(work.call(&QUICK, Call::Start), 0);
        work.waiting.clone_from(&work.new_waiting);
        work.halfway = work.after(steps as u32 / 2);
        work.ended = work.after(steps as u32);
        assert_eq!(work.call(&QUICK, Call::Step), 0);
        let state = work.stage.state.iter().enumerate();
        work.sent = state
            .filter(|(_, &word)| word != 0)
            .map(|(at, _)| at)
            .collect();
        work.prepare(Call::Step);
        work
    }

    /// The stage after so many steps of a run from the start.
    fn after(&self, steps: u32) -> Stage {
        let mut stage = self.started.clone();
        let lent = stage.lent(&self.waiting);
        let mut answer = [0; 2];
        let number = (QUICK.run)(self.board, &self.bytes, steps, lent, &mut answer);
        assert_eq!((number, answer[0]), (0, steps));
        stage
    }

    pub fn steps(&self) -> u32 {
        self.figures[5]
    }

    /// Instances, elements and state words.
    pub fn size(&self) -> u32 {
        self.figures[1] + self.figures[2] + self.figures[4]
    }

    /// Puts back what a call changes and finds otherwise.
    pub fn prepare(&mut self, call: Call) {
        match call {
            Call::Step => {
                for &word in &self.sent {
                    self.stage.state[word] = 0;
                }
            }
            Call::RunAll => self.stage.clone_from(&self.started),
            _ => {}
        }
    }

    /// Does a call; its number.
    pub fn call(&mut self, side: &Side, call: Call) -> u32 {
        let (board, bytes, waiting) = (self.board, black_box(&self.bytes), &self.waiting);
        let last = self.figures[3] - 1;
        let answer = &mut self.answer;
        match call {
            Call::Accept => (side.accept)(board, bytes, &mut self.figures),
            Call::StepVectors => (side.step_vectors)(board, bytes, GREATEST, &mut self.counts),
            Call::Table => (side.table)(board, bytes, &mut self.rows),
            Call::PlainRun => (side.plain_run)(board, bytes, &self.values, &mut self.output),
            Call::Start => {
                let Stage { received, state } = &mut self.stage;
                let lists = [&mut self.new_waiting, received, state].map(Vec::as_mut_slice);
                (side.start)(board, bytes, &self.values, lists)
            }
            Call::Window => {
                let lists = [waiting, &self.ended.received].map(Vec::as_slice);
                (side.window)(board, bytes, [last, 1], lists, answer)
            }
            Call::Step => (side.step)(board, bytes, [0, 0, 0], self.stage.lent(waiting)),
            Call::Ready => {
                let memory = self.halfway.memory(waiting);
                (side.ready)(board, bytes, &mut self.words, memory, answer)
            }
            Call::Result => {
                let memory = self.ended.memory(waiting);
                (side.result)(board, bytes, &mut self.output, memory)
            }
            Call::RunNone => {
                let lent = self.started.lent(waiting);
                (side.run)(board, bytes, 0, lent, answer)
            }
            Call::RunAll => {
                let lent = self.stage.lent(waiting);
                (side.run)(board, bytes, u32::MAX, lent, answer)
            }
        }
    }
}
