//! Replay: plays the calls of a script on lists that the script lends.
//!
//! A script is words, least byte first: the number of bytes of the description; its bytes, padded to a whole word; the board word, which
//! every call is told; the number of values; the values; then calls of four words each: 0 step (kind, number, stream), 1 run (steps), 2
//! ready, 3 window (pipe, side), 4 result, 5 show the state, 6 show the received list, 7 poke (word of the state, value), 8 lend (list,
//! length). Any other number ends the script. Words that a call does not use are ignored, and so is a last call that is cut off. The output
//! has a line for Accept, one for Start and one for each call. Accept's has the six figures, the divisor of place and that of each stream
//! in use.
//!
//! Several scripts stand in a bundle: the word 2^32 − 1, with which no whole script begins, since no
//! description is so long; then for each script its number of bytes, a word, and the script. What each
//! prints stands below a line with `script` and its number, from 0 on. A last script that is cut off
//! is played as far as it goes.

use crate::calls::{Calls, Lent, READY_WORDS};
use crate::network::Step;
use crate::Refusal;

/// The words of each buffer: waiting, received, state, ready words, output.
const BUFFERS: [usize; 5] = [32_768, 32_768, 140_000, 32, 32_768];

/// The lists that call 8 can lend, by number.
const WAITING: usize = 0;
const RECEIVED: usize = 1;
const STATE: usize = 2;
const READY: usize = 3;
const OUTPUT: usize = 4;

/// A call: its number and three words.
pub type Call = [u32; 4];

/// The call of a step; kinds that use no stream are given any.
pub fn step_call(step: Step, unused: u32) -> Call {
    match step {
        Step::Send { pipe } => [0, 0, pipe as u32, unused],
        Step::Take { process, stream } => [0, 1, process as u32, stream as u32],
        Step::Fire { process } => [0, 2, process as u32, unused],
        Step::Give { process, stream } => [0, 3, process as u32, stream as u32],
        Step::Receive { pipe } => [0, 4, pipe as u32, unused],
    }
}

/// The first word of a bundle.
const BUNDLE: u32 = u32::MAX;

/// The output of a script or of a bundle.
pub fn replay(input: &[u8]) -> String {
    let mut rest = input;
    if next_word(&mut rest) != Some(BUNDLE) {
        return replay_script(input);
    }
    let mut output = String::new();
    let mut number = 0;
    while let Some(length) = next_word(&mut rest) {
        let (script, others) = rest.split_at(rest.len().min(length as usize));
        output.push_str(&format!("script {number}\n{}", replay_script(script)));
        rest = others;
        number += 1;
    }
    output
}

/// Several scripts in one input.
pub fn bundle(scripts: &[Vec<u8>]) -> Vec<u8> {
    let mut bytes = BUNDLE.to_le_bytes().to_vec();
    for script in scripts {
        bytes.extend((script.len() as u32).to_le_bytes());
        bytes.extend(script);
    }
    bytes
}

/// The output of one script.
fn replay_script(script: &[u8]) -> String {
    let Some(script) = Script::read(script) else {
        return "short script\n".to_string();
    };
    let mut machine = Machine::new(script.board, &script.description);
    let mut output = machine.opening(&script.values);
    for call in script.calls {
        let Some(line) = machine.call(call) else {
            break;
        };
        output.push_str(&line);
        output.push('\n');
    }
    output
}

/// A script, read from its words.
pub struct Script {
    pub description: Vec<u8>,
    pub board: u32,
    pub values: Vec<u32>,
    pub calls: Vec<Call>,
}

impl Script {
    /// Reads a script, unless it is cut off before its calls.
    pub fn read(bytes: &[u8]) -> Option<Script> {
        let mut rest = bytes;
        let length = next_word(&mut rest)? as usize;
        let description = next_bytes(&mut rest, length)?.to_vec();
        next_bytes(&mut rest, (4 - length % 4) % 4)?;
        let board = next_word(&mut rest)?;
        let count = next_word(&mut rest)? as usize;
        let values = words(next_bytes(&mut rest, count.checked_mul(4)?)?);
        let calls = rest
            .chunks_exact(16)
            .map(|call| {
                let word = |number: usize| word_at(call, 4 * number);
                [word(0), word(1), word(2), word(3)]
            })
            .collect();
        Some(Script {
            description,
            board,
            values,
            calls,
        })
    }

    /// The script's bytes.
    pub fn bytes(&self) -> Vec<u8> {
        let mut bytes = (self.description.len() as u32).to_le_bytes().to_vec();
        bytes.extend(&self.description);
        bytes.resize(bytes.len().next_multiple_of(4), 0);
        bytes.extend(self.board.to_le_bytes());
        bytes.extend((self.values.len() as u32).to_le_bytes());
        for word in self.values.iter().chain(self.calls.iter().flatten()) {
            bytes.extend(word.to_le_bytes());
        }
        bytes
    }
}

/// Splits off the next bytes, if there are so many.
fn next_bytes<'a>(rest: &mut &'a [u8], count: usize) -> Option<&'a [u8]> {
    let part = rest.get(..count)?;
    *rest = &rest[count..];
    Some(part)
}

fn next_word(rest: &mut &[u8]) -> Option<u32> {
    Some(word_at(next_bytes(rest, 4)?, 0))
}

fn words(bytes: &[u8]) -> Vec<u32> {
    bytes.chunks_exact(4).map(|word| word_at(word, 0)).collect()
}

fn word_at(bytes: &[u8], start: usize) -> u32 {
    u32::from_le_bytes([
        bytes[start],
        bytes[start + 1],
        bytes[start + 2],
        bytes[start + 3],
    ])
}

/// The lists of a replay and the calls on its description.
pub struct Machine {
    pub calls: Calls,
    waiting: Vec<u32>,
    received: Vec<u32>,
    state: Vec<u32>,
    ready: Vec<u64>,
    output: Vec<u32>,
    /// How many words of each buffer are lent.
    lengths: [usize; 5],
}

impl Machine {
    /// Zeroed lists of the lengths that Accept gives.
    pub fn new(board: u32, description: &[u8]) -> Machine {
        let calls = Calls::on(board, description);
        let (elements, words) = match calls.accept() {
            Ok(accepted) => (accepted.elements, accepted.words),
            Err(_) => (0, 0),
        };
        let mut machine = Machine {
            calls,
            waiting: vec![0; BUFFERS[WAITING]],
            received: vec![0; BUFFERS[RECEIVED]],
            state: vec![0; BUFFERS[STATE]],
            ready: vec![0; BUFFERS[READY]],
            output: vec![0; BUFFERS[OUTPUT]],
            lengths: [0; 5],
        };
        for (list, length) in [elements, elements, words, READY_WORDS, elements]
            .into_iter()
            .enumerate()
        {
            machine.lend(list, length);
        }
        machine
    }

    /// The lines of Accept and Start.
    pub fn opening(&mut self, values: &[u32]) -> String {
        let accept = line(self.accept());
        let [waiting, received, state, ..] = self.lengths;
        let started = self.calls.start(
            values,
            &mut self.waiting[..waiting],
            &mut self.received[..received],
            &mut self.state[..state],
        );
        let start = line(started.map(|()| "start".to_string()));
        format!("{accept}\n{start}\n")
    }

    /// The line of a call; none if its number ends the script.
    pub fn call(&mut self, call: Call) -> Option<String> {
        let [number, a, b, c] = call;
        Some(match number {
            0 => line(self.step(a, b, c)),
            1 => line(self.run(a)),
            2 => line(self.ready()),
            3 => line(self.window(a, b)),
            4 => line(self.result()),
            5 => with_numbers("state", self.lent_state()),
            6 => with_numbers("received", self.lent_received()),
            7 => {
                self.poke(a as usize, b);
                "poke".to_string()
            }
            8 => {
                self.lend(a as usize, b as usize);
                "lend".to_string()
            }
            _ => return None,
        })
    }

    /// The lent part of the state.
    pub fn lent_state(&self) -> &[u32] {
        &self.state[..self.lengths[STATE]]
    }

    /// The lent part of the received list.
    pub fn lent_received(&self) -> &[u32] {
        &self.received[..self.lengths[RECEIVED]]
    }

    fn lent_waiting(&self) -> &[u32] {
        &self.waiting[..self.lengths[WAITING]]
    }

    /// The lists that Step and Run are lent, with the calls.
    fn lent(&mut self) -> (&Calls, Lent<'_>) {
        let [waiting, received, state, ..] = self.lengths;
        let lent = Lent {
            waiting: &self.waiting[..waiting],
            received: &mut self.received[..received],
            state: &mut self.state[..state],
        };
        (&self.calls, lent)
    }

    /// Six figures and place's divisor come before those of the streams.
    fn accept(&self) -> Result<String, Refusal> {
        let values = self.calls.accept()?.values();
        let streams = self.calls.network()?.array.streams.len();
        Ok(with_numbers("accept", &values[..7 + streams]))
    }

    fn step(&mut self, kind: u32, number: u32, stream: u32) -> Result<String, Refusal> {
        let (calls, lent) = self.lent();
        calls.step(lent, kind, number, stream)?;
        Ok("step".to_string())
    }

    fn run(&mut self, steps: u32) -> Result<String, Refusal> {
        let (calls, lent) = self.lent();
        let ran = calls.run(lent, u64::from(steps))?;
        Ok(format!("run {} {}", ran.done, u32::from(ran.ready)))
    }

    fn ready(&mut self) -> Result<String, Refusal> {
        let [waiting, received, state, ready, _] = self.lengths;
        let words = &mut self.ready[..ready];
        let answer = self.calls.ready(
            &self.waiting[..waiting],
            &self.received[..received],
            &self.state[..state],
            words,
        )?;
        let head = format!("ready {} {}", answer.count, answer.lowest);
        Ok(with_numbers(&head, &words[..READY_WORDS]))
    }

    fn window(&self, pipe: u32, side: u32) -> Result<String, Refusal> {
        let (waiting, received) = (self.lent_waiting(), self.lent_received());
        let part = self.calls.window(waiting, received, pipe, side)?;
        Ok(with_numbers("window", part))
    }

    fn result(&mut self) -> Result<String, Refusal> {
        let [waiting, received, state, _, output] = self.lengths;
        let output = &mut self.output[..output];
        self.calls.result(
            &self.waiting[..waiting],
            &self.received[..received],
            &self.state[..state],
            output,
        )?;
        Ok(with_numbers("result", output))
    }

    /// Writes a word of the lent state if there is one.
    fn poke(&mut self, word: usize, value: u32) {
        let lent = &mut self.state[..self.lengths[STATE]];
        if let Some(word) = lent.get_mut(word) {
            *word = value;
        }
    }

    /// From here on lends a list with so many words, or the whole buffer if it has fewer.
    fn lend(&mut self, list: usize, length: usize) {
        if let (Some(lent), Some(buffer)) = (self.lengths.get_mut(list), BUFFERS.get(list)) {
            *lent = length.min(*buffer);
        }
    }
}

/// The line of an answer or of a refusal.
fn line(answer: Result<String, Refusal>) -> String {
    answer.unwrap_or_else(|refusal| refusal.to_string())
}

/// A word and then numbers, one space between.
fn with_numbers<T: ToString>(head: &str, list: &[T]) -> String {
    let mut text = head.to_string();
    for number in list {
        text.push(' ');
        text.push_str(&number.to_string());
    }
    text
}
