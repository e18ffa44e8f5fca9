//! Random replay scripts. The calls are played while they are written, so that a script can name
//! steps that are ready.

use crate::board::{BENCH, GAUGE};
use crate::calls::READY_WORDS;
use crate::network::{Network, Step};
use crate::random::Random;
use crate::random_board as boards;
use crate::random_description as descriptions;
use crate::random_divisor as divisors;
use crate::random_stride as strides;
use crate::replay::{step_call, Call, Machine, Script};

/// Scripts come in rounds: in each, one for every refusal of Accept and these.
const REFUSALS: usize = 16;
const CHANGED: usize = 3;
const STRIDED: usize = 5;
const LARGE: usize = 1;
const CUT: usize = 1;
const DIVIDED: usize = 3;
const ROUND: usize = 50;

/// The most words that a script shows of a list.
const SHOWN: usize = 250;

/// So many random scripts; each follows from the seed and its number.
pub fn scripts(seed: u64, count: usize) -> impl Iterator<Item = Vec<u8>> {
    let mut seeds = Random::new(seed);
    (0..count).map(move |number| script(&mut Random::new(seeds.bits()), number % ROUND))
}

/// A script of the kind that its number in the round says.
fn script(random: &mut Random, number: usize) -> Vec<u8> {
    let changed = REFUSALS..REFUSALS + CHANGED;
    let strided = changed.end..changed.end + STRIDED;
    let large = strided.end..strided.end + LARGE;
    let short = large.end..large.end + CUT;
    let divided = short.end..short.end + DIVIDED;
    let board = boards::board(random);
    let description = if let Some(given) = descriptions::given().nth(number) {
        descriptions::refused(random, board, given)
    } else if changed.contains(&number) {
        descriptions::changed(random)
    } else if strided.contains(&number) {
        strides::strided(random).bytes()
    } else if large.contains(&number) {
        large_on_a_board(random)
    } else if divided.contains(&number) {
        divisors::divided(random).bytes()
    } else {
        descriptions::accepted(random).bytes()
    };
    let told = boards::or_none(random, board);
    let mut bytes = full_script(random, told, description);
    if short.contains(&number) {
        cut(random, &mut bytes);
    }
    bytes
}

/// A description near the limits of either board, whichever it is told.
fn large_on_a_board(random: &mut Random) -> Vec<u8> {
    let board = random.pick(&[GAUGE, BENCH]);
    descriptions::large(random, board).bytes()
}

/// Cuts a script off, mostly before its calls, or makes it claim more than it has.
fn cut(random: &mut Random, bytes: &mut Vec<u8>) {
    if random.percent(20) {
        bytes[3] = 0xFF;
    } else {
        let most = random.pick(&[4, 100, 300, bytes.len()]);
        bytes.truncate(random.below(most));
    }
}

/// A whole script on a description for a board, sometimes with an ending that is not to be played.
fn full_script(random: &mut Random, board: u32, description: Vec<u8>) -> Vec<u8> {
    let mut machine = Machine::new(board, &description);
    let mut count = machine
        .calls
        .accept()
        .map_or(random.below(4), |accepted| accepted.elements);
    if random.percent(5) {
        count = (count + random.below(3)).saturating_sub(1);
    }
    let values = random.values(count);
    machine.opening(&values);
    let mut writer = Writer {
        random,
        machine,
        calls: Vec::new(),
    };
    writer.write_calls();
    let calls = writer.calls;
    let mut bytes = Script {
        description,
        board,
        values,
        calls,
    }
    .bytes();
    if random.percent(20) {
        let more = random.below(16);
        bytes.extend(random.bytes(more));
    }
    bytes
}

/// Writes calls and plays them.
struct Writer<'a> {
    random: &'a mut Random,
    machine: Machine,
    calls: Vec<Call>,
}

impl Writer<'_> {
    fn write_calls(&mut self) {
        for _ in 0..self.random.below(6) + 1 {
            match self.random.below(9) {
                0 | 1 => self.ready_steps(),
                2 => self.run_some(),
                3 => self.ask(),
                4 => self.any_steps(),
                5 | 6 => self.wrong_lends(),
                7 => self.poke(true),
                _ => self.poke(false),
            }
        }
        if self.random.percent(50) {
            self.run_to_the_end();
        }
        if self.random.percent(10) {
            let over = self.random.pick(&[9, 10, 1 << 31, u32::MAX]);
            self.play([over, 0, 0, 0]);
            self.play([2, 0, 0, 0]);
        }
    }

    fn play(&mut self, call: Call) {
        self.machine.call(call);
        self.calls.push(call);
    }

    /// The network, if the description was accepted.
    fn network(&self) -> Option<&Network> {
        self.machine.calls.network().ok()
    }

    /// E and the number of state words, 0 if the description was refused.
    fn lengths(&self) -> (u32, u32) {
        let accepted = self.machine.calls.accept();
        accepted.map_or((0, 0), |accepted| {
            (accepted.elements as u32, accepted.words as u32)
        })
    }

    /// A word that is small, just too large, or anything.
    fn word(&mut self, limit: usize) -> u32 {
        match self.random.below(10) {
            0 => limit as u32,
            1 => self.random.value(),
            _ => self.random.below(limit.max(1)) as u32,
        }
    }

    /// Steps in a random order, each of them ready.
    fn ready_steps(&mut self) {
        for _ in 0..self.random.below(60) + 1 {
            let Some(step) = self.any_ready_step() else {
                return;
            };
            let unused = self.word(2);
            self.play(step_call(step, unused));
        }
    }

    fn any_ready_step(&mut self) -> Option<Step> {
        let network = self.network()?;
        let state = self.machine.lent_state();
        if state.len() < network.words() || !network.sound(state) {
            return None;
        }
        let ready: Vec<Step> = network.ready_steps(state).collect();
        (!ready.is_empty()).then(|| self.random.pick(&ready))
    }

    fn run_some(&mut self) {
        let steps = self.random.pick(&[0, 1, 2, 5, 20, 50, 100]);
        self.play([1, steps, 0, 0]);
    }

    fn run_to_the_end(&mut self) {
        let large = self.network().is_some_and(|network| network.words() > 2000);
        let steps = if large { 500 } else { u32::MAX };
        self.play([1, steps, 0, 0]);
        self.play([4, 0, 0, 0]);
        self.show();
    }

    /// The calls that change nothing.
    fn ask(&mut self) {
        let pipes = self
            .network()
            .map_or(0, |network| network.array.pipes.len());
        self.play([2, 0, 0, 0]);
        for _ in 0..2 {
            let (pipe, side) = (self.word(pipes), self.word(2));
            self.play([3, pipe, side, 0]);
        }
        if self.random.percent(30) {
            self.play([4, 0, 0, 0]);
        }
        self.show();
    }

    /// The state and the received list, where they are short.
    fn show(&mut self) {
        if self.machine.lent_state().len() <= SHOWN && self.random.percent(50) {
            self.play([5, 0, 0, 0]);
        }
        if self.machine.lent_received().len() <= SHOWN && self.random.percent(50) {
            self.play([6, 0, 0, 0]);
        }
    }

    /// Steps of any words, mostly not ready.
    fn any_steps(&mut self) {
        let (processes, streams) = self.network().map_or((0, 0), |network| {
            (network.array.processes.len(), network.array.streams.len())
        });
        for _ in 0..self.random.below(8) + 1 {
            let call = [0, self.word(5), self.word(processes), self.word(streams)];
            self.play(call);
        }
    }

    /// One or two lists of a wrong length, all calls, then mostly the right lengths again.
    fn wrong_lends(&mut self) {
        let (elements, words) = self.lengths();
        let right = [elements, elements, words, READY_WORDS as u32, elements];
        for _ in 0..self.random.below(2) + 1 {
            let list = self.random.below(6);
            let length = right.get(list).copied().unwrap_or(7);
            let wrong = match self.random.below(5) {
                0 => 0,
                1 | 2 => length.saturating_sub(1),
                3 => length + 1,
                _ => self.random.pick(&[200_000, u32::MAX]),
            };
            self.play([8, list as u32, wrong, 0]);
        }
        self.all_calls();
        if self.random.percent(80) {
            for (list, length) in right.into_iter().enumerate() {
                self.play([8, list as u32, length, 0]);
            }
        }
    }

    fn all_calls(&mut self) {
        match self.any_ready_step() {
            Some(step) if self.random.percent(50) => self.play(step_call(step, 0)),
            _ => self.play([0, 0, 0, 0]),
        }
        self.play([1, 3, 0, 0]);
        self.ask();
        self.play([4, 0, 0, 0]);
    }

    /// Words of the state changed so that it is sound again, or is not; then calls.
    fn poke(&mut self, sound: bool) {
        for _ in 0..self.random.below(3) + 1 {
            let Some((word, value)) = self.word_to_poke(sound) else {
                break;
            };
            self.play([7, word, value, 0]);
        }
        self.all_calls();
        if sound {
            self.any_steps();
        } else if self.random.percent(70) {
            self.clear_state();
        }
    }

    /// A word and a value that make the state sound, or make it unsound.
    fn word_to_poke(&mut self, sound: bool) -> Option<(u32, u32)> {
        let mut state = self.machine.lent_state().to_vec();
        let words = self.network()?.words();
        if state.len() < words {
            return None;
        }
        for _ in 0..60 {
            let word = self.random.below(words);
            let value = if self.random.percent(80) {
                self.random.below(4) as u32
            } else {
                self.random.value()
            };
            let old = std::mem::replace(&mut state[word], value);
            if old != value && self.network()?.sound(&state) == sound {
                return Some((word as u32, value));
            }
            state[word] = old;
        }
        None
    }

    /// Pokes every word of a short state that is not 0.
    fn clear_state(&mut self) {
        if self.machine.lent_state().len() > SHOWN {
            return;
        }
        let state = self.machine.lent_state().to_vec();
        for (word, _) in state.iter().enumerate().filter(|(_, &value)| value != 0) {
            self.play([7, word as u32, 0, 0]);
        }
    }
}
