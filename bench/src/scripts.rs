//! Plays random scripts, call by call, on the library, on the quick program and on the second implementation. Some of a script's calls are
//! told another board than its own.

use reference::board::{BENCH, GAUGE};
use reference::calls::{Lent, READY_WORDS};
use reference::number_of;
use reference::random::Random;
use reference::random_board::OTHERS;
use reference::random_script;
use reference::replay::{Call, Script};

use crate::answers::{Told, MARK};
use crate::sides::{Side, SIDES};

/// How many scripts are played.
const SCRIPTS: usize = 2500;

/// The words of the longest lists lent: waiting, received, state, ready words, output.
const LONGEST: [usize; 5] = [32_768, 32_768, 140_000, 32, 32_768];

/// Plays the scripts of a seed; how many there are, and how many calls were held against each other.
pub fn check(seed: u64) -> (usize, usize) {
    let scripts = random_script::scripts(seed, SCRIPTS);
    let mut random = Random::new(seed);
    let played: Vec<usize> = scripts
        .filter_map(|bytes| Script::read(&bytes))
        .map(|script| play(&script, &mut random))
        .collect();
    (played.len(), played.iter().sum())
}

/// The lists of a script, and how many words of each are lent.
struct Lists<'a> {
    /// The script's own board word, another board's, and one that names none; and which of them the next call is told.
    told: [Told<'a>; 3],
    now: usize,
    waiting: Vec<u32>,
    received: Vec<u32>,
    state: Vec<u32>,
    ready: Vec<u64>,
    output: Vec<u32>,
    lengths: [usize; 5],
}

/// Plays a script, of which every fifth call or so is told another word; how many calls it has.
fn play(script: &Script, random: &mut Random) -> usize {
    let other = if script.board == GAUGE { BENCH } else { GAUGE };
    let words = [script.board, other, random.pick(&OTHERS)];
    let told = words.map(|board| Told::new(board, &script.description));
    let accepted = told[0].calls.accept();
    let (elements, words) = accepted.map_or((0, 0), |accepted| (accepted.elements, accepted.words));
    let [waiting, received, state, ready, output] = LONGEST;
    let mut lists = Lists {
        told,
        now: 0,
        waiting: vec![MARK; waiting],
        received: vec![MARK; received],
        state: vec![MARK; state],
        ready: vec![u64::from(MARK); ready],
        output: vec![MARK; output],
        lengths: [elements, elements, words, READY_WORDS, elements],
    };
    lists.start(&script.values);
    let played = script.calls.iter().map_while(|&call| {
        lists.now = random.pick(&[0, 0, 0, 0, 0, 0, 0, 0, 1, 2]);
        lists.call(call)
    });
    1 + played.filter(|&compared| compared).count()
}

impl Lists<'_> {
    /// Whether a call is held against the second implementation; none if it ends the script.
    fn call(&mut self, [number, a, b, c]: Call) -> Option<bool> {
        match number {
            0 => self.step([a, b, c]),
            1 => self.run(a),
            2 => self.ready(),
            3 => self.window([a, b]),
            4 => self.result(),
            5 | 6 => {}
            7 => self.poke(a as usize, b),
            8 => self.lend(a as usize, b as usize),
            _ => return None,
        }
        Some(number < 5)
    }

    fn start(&mut self, values: &[u32]) {
        let [w, r, s, ..] = self.lengths;
        let before = [&self.waiting[..w], &self.received[..r], &self.state[..s]];
        let before = before.map(<[u32]>::to_vec);
        let mut left = before.clone();
        let [waiting, received, state] = &mut left;
        let told = &self.told[self.now];
        let expected = told.calls.start(values, waiting, received, state);
        for side in SIDES {
            let mut lists = before.clone();
            let [waiting, received, state] = &mut lists;
            let lent: [&mut [u32]; 3] = [waiting, received, state];
            let number = (side.start)(told.board, told.description, values, lent);
            assert_eq!(number, number_of(expected), "{}", side.name);
            assert!(lists == left, "{}", side.name);
        }
        self.waiting[..w].copy_from_slice(&left[0]);
        self.received[..r].copy_from_slice(&left[1]);
        self.state[..s].copy_from_slice(&left[2]);
    }

    fn step(&mut self, words: [u32; 3]) {
        let [kind, number, stream] = words;
        self.moved(
            |told, lent| (number_of(told.calls.step(lent, kind, number, stream)), ()),
            |side, told, lent| ((side.step)(told.board, told.description, words, lent), ()),
        );
    }

    fn run(&mut self, steps: u32) {
        self.moved(
            |told, lent| {
                let ran = told.calls.run(lent, u64::from(steps));
                let answer = ran.map_or([MARK; 2], |ran| [ran.done as u32, u32::from(ran.ready)]);
                (number_of(ran), answer)
            },
            |side, told, lent| {
                let mut answer = [MARK; 2];
                let number = (side.run)(told.board, told.description, steps, lent, &mut answer);
                (number, answer)
            },
        );
    }

    /// Holds two calls that may change received and state against each other, the second of both programs.
    fn moved<T: PartialEq + std::fmt::Debug>(
        &mut self,
        theirs: impl FnOnce(&Told, Lent) -> T,
        ours: impl Fn(&Side, &Told, Lent) -> T,
    ) {
        let [w, r, s, ..] = self.lengths;
        let waiting = &self.waiting[..w];
        let told = &self.told[self.now];
        let mut left = [self.received[..r].to_vec(), self.state[..s].to_vec()];
        let expected = theirs(told, lent(waiting, &mut left));
        for side in SIDES {
            let mut lists = [self.received[..r].to_vec(), self.state[..s].to_vec()];
            let answer = ours(side, told, lent(waiting, &mut lists));
            assert_eq!(answer, expected, "{}", side.name);
            assert!(lists == left, "{}", side.name);
        }
        self.received[..r].copy_from_slice(&left[0]);
        self.state[..s].copy_from_slice(&left[1]);
    }

    fn ready(&mut self) {
        let [w, r, s, ready, _] = self.lengths;
        let memory = [&self.waiting[..w], &self.received[..r], &self.state[..s]];
        let [waiting, received, state] = memory;
        let mut left = self.ready[..ready].to_vec();
        let told = &self.told[self.now];
        let expected = told.calls.ready(waiting, received, state, &mut left);
        let counts = expected.map_or([MARK; 2], |ready| [ready.count as u32, ready.lowest as u32]);
        for side in SIDES {
            let mut words = self.ready[..ready].to_vec();
            let mut answer = [MARK; 2];
            let lent = &mut words;
            let number = (side.ready)(told.board, told.description, lent, memory, &mut answer);
            let name = side.name;
            assert_eq!((number, answer), (number_of(expected), counts), "{name}");
            assert!(words == left, "{name}");
        }
        self.ready[..ready].copy_from_slice(&left);
    }

    fn window(&self, words: [u32; 2]) {
        let [pipe, end] = words;
        let [w, r, ..] = self.lengths;
        let lists = [&self.waiting[..w], &self.received[..r]];
        let told = &self.told[self.now];
        let expected = told.calls.window(lists[0], lists[1], pipe, end);
        for side in SIDES {
            let mut answer = [MARK; 2];
            let number = (side.window)(told.board, told.description, words, lists, &mut answer);
            assert_eq!(number, number_of(expected), "{}", side.name);
            match expected {
                // The same words, not only words that are equal.
                Ok(part) => {
                    let [from, length] = answer.map(|word| word as usize);
                    let list = lists[end as usize];
                    assert!(std::ptr::eq(part, &list[from..from + length]));
                }
                Err(_) => assert_eq!(answer, [MARK; 2], "{}", side.name),
            }
        }
    }

    fn result(&mut self) {
        let [w, r, s, _, output] = self.lengths;
        let memory = [&self.waiting[..w], &self.received[..r], &self.state[..s]];
        let [waiting, received, state] = memory;
        let mut left = self.output[..output].to_vec();
        let told = &self.told[self.now];
        let expected = told.calls.result(waiting, received, state, &mut left);
        for side in SIDES {
            let mut words = self.output[..output].to_vec();
            let number = (side.result)(told.board, told.description, &mut words, memory);
            assert_eq!(number, number_of(expected), "{}", side.name);
            assert!(words == left, "{}", side.name);
        }
        self.output[..output].copy_from_slice(&left);
    }

    /// Writes a word of the lent state if there is one.
    fn poke(&mut self, word: usize, value: u32) {
        let lent = self.lengths[2];
        if let Some(word) = self.state[..lent].get_mut(word) {
            *word = value;
        }
    }

    /// From here on lends so many words of a list, or all if it has fewer.
    fn lend(&mut self, list: usize, length: usize) {
        if let (Some(lent), Some(&longest)) = (self.lengths.get_mut(list), LONGEST.get(list)) {
            *lent = length.min(longest);
        }
    }
}

/// Received and state as they are lent to Step and Run.
fn lent<'a>(waiting: &'a [u32], [received, state]: &'a mut [Vec<u32>; 2]) -> Lent<'a> {
    Lent {
        waiting,
        received,
        state,
    }
}
