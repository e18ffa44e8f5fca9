//! Whether the library and the quick program answer what the second implementation answers, and leave the same in every lent list.

use reference::board::{BENCH, GAUGE};
use reference::calls::{Accepted, Calls, Row};
use reference::compare;
use reference::generator;
use reference::loads::all_sizes;
use reference::number_of;
use reference::random::Random;
use reference::random_board::{self, OTHERS};
use reference::random_description;
use reference::random_divisor;
use reference::random_stride;
use reference::Refusal;

use crate::sides::{FIGURES, ROW_WORDS, SIDES};

/// Every word of a list before a call.
pub const MARK: u32 = 7;

/// The comparison's descriptions, and more than as many again that come from the seed.
pub fn descriptions(seed: u64) -> Vec<Vec<u8>> {
    let records = compare::records().into_iter();
    let mut descriptions: Vec<Vec<u8>> = records.map(|record| record.description).collect();
    let mut random = Random::new(seed);
    for number in random_description::given() {
        // Large arrays take long to make.
        let count = if number == 10 { 4 } else { 20 };
        for _ in 0..count {
            let board = random_board::board(&mut random);
            descriptions.push(random_description::refused(&mut random, board, number));
        }
    }
    for number in 11..=17 {
        for _ in 0..20 {
            let strided = random_stride::strided;
            let refused = random_description::refused_from(&mut random, GAUGE, number, strided);
            descriptions.push(refused);
        }
    }
    for _ in 0..1500 {
        descriptions.push(random_description::accepted(&mut random).bytes());
        descriptions.push(random_description::changed(&mut random));
    }
    for _ in 0..1000 {
        descriptions.push(random_stride::strided(&mut random).bytes());
    }
    for _ in 0..500 {
        let description = random_divisor::divided(&mut random);
        descriptions.push(random_description::word_changed(&mut random, &description));
        descriptions.push(description.bytes());
        descriptions.push(random_divisor::dependent(&mut random).bytes());
    }
    for sizes in all_sizes() {
        for _ in 0..5 {
            descriptions.extend(generator::made(random.bits() as u32, sizes));
        }
    }
    for board in [GAUGE, BENCH] {
        for _ in 0..10 {
            descriptions.push(random_description::large(&mut random, board).bytes());
        }
    }
    descriptions
}

/// Holds the calls on a description, of both programs, against the second implementation, on both boards and on a word that names none.
pub fn check(number: usize, description: &[u8]) {
    for board in [GAUGE, BENCH, OTHERS[number % OTHERS.len()]] {
        Told::new(board, description).check(number as u32);
    }
}

/// A description and a board word, with the second implementation's calls on them.
pub struct Told<'a> {
    pub board: u32,
    pub description: &'a [u8],
    pub calls: Calls,
}

impl Told<'_> {
    pub fn new(board: u32, description: &[u8]) -> Told<'_> {
        let calls = Calls::on(board, description);
        Told {
            board,
            description,
            calls,
        }
    }

    /// Holds Accept, Table, Start and Plain run on values that come from a number against each other.
    fn check(&self, number: u32) {
        let accepted = self.calls.accept();
        self.check_accept(accepted);
        // A description that is declined counts as one process and one element.
        let processes = accepted.map_or(1, |accepted| accepted.processes);
        let elements = accepted.map_or(1, |accepted| accepted.elements);
        let words = ROW_WORDS * processes;
        for length in [0, words - 1, words, words + ROW_WORDS + 1, 1100 * ROW_WORDS] {
            self.check_table(length);
        }
        let state = accepted.map_or(1, |accepted| accepted.words);
        self.check_starts([elements, elements, elements, state]);
        for given in [elements - 1, elements, elements + 1] {
            for lent in [elements - 1, elements, elements + 1] {
                self.check_plain_run(&compare::values(number, given), lent);
            }
        }
    }

    fn check_accept(&self, expected: Result<Accepted, Refusal>) {
        let left = expected.map_or([MARK; FIGURES], |accepted| figures_of(&accepted));
        for side in SIDES {
            let mut figures = [MARK; FIGURES];
            let number = (side.accept)(self.board, self.description, &mut figures);
            let name = side.name;
            assert_eq!((number, figures), (number_of(expected), left), "{name}");
        }
    }

    fn check_table(&self, length: usize) {
        let mut rows = vec![Row::default(); length / ROW_WORDS];
        let expected = self.calls.table(&mut rows);
        let mut left = vec![MARK; length];
        if let (Ok(()), Ok(accepted)) = (expected, self.calls.accept()) {
            for (words, row) in left
                .chunks_exact_mut(ROW_WORDS)
                .zip(&rows[..accepted.processes])
            {
                words.copy_from_slice(&row_words(row));
            }
        }
        for side in SIDES {
            let mut words = vec![MARK; length];
            let number = (side.table)(self.board, self.description, &mut words);
            assert_eq!(number, number_of(expected), "{}", side.name);
            assert!(words == left, "{}", side.name);
        }
    }

    /// Start on lists of the right lengths, and of one or two wrong ones.
    fn check_starts(&self, right: [usize; 4]) {
        self.check_start(right);
        for wrong in 0..right.len() {
            for other in wrong..right.len() {
                for more in [0, 2] {
                    let mut lengths = right;
                    lengths[wrong] = right[wrong] + more - 1;
                    lengths[other] = right[other] + more - 1;
                    self.check_start(lengths);
                }
            }
        }
    }

    /// Start on values, waiting, received and state of so many words.
    fn check_start(&self, lengths: [usize; 4]) {
        let [values, waiting, received, state] = lengths;
        let values = compare::values(1, values);
        let marked = [waiting, received, state].map(|length| vec![MARK; length]);
        let mut left = marked.clone();
        let [waiting, received, state] = &mut left;
        let expected = self.calls.start(&values, waiting, received, state);
        for side in SIDES {
            let mut lists = marked.clone();
            let [waiting, received, state] = &mut lists;
            let lent: [&mut [u32]; 3] = [waiting, received, state];
            let number = (side.start)(self.board, self.description, &values, lent);
            assert_eq!(number, number_of(expected), "{}", side.name);
            assert!(lists == left, "{}", side.name);
        }
    }

    fn check_plain_run(&self, values: &[u32], length: usize) {
        let mut left = vec![MARK; length];
        let expected = self.calls.plain_run(values, &mut left);
        for side in SIDES {
            let mut output = vec![MARK; length];
            let number = (side.plain_run)(self.board, self.description, values, &mut output);
            assert_eq!(number, number_of(expected), "{}", side.name);
            assert!(output == left, "{}", side.name);
        }
    }
}

fn figures_of(accepted: &Accepted) -> [u32; FIGURES] {
    accepted.values().map(|value| value as u32)
}

/// Point, count, first, last, soak and drain; a signed number as its 32 bits.
fn row_words(row: &Row) -> [u32; ROW_WORDS] {
    let signed = |words: &[i32]| words.iter().map(|&word| word as u32).collect::<Vec<_>>();
    let parts = [
        signed(&row.point),
        vec![row.count],
        signed(&row.first),
        signed(&row.last),
        row.soak.to_vec(),
        row.drain.to_vec(),
    ];
    parts.concat().try_into().expect("a row has 21 words")
}
