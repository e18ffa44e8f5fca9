//! Expected files: the inputs and outputs that other programs are held against.

use std::fs;
use std::io;
use std::path::Path;

use crate::board::{BENCH, GAUGE};
use crate::calls::Calls;
use crate::compare;
use crate::description::{bytes_of, Description};
use crate::designs;
use crate::divisor::shorten;
use crate::examples::{example_scripts, examples};
use crate::fill_text::fill_text;
use crate::generator;
use crate::loads;
use crate::random::Random;
use crate::random_script::scripts;
use crate::replay::{bundle, replay, step_call, Call, Script};
use crate::steps_text::steps_text;
use crate::table::table_text;
use crate::vector_counts;
use crate::walk_text::walk_text;

/// What a program is given, and the output that it should print.
struct Case {
    name: &'static str,
    given: Given,
    stdout: Vec<u8>,
}

/// A program's standard input, the words of its command line, or both.
enum Given {
    Stdin(Vec<u8>),
    Args(&'static [&'static str]),
    Both(&'static [&'static str], Vec<u8>),
}

/// Every case that this implementation is responsible for.
fn cases() -> Vec<Case> {
    vec![
        shorten_case(),
        print_table_case(),
        print_walk_case(),
        compare_case(),
        replay_case(),
        loads_case(),
        print_fill_case(),
        print_make_case(),
        vector_counts_case(),
        print_steps_case(),
    ]
}

/// Writes the files that other programs are held against below a directory: the cases and the examples.
pub fn write_files(directory: &Path) -> io::Result<()> {
    fs::create_dir_all(directory)?;
    write_cases(directory)?;
    write_examples(directory)
}

/// Each example as examples/NAME.bin, and each script as examples/NAME.script.
fn write_examples(directory: &Path) -> io::Result<()> {
    let folder = directory.join("examples");
    fs::create_dir_all(&folder)?;
    for example in examples() {
        let file = folder.join(example.name).with_extension("bin");
        fs::write(file, example.description.bytes())?;
    }
    for example in example_scripts() {
        let file = folder.join(example.name).with_extension("script");
        fs::write(file, example.script.bytes())?;
    }
    Ok(())
}

/// Each case as crates/NAME/stdin, crates/NAME/args with a word to a line, or both, and crates/NAME/stdout.
fn write_cases(directory: &Path) -> io::Result<()> {
    for case in cases() {
        let folder = directory.join("crates").join(case.name);
        fs::create_dir_all(&folder)?;
        match case.given {
            Given::Stdin(bytes) => fs::write(folder.join("stdin"), bytes)?,
            Given::Args(words) => fs::write(folder.join("args"), lines(words))?,
            Given::Both(words, bytes) => {
                fs::write(folder.join("args"), lines(words))?;
                fs::write(folder.join("stdin"), bytes)?;
            }
        }
        fs::write(folder.join("stdout"), case.stdout)?;
    }
    Ok(())
}

/// A word to a line.
fn lines(words: &[&str]) -> String {
    words.iter().map(|word| format!("{word}\n")).collect()
}

/// The vectors in, and a line for each out: the divisor and the vector divided by it.
fn shorten_case() -> Case {
    let mut stdin = Vec::new();
    let mut stdout = String::new();
    for vector in vectors() {
        stdin.extend(bytes_of(&vector));
        let short = shorten(&vector);
        let (divisor, words) = (short.divisor, short.vector);
        stdout.push_str(&format!(
            "{divisor} {} {} {}\n",
            words[0], words[1], words[2]
        ));
    }
    Case {
        name: "shorten",
        given: Given::Stdin(stdin),
        stdout: stdout.into_bytes(),
    }
}

/// Some 200 vectors: small ones, signs and zeros, the ends of the range, products of small primes,
/// and random ones with a planted common factor.
pub fn vectors() -> Vec<[i32; 3]> {
    let mut vectors = small_vectors();
    vectors.extend(end_vectors());
    vectors.extend(prime_vectors());
    vectors.extend(planted_vectors());
    vectors
}

/// −2 to 2 in several combinations.
fn small_vectors() -> Vec<[i32; 3]> {
    let mut vectors = Vec::new();
    for a in -2..=2 {
        for b in -2..=2 {
            vectors.extend([[a, b, 0], [0, a, b], [a, 2, b]]);
        }
    }
    vectors
}

/// The least and the greatest word in various places, beside others.
fn end_vectors() -> Vec<[i32; 3]> {
    let (least, greatest) = (i32::MIN, i32::MAX);
    let half = 1 << 30;
    let mut vectors = vec![
        [least, least, least],
        [greatest, greatest, greatest],
        [least, greatest, 0],
        [greatest, -greatest, greatest],
        [least, half, -half],
    ];
    for end in [least, greatest] {
        for other in [0, 1, -1, 6, half, end] {
            vectors.extend([[end, other, 0], [0, end, other], [other, 0, end]]);
        }
    }
    vectors
}

/// Products of small primes, with changing signs.
fn prime_vectors() -> Vec<[i32; 3]> {
    let products = [
        2 * 3 * 5,
        2 * 2 * 7,
        3 * 5 * 7,
        2 * 3 * 7 * 11,
        5 * 11 * 13,
        9 * 25 * 49,
    ];
    let mut vectors = Vec::new();
    for (number, &a) in products.iter().enumerate() {
        for &b in &products[number + 1..] {
            vectors.push([a, -b, a * b]);
            vectors.push([-a * 6, b * 6, 30]);
        }
    }
    vectors
}

/// Random vectors times a random factor.
fn planted_vectors() -> Vec<[i32; 3]> {
    let mut random = Random::new(1);
    let mut vectors = Vec::new();
    for _ in 0..60 {
        let factor = random.between(1, 40_000);
        let mut word = || factor * random.between(-50_000, 50_000);
        vectors.push([word(), word(), word()]);
    }
    vectors
}

/// Document 01's case of the table program: design two.
fn print_table_case() -> Case {
    let stdin = designs::polynomial_two(2).bytes();
    Case {
        name: "print_table",
        stdout: table_text(GAUGE, &stdin).into_bytes(),
        given: Given::Stdin(stdin),
    }
}

/// The walk of the matrix product on the slanted grid, which has null processes.
fn print_walk_case() -> Case {
    let stdin = designs::matrix_slanted(2).bytes();
    Case {
        name: "print_walk",
        stdout: walk_text(GAUGE, &stdin).into_bytes(),
        given: Given::Stdin(stdin),
    }
}

/// The comparison of Accept, the walk, Table and Plain run.
fn compare_case() -> Case {
    let records = compare::records();
    Case {
        name: "compare",
        given: Given::Stdin(compare::input(&records)),
        stdout: compare::text(&records).into_bytes(),
    }
}

/// How many random scripts are replayed.
const SCRIPTS: usize = 1000;

/// The replay of the examples, run to their end, of the example scripts, of designs of requests 2.5 and 2.7 in two orders, of the examples
/// and designs of request 2.9 on its boards, and of random scripts, in one bundle.
fn replay_case() -> Case {
    let stdin = bundle(&replay_scripts());
    Case {
        name: "replay",
        stdout: replay(&stdin).into_bytes(),
        given: Given::Stdin(stdin),
    }
}

/// The comparison of Fill and Make.
fn loads_case() -> Case {
    let records = loads::records();
    Case {
        name: "loads",
        given: Given::Stdin(loads::input(&records)),
        stdout: loads::text(&records).into_bytes(),
    }
}

/// Request 2.3's five values of seed 1.
fn print_fill_case() -> Case {
    Case {
        name: "print_fill",
        given: Given::Args(&["1", "5"]),
        stdout: fill_text(1, 5).into_bytes(),
    }
}

/// The description of two loops, three streams and two lines that is made from seed 1.
fn print_make_case() -> Case {
    Case {
        name: "print_make",
        given: Given::Args(&["1", "2", "3", "2"]),
        stdout: generator::made(1, [2, 3, 2]).unwrap_or_default(),
    }
}

/// The comparison of Step vectors.
fn vector_counts_case() -> Case {
    let records = vector_counts::records();
    Case {
        name: "vector_counts",
        given: Given::Stdin(vector_counts::input(&records)),
        stdout: vector_counts::text(&records).into_bytes(),
    }
}

/// The counts of design one for the greatest k.
fn print_steps_case() -> Case {
    let stdin = designs::polynomial_one(2).bytes();
    Case {
        name: "print_steps",
        stdout: steps_text(GAUGE, 3, &stdin).into_bytes(),
        given: Given::Both(&["3"], stdin),
    }
}

/// The scripts that are replayed.
pub fn replay_scripts() -> Vec<Vec<u8>> {
    let ends = examples()
        .into_iter()
        .map(|it| run_to_the_end(GAUGE, &it.description));
    let named = example_scripts().into_iter().map(|it| it.script.bytes());
    let pairs = ordered().into_iter().flat_map(|it| in_two_orders(&it));
    ends.chain(named)
        .chain(pairs)
        .chain(on_boards())
        .chain(scripts(1, SCRIPTS))
        .collect()
}

/// The designs of requests 2.5 and 2.7 that are run in two orders.
fn ordered() -> [Description; 6] {
    [
        designs::cleared_one(2),
        designs::cleared_turned(),
        designs::cleared_column(),
        designs::cleared_matrix(1),
        designs::matrix_slanted(2),
        designs::spaced(2),
    ]
}

/// A script that runs a description to its end, and one that does it by the highest ready step.
fn in_two_orders(description: &Description) -> [Vec<u8>; 2] {
    [
        run_to_the_end(GAUGE, description),
        to_the_end_by(GAUGE, description, highest_first(description)),
    ]
}

/// Scripts that run the examples to their end on the bench, where it holds them, the bench's largest arrays on both boards, and one on no
/// board.
fn on_boards() -> Vec<Vec<u8>> {
    let on_the_bench = examples()
        .into_iter()
        .map(|it| run_to_the_end(BENCH, &it.description));
    let designs = [designs::polynomial_one(31), designs::grid(16, 16, 4)];
    let on_both = designs
        .iter()
        .flat_map(|it| [GAUGE, BENCH].map(|board| run_to_the_end(board, it)));
    let on_none = run_to_the_end(2, &designs::polynomial_two(2));
    on_the_bench.chain(on_both).chain([on_none]).collect()
}

/// A script that runs a description to its end on a board, in two pieces.
fn run_to_the_end(board: u32, description: &Description) -> Vec<u8> {
    let calls = vec![[1, 100, 0, 0], [2, 0, 0, 0], [1, u32::MAX, 0, 0]];
    to_the_end_by(board, description, calls)
}

/// A script that comes to a description's end on a board by some calls and asks for all that came out. Its values are as many as the gauge
/// takes, Fill's for that number as seed.
fn to_the_end_by(board: u32, description: &Description, mut calls: Vec<Call>) -> Vec<u8> {
    let description = description.bytes();
    let elements = Calls::on(GAUGE, &description)
        .accept()
        .map_or(0, |found| found.elements);
    calls.extend([[2, 0, 0, 0], [3, 0, 1, 0], [4, 0, 0, 0], [6, 0, 0, 0]]);
    Script {
        description,
        board,
        values: generator::values(elements.max(1) as u32, elements),
        calls,
    }
    .bytes()
}

/// The steps of a whole run, always the highest ready; none if the description is refused. Which are ready does not depend on the values.
fn highest_first(description: &Description) -> Vec<Call> {
    let calls = Calls::on(GAUGE, &description.bytes());
    let Ok(network) = calls.network() else {
        return Vec::new();
    };
    let waiting = vec![0; network.array.number_of_elements()];
    let mut received = waiting.clone();
    let mut state = vec![0; network.words()];
    let highest = |state: &[u32]| network.ready_steps(state).next_back();
    let mut steps = Vec::new();
    while let Some(step) = highest(&state) {
        network.apply(&waiting, &mut received, &mut state, step);
        steps.push(step_call(step, 0));
    }
    steps
}
