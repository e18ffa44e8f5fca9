//! Holds the proved library and a quick plain Rust program against the second implementation, then prints how long each call takes, how
//! that grows, and how much stack it takes. A word on the command line asks for one of these alone, or is the seed of the random
//! descriptions, scripts, loads and counts of step vectors.

mod answers;
mod arrays;
mod growth;
mod instructions;
mod library;
mod load;
mod loads;
mod measure;
mod named;
mod quick;
mod scripts;
mod sides;
mod stack;
mod step_vectors;
mod times;
mod work;

/// The seed if none is given.
const SEED: u64 = 4;

fn main() {
    let words: Vec<String> = std::env::args().skip(1).collect();
    let words: Vec<&str> = words.iter().map(String::as_str).collect();
    match words[..] {
        [] => all(SEED),
        ["answers"] => answers(SEED),
        ["answers", seed] => answers(number(seed)),
        ["times"] => times::print(),
        ["growth"] => growth::print(),
        ["stack"] => stack::print(),
        ["instructions"] => instructions::print(),
        [stack::CHILD, name, call, bytes] => stack::child(name, call, bytes),
        [instructions::CHILD, side, name, call] => instructions::child(side, name, call),
        [seed] => all(number(seed)),
        _ => panic!("the words are a section, a seed, or answers and a seed"),
    }
}

fn number(seed: &str) -> u64 {
    seed.parse().expect("the word is a section or a seed")
}

/// Everything but the instructions.
fn all(seed: u64) {
    answers(seed);
    times::print();
    growth::print();
    stack::print();
}

fn answers(seed: u64) {
    let descriptions = answers::descriptions(seed);
    for (number, description) in descriptions.iter().enumerate() {
        answers::check(number, description);
    }
    println!(
        "{} descriptions on both boards and on none: same answers",
        descriptions.len()
    );
    let (scripts, calls) = scripts::check(seed);
    println!("{scripts} scripts, {calls} calls: same answers");
    println!("{} generated loads: same answers", loads::check(seed));
    let counted = step_vectors::check(seed);
    println!("{counted} counts of step vectors: same answers");
}
