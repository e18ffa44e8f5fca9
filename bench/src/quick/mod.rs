//! The calls as a plain Rust program that is written for speed, with nothing proved: what the library's times are held against. Every call
//! answers 0 or the number by which it declines, and then changes no lent word.

#![forbid(unsafe_code)]

mod body;
mod boxes;
mod description;
mod generator;
mod lanes;
mod marks;
mod nest;
mod network;
mod pipes;
mod plain;
mod processes;
mod ready;
mod ready_set;
mod rules;
mod run;
mod shortest;
mod step;
mod step_vectors;
mod table;

use reference::calls::Lent;

use nest::Nest;
use network::Network;
use pipes::Array;
use run::Runner;
use step_vectors::COUNTS;

/// Declines by the number unless the condition holds.
fn demand(condition: bool, number: u32) -> Result<(), u32> {
    if condition {
        Ok(())
    } else {
        Err(number)
    }
}

/// The number by which a call declines, or 0.
fn number(answer: Result<(), u32>) -> u32 {
    answer.err().unwrap_or(0)
}

pub fn accept(board: u32, bytes: &[u8], figures: &mut [u32; 13]) -> u32 {
    match Array::of(board, bytes) {
        Ok(array) => {
            *figures = answer(&Network::new(array));
            0
        }
        Err(number) => number,
    }
}

/// The thirteen values of Accept.
fn answer(network: &Network) -> [u32; 13] {
    let array = &network.array;
    let nest = &array.nest;
    let steps = array
        .pipes
        .iter()
        .map(|pipe| 2 * pipe.elements * (pipe.lane.processes as u32 + 1));
    let mut figures = [0; 13];
    let six = [
        array.processes.len(),
        nest.instances,
        nest.elements,
        array.pipes.len(),
        network.words,
        nest.instances + steps.sum::<u32>() as usize,
    ];
    for (figure, value) in figures.iter_mut().zip(six) {
        *figure = value as u32;
    }
    figures[6] = nest.divisor;
    for (figure, stream) in figures[7..].iter_mut().zip(&nest.streams) {
        *figure = stream.divisor;
    }
    figures
}

pub fn step_vectors(board: u32, bytes: &[u8], k: u32, counts: &mut [u32; COUNTS]) -> u32 {
    match step_vectors::count(board, bytes, k) {
        Ok(found) => {
            *counts = found;
            0
        }
        Err(number) => number,
    }
}

pub fn table(board: u32, bytes: &[u8], words: &mut [u32]) -> u32 {
    number(try_table(board, bytes, words))
}

fn try_table(board: u32, bytes: &[u8], words: &mut [u32]) -> Result<(), u32> {
    let array = Array::of(board, bytes)?;
    demand(words.len() >= table::ROW_WORDS * array.processes.len(), 18)?;
    table::write(&array, words);
    Ok(())
}

pub fn plain_run(board: u32, bytes: &[u8], values: &[u32], output: &mut [u32]) -> u32 {
    number(try_plain_run(board, bytes, values, output))
}

fn try_plain_run(board: u32, bytes: &[u8], values: &[u32], output: &mut [u32]) -> Result<(), u32> {
    let nest = Nest::of(board, bytes)?;
    demand(values.len() == nest.elements, 20)?;
    demand(output.len() == nest.elements, 28)?;
    output.copy_from_slice(values);
    plain::run(&nest, output);
    Ok(())
}

pub fn start(board: u32, bytes: &[u8], values: &[u32], lists: [&mut [u32]; 3]) -> u32 {
    number(try_start(board, bytes, values, lists))
}

fn try_start(board: u32, bytes: &[u8], values: &[u32], lists: [&mut [u32]; 3]) -> Result<(), u32> {
    let [waiting, received, state] = lists;
    let network = Network::new(Array::of(board, bytes)?);
    let array = &network.array;
    demand(values.len() == array.nest.elements, 20)?;
    check_lists(array, waiting, received)?;
    demand(state.len() >= network.words, 21)?;
    for pipe in &array.pipes {
        let mut places = waiting[pipe.part..].iter_mut();
        array.each_element(pipe, |element| {
            if let Some(place) = places.next() {
                *place = values[element];
            }
        });
    }
    received.fill(0);
    state[..network.words].fill(0);
    Ok(())
}

pub fn step(board: u32, bytes: &[u8], words: [u32; 3], lent: Lent) -> u32 {
    let opened = open(board, bytes, lent.waiting, lent.received, lent.state);
    number(opened.and_then(|network| step::step(&network, words, lent)))
}

pub fn run(board: u32, bytes: &[u8], steps: u32, lent: Lent, answer: &mut [u32; 2]) -> u32 {
    match open(board, bytes, lent.waiting, lent.received, lent.state) {
        Ok(network) => {
            let state = &mut lent.state[..network.words];
            *answer = Runner::new(&network, state).run(steps, lent.waiting, lent.received, state);
            0
        }
        Err(number) => number,
    }
}

pub fn ready(
    board: u32,
    bytes: &[u8],
    words: &mut [u64],
    memory: [&[u32]; 3],
    answer: &mut [u32; 2],
) -> u32 {
    number(try_ready(board, bytes, words, memory, answer))
}

fn try_ready(
    board: u32,
    bytes: &[u8],
    words: &mut [u64],
    [waiting, received, state]: [&[u32]; 3],
    answer: &mut [u32; 2],
) -> Result<(), u32> {
    let network = open(board, bytes, waiting, received, state)?;
    demand(words.len() >= ready::WORDS, 27)?;
    let bits = ready::processes(&network, state);
    words[..ready::WORDS].copy_from_slice(&bits);
    let lowest = bits.iter().position(|&word| word != 0);
    let lowest = lowest.map(|word| 64 * word as u32 + bits[word].trailing_zeros());
    *answer = [
        bits.iter().map(|word| word.count_ones()).sum(),
        lowest.unwrap_or(network.array.processes.len() as u32),
    ];
    Ok(())
}

pub fn window(
    board: u32,
    bytes: &[u8],
    words: [u32; 2],
    lists: [&[u32]; 2],
    answer: &mut [u32; 2],
) -> u32 {
    match try_window(board, bytes, words, lists) {
        Ok(part) => {
            *answer = part;
            0
        }
        Err(number) => number,
    }
}

fn try_window(
    board: u32,
    bytes: &[u8],
    [pipe, side]: [u32; 2],
    [waiting, received]: [&[u32]; 2],
) -> Result<[u32; 2], u32> {
    let array = Array::of(board, bytes)?;
    check_lists(&array, waiting, received)?;
    let pipe = array.pipes.get(pipe as usize).ok_or(19_u32)?;
    demand(side < 2, 19)?;
    Ok([pipe.part as u32, pipe.elements])
}

pub fn result(board: u32, bytes: &[u8], output: &mut [u32], memory: [&[u32]; 3]) -> u32 {
    number(try_result(board, bytes, output, memory))
}

fn try_result(
    board: u32,
    bytes: &[u8],
    output: &mut [u32],
    memory: [&[u32]; 3],
) -> Result<(), u32> {
    let [waiting, received, state] = memory;
    let network = open(board, bytes, waiting, received, state)?;
    let array = &network.array;
    let mut ends = (0..array.pipes.len()).map(|number| network.end(number));
    demand(ends.all(|end| end.wholly_received(state)), 25)?;
    demand(output.len() == array.nest.elements, 28)?;
    for pipe in &array.pipes {
        let mut places = received[pipe.part..].iter();
        array.each_element(pipe, |element| {
            if let Some(&value) = places.next() {
                output[element] = value;
            }
        });
    }
    Ok(())
}

pub fn fill(seed: u32, n: usize, list: &mut [u32]) -> u32 {
    number(generator::fill(seed, n, list))
}

pub fn make(seed: u32, sizes: [u32; 3], output: &mut [u8], answer: &mut [u32; 1]) -> u32 {
    match generator::make(seed, sizes, output) {
        Ok(bytes) => {
            *answer = [bytes as u32];
            0
        }
        Err(number) => number,
    }
}

/// The network of a sound state; declines by 33, 1 to 17, 20, 26, 21 and 22.
fn open(
    board: u32,
    bytes: &[u8],
    waiting: &[u32],
    received: &[u32],
    state: &[u32],
) -> Result<Network, u32> {
    let network = Network::new(Array::of(board, bytes)?);
    check_lists(&network.array, waiting, received)?;
    demand(state.len() >= network.words, 21)?;
    demand(network.sound(state), 22)?;
    Ok(network)
}

/// Declines by 20 and 26.
fn check_lists(array: &Array, waiting: &[u32], received: &[u32]) -> Result<(), u32> {
    demand(waiting.len() == array.nest.elements, 20)?;
    demand(received.len() == array.nest.elements, 26)
}
