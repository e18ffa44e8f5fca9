//! Ready: the processes that can take, fire or give.

use super::network::Network;

/// The words that Ready sets.
pub const WORDS: usize = 16;

/// A bit for each process that can take, fire or give.
pub fn processes(network: &Network, state: &[u32]) -> [u64; WORDS] {
    let mut bits = [0; WORDS];
    let processes = network.array.processes.iter().enumerate();
    let mut fires: Vec<bool> = processes
        .map(|(number, process)| state[network.fired(number)] < process.count)
        .collect();
    for (number, pipe) in network.array.pipes.iter().enumerate() {
        network.each_port(number, |place, port| {
            let process = pipe.lane.at(place);
            let moves = port.can_take(state) || port.can_give(state);
            bits[process / 64] |= u64::from(moves) << (process % 64);
            fires[process] &= port.can_use(state);
        });
    }
    for (process, &fires) in fires.iter().enumerate() {
        bits[process / 64] |= u64::from(fires) << (process % 64);
    }
    bits
}
