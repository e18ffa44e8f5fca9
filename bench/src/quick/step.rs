//! Step: one step by its name, in a sound state.

use reference::calls::Lent;

use super::demand;
use super::network::Network;
use super::rules::{self, Port};

/// Does the step of a kind, a number and a stream; declines by 23 and 24.
pub fn step(network: &Network, words: [u32; 3], lent: Lent) -> Result<(), u32> {
    let [kind, number, stream] = words.map(|word| word as usize);
    match kind {
        0 | 4 => end_step(network, kind, number, lent),
        1 | 3 => port_step(network, kind, number, stream, lent.state),
        2 => fire(network, number, lent.state),
        _ => Err(23),
    }
}

/// A send or a receive.
fn end_step(network: &Network, kind: usize, pipe: usize, lent: Lent) -> Result<(), u32> {
    demand(pipe < network.array.pipes.len(), 23)?;
    let end = network.end(pipe);
    if kind == 0 {
        demand(end.can_send(lent.state), 24)?;
        end.send(lent.waiting, lent.state);
    } else {
        demand(end.can_receive(lent.state), 24)?;
        end.receive(lent.received, lent.state);
    }
    Ok(())
}

/// A take or a give.
fn port_step(
    network: &Network,
    kind: usize,
    process: usize,
    stream: usize,
    state: &mut [u32],
) -> Result<(), u32> {
    let exists = process < network.array.processes.len() && stream < network.streams();
    demand(exists, 23)?;
    let port = network.port_of(process, stream).ok_or(23_u32)?;
    if kind == 1 {
        demand(port.can_take(state), 24)?;
        port.take(state);
    } else {
        demand(port.can_give(state), 24)?;
        port.give(state);
    }
    Ok(())
}

/// A process that computes is on a pipe of every stream.
fn fire(network: &Network, process: usize, state: &mut [u32]) -> Result<(), u32> {
    let array = &network.array;
    demand(process < array.processes.len(), 23)?;
    let ports = (0..network.streams()).map(|stream| network.port_of(process, stream));
    let ports: Vec<Port> = ports.collect::<Option<_>>().ok_or(24_u32)?;
    demand(rules::can_fire(&ports, state), 24)?;
    let instance = array.instance(&array.processes[process], state[network.fired(process)]);
    rules::fire(&ports, &array.nest.description.body, instance, state);
    Ok(())
}
