//! Tests of the second implementation against document 02.

mod bench_board;
mod divisors;
mod five_places;
mod fixed_point;
mod generated_load;
mod guards;
mod longer_strides;
mod step_vectors;
mod walk;

use reference::board::GAUGE;
use reference::calls::{Accepted, Calls, Lent};
use reference::description::Description;
use reference::network::Step;
use reference::Refusal;

fn accept(description: &Description) -> Result<Accepted, Refusal> {
    Calls::on(GAUGE, &description.bytes()).accept()
}

/// The received values of a run to the end, in element order: they are those of the plain run.
fn results(description: &Description, values: &[u32]) -> Vec<u32> {
    finished(description, values, |calls, lent| {
        calls.run(lent, u64::MAX).map_or(0, |ran| ran.done)
    })
}

/// The same by steps that are chosen out of the ready ones.
fn results_by_steps(
    description: &Description,
    values: &[u32],
    mut choose: impl FnMut(&[Step]) -> Step,
) -> Vec<u32> {
    finished(description, values, |calls, lent| {
        let network = calls.network().expect("an accepted description");
        let mut done = 0;
        loop {
            let ready: Vec<Step> = network.ready_steps(lent.state).collect();
            if ready.is_empty() {
                return done;
            }
            network.apply(lent.waiting, lent.received, lent.state, choose(&ready));
            done += 1;
        }
    })
}

/// The received values after a whole run, which answers how many steps it did.
fn finished(
    description: &Description,
    values: &[u32],
    run: impl FnOnce(&Calls, Lent) -> u64,
) -> Vec<u32> {
    let calls = Calls::on(GAUGE, &description.bytes());
    let figures = calls.accept().expect("an accepted description");
    let mut waiting = vec![0; figures.elements];
    let mut received = vec![0; figures.elements];
    let mut state = vec![0; figures.words];
    assert_eq!(
        calls.start(values, &mut waiting, &mut received, &mut state),
        Ok(())
    );
    let lent = Lent {
        waiting: &waiting,
        received: &mut received,
        state: &mut state,
    };
    assert_eq!(run(&calls, lent), figures.steps);
    let mut output = vec![0; figures.elements];
    assert_eq!(
        calls.result(&waiting, &received, &state, &mut output),
        Ok(())
    );
    let mut plain = vec![0; figures.elements];
    assert_eq!(calls.plain_run(values, &mut plain), Ok(()));
    assert_eq!(output, plain);
    output
}

/// The description with the streams before a number only; its lines use scratch in place of the others.
fn streams_before(description: &Description, number: usize) -> Description {
    let mut fewer = description.clone();
    fewer.maps.truncate(number);
    fewer.loading.truncate(number);
    let here = |word: usize| if word < number { word } else { number };
    for line in &mut fewer.body {
        line.target = here(line.target);
        line.first = here(line.first);
        line.second = here(line.second);
    }
    fewer
}
