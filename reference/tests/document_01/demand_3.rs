//! Demand 3 on random arrays: however the steps are ordered, the run can go on until all values are
//! out, they come out in stretches of final values, and the finish is one.

use reference::description::Description;
use reference::designs::{
    cleared_column, cleared_matrix, cleared_one, cleared_turned, decimating, decimating_channels,
    matrix_moving, matrix_slanted, matrix_straight, needs_its_hops, polynomial_one, polynomial_two,
    spaced,
};
use reference::network::Step;
use reference::random::Random;
use reference::random_description::accepted;
use reference::random_divisor::divided;
use reference::random_stride::strided;
use reference::Refusal;

use crate::lists::Lists;

const ARRAYS: usize = 3000;

/// How the next of the ready steps is chosen.
enum Order {
    Any,
    Highest,
    /// This process rests as long as anything else is ready.
    Starved(usize),
}

fn process_of(step: Step) -> Option<usize> {
    match step {
        Step::Take { process, .. } | Step::Fire { process } | Step::Give { process, .. } => {
            Some(process)
        }
        Step::Send { .. } | Step::Receive { .. } => None,
    }
}

fn choose(ready: &[Step], order: &Order, random: &mut Random) -> Step {
    match order {
        Order::Any => random.pick(ready),
        Order::Highest => ready[ready.len() - 1],
        Order::Starved(process) => {
            let others: Vec<Step> = ready
                .iter()
                .copied()
                .filter(|&step| process_of(step) != Some(*process))
                .collect();
            random.pick(if others.is_empty() { ready } else { &others })
        }
    }
}

/// One run in one order, with the final values that it should come to.
struct Trial<'a> {
    lists: Lists,
    start: Vec<u32>,
    finals: &'a [u32],
    granted: u64,
    /// Granted receives, by pipe.
    receives: Vec<usize>,
}

impl Trial<'_> {
    fn ready_steps(&self) -> Vec<Step> {
        let network = self.lists.network();
        network.ready_steps(&self.lists.state).collect()
    }

    fn all_out(&self) -> bool {
        let pipes = self.lists.network().array.pipes.iter().zip(&self.receives);
        pipes
            .into_iter()
            .all(|(pipe, &received)| received == pipe.elements.len())
    }

    fn step(&mut self, step: Step) {
        assert_eq!(self.lists.step(step), Ok(()));
        self.granted += 1;
        if let Step::Receive { pipe } = step {
            self.receives[pipe] += 1;
        }
    }

    /// Checks the claim at a stop.
    fn check(&self, ready: &[Step]) {
        assert!(self.lists.network().sound(&self.lists.state));
        assert_eq!(self.lists.waiting, self.start);
        for (number, pipe) in self.lists.network().array.pipes.iter().enumerate() {
            let stretch = self.receives[number];
            let part = self.lists.window(number as u32, 1).unwrap();
            for (place, &element) in pipe.elements.iter().enumerate() {
                let value = if place < stretch {
                    self.finals[element]
                } else {
                    0
                };
                assert_eq!(part[place], value);
            }
        }
        assert_eq!(ready.is_empty(), self.all_out());
        let total = self.lists.accepted().steps;
        assert!(self.granted <= total);
        assert_eq!(self.granted == total, self.all_out());
    }

    /// Checks that calls which decline or only ask change nothing.
    fn check_declined(&mut self, ready: &[Step], random: &mut Random) {
        let before = self.lists.words();
        let waiting_steps = self.lists.network().steps().to_vec();
        for _ in 0..5 {
            let step = random.pick(&waiting_steps);
            if !ready.contains(&step) {
                assert_eq!(self.lists.step(step), Err(Refusal(24)));
            }
        }
        assert_eq!(self.lists.step_words(5, 0, 0), Err(Refusal(23)));
        assert_eq!(
            self.lists.run(0).map(|ran| ran.ready),
            Ok(!ready.is_empty())
        );
        let mut words = [u64::MAX; 17];
        let answer = self.lists.ready(&mut words).unwrap();
        self.check_ready_words(ready, &words);
        let set = words[..16].iter().map(|word| word.count_ones() as usize);
        assert_eq!(set.sum::<usize>(), answer.count);
        let mut output = vec![9; self.finals.len()];
        if self.all_out() {
            assert_eq!(self.lists.result(&mut output), Ok(()));
            assert_eq!(output, self.finals);
        } else {
            assert_eq!(self.lists.result(&mut output), Err(Refusal(25)));
            assert_eq!(output, vec![9; self.finals.len()]);
        }
        assert_eq!(self.lists.words(), before);
    }

    /// One bit for each process that can take, fire or give.
    fn check_ready_words(&self, ready: &[Step], words: &[u64; 17]) {
        let mut bits = [0; 17];
        bits[16] = u64::MAX;
        for process in ready.iter().filter_map(|&step| process_of(step)) {
            bits[process / 64] |= 1 << (process % 64);
        }
        assert_eq!(words, &bits);
    }
}

/// Runs to the end in an order and hands back the lists.
fn finish(
    description: &Description,
    values: &[u32],
    finals: &[u32],
    order: &Order,
    random: &mut Random,
) -> Lists {
    let lists = Lists::started(description, values);
    let mut trial = Trial {
        start: lists.waiting.clone(),
        receives: vec![0; lists.accepted().pipes],
        lists,
        finals,
        granted: 0,
    };
    loop {
        let ready = trial.ready_steps();
        trial.check(&ready);
        if ready.is_empty() || random.percent(5) {
            trial.check_declined(&ready, random);
        }
        if ready.is_empty() {
            return trial.lists;
        }
        trial.step(choose(&ready, order, random));
    }
}

/// Runs with Run, in pieces.
fn finish_by_run(description: &Description, values: &[u32], random: &mut Random) -> Lists {
    let mut lists = Lists::started(description, values);
    let total = lists.accepted().steps;
    let mut done = 0;
    while done < total {
        let piece = random.below(40) as u64;
        let ran = lists.run(piece).unwrap();
        assert_eq!(ran.done, piece.min(total - done));
        done += ran.done;
        assert_eq!(ran.ready, done < total);
    }
    lists
}

/// One description in every order, held against a run by Run and the plain run.
fn check_orders(description: &Description, random: &mut Random) {
    let elements = Lists::new(description).accepted().elements;
    let values = random.values(elements);
    let by_run = finish_by_run(description, &values, random);
    let finals = by_run.plain_run(&values);
    assert_eq!(by_run.results(), Ok(finals.clone()));
    let starved = Order::Starved(random.below(by_run.accepted().processes));
    for order in [Order::Any, Order::Highest, starved] {
        let lists = finish(description, &values, &finals, &order, random);
        assert_eq!(lists.words(), by_run.words());
    }
}

#[test]
fn every_order_finishes_alike() {
    let mut random = Random::new(2024);
    for _ in 0..ARRAYS {
        let description = accepted(&mut random);
        check_orders(&description, &mut random);
    }
}

#[test]
fn longer_strides_finish_alike() {
    let mut random = Random::new(2026);
    let mut arrays = 0;
    while arrays < ARRAYS / 10 {
        let description = strided(&mut random);
        if Lists::new(&description).accepted().processes <= 40 {
            check_orders(&description, &mut random);
            arrays += 1;
        }
    }
    for design in [decimating(2, 2), decimating_channels()] {
        check_orders(&design, &mut random);
    }
}

#[test]
fn larger_divisors_finish_alike() {
    let mut random = Random::new(2027);
    for _ in 0..ARRAYS / 10 {
        let description = divided(&mut random);
        check_orders(&description, &mut random);
    }
}

#[test]
fn designs_finish_alike() {
    let mut random = Random::new(2025);
    for n in 0..=2 {
        for design in [
            polynomial_one(n),
            polynomial_two(n),
            matrix_straight(n),
            matrix_moving(n),
            matrix_slanted(n),
            needs_its_hops(),
            cleared_one(n),
            cleared_matrix(n),
            spaced(n),
        ] {
            check_orders(&design, &mut random);
        }
    }
    for design in [cleared_turned(), cleared_column()] {
        check_orders(&design, &mut random);
    }
}
