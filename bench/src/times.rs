//! The time of each call on the largest arrays and of the generated loads: library, quick program, their ratio, and the second
//! implementation.

use std::hint::black_box;
use std::time::{Duration, Instant};

use reference::board::{BENCH, GAUGE};
use reference::calls::{Calls, Row};
use reference::step_vectors::{step_vectors, GREATEST};

use crate::arrays::{self, Array};
use crate::load::Load;
use crate::measure::{least, least_of_load, shown, time, time_load};
use crate::sides::{LIBRARY, SIDES};
use crate::work::{Call, Work};

/// How long a call of the second implementation is repeated; it is done once at least.
const LONG: Duration = Duration::from_millis(50);

/// The greatest ratio of a call so far, and its array or load. Step vectors has a second one, to the library's Accept.
struct Worst {
    call: &'static str,
    ratio: f64,
    array: String,
}

pub fn print() {
    println!("least times: array, call, library, quick, ratio, reference");
    let mut worst: Vec<Worst> = Vec::new();
    for array in arrays::largest() {
        print_array(&array, &mut worst);
        if array.board == BENCH {
            print_beside_the_gauge(&array);
        }
    }
    println!("generated loads: load, call, library, quick, ratio, reference");
    for load in Load::all() {
        print_load(load, &mut worst);
    }
    println!("greatest ratios: call, ratio, array or load");
    for Worst { call, ratio, array } in worst {
        println!("{call:12} {ratio:8.2}  {array}");
    }
}

/// A line for each call; that of a run is by the step, without what a run of no step takes, and that of Step vectors ends with the
/// library's time in Accepts.
fn print_array(array: &Array, worst: &mut Vec<Worst>) {
    let mut work = Work::new(array);
    let steps = f64::from(work.steps());
    let mut accept = 0.0;
    let mut none = [0.0; 2];
    for (call, mut name) in Call::ALL {
        let mut times = least(&mut work, call, SIDES);
        let mut slow = reference_time(&mut work, call);
        let mut note = String::new();
        match call {
            Call::Accept => accept = times[0],
            Call::StepVectors => note = format!("{:8.1} Accepts", times[0] / accept),
            Call::RunNone => none = times,
            Call::RunAll => {
                times = [0, 1].map(|side| (times[side] - none[side]) / steps);
                slow /= steps;
                name = "run, a step";
            }
            _ => {}
        }
        print_times([&array.name, name, &note], times, slow);
        keep_worst(worst, name, times[0] / times[1], &array.name);
        if call == Call::StepVectors {
            keep_worst(worst, "in Accepts", times[0] / accept, &array.name);
        }
    }
}

/// The line of a generated load.
fn print_load(mut load: Load, worst: &mut Vec<Worst>) {
    let times = least_of_load(&mut load, SIDES);
    let slow = repeated(|| time_load(&mut load, Load::reference_call));
    print_times([load.name, load.call, ""], times, slow);
    keep_worst(worst, load.call, times[0] / times[1], load.name);
}

/// The line of a call on an array or load, with a note at its end.
fn print_times([array, call, note]: [&str; 3], times: [f64; 2], slow: f64) {
    let ratio = times[0] / times[1];
    let others = format!("{ratio:8.2} {:>10}{note}", shown(slow));
    print_line(array, call, times, &others);
}

fn print_line(array: &str, call: &str, times: [f64; 2], others: &str) {
    let [first, second] = times.map(shown);
    println!("{array:24} {call:12} {first:>10} {second:>10} {others}");
}

fn keep_worst(worst: &mut Vec<Worst>, call: &'static str, ratio: f64, array: &str) {
    let array = array.to_string();
    let now = Worst { call, ratio, array };
    match worst.iter_mut().find(|other| other.call == call) {
        Some(other) if other.ratio < ratio => *other = now,
        Some(_) => {}
        None => worst.push(now),
    }
}

/// Accept, and a run to the end, of the library on the bench and on the gauge.
fn print_beside_the_gauge(array: &Array) {
    println!("the library on the bench, on the gauge");
    let mut work = Work::new(array);
    for (call, name) in [(Call::Accept, "accept"), (Call::RunAll, "run")] {
        let times = [BENCH, GAUGE].map(|board| {
            work.board = board;
            let [time] = least(&mut work, call, [&LIBRARY]);
            time
        });
        print_line(&array.name, name, times, "");
    }
}

/// The least of some times of the second implementation.
fn repeated(mut time: impl FnMut() -> f64) -> f64 {
    let start = Instant::now();
    let mut least = time();
    while start.elapsed() < LONG {
        least = least.min(time());
    }
    least
}

/// The least time of the second implementation: of reading the description and of the call.
fn reference_time(work: &mut Work, call: Call) -> f64 {
    let least = repeated(|| {
        work.prepare(call);
        time(|| reference_call(work, call))
    });
    if call == Call::RunAll {
        assert!(work.stage == work.ended);
    }
    work.stage.clone_from(&work.started);
    least
}

/// The call of the second implementation.
fn reference_call(work: &mut Work, call: Call) {
    let (board, bytes) = (work.board, black_box(&work.bytes));
    let calls = || Calls::on(board, bytes);
    let waiting = &work.waiting;
    let done = match call {
        Call::Accept => calls().accept().is_ok(),
        Call::StepVectors => step_vectors(board, bytes, GREATEST, &mut work.counts).is_ok(),
        Call::Table => {
            let mut rows = vec![Row::default(); work.figures[0] as usize];
            calls().table(&mut rows).is_ok()
        }
        Call::PlainRun => calls().plain_run(&work.values, &mut work.output).is_ok(),
        Call::Start => {
            let (received, state) = (&mut work.stage.received, &mut work.stage.state);
            let started = calls().start(&work.values, &mut work.new_waiting, received, state);
            started.is_ok()
        }
        Call::Window => {
            let last = work.figures[3] - 1;
            calls()
                .window(waiting, &work.ended.received, last, 1)
                .is_ok()
        }
        Call::Step => calls().step(work.stage.lent(waiting), 0, 0, 0).is_ok(),
        Call::Ready => {
            let [waiting, received, state] = work.halfway.memory(waiting);
            let ready = calls().ready(waiting, received, state, &mut work.words);
            ready.is_ok()
        }
        Call::Result => {
            let [waiting, received, state] = work.ended.memory(waiting);
            let result = calls().result(waiting, received, state, &mut work.output);
            result.is_ok()
        }
        Call::RunNone => calls().run(work.started.lent(waiting), 0).is_ok(),
        Call::RunAll => calls().run(work.stage.lent(waiting), u64::MAX).is_ok(),
    };
    assert!(done);
}
