//! Least times of a call, in seconds.

use std::hint::black_box;
use std::time::{Duration, Instant};

use crate::load::Load;
use crate::sides::Side;
use crate::work::{Call, Work};

/// How long a call of each program is repeated.
const LONG: Duration = Duration::from_millis(250);

/// How often a program does the call in its turn, so that it finds its memory near.
const TURN: usize = 4;

/// The time of one call.
pub fn time<T>(call: impl FnOnce() -> T) -> f64 {
    let start = Instant::now();
    black_box(call());
    start.elapsed().as_secs_f64()
}

/// The least times of some programs, which take turns, so that a busy machine slows all.
fn in_turns<const N: usize>(sides: [&Side; N], mut time: impl FnMut(&Side) -> f64) -> [f64; N] {
    let mut least = [f64::MAX; N];
    let start = Instant::now();
    while start.elapsed() < N as u32 * LONG {
        for (least, side) in least.iter_mut().zip(sides) {
            for _ in 0..TURN {
                *least = least.min(time(side));
            }
        }
    }
    least
}

/// The least times of a call by some programs.
pub fn least<const N: usize>(work: &mut Work, call: Call, sides: [&Side; N]) -> [f64; N] {
    let least = in_turns(sides, |side| time_call(work, call, side));
    work.stage.clone_from(&work.started);
    least
}

/// The least times of a generated load by some programs.
pub fn least_of_load<const N: usize>(load: &mut Load, sides: [&Side; N]) -> [f64; N] {
    in_turns(sides, |side| time_load(load, |load| load.call(side)))
}

/// The time of one call out of several in a row, which are not declined.
pub fn time_load(load: &mut Load, call: impl Fn(&mut Load) -> u32) -> f64 {
    let repeats = load.repeats();
    let mut numbers = 0;
    let time = time(|| (0..repeats).for_each(|_| numbers |= call(load)));
    assert_eq!(numbers, 0);
    time / f64::from(repeats)
}

/// The time of one call, which is not declined, and after which a run is at its end.
fn time_call(work: &mut Work, call: Call, side: &Side) -> f64 {
    work.prepare(call);
    let mut number = 0;
    let time = time(|| number = work.call(side, call));
    assert_eq!(number, 0, "{}", side.name);
    if call == Call::RunAll {
        assert!(work.answer == [work.steps(), 0] && work.stage == work.ended);
    }
    time
}

/// A time with its unit.
pub fn shown(time: f64) -> String {
    let (unit, name) = match time {
        ..1e-6 => (1e-9, "ns"),
        ..1e-3 => (1e-6, "µs"),
        ..1.0 => (1e-3, "ms"),
        _ => (1.0, "s"),
    };
    format!("{:.1} {name}", time / unit)
}
