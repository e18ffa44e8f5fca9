//! Random descriptions with a divisor above 1 (request 2.7), of place or of a stream, and refused ones beside them.

use crate::board::GAUGE;
use crate::calls::Calls;
use crate::description::Description;
use crate::random::Random;
use crate::random_description::{bounds, filled, laid_out, make_dependent};
use crate::random_stride::{across, lines};
use crate::vectors::Point;

/// The largest word of a matrix.
const REACH: i32 = 4;

/// The most processes.
const MOST: usize = 100;

/// A description with a divisor above 1 that Accept accepts.
pub fn divided(random: &mut Random) -> Description {
    loop {
        let (nest, lines) = nest(random);
        let streams = random.below(6) + 1;
        let map = |random: &mut Random, _: &Description| {
            let line = &lines[random.below(lines.len())];
            across(random, line, REACH)
        };
        let found = filled(random, nest, streams, map);
        if let Some(description) = found.filter(has_divisor) {
            return description;
        }
    }
}

/// Some divisor of an accepted description is above 1.
fn has_divisor(description: &Description) -> bool {
    let accepted = Calls::on(GAUGE, &description.bytes()).accept();
    accepted.is_ok_and(|accepted| accepted.divisors.iter().any(|&divisor| divisor > 1))
}

/// Loops, step and place that pass refusals 5 to 10, without a stream, and short lines for streams. Many loops have one index, since
/// elements that lie apart fill no box.
fn nest(random: &mut Random) -> (Description, Vec<Point>) {
    loop {
        let loops = random.pick(&[2, 3, 3]);
        let increment = random.words(loops, -1, 1);
        let place = across(random, &increment, REACH);
        let step = random.words(loops, -8, 8);
        let lines = lines(&place, &step);
        if lines.is_empty() {
            continue;
        }
        let bounds = (0..loops)
            .map(|_| {
                let most = random.pick(&[1, 1, 4]);
                bounds(random, most)
            })
            .unzip();
        if let Some(nest) = laid_out(random, bounds, step, place, MOST) {
            return (nest, lines);
        }
    }
}

/// Such a description in which place or a map has dependent rows or is zero: Accept declines it by 7 or 11.
pub fn dependent(random: &mut Random) -> Description {
    let mut description = divided(random);
    let number = random.below(description.streams() + 1);
    match number.checked_sub(1) {
        None => make_dependent(random, &mut description.place),
        Some(stream) => make_dependent(random, &mut description.maps[stream]),
    }
    description
}
