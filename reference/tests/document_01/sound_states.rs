//! Sound states and the rules in them, over all counts of a small array, reached or not.

use reference::designs::{matrix_slanted, polynomial_one};
use reference::network::Step;
use reference::Refusal;

use crate::lists::Lists;

/// The word at which the words of a stream at a process begin: for each process come its firings,
/// and for each stream four words and the places of the link.
fn station(lists: &Lists, process: usize, stream: usize) -> usize {
    let streams = &lists.network().array.streams;
    let words = |before: usize| -> usize { streams[..before].iter().map(|s| 4 + s.hop).sum() };
    process * (1 + words(streams.len())) + 1 + words(stream)
}

/// The word at which the words of a pipe begin: after all processes, two words and the places of
/// the last link for each.
fn pipe(lists: &Lists, number: usize) -> usize {
    let array = &lists.network().array;
    let before = array.pipes[..number].iter();
    let words: usize = before.map(|pipe| 2 + array.streams[pipe.stream].hop).sum();
    station(lists, array.processes.len(), 0) - 1 + words
}

/// The counts of one pipe of two processes.
#[derive(Clone, Copy)]
struct Counts {
    sent: u32,
    taken: [u32; 2],
    given: [u32; 2],
    received: u32,
}

/// All counts from 0 to 3.
fn all_counts() -> impl Iterator<Item = Counts> {
    (0..1 << 12).map(|bits: u32| {
        let digit = |place: u32| bits >> (2 * place) & 3;
        Counts {
            sent: digit(0),
            taken: [digit(1), digit(3)],
            given: [digit(2), digit(4)],
            received: digit(5),
        }
    })
}

impl Counts {
    /// Writes the counts of a stream that has one pipe.
    fn write(&self, lists: &mut Lists, stream: usize) {
        for process in 0..2 {
            let start = station(lists, process, stream);
            lists.state[start] = self.taken[process];
            lists.state[start + 1] = self.given[process];
        }
        let start = pipe(lists, stream);
        lists.state[start] = self.sent;
        lists.state[start + 1] = self.received;
    }

    /// The fills of the three links.
    fn fills(&self) -> [i64; 3] {
        let fill = |put: u32, pulled: u32| i64::from(put) - i64::from(pulled);
        [
            fill(self.sent, self.taken[0]),
            fill(self.given[0], self.taken[1]),
            fill(self.given[1], self.received),
        ]
    }

    fn at_most(&self, total: u32) -> bool {
        let [a, b] = self.taken;
        let [c, d] = self.given;
        [self.sent, a, b, c, d, self.received]
            .iter()
            .all(|&count| count <= total)
    }

    fn fills_within(&self, places: i64) -> bool {
        self.fills().iter().all(|fill| (0..=places).contains(fill))
    }

    fn excess(&self, process: usize) -> i64 {
        i64::from(self.taken[process]) - i64::from(self.given[process])
    }

    /// Sound with two elements, each kept by a process, and links of one place.
    fn sound_kept(&self) -> bool {
        let kept = |process: usize| match (self.taken[process], self.given[process]) {
            (0, given) => given == 0,
            (taken, 2) => taken == 2,
            _ => [1, 2].contains(&self.excess(process)),
        };
        self.at_most(2) && self.fills_within(1) && kept(0) && kept(1)
    }

    /// Sound with two moving elements and links of two places.
    fn sound_moving(&self) -> bool {
        let passing = |process: usize| [0, 1].contains(&self.excess(process));
        self.at_most(2) && self.fills_within(2) && passing(0) && passing(1)
    }
}

/// Design one for n = 1: two processes with two firings each; a is kept, b moves by links of two.
const A: usize = 0;
const B: usize = 1;

#[test]
fn all_counts_of_a_kept_stream() {
    let mut lists = Lists::new(&polynomial_one(1));
    for counts in all_counts() {
        counts.write(&mut lists, A);
        let sound = counts.sound_kept();
        assert_eq!(lists.network().sound(&lists.state), sound);
        if !sound {
            assert_eq!(lists.run(0), Err(Refusal(22)));
            continue;
        }
        let [into, between, _] = counts.fills();
        for firings in 0..=2 {
            lists.state[0] = firings;
            let ready = |step: Step| lists.network().ready(&lists.state, step);
            let hand = counts.excess(0) == 2;
            let keep = counts.taken[0] == 2 && counts.given[0] == 1 && firings == 2;
            let take = Step::Take {
                process: 0,
                stream: A,
            };
            let give = Step::Give {
                process: 0,
                stream: A,
            };
            assert_eq!(ready(take), into == 1 && !hand);
            assert_eq!(ready(give), between == 0 && (hand || keep));
            assert_eq!(ready(Step::Send { pipe: A }), counts.sent < 2 && into == 0);
        }
        lists.state[0] = 0;
    }
}

#[test]
fn all_counts_of_a_moving_stream() {
    let mut lists = Lists::new(&polynomial_one(1));
    for counts in all_counts() {
        counts.write(&mut lists, B);
        let sound = counts.sound_moving();
        assert_eq!(lists.network().sound(&lists.state), sound);
        if !sound {
            continue;
        }
        let [into, between, out] = counts.fills();
        for firings in 0..=2 {
            lists.state[0] = firings;
            let ready = |step: Step| lists.network().ready(&lists.state, step);
            let hand = counts.excess(0) == 1;
            // Both elements are used, the first by the first firing and so on.
            let used = firings > counts.given[0];
            let take = Step::Take {
                process: 0,
                stream: B,
            };
            let give = Step::Give {
                process: 0,
                stream: B,
            };
            assert_eq!(ready(take), into > 0 && !hand);
            assert_eq!(ready(give), between < 2 && hand && used);
            assert_eq!(ready(Step::Receive { pipe: B }), out > 0);
        }
        lists.state[0] = 0;
    }
}

#[test]
fn firings_are_between_0_and_count() {
    let mut lists = Lists::new(&polynomial_one(1));
    for firings in [0, 1, 2, 3, u32::MAX] {
        lists.state[0] = firings;
        assert_eq!(lists.network().sound(&lists.state), firings <= 2);
    }
}

#[test]
fn fire_needs_the_keep() {
    // One process with one element of each stream, b and c in hand.
    let mut lists = Lists::new(&polynomial_one(0));
    for (taken, given, ready) in [(0, 0, false), (1, 0, true), (1, 1, false)] {
        for stream in 0..3 {
            let (start, end) = (station(&lists, 0, stream), pipe(&lists, stream));
            let kept = stream == A;
            lists.state[start] = if kept { taken } else { 1 };
            lists.state[start + 1] = if kept { given } else { 0 };
            lists.state[end] = lists.state[start];
        }
        assert!(lists.network().sound(&lists.state));
        assert_eq!(lists.clone().step(Step::Fire { process: 0 }).is_ok(), ready);
    }
}

#[test]
fn without_a_pipe_the_totals_are_0() {
    let mut lists = Lists::new(&matrix_slanted(2));
    let stations = lists.network().array.stations.clone();
    for (process, stations) in stations.iter().enumerate() {
        for stream in (0..3).filter(|&stream| stations[stream].is_none()) {
            let start = station(&lists, process, stream);
            for (word, sound) in [(0, false), (1, false), (2, true), (3, true), (4, true)] {
                lists.state[start + word] = 1;
                assert_eq!(lists.network().sound(&lists.state), sound);
                lists.state[start + word] = 0;
            }
            lists.state[start] = 1;
            lists.state[start + 1] = 1;
            assert_eq!(lists.run(0), Err(Refusal(22)));
            lists.state[start] = 0;
            lists.state[start + 1] = 0;
        }
    }
}

/// Only the places that a rule names are written: junk beyond the fill stays where it is.
#[test]
fn junk_in_free_places() {
    let mut lists = Lists::started(&polynomial_one(1), &[1, 2, 3, 4, 5, 6, 7]);
    let link = station(&lists, 0, B) + 4;
    lists.state[link] = 90;
    lists.state[link + 1] = 91;
    lists.step(Step::Send { pipe: B }).expect("a free place");
    assert_eq!(lists.state[link..link + 2], [3, 91]);
    let take = Step::Take {
        process: 0,
        stream: B,
    };
    lists.step(take).expect("an element");
    assert_eq!(lists.state[link..link + 2], [0, 91]);
    assert_eq!(lists.state[link - 2], 3);
    lists.step(Step::Send { pipe: B }).expect("a free place");
    assert_eq!(lists.state[link..link + 2], [4, 91]);
}
