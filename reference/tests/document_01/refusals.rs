//! Every refusal of every call, and the order in which they are given.

use reference::board::GAUGE;
use reference::calls::{Calls, Row};
use reference::description::{bytes_of, Description};
use reference::designs::{matrix_straight, polynomial_one};
use reference::Refusal;

use crate::lists::Lists;

fn refusal(bytes: &[u8]) -> Option<u32> {
    let answer = Calls::on(GAUGE, bytes).accept();
    answer.err().map(|Refusal(number)| number)
}

/// Design one with a change.
fn one(change: impl Fn(&mut Description)) -> Vec<u8> {
    let mut description = polynomial_one(2);
    change(&mut description);
    description.bytes()
}

/// The straight matrix product with a change.
fn matrix(change: impl Fn(&mut Description)) -> Vec<u8> {
    let mut description = matrix_straight(2);
    change(&mut description);
    description.bytes()
}

/// Design one with a word changed.
fn word(number: usize, value: i32) -> Vec<u8> {
    let mut words = polynomial_one(2).words();
    words[number] = value;
    bytes_of(&words)
}

#[test]
fn each_of_accept() {
    let whole = polynomial_one(2).bytes();
    let longer = [whole.as_slice(), &[0]].concat();
    let cases = [
        (1, Vec::new()),
        (1, whole[..11].to_vec()),
        (2, word(0, 1)),
        (2, word(0, 4)),
        (2, word(1, 0)),
        (2, word(1, 7)),
        (2, word(2, -1)),
        (2, word(2, 9)),
        (3, whole[..12].to_vec()),
        (3, whole[..whole.len() - 1].to_vec()),
        (3, longer),
        (4, word(3, -65)),
        (4, word(5, 65)),
        (4, word(7, 0)),
        (4, word(9, 9)),
        (4, word(11, -5)),
        (4, word(13, 5)),
        (4, word(19, 2)),
        (4, word(22, 7)),
        (4, word(23, 5)),
        (4, word(25, -1)),
        (4, word(26, 2)),
        (4, word(27, 4)),
        (4, word(28, 65)),
        (4, word(29, 7)),
        (4, word(35, -65)),
        (5, one(|d| d.left[1] = 3)),
        (6, one(|d| d.right = vec![63, 64])),
        (7, one(|d| d.place = vec![vec![0, 0]])),
        (7, matrix(|d| d.place[1] = vec![-2, 0, 0])),
        (8, one(|d| d.step = vec![2, 0])),
        (10, matrix(|d| d.right = vec![32, 31, 0])),
        (11, one(|d| d.maps[1] = vec![vec![0, 0]])),
        (11, matrix(|d| d.maps[1][0] = vec![0, -3, 0])),
        (12, one(|d| d.maps[1] = vec![vec![2, 1]])),
        (13, one(|d| d.maps[1] = vec![vec![1, 2]])),
        (
            14,
            one(|d| {
                d.step = vec![8, 1];
                d.maps[1] = vec![vec![1, -1]];
            }),
        ),
        (15, one(|d| d.directions[0] = -1)),
        (16, one(|d| d.loading[0] = vec![0])),
        (16, one(|d| d.loading[1] = vec![1])),
        (17, one(|d| d.maps[1] = vec![vec![0, 2]])),
    ];
    for (number, bytes) in cases {
        assert_eq!(refusal(&bytes), Some(number), "{bytes:?}");
    }
}

#[test]
fn order_of_accept() {
    let with_size = |bytes: Vec<u8>| [bytes.as_slice(), &[7; 5]].concat();
    let mut out_of_range = word(5, 65);
    out_of_range.push(0);
    let cases = [
        // Each is also declined by a later number.
        (1, word(0, 9)[..10].to_vec()),
        (2, with_size(word(2, 0))),
        (3, out_of_range),
        (4, {
            let mut words = one(|d| d.left[0] = 64);
            words[4 * 9] = 9;
            words
        }),
        (
            5,
            matrix(|d| {
                d.left = vec![1, -64, -64];
                d.right = vec![0, 64, 64];
            }),
        ),
        (
            6,
            one(|d| {
                d.right = vec![64, 64];
                d.place = vec![vec![0, 0]];
            }),
        ),
        (
            7,
            one(|d| {
                d.place = vec![vec![0, 0]];
                d.step = vec![0, 0];
            }),
        ),
        (
            8,
            one(|d| {
                d.place = vec![vec![2, 1]];
                d.step = vec![4, 2];
            }),
        ),
        (
            10,
            matrix(|d| {
                d.right = vec![32, 31, 0];
                d.maps[0] = vec![vec![0; 3]; 2];
            }),
        ),
        (
            12,
            one(|d| {
                d.step = vec![1, 2];
                d.maps[0] = vec![vec![1, 2]];
            }),
        ),
        (
            13,
            one(|d| {
                d.step = vec![8, 1];
                d.maps[0] = vec![vec![1, 2]];
            }),
        ),
        (
            14,
            one(|d| {
                d.step = vec![8, 1];
                d.maps[2] = vec![vec![1, -1]];
                d.directions[0] = -1;
            }),
        ),
        (
            15,
            one(|d| {
                d.directions[0] = -1;
                d.loading[2] = vec![1];
            }),
        ),
        (
            16,
            one(|d| {
                d.maps[1] = vec![vec![0, 2]];
                d.loading[1] = vec![1];
            }),
        ),
        // By stream first: an earlier stream's 17 before a later one's 11, and the other way round.
        (
            17,
            one(|d| {
                d.maps[0] = vec![vec![2, 0]];
                d.maps[1] = vec![vec![0, 0]];
            }),
        ),
        (
            11,
            one(|d| {
                d.maps[0] = vec![vec![0, 0]];
                d.maps[1] = vec![vec![0, 2]];
            }),
        ),
    ];
    for (number, bytes) in cases {
        assert_eq!(refusal(&bytes), Some(number), "{bytes:?}");
    }
}

#[test]
fn details_of_4_and_15() {
    // The unused second operand of a copy is checked too.
    let mut words = polynomial_one(2).words();
    words[22] = 0;
    assert_eq!(refusal(&bytes_of(&words)), None);
    words[25] = 5;
    assert_eq!(refusal(&bytes_of(&words)), Some(4));
    // A copy onto itself writes: a is stationary with line (0,1).
    let copy_a = |d: &mut Description| {
        d.body[0].target = 0;
        d.body[0].first = 0;
        d.body[0].operation = reference::body::Operation::Copy;
    };
    assert_eq!(refusal(&one(copy_a)), None);
    let against = one(|d| {
        copy_a(d);
        d.directions[1] = -1;
    });
    assert_eq!(refusal(&against), Some(15));
}

#[test]
fn direction_of_a_written_stream() {
    // Turned by the step, the line of c is (1,−1) or (−1,1); that of b does not matter.
    for (step, direction) in [([2, 1], 1), ([-2, -1], -1)] {
        for other in [1, -1] {
            let along = one(|d| {
                d.step = step.to_vec();
                d.directions = vec![direction, other];
            });
            assert_eq!(refusal(&along), None);
            let against = one(|d| {
                d.step = step.to_vec();
                d.directions = vec![-direction, other];
            });
            assert_eq!(refusal(&against), Some(15));
        }
    }
}

/// All calls decline by Accept's number first, with lists of whatever length.
#[test]
fn accepts_refusals_come_first() {
    let calls = Calls::on(GAUGE, &one(|d| d.loading[0] = vec![0]));
    let no = Refusal(16);
    let mut list = [1, 2, 3];
    assert_eq!(calls.table(&mut [Row::default(); 2]), Err(no));
    assert_eq!(calls.start(&[1], &mut [2], &mut [3, 4], &mut list), Err(no));
    let mut lists = Lists::new(&polynomial_one(2));
    lists.calls = calls.clone();
    lists.waiting.clear();
    lists.received.clear();
    lists.state.clear();
    assert_eq!(lists.step_words(9, 0, 0), Err(no));
    assert_eq!(lists.run(1), Err(no));
    assert_eq!(lists.ready(&mut [0; 3]), Err(no));
    assert_eq!(lists.window(77, 7), Err(no));
    assert_eq!(lists.result(&mut [0; 3]), Err(no));
    assert_eq!(calls.plain_run(&[1], &mut list), Err(no));
    assert_eq!(list, [1, 2, 3]);
}

#[test]
fn table_18() {
    let calls = Calls::on(GAUGE, &polynomial_one(2).bytes());
    let mark = Row {
        count: 77,
        ..Row::default()
    };
    let mut rows = [mark; 4];
    assert_eq!(calls.table(&mut rows[..2]), Err(Refusal(18)));
    assert_eq!(rows, [mark; 4]);
    assert_eq!(calls.table(&mut rows), Ok(()));
    assert_eq!(rows[3], mark);
    assert_eq!(rows[0].count, 3);
}

#[test]
fn start_20_26_21() {
    let mut lists = Lists::new(&polynomial_one(2));
    let words = lists.accepted().words;
    lists.waiting = vec![7; 10];
    lists.received = vec![8; 12];
    lists.state = vec![9; words - 1];
    let before = lists.words();
    assert_eq!(lists.start(&[5; 11]), Err(Refusal(20)));
    lists.waiting.push(7);
    assert_eq!(lists.start(&[5; 10]), Err(Refusal(20)));
    assert_eq!(lists.start(&[5; 11]), Err(Refusal(26)));
    lists.received.pop();
    assert_eq!(lists.start(&[5; 11]), Err(Refusal(21)));
    assert_eq!(lists.state, before.2);
    assert_eq!(lists.waiting, vec![7; 11]);
    assert_eq!(lists.received, vec![8; 11]);
    // Words beyond the state's own are left alone.
    lists.state = vec![9; words + 2];
    assert_eq!(lists.start(&[5; 11]), Ok(()));
    assert_eq!(lists.waiting, vec![5; 11]);
    assert_eq!(lists.received, vec![0; 11]);
    assert_eq!(lists.state[..words], vec![0; words]);
    assert_eq!(lists.state[words..], [9, 9]);
}

/// Lists with everything wrong, mended one by one; `call` answers the number at each stage.
fn mended(call: impl Fn(&mut Lists) -> Option<u32>, needs_state: bool, last: Option<u32>) {
    let mut lists = Lists::started(&polynomial_one(2), &[1; 11]);
    let whole = lists.clone();
    lists.waiting.push(1);
    lists.received.pop();
    lists.state.pop();
    let stages: &[u32] = if needs_state {
        &[20, 26, 21, 22]
    } else {
        &[20, 26]
    };
    for &stage in stages {
        let before = lists.words();
        assert_eq!(call(&mut lists), Some(stage));
        assert_eq!(lists.words(), before);
        match stage {
            20 => lists.waiting = whole.waiting.clone(),
            26 => lists.received = whole.received.clone(),
            // As long as it should be, but with more firings than there are instances.
            21 => {
                lists.state = whole.state.clone();
                lists.state[0] = 4;
            }
            _ => lists.state[0] = 0,
        }
    }
    assert_eq!(call(&mut lists), last);
}

fn number<T>(answer: Result<T, Refusal>) -> Option<u32> {
    answer.err().map(|Refusal(number)| number)
}

#[test]
fn list_and_state_refusals_in_order() {
    mended(|lists| number(lists.step_words(7, 0, 0)), true, Some(23));
    mended(|lists| number(lists.step_words(2, 0, 0)), true, Some(24));
    mended(|lists| number(lists.step_words(0, 0, 0)), true, None);
    mended(|lists| number(lists.run(1)), true, None);
    mended(|lists| number(lists.ready(&mut [0; 15])), true, Some(27));
    mended(|lists| number(lists.ready(&mut [0; 16])), true, None);
    mended(|lists| number(lists.window(3, 0)), false, Some(19));
    mended(|lists| number(lists.window(0, 2)), false, Some(19));
    mended(|lists| number(lists.window(0, 0)), false, None);
    mended(|lists| number(lists.result(&mut [0; 10])), true, Some(25));
}

#[test]
fn step_23_and_24() {
    let mut lists = Lists::started(&polynomial_one(2), &[1; 11]);
    let before = lists.words();
    let unknown = [
        (5, 0, 0),
        (u32::MAX, 0, 0),
        (0, 3, 0),
        (4, 3, 0),
        (1, 3, 0),
        (2, 3, 0),
        (3, u32::MAX, 0),
        (1, 0, 3),
        (3, 0, u32::MAX),
    ];
    for (kind, of, stream) in unknown {
        assert_eq!(lists.step_words(kind, of, stream), Err(Refusal(23)));
    }
    for (kind, of, stream) in [(1, 0, 0), (2, 0, 9), (3, 0, 0), (4, 0, 9)] {
        assert_eq!(lists.step_words(kind, of, stream), Err(Refusal(24)));
    }
    assert_eq!(lists.words(), before);
    // The stream of a send is not looked at.
    assert_eq!(lists.step_words(0, 0, 99), Ok(()));
}

#[test]
fn a_process_on_no_pipe_is_23_and_firing_a_null_process_24() {
    let mut lists = Lists::new(&reference::designs::matrix_slanted(2));
    let array = lists.network().array.clone();
    let without: Vec<(usize, usize)> = (0..array.processes.len())
        .flat_map(|process| (0..3).map(move |stream| (process, stream)))
        .filter(|&(process, stream)| array.stations[process][stream].is_none())
        .collect();
    assert!(!without.is_empty());
    for (process, stream) in without {
        for kind in [1, 3] {
            assert_eq!(
                lists.step_words(kind, process as u32, stream as u32),
                Err(Refusal(23))
            );
        }
        assert_eq!(lists.step_words(2, process as u32, 0), Err(Refusal(24)));
    }
}

#[test]
fn ready_leaves_further_words() {
    let mut lists = Lists::started(&polynomial_one(2), &[1; 11]);
    let mut words = [5; 20];
    let answer = lists.ready(&mut words).unwrap();
    assert_eq!((answer.count, answer.lowest), (0, 3));
    assert_eq!(words[..16], [0; 16]);
    assert_eq!(words[16..], [5; 4]);
    lists.step_words(0, 1, 0).unwrap();
    let answer = lists.ready(&mut words).unwrap();
    assert_eq!((answer.count, answer.lowest, words[0]), (1, 0, 1));
}

#[test]
fn result_25_before_28() {
    let mut lists = Lists::started(&polynomial_one(2), &[1; 11]);
    lists.run(96).unwrap();
    assert_eq!(lists.result(&mut [0; 12]), Err(Refusal(25)));
    lists.run(1).unwrap();
    let mut long = [3; 12];
    assert_eq!(lists.result(&mut long), Err(Refusal(28)));
    assert_eq!(long, [3; 12]);
    assert_eq!(lists.result(&mut long[..11]), Ok(()));
    assert_eq!(long[11], 3);
}

#[test]
fn plain_run_20_before_28() {
    let calls = Calls::on(GAUGE, &polynomial_one(2).bytes());
    let mut output = [3; 12];
    assert_eq!(calls.plain_run(&[1; 10], &mut output), Err(Refusal(20)));
    assert_eq!(calls.plain_run(&[1; 11], &mut output), Err(Refusal(28)));
    assert_eq!(output, [3; 12]);
    assert_eq!(calls.plain_run(&[1; 11], &mut output[..11]), Ok(()));
}
