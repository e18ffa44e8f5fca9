//! Replay: the lines of every call, lends, pokes and scripts that are cut off.

use reference::board::GAUGE;
use reference::designs::{polynomial_one, polynomial_two};
use reference::examples::example_scripts;
use reference::replay::{bundle, replay, Call, Script};

const STEP: u32 = 0;
const RUN: u32 = 1;
const READY: u32 = 2;
const WINDOW: u32 = 3;
const RESULT: u32 = 4;
const STATE: u32 = 5;
const RECEIVED: u32 = 6;
const POKE: u32 = 7;
const LEND: u32 = 8;

/// Design one for a product of polynomials of degree 0: a, b and c have one element each.
fn small(calls: &[Call]) -> Vec<u8> {
    Script {
        description: polynomial_one(0).bytes(),
        board: GAUGE,
        values: vec![3, 5, 7],
        calls: calls.to_vec(),
    }
    .bytes()
}

/// The lines after those of Accept and Start.
fn lines(script: &[u8]) -> Vec<String> {
    replay(script).lines().skip(2).map(String::from).collect()
}

#[test]
fn every_call() {
    let script = small(&[
        [READY, 0, 0, 0],
        [STEP, 0, 1, 9],
        [READY, 0, 0, 0],
        [STATE, 0, 0, 0],
        [STEP, 1, 0, 1],
        [STEP, 2, 0, 0],
        [STATE, 0, 0, 0],
        [WINDOW, 2, 0, 0],
        [RESULT, 0, 0, 0],
        [RUN, 10, 0, 0],
        [RECEIVED, 0, 0, 0],
        [RUN, 10, 0, 0],
        [RECEIVED, 0, 0, 0],
        [WINDOW, 2, 1, 0],
        [RESULT, 0, 0, 0],
    ]);
    let expected = "\
accept 1 1 3 3 27 13 1 1 1 1
start
ready 0 1 0 0 0 0 0 0 0 0 0 0 0 0 0 0 0 0
step
ready 1 0 1 0 0 0 0 0 0 0 0 0 0 0 0 0 0 0
state 0 0 0 0 0 0 0 0 0 0 5 0 0 0 0 0 0 0 0 0 1 0 0 0 0 0 0
step
refused 24
state 0 0 0 0 0 0 1 0 5 0 0 0 0 0 0 0 0 0 0 0 1 0 0 0 0 0 0
window 7
refused 25
run 10 1
received 3 5 0
run 1 0
received 3 5 22
window 22
result 3 5 22
";
    assert_eq!(replay(&script), expected);
}

#[test]
fn pokes() {
    let calls = [
        // The hand of b, and words beyond the state.
        [POKE, 8, 77, 0],
        [POKE, 27, 1, 0],
        [POKE, u32::MAX, 1, 0],
        [STATE, 0, 0, 0],
        // A junk hand is sound; more firings than instances are not.
        [RUN, 0, 0, 0],
        [POKE, 0, 2, 0],
        [RUN, 0, 0, 0],
        [STEP, 0, 0, 0],
        [READY, 0, 0, 0],
        [RESULT, 0, 0, 0],
        [WINDOW, 0, 0, 0],
        [POKE, 0, 1, 0],
        [RUN, 100, 0, 0],
        [RECEIVED, 0, 0, 0],
    ];
    let expected = [
        "poke",
        "poke",
        "poke",
        "state 0 0 0 0 0 0 0 0 77 0 0 0 0 0 0 0 0 0 0 0 0 0 0 0 0 0 0",
        "run 0 1",
        "poke",
        "refused 22",
        "refused 22",
        "refused 22",
        "refused 22",
        "window 3",
        "poke",
        // The firing is already counted, so c comes out as it went in.
        "run 12 0",
        "received 3 5 7",
    ];
    assert_eq!(lines(&small(&calls)), expected);
}

#[test]
fn lends_of_every_list() {
    let calls = [
        [LEND, 0, 2, 0],
        [RUN, 1, 0, 0],
        [LEND, 0, 3, 0],
        [LEND, 1, 4, 0],
        [WINDOW, 0, 0, 0],
        [RECEIVED, 0, 0, 0],
        [LEND, 1, 3, 0],
        [LEND, 2, 26, 0],
        [READY, 0, 0, 0],
        [LEND, 2, 28, 0],
        [POKE, 27, 9, 0],
        [LEND, 3, 15, 0],
        [READY, 0, 0, 0],
        [LEND, 3, 17, 0],
        [READY, 0, 0, 0],
        [LEND, 4, 2, 0],
        [RUN, 13, 0, 0],
        [RESULT, 0, 0, 0],
        [LEND, 4, 3, 0],
        [RESULT, 0, 0, 0],
        [STATE, 0, 0, 0],
        [LEND, 5, 1, 0],
        [LEND, u32::MAX, 1, 0],
        [RUN, 0, 0, 0],
        [LEND, 1, 0, 0],
        [RECEIVED, 0, 0, 0],
    ];
    let expected = [
        "lend",
        "refused 20",
        "lend",
        "lend",
        "refused 26",
        "received 0 0 0 0",
        "lend",
        "lend",
        "refused 21",
        "lend",
        "poke",
        "lend",
        "refused 27",
        "lend",
        "ready 0 1 0 0 0 0 0 0 0 0 0 0 0 0 0 0 0 0",
        "lend",
        "run 13 0",
        "refused 28",
        "lend",
        "result 3 5 22",
        "state 1 1 1 0 0 0 1 1 0 0 0 0 1 1 0 0 0 1 1 0 1 1 0 0 1 1 0 9",
        "lend",
        "lend",
        "run 0 0",
        "lend",
        "received",
    ];
    assert_eq!(lines(&small(&calls)), expected);
}

#[test]
fn a_longer_lend_is_the_whole_buffer() {
    let lists = [(0, 32_768), (1, 32_768), (2, 140_000), (4, 32_768)];
    for (list, whole) in lists {
        for length in [whole, whole + 1, u32::MAX] {
            let calls = [
                [LEND, list, length, 0],
                [STATE, 0, 0, 0],
                [RECEIVED, 0, 0, 0],
            ];
            let lines = lines(&small(&calls));
            let words = |line: &str| line.split(' ').count() as u32 - 1;
            assert_eq!(words(&lines[1]), if list == 2 { whole } else { 27 });
            assert_eq!(words(&lines[2]), if list == 1 { whole } else { 3 });
        }
    }
    let calls = [
        [LEND, 3, u32::MAX, 0],
        [READY, 0, 0, 0],
        [LEND, 2, u32::MAX, 0],
        [RUN, 99, 0, 0],
    ];
    let ready = "ready 0 1 0 0 0 0 0 0 0 0 0 0 0 0 0 0 0 0";
    assert_eq!(lines(&small(&calls)), ["lend", ready, "lend", "run 13 0"]);
}

#[test]
fn a_call_over_8_ends_the_script() {
    for over in [9, 10, u32::MAX] {
        let calls = [[RUN, 2, 0, 0], [over, 0, 0, 0], [RUN, 2, 0, 0]];
        assert_eq!(lines(&small(&calls)), ["run 2 1"]);
    }
}

#[test]
fn cut_off_scripts() {
    let whole = small(&[[RUN, 2, 0, 0], [RUN, 3, 0, 0]]);
    let opening = whole.len() - 32;
    for length in 0..opening {
        assert_eq!(replay(&whole[..length]), "short script\n");
    }
    for length in opening..=whole.len() {
        let played = (length - opening) / 16;
        assert_eq!(lines(&whole[..length]), ["run 2 1", "run 3 1"][..played]);
    }
    // Counts of more than there is; the board word stands between them.
    for place in [0, 8 + polynomial_one(0).bytes().len()] {
        let mut script = whole.clone();
        script[place + 3] = 0xFF;
        assert_eq!(replay(&script), "short script\n");
    }
}

#[test]
fn the_examples() {
    let polynomial = "\
accept 5 9 11 3 95 141 1 1 1 1
start
run 40 1
ready 3 0 7 0 0 0 0 0 0 0 0 0 0 0 0 0 0 0
run 101 0
result 1 2 3 4 5 6 4 13 28 27 18
";
    let smoothing = "\
accept 6 18 17 3 112 256 1 1 1 1
start
run 40 1
ready 2 1 6 0 0 0 0 0 0 0 0 0 0 0 0 0 0 0
run 216 0
result 16384 32768 16384 98304 131072 294912 196608 147456 131072 65536 32768 163840 229376 208896 155648 118784 73728
";
    let cleared = "\
accept 3 9 11 3 61 97 1 1 1 1
start
run 40 1
ready 2 1 6 0 0 0 0 0 0 0 0 0 0 0 0 0 0 0
run 57 0
result 1 2 3 4 5 6 4 13 28 27 18
";
    let slanted = "\
accept 25 27 27 11 433 303 2 1 1 1
start
run 40 1
ready 8 3 17912 0 0 0 0 0 0 0 0 0 0 0 0 0 0 0
run 263 0
result 1 2 3 4 5 6 7 8 9 9 8 7 6 5 4 3 2 1 30 24 18 84 69 54 138 114 90
";
    // On the bench it is the same.
    let expected = [polynomial, smoothing, cleared, slanted, polynomial];
    assert_eq!(example_scripts().len(), expected.len());
    for (example, expected) in example_scripts().iter().zip(expected) {
        assert_eq!(replay(&example.script.bytes()), expected);
    }
}

#[test]
fn bundles() {
    let scripts = [
        small(&[[RUN, 2, 0, 0]]),
        Vec::new(),
        small(&[[RUN, 3, 0, 0], [9, 0, 0, 0], [RUN, 1, 0, 0]]),
    ];
    let outputs: Vec<String> = scripts.iter().map(|script| replay(script)).collect();
    let text = |outputs: &[String]| -> String {
        let numbered = outputs.iter().enumerate();
        numbered
            .map(|(number, output)| format!("script {number}\n{output}"))
            .collect()
    };
    let whole = bundle(&scripts);
    assert_eq!(replay(&whole), text(&outputs));
    assert_eq!(replay(&bundle(&[])), "");
    // A length that is cut off counts for nothing, and a script is played as far as it goes.
    for more in 1..4 {
        let longer = [whole.clone(), vec![1; more]].concat();
        assert_eq!(replay(&longer), text(&outputs));
    }
    assert_eq!(replay(&whole[..whole.len() - 17]), text(&outputs));
    let cut = &whole[..whole.len() - scripts[2].len() + 5];
    assert_eq!(
        replay(cut),
        text(&[
            outputs[0].clone(),
            outputs[1].clone(),
            "short script\n".to_string()
        ])
    );
}

#[test]
fn descriptions_that_are_no_whole_words_are_padded() {
    let description = polynomial_two(2).bytes();
    for length in [0, 1, 2, 3, 4, 11, 13, 14, 15] {
        let script = Script {
            description: description[..length].to_vec(),
            board: GAUGE,
            values: vec![1],
            calls: vec![[LEND, 1, 2, 0], [RECEIVED, 0, 0, 0]],
        };
        let number = if length < 12 { 1 } else { 3 };
        let expected = format!("refused {number}\nrefused {number}\nlend\nreceived 0 0\n");
        assert_eq!(replay(&script.bytes()), expected);
    }
}

#[test]
fn after_a_refused_description() {
    let script = Script {
        description: vec![0; 12],
        board: GAUGE,
        values: Vec::new(),
        calls: vec![
            [STEP, 0, 0, 0],
            [RUN, 0, 0, 0],
            [READY, 0, 0, 0],
            [WINDOW, 0, 0, 0],
            [RESULT, 0, 0, 0],
            [STATE, 0, 0, 0],
            [RECEIVED, 0, 0, 0],
            [POKE, 0, 5, 0],
            [LEND, 2, 2, 0],
            [POKE, 1, 5, 0],
            [STATE, 0, 0, 0],
        ],
    };
    let mut expected = vec!["refused 2"; 5];
    expected.extend(["state", "received", "poke", "lend", "poke", "state 0 5"]);
    assert_eq!(replay(&script.bytes()).lines().next(), Some("refused 2"));
    assert_eq!(lines(&script.bytes()), expected);
}

#[test]
fn a_declined_start_leaves_the_lists() {
    let script = Script {
        description: polynomial_one(0).bytes(),
        board: GAUGE,
        values: vec![3, 5],
        calls: vec![[WINDOW, 0, 0, 0], [RUN, 99, 0, 0], [RESULT, 0, 0, 0]],
    };
    let expected = "accept 1 1 3 3 27 13 1 1 1 1\nrefused 20\nwindow 0\nrun 13 0\nresult 0 0 0\n";
    assert_eq!(replay(&script.bytes()), expected);
}
