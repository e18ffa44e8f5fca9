//! Request 2.9: the bench holds 256 processes and 1,024 instances, the gauge 1,024 and 4,096, every call is told which of them it serves,
//! and 33 comes before all else.

use std::collections::{BTreeMap, BTreeSet};

use reference::board::{Limits, BENCH, GAUGE};
use reference::board_cases::board_cases;
use reference::calls::{Accepted, Calls, Lent, Row};
use reference::compare::{self, Record};
use reference::description::Description;
use reference::designs::{grid, matrix_straight, polynomial_one, polynomial_two};
use reference::expected::replay_scripts;
use reference::network::Step;
use reference::random::Random;
use reference::random_board::OTHERS;
use reference::random_description::{accepted, changed, given, large, refused, refused_from};
use reference::random_script::scripts;
use reference::random_stride::strided;
use reference::replay::{replay, step_call, Call, Machine, Script};
use reference::table::table_text;
use reference::walk::walk_on;
use reference::walk_text::walk_text;
use reference::Refusal;

fn accept_on(board: u32, description: &Description) -> Result<Accepted, Refusal> {
    Calls::on(board, &description.bytes()).accept()
}

/// The number by which an answer declines, 0 if it does not.
fn number<T>(answer: Result<T, Refusal>) -> u32 {
    answer.map_or_else(|Refusal(number)| number, |_| 0)
}

/// The numbers of Accept on the gauge and on the bench.
fn numbers(description: &Description) -> [u32; 2] {
    [GAUGE, BENCH].map(|board| number(accept_on(board, description)))
}

/// Design one with loops 0..m and 0..n.
fn polynomial(m: i32, n: i32) -> Description {
    Description {
        right: vec![m, n],
        ..polynomial_one(0)
    }
}

// What the boards hold.

#[test]
fn the_pairs() {
    let pair = |board: u32| Limits::of(board).map(|it| (it.processes, it.instances));
    assert_eq!(pair(0), Ok((1024, 4096)));
    assert_eq!(pair(1), Ok((256, 1024)));
    let mut random = Random::new(91);
    let any: Vec<u32> = (0..1000).map(|_| random.bits() as u32).collect();
    for word in OTHERS.into_iter().chain(any) {
        assert_eq!(pair(word), Err(Refusal(33)));
    }
}

#[test]
fn worked_figures() {
    let both = |description: &Description, figures: [u64; 13]| {
        for board in [GAUGE, BENCH] {
            let answer = accept_on(board, description).map(|answer| answer.values());
            assert_eq!(answer, Ok(figures));
        }
    };
    let gauge_only = |description: &Description, figures: [u64; 13], number: u32| {
        let answer = accept_on(GAUGE, description).map(|answer| answer.values());
        assert_eq!(answer, Ok(figures));
        assert_eq!(accept_on(BENCH, description), Err(Refusal(number)));
    };
    both(
        &polynomial(31, 31),
        [32, 1024, 127, 3, 554, 9406, 1, 1, 1, 1, 0, 0, 0],
    );
    gauge_only(
        &polynomial(31, 32),
        [32, 1056, 129, 3, 554, 9570, 1, 1, 1, 1, 0, 0, 0],
        6,
    );
    both(
        &grid(16, 16, 4),
        [256, 1024, 384, 48, 4240, 14_080, 1, 1, 1, 1, 0, 0, 0],
    );
    gauge_only(
        &grid(17, 16, 3),
        [272, 816, 371, 49, 4499, 14_070, 1, 1, 1, 1, 0, 0, 0],
        10,
    );
    assert_eq!(numbers(&grid(33, 32, 1)), [10, 6]);
    assert_eq!(numbers(&polynomial_one(63)), [0, 6]);
    assert_eq!(numbers(&grid(32, 32, 4)), [0, 6]);
    assert_eq!(numbers(&grid(32, 32, 5)), [6, 6]);
}

/// A description that the gauge refuses by 7 to 17 can be the bench's 6, and one that it refuses by 11 to 17 the bench's 10; where the
/// bench holds it, its number is the gauge's.
#[test]
fn the_smaller_pair_comes_before_other_refusals() {
    let pairs: BTreeSet<[u32; 2]> = board_cases().iter().map(numbers).collect();
    let (early, late) = ([0, 7, 8, 10], [11, 12, 13, 14, 15, 16, 17]);
    let all = early.into_iter().chain(late);
    let mut expected: BTreeSet<[u32; 2]> = all.flat_map(|it| [[it, it], [it, 6]]).collect();
    expected.extend([0].into_iter().chain(late).map(|it| [it, 10]));
    assert_eq!(pairs, expected);
}

/// Loops of as many instances as either board holds, of one row more and of one fewer.
#[test]
fn six_is_by_the_pair() {
    for most in [1024, 4096] {
        for rows in 1..=64 {
            for columns in most / rows - 1..=most / rows + 1 {
                if !(1..=129).contains(&columns) {
                    continue;
                }
                let mut loops = polynomial(rows - 1, 0);
                (loops.left[1], loops.right[1]) = (-64, columns - 65);
                let six = |limit: i32| if rows * columns > limit { 6 } else { 0 };
                assert_eq!(numbers(&loops), [six(4096), six(1024)]);
            }
        }
    }
}

/// Grids of as many processes as either board holds, of one row more and of one fewer, with no more instances than the bench holds.
#[test]
fn ten_is_by_the_pair() {
    for most in [256, 1024] {
        for rows in [1, 2, 3, 8, 15, 16, 17, 31, 32, 33, 64] {
            for columns in most / rows - 1..=most / rows + 1 {
                if columns > 65 || rows * columns > 1024 {
                    continue;
                }
                let ten = if rows * columns > 256 { 10 } else { 0 };
                assert_eq!(numbers(&grid(rows, columns, 1)), [0, ten]);
            }
        }
    }
}

/// The limit of refusal 14 is the gauge's.
#[test]
fn hops_are_the_same() {
    for factor in 1..=8 {
        let mut one = polynomial_one(2);
        one.maps[2] = vec![vec![1, -1]];
        one.step = vec![factor, 1];
        let [gauge, bench] = numbers(&one);
        assert_eq!(gauge, bench);
        assert_eq!(gauge, if factor <= 4 { 0 } else { 14 });
    }
}

// 33.

fn lent<'a>(waiting: &'a [u32], received: &'a mut [u32], state: &'a mut [u32]) -> Lent<'a> {
    Lent {
        waiting,
        received,
        state,
    }
}

/// The numbers of the nine calls on lists of some lengths; each of them leaves every lent word.
fn nine_numbers(board: u32, description: &[u8], elements: usize, words: usize) -> Vec<u32> {
    let calls = Calls::on(board, description);
    let values = vec![5; elements];
    let marked = [elements, elements, words].map(|length| vec![7_u32; length]);
    let [mut waiting, mut received, mut state] = marked.clone();
    let mut output = vec![7; elements];
    let mut ready = vec![7; 17];
    let mark = Row {
        count: 7,
        ..Row::default()
    };
    let mut rows = vec![mark; words];
    let numbers = vec![
        number(calls.accept()),
        number(calls.table(&mut rows)),
        number(calls.start(&values, &mut waiting, &mut received, &mut state)),
        number(calls.step(lent(&waiting, &mut received, &mut state), 0, 0, 0)),
        number(calls.run(lent(&waiting, &mut received, &mut state), 1)),
        number(calls.ready(&waiting, &received, &state, &mut ready)),
        number(calls.window(&waiting, &received, 0, 0)),
        number(calls.result(&waiting, &received, &state, &mut output)),
        number(calls.plain_run(&values, &mut output)),
    ];
    assert_eq!([waiting, received, state], marked);
    assert!(output.iter().all(|&word| word == 7) && ready.iter().all(|&word| word == 7));
    assert!(rows.iter().all(|&row| row == mark));
    numbers
}

#[test]
fn another_word_comes_before_everything() {
    let mut random = Random::new(92);
    let judge = |word: u32, bytes: &[u8]| {
        let accepted = Calls::on(GAUGE, bytes).accept();
        let (elements, words) = accepted.map_or((0, 0), |it| (it.elements, it.words));
        for (elements, words) in [(0, 0), (elements, words), (elements + 1, words + 1)] {
            assert_eq!(nine_numbers(word, bytes, elements, words), [33; 9]);
        }
        assert_eq!(walk_on(word, bytes), Err(Refusal(33)));
        assert_eq!(table_text(word, bytes), "refused 33\n");
        assert_eq!(walk_text(word, bytes), "refused 33\n");
    };
    for word in OTHERS {
        judge(word, &[]);
        judge(word, &grid(32, 32, 4).bytes());
        judge(word, &grid(32, 32, 5).bytes());
    }
    for _ in 0..40 {
        let word = random.bits() as u32;
        for number in given().filter(|&number| number != 10) {
            judge(word, &refused(&mut random, GAUGE, number));
        }
        judge(word, &accepted(&mut random).bytes());
        let length = random.below(200);
        judge(word, &random.bytes(length));
    }
}

/// An empty description is 1 on both boards, for all nine calls.
#[test]
fn nothing_is_one_on_a_board() {
    for board in [GAUGE, BENCH] {
        assert_eq!(nine_numbers(board, &[], 3, 3), [1; 9]);
    }
}

// What the bench accepts, the gauge accepts.

/// How many instances there are.
fn instances(description: &Description) -> i32 {
    let bounds = description.left.iter().zip(&description.right);
    bounds.map(|(left, right)| right - left + 1).product()
}

/// How many processes there are, by the ends of each row of place.
fn processes(description: &Description) -> i32 {
    let size = |row: &Vec<i32>| {
        let bounds = description.left.iter().zip(&description.right);
        let reach = |(word, (left, right)): (&i32, (&i32, &i32))| (word * (right - left)).abs();
        row.iter().zip(bounds).map(reach).sum::<i32>() + 1
    };
    description.place.iter().map(size).product()
}

/// What the bench should answer where the gauge gave an answer.
fn bench_by_the_pair(bytes: &[u8], gauge: Result<Accepted, Refusal>) -> Result<Accepted, Refusal> {
    let Ok(description) = Description::read(bytes) else {
        return gauge;
    };
    if instances(&description) > 1024 {
        return Err(Refusal(6));
    }
    if matches!(gauge, Err(Refusal(7 | 8))) || processes(&description) <= 256 {
        return gauge;
    }
    Err(Refusal(10))
}

/// How often a test met each pair of numbers on the gauge and on the bench.
#[derive(Debug, Default)]
struct Met(BTreeMap<(u32, u32), u32>);

impl Met {
    fn judge(&mut self, bytes: &[u8]) {
        let [gauge, bench] = [GAUGE, BENCH].map(|board| Calls::on(board, bytes).accept());
        assert_eq!(bench, bench_by_the_pair(bytes, gauge), "{bytes:?}");
        assert!(bench.is_err() || gauge == bench);
        let texts =
            [GAUGE, BENCH].map(|board| compare::text(&compare::on(board, [bytes.to_vec()])));
        assert!(bench.is_err() || texts[0] == texts[1]);
        *self.0.entry((number(gauge), number(bench))).or_default() += 1;
    }
}

/// A description stretched so that it has about as many instances or processes as the bench holds, whatever its streams make of that.
fn stretched(random: &mut Random) -> Description {
    let mut description = if random.percent(50) {
        accepted(random)
    } else {
        strided(random)
    };
    let loops = description.loops();
    let most = random.pick(&[40, 300, 1100]);
    let mut left = most;
    for number in 0..loops {
        let size = random.between(1, left.min(64));
        let size = if number + 1 == loops {
            left.min(64)
        } else {
            size
        };
        description.left[number] = random.between(-64, 64 - size);
        description.right[number] = description.left[number] + size - 1;
        left = (left / size).max(1);
    }
    description
}

#[test]
fn what_the_bench_accepts_the_gauge_accepts() {
    let mut random = Random::new(93);
    let mut met = Met::default();
    for _ in 0..600 {
        met.judge(&accepted(&mut random).bytes());
        met.judge(&changed(&mut random));
        met.judge(&stretched(&mut random).bytes());
    }
    for _ in 0..30 {
        for board in [GAUGE, BENCH] {
            met.judge(&large(&mut random, board).bytes());
        }
    }
    for number in given() {
        for board in [GAUGE, BENCH] {
            let count = if number == 10 { 3 } else { 20 };
            for _ in 0..count {
                met.judge(&refused(&mut random, board, number));
            }
        }
    }
    for description in board_cases() {
        met.judge(&description.bytes());
    }
    for both in given().filter(|&number| number != 10).chain([0]) {
        assert!(met.0[&(both, both)] >= 20, "{both}: {met:?}");
    }
    for gauge in [0, 7, 8, 10, 11, 12, 13, 14, 15, 16, 17] {
        assert!(met.0.contains_key(&(gauge, 6)), "{gauge}: {met:?}");
    }
    for gauge in [0, 10, 11, 12, 13, 14, 15, 16, 17] {
        assert!(met.0.contains_key(&(gauge, 10)), "{gauge}: {met:?}");
    }
    assert!(met.0[&(0, 6)] >= 20 && met.0[&(0, 10)] >= 5, "{met:?}");
}

/// A script on the bench prints what it prints on the gauge, or each of its calls is declined by the number of Accept.
#[test]
fn scripts_on_both_boards() {
    let (mut same, mut declined) = (0, BTreeSet::new());
    let scripts = scripts(94, 300).chain(replay_scripts().into_iter().take(60));
    for mut script in scripts.filter_map(|bytes| Script::read(&bytes)) {
        let outputs = [GAUGE, BENCH].map(|board| {
            script.board = board;
            replay(&script.bytes())
        });
        let accept = Calls::on(BENCH, &script.description).accept();
        if accept.is_ok() {
            assert_eq!(outputs[0], outputs[1]);
            same += 1;
            continue;
        }
        let refusal = format!("refused {}", number(accept));
        let mut lines = outputs[1].lines();
        assert_eq!([lines.next(), lines.next()], [Some(refusal.as_str()); 2]);
        for (call, line) in script.calls.iter().zip(lines) {
            assert_eq!(call[0] < 5, line == refusal);
        }
        declined.insert(number(accept));
    }
    assert!(same >= 200);
    assert!(given().all(|number| declined.contains(&number)));
}

#[test]
fn a_script_on_no_board() {
    let script = Script {
        description: polynomial_two(2).bytes(),
        board: 2,
        values: vec![0; 11],
        calls: (0..=6)
            .map(|call| [call, 0, 0, 0])
            .chain([[8, 1, 2, 0], [6, 0, 0, 0], [7, 0, 9, 0]])
            .collect(),
    };
    let mut expected = vec!["refused 33"; 7];
    expected.extend(["state", "received", "lend", "received 0 0", "poke"]);
    let output = replay(&script.bytes());
    assert_eq!(output.lines().collect::<Vec<&str>>(), expected);
    // The board word stands behind the description, before the number of values.
    let bytes = script.bytes();
    let after = 4 + script.description.len();
    assert_eq!(bytes[after..after + 8], [2, 0, 0, 0, 11, 0, 0, 0]);
    assert_eq!(replay(&bytes[..after]), "short script\n");
}

// Demand 3 with other board words in the later calls.

/// A run whose later calls are told any word, beside one that is told the first board's and plays only those that are not declined by
/// another's.
struct Mixed {
    description: Vec<u8>,
    first: Machine,
    mixed: Machine,
    /// How often each number of Accept declined a call, 0 for none.
    met: BTreeMap<u32, u32>,
}

impl Mixed {
    fn start(board: u32, description: &Description, values: &[u32]) -> Mixed {
        let description = description.bytes();
        let machine = || {
            let mut machine = Machine::new(board, &description);
            assert!(machine.opening(values).ends_with("\nstart\n"));
            machine
        };
        Mixed {
            first: machine(),
            mixed: machine(),
            description,
            met: BTreeMap::new(),
        }
    }

    fn memory(machine: &Machine) -> (Vec<u32>, Vec<u32>) {
        let (received, state) = (machine.lent_received(), machine.lent_state());
        (received.to_vec(), state.to_vec())
    }

    /// Tells a call a word; it is declined by Accept's number and changes nothing, or does what the first board would.
    fn call(&mut self, word: u32, call: Call) {
        self.mixed.calls = Calls::on(word, &self.description);
        let declined = number(self.mixed.calls.accept());
        let line = self.mixed.call(call);
        if declined == 0 {
            assert_eq!(line, self.first.call(call));
        } else {
            assert_eq!(line, Some(format!("refused {declined}")));
        }
        assert_eq!(Mixed::memory(&self.mixed), Mixed::memory(&self.first));
        *self.met.entry(declined).or_default() += 1;
    }

    /// Steps in any order, and other calls between them, each with any word, until all values are out or so many calls are made.
    fn play(&mut self, random: &mut Random, most: usize) {
        for _ in 0..most {
            let network = self.first.calls.network().expect("an accepted description");
            let ready: Vec<Step> = network.ready_steps(self.first.lent_state()).collect();
            if ready.is_empty() {
                return;
            }
            let call = match random.below(10) {
                0 => [0, random.below(5) as u32, random.below(9) as u32, 0],
                1 => [1, random.below(4) as u32, 0, 0],
                2 => [2, 0, 0, 0],
                3 => [3, random.below(4) as u32, random.below(3) as u32, 0],
                4 => [4, 0, 0, 0],
                _ => step_call(random.pick(&ready), 0),
            };
            let word = random.pick(&[GAUGE, BENCH, 2, u32::MAX]);
            self.call(word, call);
        }
    }
}

/// Plays a description that a board accepts, then runs it to its end there: the result is the plain run's.
fn play_mixed(board: u32, description: &Description, most: usize, random: &mut Random) -> Mixed {
    let calls = Calls::on(board, &description.bytes());
    let elements = calls.accept().expect("an accepted description").elements;
    let values = random.values(elements);
    let mut played = Mixed::start(board, description, &values);
    played.play(random, most);
    played.call(board, [1, u32::MAX, 0, 0]);
    let mut output = vec![0; elements];
    assert_eq!(calls.plain_run(&values, &mut output), Ok(()));
    let words: String = output.iter().map(|word| format!(" {word}")).collect();
    played.mixed.calls = calls;
    let result = played.mixed.call([4, 0, 0, 0]);
    assert_eq!(result, Some(format!("result{words}")));
    played
}

#[test]
fn later_calls_on_other_boards() {
    let mut random = Random::new(95);
    for number in 0..150 {
        let description = match number % 3 {
            0 => accepted(&mut random),
            1 => matrix_straight(number / 3 % 3),
            _ => polynomial_two(number / 3 % 4),
        };
        let board = random.pick(&[GAUGE, BENCH]);
        let met = play_mixed(board, &description, 2000, &mut random).met;
        assert!(met.keys().all(|declined| [0, 33].contains(declined)));
    }
}

/// Arrays that only the gauge holds: what is told the bench is declined by 6 or 10.
#[test]
fn later_calls_on_a_board_that_is_too_small() {
    let mut random = Random::new(96);
    for (description, declined) in [
        (polynomial(31, 32), 6),
        (grid(17, 16, 3), 10),
        (grid(16, 17, 1), 10),
    ] {
        assert_eq!(numbers(&description), [0, declined]);
        let met = play_mixed(GAUGE, &description, 60, &mut random).met;
        assert_eq!(met.into_keys().collect::<Vec<u32>>(), [0, declined, 33]);
    }
}

// Texts and data.

/// The texts of the table and of the walk are the same wherever the bench has them.
#[test]
fn texts_on_both_boards() {
    let texts: [fn(u32, &[u8]) -> String; 2] = [table_text, walk_text];
    let mut random = Random::new(97);
    for text in texts {
        for _ in 0..100 {
            let bytes = strided(&mut random).bytes();
            let [gauge, bench] = [GAUGE, BENCH].map(|board| text(board, &bytes));
            assert!(bench == gauge || ["refused 6\n", "refused 10\n"].contains(&bench.as_str()));
        }
        for (description, refusal) in [
            (polynomial(31, 32), "refused 6\n"),
            (grid(17, 16, 3), "refused 10\n"),
        ] {
            let bytes = description.bytes();
            assert!(text(GAUGE, &bytes).starts_with("processes "));
            assert_eq!(text(BENCH, &bytes), refusal);
        }
    }
    // The walk is declined by 1 to 10 alone.
    let strided = refused_from(&mut random, BENCH, 13, strided);
    assert!(walk_on(BENCH, &strided).is_ok());
}

/// The comparison has every refusal and accepted descriptions on both boards, and each of the other words.
#[test]
fn what_the_comparison_shows() {
    let records = compare::records();
    let mut answers: BTreeMap<u32, BTreeMap<u32, u32>> = BTreeMap::new();
    for Record { board, description } in &records {
        let answers = answers.entry(*board).or_default();
        let answer = Calls::on(*board, description).accept();
        *answers.entry(number(answer)).or_default() += 1;
    }
    for board in [GAUGE, BENCH] {
        let all: Vec<u32> = [0].into_iter().chain(given()).collect();
        assert!(answers[&board].keys().eq(&all), "{answers:?}");
    }
    let many = |board: u32| answers[&board].values().sum::<u32>();
    assert!(many(GAUGE) > 2 * many(BENCH) && many(BENCH) > 1000);
    for word in OTHERS {
        assert!(answers[&word].keys().eq(&[33]));
        let empty = |record: &Record| record.board == word && record.description.is_empty();
        assert!(records.iter().any(empty));
    }
}

/// Each description stands behind its number of bytes and its board word; what is printed is that board's.
#[test]
fn lines_of_the_comparison() {
    let bytes = polynomial(31, 32).bytes();
    let records = [GAUGE, BENCH, 2].map(|board| Record {
        board,
        description: bytes.clone(),
    });
    let input = compare::input(&records);
    for (board, record) in [0, 1, 2].into_iter().zip(input.chunks(8 + bytes.len())) {
        assert_eq!(record[..8], [144, 0, 0, 0, board, 0, 0, 0]);
        assert_eq!(record[8..], bytes);
    }
    let text = compare::text(&records);
    let lines: Vec<&str> = text.lines().collect();
    assert_eq!(lines[0], "32 1056 129 3 554 9570 1 1 1 1 0 0 0");
    assert!(lines[1].starts_with("walk 0 "));
    assert_eq!(lines[4..6], ["refused 6", "walk 6 0"]);
    assert_eq!(lines[8..10], ["refused 33", "walk 33 0"]);
    for (line, number) in [(6, " 6 "), (7, " 6 "), (10, " 33 "), (11, " 33 ")] {
        assert!(lines[line].contains(number));
    }
    assert_eq!(lines.len(), 12);
}

/// The replayed scripts have every refusal and accepted descriptions on both boards, and some that name none.
#[test]
fn what_the_scripts_show() {
    let mut answers: BTreeMap<u32, BTreeSet<u32>> = BTreeMap::new();
    let mut without = 0;
    for script in replay_scripts().iter().filter_map(|it| Script::read(it)) {
        let answer = Calls::on(script.board, &script.description).accept();
        let answers = answers.entry(script.board).or_default();
        answers.insert(number(answer));
        without += u32::from(answer == Err(Refusal(33)));
    }
    for board in [GAUGE, BENCH] {
        let all: BTreeSet<u32> = [0].into_iter().chain(given()).collect();
        assert_eq!(answers[&board], all);
    }
    assert!(without >= 20 && answers.len() >= 6);
}
