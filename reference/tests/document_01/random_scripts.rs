//! What the replayed scripts cover: the designs and the random ones of a fixed seed.

use std::collections::{BTreeMap, BTreeSet};

use reference::body::{Comparison, Guard, Operation};
use reference::calls::Calls;
use reference::examples::{example_scripts, examples};
use reference::expected::replay_scripts;
use reference::geometry::Array;
use reference::random_description::given;
use reference::random_script::scripts;
use reference::replay::{replay, Script};
use reference::vectors::within_one;

#[derive(Default, Debug)]
struct Coverage {
    /// How many descriptions were accepted, and how many declined by each number.
    accepted: usize,
    refused: BTreeMap<u32, usize>,
    short_scripts: usize,
    /// How many accepted arrays have a property.
    arrays: BTreeMap<String, usize>,
    /// How many calls were granted, and how many declined by each number; by call.
    granted: BTreeMap<&'static str, usize>,
    declined: BTreeMap<&'static str, BTreeMap<u32, usize>>,
    /// How many scripts have a property.
    runs: BTreeMap<&'static str, usize>,
    bytes: usize,
    printed: usize,
}

const CALLS: [&str; 9] = [
    "step", "run", "ready", "window", "result", "state", "received", "poke", "lend",
];

impl Coverage {
    fn add(&mut self, script: &[u8]) {
        let output = replay(script);
        self.bytes += script.len();
        self.printed += output.len();
        let Some(script) = Script::read(script) else {
            assert_eq!(output, "short script\n");
            self.short_scripts += 1;
            return;
        };
        let mut lines = output.lines();
        let accept = lines.next().expect("a line of Accept");
        match number_of(accept) {
            Some(number) => *self.refused.entry(number).or_default() += 1,
            None => {
                self.accepted += 1;
                let calls = Calls::on(script.board, &script.description);
                self.add_array(&calls.network().expect("an accepted description").array);
            }
        }
        self.count_answer("start", lines.next().expect("a line of Start"));
        if number_of(accept).is_none() {
            self.add_calls(&script, lines);
        }
    }

    fn count_answer(&mut self, call: &'static str, line: &str) {
        match number_of(line) {
            Some(number) => {
                let numbers = self.declined.entry(call).or_default();
                *numbers.entry(number).or_default() += 1;
            }
            None => *self.granted.entry(call).or_default() += 1,
        }
    }

    fn add_calls<'a>(&mut self, script: &Script, lines: impl Iterator<Item = &'a str>) {
        let mut seen = BTreeSet::new();
        let mut poked = false;
        let mut more = true;
        let mut answered = 0;
        for (call, line) in script.calls.iter().zip(lines) {
            let name = CALLS[call[0] as usize];
            self.count_answer(name, line);
            answered += 1;
            match (name, number_of(line)) {
                ("poke", _) => poked = true,
                ("run" | "step", Some(22)) if poked => {
                    seen.insert("poked unsound");
                }
                ("run" | "step", None) if poked => {
                    seen.insert("poked sound and stepped");
                }
                _ => {}
            }
            if name == "run" && number_of(line).is_none() {
                more = line.ends_with(" 1");
            }
        }
        seen.insert(if more { "stopped" } else { "run to the end" });
        if answered < script.calls.len() {
            seen.insert("ended by a call over 8");
        }
        for property in seen {
            *self.runs.entry(property).or_default() += 1;
        }
    }

    fn add_array(&mut self, array: &Array) {
        let description = &array.description;
        let mut properties = BTreeSet::new();
        properties.insert(format!("{} loops", description.loops()));
        properties.insert(format!("{} streams", description.streams()));
        properties.insert(format!("{} lines", description.body.len()));
        for line in &description.body {
            properties.insert(format!("operation {:?}", line.operation));
            properties.insert(guard_property(array, &line.guard));
        }
        for stream in &array.streams {
            let kind = if stream.moving {
                "moving"
            } else {
                "stationary"
            };
            properties.insert(kind.to_string());
            properties.insert(format!("hop {}", stream.hop));
        }
        let mixed = |row: &Vec<i32>| row.iter().filter(|&&word| word != 0).count() > 1;
        for (property, holds) in [
            ("slanted", description.place.iter().any(mixed)),
            ("negative direction", description.directions.contains(&-1)),
            (
                "null processes",
                array.processes.iter().any(|process| process.null()),
            ),
            (
                "null between working",
                array
                    .pipes
                    .iter()
                    .any(|pipe| null_between(array, &pipe.processes)),
            ),
            ("longer stride", !within_one(&array.increment)),
            ("divisor of place above 1", array.divisor > 1),
            (
                "divisor of a stream above 1",
                array.streams.iter().any(|stream| stream.divisor > 1),
            ),
            ("over 500 processes", array.processes.len() > 500),
            ("4096 instances", array.instances.len() == 4096),
        ] {
            if holds {
                properties.insert(property.to_string());
            }
        }
        for property in properties {
            *self.arrays.entry(property).or_default() += 1;
        }
    }
}

/// The number of a line `refused N`.
fn number_of(line: &str) -> Option<u32> {
    line.strip_prefix("refused ")
        .and_then(|number| number.parse().ok())
}

/// A guard's comparison, its loop, and in how many of the array's instances it holds.
fn guard_property(array: &Array, guard: &Guard) -> String {
    let instances = array.instances.iter();
    let held = instances
        .filter(|instance| guard.lets_run(instance))
        .count();
    let how_often = match held {
        0 => "never",
        _ if held < array.instances.len() => "sometimes",
        _ => "in all",
    };
    let (comparison, number) = (guard.comparison, guard.loop_number);
    format!("{comparison:?} on loop {number} {how_often}")
}

/// A null process stands between two working ones on a pipe.
fn null_between(array: &Array, processes: &[usize]) -> bool {
    let null = |&process: &usize| array.processes[process].null();
    let from = processes.iter().skip_while(|process| null(process));
    let within: Vec<&usize> = from.collect();
    let last = within
        .iter()
        .rposition(|process| !null(process))
        .unwrap_or(0);
    within[..last].iter().any(|process| null(process))
}

#[test]
fn replayed_scripts_cover_document_01() {
    let mut coverage = Coverage::default();
    let scripts = replay_scripts();
    for script in &scripts {
        coverage.add(script);
    }
    println!("{coverage:#?}");
    assert!(coverage.accepted > scripts.len() / 2 && coverage.short_scripts > 0);
    assert!(given()
        .chain([33])
        .all(|number| coverage.refused.contains_key(&number)));
    check_arrays(&coverage);
    check_calls(&coverage);
    for property in [
        "poked unsound",
        "poked sound and stepped",
        "stopped",
        "run to the end",
        "ended by a call over 8",
    ] {
        assert!(coverage.runs.contains_key(property), "{property}");
    }
    assert!(coverage.bytes + coverage.printed < 2_900_000);
}

#[test]
fn designs_run_to_their_end() {
    for (script, example) in replay_scripts().iter().zip(examples()) {
        let output = replay(script);
        assert!(output
            .lines()
            .any(|line| line.starts_with("run ") && line.ends_with(" 0")));
        assert!(
            output.lines().any(|line| line.starts_with("result ")),
            "{}",
            example.name
        );
    }
}

/// After the examples come pairs of scripts on designs of requests 2.5 and 2.7: by Run, and by the highest ready step.
#[test]
fn two_orders_have_one_end() {
    let scripts = replay_scripts();
    let pairs = scripts[examples().len() + example_scripts().len()..].chunks_exact(2);
    for pair in pairs.take(6) {
        let [by_run, by_steps] = [0, 1].map(|number| replay(&pair[number]));
        let end = |output: &str| {
            let lines: Vec<&str> = output.lines().collect();
            lines[lines.len() - 4..].join("\n")
        };
        assert_eq!(end(&by_run), end(&by_steps));
        assert!(end(&by_run).contains("result "));
        assert!(by_steps.lines().filter(|&line| line == "step").count() > 40);
    }
}

fn check_arrays(coverage: &Coverage) {
    let mut wanted: Vec<String> = [
        "2 loops",
        "3 loops",
        "slanted",
        "null processes",
        "null between working",
        "moving",
        "stationary",
        "negative direction",
        "longer stride",
        "divisor of place above 1",
        "divisor of a stream above 1",
        "over 500 processes",
        "4096 instances",
    ]
    .map(String::from)
    .to_vec();
    wanted.extend((1..=5).map(|hop| format!("hop {hop}")));
    wanted.extend((1..=6).map(|streams| format!("{streams} streams")));
    wanted.extend((1..=8).map(|lines| format!("{lines} lines")));
    wanted.extend(
        Operation::ALL
            .iter()
            .map(|operation| format!("operation {operation:?}")),
    );
    wanted.extend((0..3).map(|number| format!("{:?} on loop {number} in all", Comparison::Always)));
    for comparison in &Comparison::ALL[1..] {
        for how_often in ["never", "sometimes", "in all"] {
            wanted.extend(
                (0..3).map(|number| format!("{comparison:?} on loop {number} {how_often}")),
            );
        }
    }
    for property in wanted {
        assert!(coverage.arrays.contains_key(&property), "{property}");
    }
}

fn check_calls(coverage: &Coverage) {
    for call in CALLS.iter().chain(&["start"]) {
        assert!(coverage.granted.contains_key(call), "{call}");
    }
    let declined: [(&str, &[u32]); 6] = [
        ("start", &[20]),
        ("step", &[20, 26, 21, 22, 23, 24]),
        ("run", &[20, 26, 21, 22]),
        ("ready", &[20, 26, 21, 22, 27]),
        ("window", &[20, 26, 19]),
        ("result", &[20, 26, 21, 22, 25, 28]),
    ];
    for (call, numbers) in declined {
        for number in numbers {
            assert!(
                coverage.declined[call].contains_key(number),
                "{call} {number}"
            );
        }
    }
}

#[test]
fn scripts_follow_from_the_seed() {
    let some: Vec<Vec<u8>> = scripts(5, 60).collect();
    assert_eq!(some, scripts(5, 60).collect::<Vec<_>>());
    assert_eq!(some[..10], scripts(5, 10).collect::<Vec<_>>());
    assert_ne!(some, scripts(6, 60).collect::<Vec<_>>());
}
