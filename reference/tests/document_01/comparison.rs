//! The comparison of Accept, the walk, Table and Plain run, and the examples.

use std::collections::BTreeSet;

use reference::board::GAUGE;
use reference::calls::Calls;
use reference::compare::{input, mix, on, records, sum, text, values};
use reference::designs::polynomial_two;
use reference::examples::examples;
use reference::random_description::given;
use reference::Refusal;

#[test]
fn every_refusal_shape_and_limit() {
    let records = records();
    assert!(records.len() >= 4200);
    let (mut refusals, mut shapes, mut sizes) = (BTreeSet::new(), BTreeSet::new(), BTreeSet::new());
    let (mut nulls, mut strides, mut guards) = (0, BTreeSet::new(), BTreeSet::new());
    let mut divisors = BTreeSet::new();
    for record in &records {
        let calls = Calls::on(record.board, &record.description);
        let found = match calls.accept() {
            Ok(found) => found,
            Err(Refusal(number)) => {
                refusals.insert(number);
                continue;
            }
        };
        let array = &calls.network().expect("an accepted description").array;
        let loops = array.description.loops();
        for stream in &array.streams {
            shapes.insert((loops, array.streams.len(), stream.moving));
        }
        sizes.insert((found.processes, found.instances));
        strides.extend(array.increment.iter().map(|word| word.abs()));
        for line in &array.description.body {
            let guard = &line.guard;
            guards.insert((loops, guard.loop_number, guard.comparison));
        }
        nulls += array.processes.iter().filter(|it| it.null()).count();
        let used = found.divisors.into_iter().enumerate();
        divisors.extend(used.map(|(number, divisor)| (loops, number, divisor)));
    }
    assert!(refusals.into_iter().eq(given().chain([33])));
    assert_eq!(shapes.len(), 2 * 6 * 2);
    assert!(sizes.contains(&(1024, 4096)));
    assert!(nulls > 1000);
    assert_eq!(guards.len(), (2 + 3) * 4);
    assert!((1..=10).chain([20, 28]).all(|word| strides.contains(&word)));
    // No matrix of three loops has 23, 26, 27 or 29 to 31; place and the first stream always have one.
    let of_three = (0..=22).chain([24, 25, 28, 32]);
    let expected = (0..=4)
        .map(|it| (2, it))
        .chain(of_three.map(|it| (3, it)))
        .flat_map(|(loops, divisor)| (0..=6).map(move |number| (loops, number, divisor)))
        .filter(|&(_, number, divisor)| number > 1 || divisor > 0);
    assert_eq!(divisors, expected.collect());
    // At most the longest description and a few bytes that are too many.
    assert!(records.iter().all(|it| it.description.len() <= 508));
    let size = input(&records).len() + text(&records).len();
    assert!(size < 2_800_000, "{size} bytes");
}

#[test]
fn text_of_design_two() {
    let bytes = polynomial_two(2).bytes();
    let text = text(&on(GAUGE, [vec![0; 3], bytes.clone()]));
    let lines: Vec<&str> = text.lines().collect();
    assert_eq!(lines[0], "refused 1");
    assert_eq!(lines[1], "walk 1 0");
    assert_eq!(lines[4], "5 9 11 3 95 141 1 1 1 1 0 0 0");
    let declined: Vec<&str> = lines[2].split(' ').collect();
    assert_eq!(
        declined,
        [
            "table",
            "1",
            declined[2],
            "1",
            declined[2],
            "1",
            declined[2]
        ]
    );
    let table: Vec<&str> = lines[7].split(' ').collect();
    assert_eq!((table[1], table[3], table[5]), ("18", "0", "0"));
    assert_ne!(table[2], table[4]);
    assert_eq!(table[4], table[6]);
    assert_eq!(lines[9], "row 1 0 2 0 1 0 1 0 0 0 1 1 0 0 0 1 0 3 0 0 0");
    let plain: Vec<&str> = lines[13].split(' ').collect();
    assert_eq!(
        (plain[1], plain[3], plain[5], plain[7]),
        ("20", "28", "20", "0")
    );
    let unchanged = sum(&[7; 12]).to_string();
    assert_eq!([plain[2], plain[4], plain[6]], [&unchanged; 3]);
    let given = values(1, 11);
    let mut output = vec![0; 11];
    assert!(Calls::on(GAUGE, &bytes)
        .plain_run(&given, &mut output)
        .is_ok());
    let numbers = |list: &[u32]| list.iter().map(|n| format!(" {n}")).collect::<String>();
    assert_eq!(lines[14], format!("values{}", numbers(&given)));
    assert_eq!(lines[15], format!("final{}", numbers(&output)));
    output.push(7);
    assert_eq!(plain[8], sum(&output).to_string());
    assert_eq!(lines.len(), 16);
}

#[test]
fn the_rule_of_sums() {
    assert_eq!(mix(0, 0), 1_013_904_223);
    assert_eq!(mix(2, u32::MAX), 2 * 1_664_525 + 1_013_904_222);
    assert_eq!(sum(&[5, 6]), mix(mix(0, 5), 6));
    assert_ne!(sum(&[5, 6]), sum(&[6, 5]));
}

#[test]
fn examples_are_accepted() {
    let names: BTreeSet<&str> = examples().iter().map(|example| example.name).collect();
    assert_eq!(names.len(), examples().len());
    assert!(names.contains("polynomial-two"));
    for example in examples() {
        let bytes = example.description.bytes();
        assert!(
            Calls::on(GAUGE, &bytes).accept().is_ok(),
            "{}",
            example.name
        );
    }
}
