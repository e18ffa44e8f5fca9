//! Request 2.4: the check for untouched elements goes process by process in row order, along each process's own line from first to last,
//! and Accept answers as before.

use std::collections::{BTreeMap, BTreeSet};

use reference::board::GAUGE;
use reference::body::{Line, Operation};
use reference::calls::{Calls, Row};
use reference::compare::{self, Record};
use reference::description::Description;
use reference::designs::{
    decimating, decimating_by_four, decimating_channels, matrix_slanted, matrix_twice,
    polynomial_one, polynomial_two, sheet, spaced,
};
use reference::geometry::Nest;
use reference::random::Random;
use reference::random_description::{
    accepted, bounds, changed, given, matrix, refused, refused_from, word_changed,
};
use reference::random_divisor::{dependent, divided};
use reference::random_stride::strided;
use reference::vectors::{dot, shortest, times, within_one, Bounds, Point};
use reference::walk::walk_on;
use reference::walk_cases::walk_cases;
use reference::walk_text::walk_text;
use reference::Refusal;

use crate::{accept, results, streams_before};

fn walk(description: &Description) -> Vec<Point> {
    walk_on(GAUGE, &description.bytes()).expect("a description that passes refusals 1 to 10")
}

fn increment(description: &Description) -> Point {
    let short = shortest(&description.place, &description.step, 7, 8);
    short.expect("an increment").vector
}

/// The instances in the written order.
fn written_order(description: &Description) -> Vec<Point> {
    let mut points = vec![Point::new()];
    for number in 0..description.loops() {
        let mut indices: Vec<i32> =
            (description.left[number]..=description.right[number]).collect();
        if description.directions[number] == -1 {
            indices.reverse();
        }
        let longer = |point: Point| {
            let indices = indices.iter();
            let points = indices.map(move |&index| [point.as_slice(), &[index]].concat());
            points.collect::<Vec<Point>>()
        };
        points = points.into_iter().flat_map(longer).collect();
    }
    points
}

fn difference(a: &[i32], b: &[i32]) -> Point {
    a.iter().zip(b).map(|(a, b)| a - b).collect()
}

// The walk.

/// What the walks of a test met: directions, null processes, the strides between two instances of a process, and what Accept answers.
#[derive(Default)]
struct Met {
    directions: BTreeSet<Vec<i32>>,
    nulls: usize,
    strides: BTreeSet<i32>,
    answers: BTreeMap<u32, u32>,
}

impl Met {
    /// Every instance once and nothing else; the points of the processes never fall, and within a process each step is an increment
    /// further.
    fn judge(&mut self, description: &Description) {
        let walk = walk(description);
        let mut all = written_order(description);
        all.sort();
        let mut passed = walk.clone();
        passed.sort();
        assert_eq!(passed, all);
        let increment = increment(description);
        let place = |instance: &Point| times(&description.place, instance);
        let step = |instance: &Point| dot(&description.step, instance);
        for pair in walk.windows(2) {
            if place(&pair[0]) == place(&pair[1]) {
                assert!(step(&pair[0]) < step(&pair[1]));
                assert_eq!(difference(&pair[1], &pair[0]), increment);
                self.strides
                    .extend(increment.iter().map(|word| word.abs()).max());
            } else {
                assert!(place(&pair[0]) < place(&pair[1]));
            }
        }
        let working: BTreeSet<Point> = walk.iter().map(place).collect();
        let space = Bounds::around(&working.iter().cloned().collect::<Vec<Point>>());
        self.nulls += space.size() as usize - working.len();
        self.directions.insert(description.directions.clone());
        let answer = accept(description)
            .err()
            .map_or(0, |Refusal(number)| number);
        *self.answers.entry(answer).or_default() += 1;
    }
}

/// Any loops and layout that pass refusals 1 to 10, with a stream of any map and loading vector.
fn any_nest(random: &mut Random) -> Description {
    loop {
        let loops = random.pick(&[2, 3]);
        let reach = random.pick(&[1, 2, 4]);
        let most = random.pick(&[2, 4, if loops == 2 { 12 } else { 7 }]);
        let (left, right) = (0..loops).map(|_| bounds(random, most)).unzip();
        let description = Description {
            left,
            right,
            directions: (0..loops).map(|_| random.pick(&[1, -1])).collect(),
            step: random.words(loops, -8, 8),
            place: matrix(random, loops, reach),
            maps: vec![matrix(random, loops, reach)],
            loading: vec![random.words(loops - 1, -1, 1)],
            body: vec![Line::always(Operation::Copy, 1, 0, 0)],
        };
        if Nest::on(GAUGE, &description.bytes()).is_ok() {
            return description;
        }
    }
}

#[test]
fn every_instance_once_in_order() {
    let mut random = Random::new(41);
    let mut met = Met::default();
    for _ in 0..1500 {
        met.judge(&any_nest(&mut random));
        met.judge(&accepted(&mut random));
    }
    for _ in 0..500 {
        met.judge(&strided(&mut random));
        met.judge(&divided(&mut random));
    }
    for design in [
        decimating(63, 63),
        decimating_channels(),
        decimating_by_four(),
        matrix_slanted(11),
        polynomial_two(63),
    ] {
        met.judge(&design);
    }
    assert_eq!(met.directions.len(), 4 + 8);
    assert!(met.nulls > 10_000, "{}", met.nulls);
    assert!((1..=6).chain([20]).all(|word| met.strides.contains(&word)));
    let answers: Vec<u32> = met.answers.keys().copied().collect();
    assert_eq!(answers, [0, 11, 12, 13, 14, 16, 17]);
}

/// Where Table gives a first and a last, the walk's stretch at that process runs from the one to the other.
#[test]
fn from_first_to_last_of_the_table() {
    let mut random = Random::new(42);
    for number in 0..600 {
        let description = if number % 2 == 0 {
            accepted(&mut random)
        } else {
            strided(&mut random)
        };
        let loops = description.loops();
        let calls = Calls::on(GAUGE, &description.bytes());
        let processes = calls.accept().expect("an accepted description").processes;
        let mut rows = vec![Row::default(); processes];
        assert_eq!(calls.table(&mut rows), Ok(()));
        let walk = walk(&description);
        let mut rest = walk.as_slice();
        for row in rows {
            let (stretch, others) = rest.split_at(row.count as usize);
            let here = |instance: &Point| times(&description.place, instance);
            assert!(stretch.iter().all(|it| here(it) == row.point[..loops - 1]));
            if let (Some(first), Some(last)) = (stretch.first(), stretch.last()) {
                assert_eq!(*first, row.first[..loops]);
                assert_eq!(*last, row.last[..loops]);
            }
            rest = others;
        }
        assert!(rest.is_empty());
    }
}

/// The directions of the loops have no part in the walk; a step of the other sign turns every process's line round.
#[test]
fn the_step_turns_the_lines() {
    let mut random = Random::new(43);
    for _ in 0..500 {
        let description = any_nest(&mut random);
        let walk_before = walk(&description);
        let mut other = description.clone();
        other.directions.iter_mut().for_each(|word| *word = -*word);
        assert_eq!(walk(&other), walk_before);
        other.step.iter_mut().for_each(|word| *word = -*word);
        let place = |instance: &Point| times(&description.place, instance);
        let lines = walk_before.chunk_by(|a, b| place(a) == place(b));
        let turned: Vec<Point> = lines.flat_map(|line| line.iter().rev().cloned()).collect();
        assert_eq!(walk(&other), turned);
    }
}

/// Its refusals are 1 to 10, by Accept's number; whatever 11 to 17 say, there is a walk.
#[test]
fn refusals() {
    let mut random = Random::new(44);
    let judge = |bytes: &[u8]| match (Calls::on(GAUGE, bytes).accept(), walk_on(GAUGE, bytes)) {
        (Ok(accepted), walk) => assert_eq!(walk.map(|walk| walk.len()), Ok(accepted.instances)),
        (Err(Refusal(number @ 1..=10)), walk) => assert_eq!(walk, Err(Refusal(number))),
        (Err(_), walk) => {
            let nest = Nest::on(GAUGE, bytes).expect("a description that passes refusals 1 to 10");
            assert_eq!(walk.map(|walk| walk.len()), Ok(nest.instances.len()));
        }
    };
    for number in given() {
        let count = if number == 10 { 3 } else { 40 };
        (0..count).for_each(|_| judge(&refused(&mut random, GAUGE, number)));
    }
    for _ in 0..300 {
        judge(&changed(&mut random));
        let description = strided(&mut random);
        judge(&word_changed(&mut random, &description));
        let length = random.below(200);
        judge(&random.bytes(length));
    }
}

// Refusal 17.

/// The number of the first element of a stream's box that no instance touches, by the definition, with the number of elements; nothing if
/// there is none.
fn first_untouched(description: &Description, stream: usize) -> Option<(usize, usize)> {
    let instances = written_order(description);
    let used = instances
        .iter()
        .map(|it| times(&description.maps[stream], it));
    let used: Vec<Point> = used.collect();
    let bounds = Bounds::around(&used);
    let first = bounds.points().position(|element| !used.contains(&element));
    first.map(|first| (first, bounds.size() as usize))
}

/// The answers that a test met, and how many elements the boxes that are not filled have beside the instances.
#[derive(Debug, Default)]
struct Judged {
    answers: BTreeMap<u32, u32>,
    fewer: u32,
    as_many: u32,
    more: u32,
    in_the_middle: u32,
}

impl Judged {
    /// Accept declines by 17 exactly if its lowest stream that is declined passes 11 to 16 and has an untouched element.
    fn judge(&mut self, description: &Description) {
        let answer = accept(description)
            .err()
            .map_or(0, |Refusal(number)| number);
        *self.answers.entry(answer).or_default() += 1;
        if (1..=10).contains(&answer) {
            return;
        }
        let refused = |stream: &usize| accept(&streams_before(description, stream + 1)).is_err();
        let streams = 0..description.streams();
        let lowest = streams.clone().find(refused).unwrap_or(streams.end);
        assert_eq!(answer == 0, lowest == streams.end);
        for stream in 0..lowest {
            assert_eq!(first_untouched(description, stream), None);
        }
        if answer == 17 {
            let found = first_untouched(description, lowest);
            let (first, elements) = found.expect("an untouched element");
            self.note(first, elements, written_order(description).len());
        }
    }

    /// What is touched looks the same from both ends of a box.
    fn note(&mut self, first: usize, elements: usize, instances: usize) {
        assert!(2 * first < elements);
        self.in_the_middle += u32::from(2 * first + 2 >= elements);
        self.fewer += u32::from(elements < instances);
        self.as_many += u32::from(elements == instances);
        self.more += u32::from(elements > instances);
    }

    fn judge_bytes(&mut self, bytes: &[u8]) {
        if let Ok(description) = Description::read(bytes) {
            self.judge(&description);
        }
    }
}

#[test]
fn refusal_17_is_by_the_definition() {
    let mut random = Random::new(45);
    let mut judged = Judged::default();
    for _ in 0..1000 {
        judged.judge(&any_nest(&mut random));
        judged.judge_bytes(&changed(&mut random));
    }
    for _ in 0..300 {
        judged.judge(&accepted(&mut random));
        judged.judge(&dependent(&mut random));
        let description = strided(&mut random);
        judged.judge_bytes(&word_changed(&mut random, &description));
        judged.judge(&description);
    }
    for number in 11..=17 {
        let count = if number == 17 { 100 } else { 30 };
        for _ in 0..count {
            judged.judge_bytes(&refused(&mut random, GAUGE, number));
            judged.judge_bytes(&refused_from(&mut random, GAUGE, number, strided));
        }
    }
    assert!((11..=17).all(|number| judged.answers[&number] >= 60));
    assert!(judged.answers[&17] >= 200, "{judged:?}");
    assert!(
        judged.fewer > 10 && judged.as_many > 5 && judged.more > 100,
        "{judged:?}"
    );
}

#[test]
fn the_walk_cases() {
    let mut met = Met::default();
    let mut judged = Judged::default();
    for description in walk_cases() {
        met.judge(&description);
        judged.judge(&description);
    }
    assert!(met.nulls > 1000);
    assert_eq!(
        met.answers.keys().copied().collect::<Vec<u32>>(),
        [0, 11, 15, 17]
    );
    assert!(met.directions.contains(&vec![-1; 3]));
    assert!(judged.fewer >= 2 && judged.as_many >= 4 && judged.more >= 10);
    assert!(judged.in_the_middle >= 5, "{judged:?}");
}

// Designs.

#[test]
fn polynomial_design_two() {
    let expected = [
        [0, 0],
        [0, 1],
        [1, 0],
        [0, 2],
        [1, 1],
        [2, 0],
        [1, 2],
        [2, 1],
        [2, 2],
    ];
    assert_eq!(walk(&polynomial_two(2)), expected);
    // Design one goes as the loops are written.
    assert_eq!(walk(&polynomial_one(2)), written_order(&polynomial_one(2)));
}

/// The increment is (1,−2); process 3's only instance lies on no face.
#[test]
fn the_decimating_filter() {
    let text = "\
processes 7 instances 9
y 0 t 0 x 0 0
y 1 t 1 x 0 1
y 2 t 2 x 0 2
y 2 t 3 x 1 0
y 3 t 4 x 1 1
y 4 t 5 x 1 2
y 4 t 6 x 2 0
y 5 t 7 x 2 1
y 6 t 8 x 2 2
";
    assert_eq!(walk_text(GAUGE, &decimating(2, 2).bytes()), text);
}

/// Null processes stand between working ones; the walk has nothing there.
#[test]
fn the_slanted_grid() {
    let text = "\
processes 9 instances 8
y 0 0 t 0 x 0 0 0
y 0 0 t 1 x 0 0 1
y 1 -1 t 1 x 0 1 0
y 1 -1 t 2 x 0 1 1
y 1 1 t 1 x 1 0 0
y 1 1 t 2 x 1 0 1
y 2 0 t 2 x 1 1 0
y 2 0 t 3 x 1 1 1
";
    assert_eq!(walk_text(GAUGE, &matrix_slanted(1).bytes()), text);
    let mut turned = matrix_slanted(1);
    turned.step = vec![1, 1, -1];
    turned.right = vec![0, 1, 1];
    let text = "\
processes 4 instances 4
y 0 0 t -1 x 0 0 1
y 0 0 t 0 x 0 0 0
y 1 -1 t 0 x 0 1 1
y 1 -1 t 1 x 0 1 0
";
    assert_eq!(walk_text(GAUGE, &turned.bytes()), text);
    let walk = walk(&spaced(1));
    assert_eq!(walk, [[0, 0], [0, 1], [1, 0], [1, 1]]);
}

/// Design two with place 2i+j and step 3i+j is declined by 13, and still has a walk; so has a stream that is refused by 17.
#[test]
fn texts_of_refused_descriptions() {
    let mut description = polynomial_two(2);
    description.place = vec![vec![2, 1]];
    description.step = vec![3, 1];
    assert_eq!(accept(&description), Err(Refusal(13)));
    assert_eq!(
        walk_text(GAUGE, &description.bytes()),
        walk_text(GAUGE, &decimating(2, 2).bytes())
    );
    let mut spread = sheet(1);
    spread.maps[5] = vec![vec![1, 0, 0], vec![0, 2, 0]];
    assert_eq!(accept(&spread), Err(Refusal(17)));
    let text = walk_text(GAUGE, &spread.bytes());
    assert_eq!(text, walk_text(GAUGE, &sheet(1).bytes()));
    assert_eq!(text.lines().next(), Some("processes 2 instances 4"));
    assert_eq!(walk_text(GAUGE, &[0; 11]), "refused 1\n");
    description.place = vec![vec![0, 0]];
    assert_eq!(walk_text(GAUGE, &description.bytes()), "refused 7\n");
    description.right = vec![64, 63];
    assert_eq!(walk_text(GAUGE, &description.bytes()), "refused 6\n");
}

/// 4,096 instances, and as many elements in each of six boxes.
#[test]
fn the_sheet() {
    let values = [64, 4096, 24576, 384, 3136, 102_400, 1, 1, 1, 1, 1, 1, 1];
    assert_eq!(accept(&sheet(63)).map(|answer| answer.values()), Ok(values));
    assert_eq!(walk(&sheet(63)), written_order(&sheet(63)));
    let mut random = Random::new(46);
    let given = random.values(6 * 9);
    let output = results(&sheet(2), &given);
    for place in 0..9 {
        let [a, b, c, d, e, f] = [0, 1, 2, 3, 4, 5].map(|stream| given[9 * stream + place]);
        let products = a.wrapping_mul(b).wrapping_add(c.wrapping_mul(d));
        let sum = f.wrapping_add(products).wrapping_add(e);
        assert_eq!(output[45 + place], sum);
    }
}

#[test]
fn two_matrix_products() {
    let mut wide = matrix_twice(31);
    wide.right[2] = 3;
    let values = [1024, 4096, 2560, 192, 32_320, 173_056, 1, 1, 1, 1, 1, 1, 1];
    assert_eq!(accept(&wide).map(|answer| answer.values()), Ok(values));
    let mut random = Random::new(47);
    let given = random.values(6 * 9);
    let output = results(&matrix_twice(2), &given);
    for first in [0, 27] {
        for (i, j) in (0..9).map(|number| (number / 3, number % 3)) {
            let product =
                |k: usize| given[first + 3 * i + k].wrapping_mul(given[first + 9 + 3 * k + j]);
            let place = first + 18 + 3 * i + j;
            let sum = (0..3).fold(given[place], |sum, k| sum.wrapping_add(product(k)));
            assert_eq!(output[place], sum);
        }
    }
}

// The comparison.

/// What its descriptions have of walks: every answer after 10 with a longer stride at a process with several instances, three loops all in
/// direction −1 that are accepted and that are not, and boxes of 4,096 elements.
#[test]
fn what_the_comparison_shows() {
    let mut strides = BTreeSet::new();
    let mut turned = BTreeSet::new();
    let mut filled = BTreeSet::new();
    for Record { board, description } in compare::records() {
        let Ok(nest) = Nest::on(board, &description) else {
            continue;
        };
        let calls = Calls::on(board, &description);
        let answer = calls.accept().err().map_or(0, |Refusal(number)| number);
        let several = nest.processes.iter().any(|process| process.count() > 1);
        if several && !within_one(&nest.increment.vector) {
            strides.insert((nest.description.loops(), answer));
        }
        if nest.description.directions == [-1; 3] {
            turned.insert(answer == 0);
        }
        if let Ok(network) = calls.network() {
            let streams = network.array.streams.iter();
            let sizes = streams.map(|stream| (nest.instances.len(), stream.elements.len()));
            filled.extend(sizes);
        }
    }
    let expected = [2, 3].map(|loops| [0, 11, 12, 13, 14, 15, 16, 17].map(|it| (loops, it)));
    assert!(expected
        .as_flattened()
        .iter()
        .all(|it| strides.contains(it)));
    assert_eq!(turned.len(), 2);
    assert!(filled.contains(&(4096, 4096)));
}

/// The walk's line has the refusal, or 0, and the sum of the coordinates, three for each instance; a small array's stands whole below.
#[test]
fn lines_of_the_comparison() {
    let mut refused = decimating(2, 2);
    refused.loading[0] = vec![1];
    let mut still = refused.clone();
    still.step = vec![2, 1];
    let mut below = polynomial_one(0);
    (below.left, below.right) = (vec![-3, -2], vec![-3, -1]);
    let designs = [polynomial_two(2), refused.clone(), still, sheet(2), below];
    let text = compare::text(&compare::on(GAUGE, designs.map(|it| it.bytes())));
    let lines: Vec<&str> = text.lines().collect();
    let sum = |description: &Description| {
        let padded = walk(description).into_iter().flat_map(|mut instance| {
            instance.resize(3, 0);
            instance
        });
        compare::sum(&padded.map(|word| word as u32).collect::<Vec<u32>>())
    };
    assert_eq!(lines[0], "5 9 11 3 95 141 1 1 1 1 0 0 0");
    assert_eq!(lines[1], format!("walk 0 {}", sum(&polynomial_two(2))));
    let along = "along 0 0 0 0 1 0 1 0 0 0 2 0 1 1 0 2 0 0 1 2 0 2 1 0 2 2 0";
    assert_eq!(lines[2], along);
    assert!(lines[3].starts_with("table "));
    assert_eq!(lines[12], "refused 16");
    assert_eq!(lines[13], format!("walk 0 {}", sum(&refused)));
    assert_eq!(lines[16..18], ["refused 8", "walk 8 0"]);
    assert_eq!(lines[20], "3 9 54 18 147 225 1 1 1 1 1 1 1");
    assert_eq!(lines[21], format!("walk 0 {}", sum(&sheet(2))));
    assert!(lines[22].starts_with("table "));
    assert_eq!(lines[26], "along -3 -2 0 -3 -1 0");
    assert_eq!(text.matches("along").count(), 2);
}
