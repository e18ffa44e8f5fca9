//! Polynomial product: every worked case of document 01.

use reference::board::GAUGE;
use reference::calls::Calls;
use reference::description::Description;
use reference::designs::{matrix_straight, polynomial_one, polynomial_two};
use reference::geometry::Array;
use reference::table::table_text;
use reference::Refusal;

use crate::lists::Lists;

fn array(description: &Description) -> Array {
    let calls = Calls::on(GAUGE, &description.bytes());
    calls
        .network()
        .expect("an accepted description")
        .array
        .clone()
}

fn refusal(description: &Description) -> Option<u32> {
    let answer = Calls::on(GAUGE, &description.bytes()).accept();
    answer.err().map(|Refusal(number)| number)
}

#[test]
fn increments() {
    assert_eq!(array(&polynomial_one(2)).increment, [0, 1]);
    assert_eq!(array(&polynomial_two(2)).increment, [1, -1]);
}

#[test]
fn hop_of_b_is_2() {
    assert_eq!(array(&polynomial_one(2)).streams[1].hop, 2);
    assert_eq!(array(&polynomial_two(2)).streams[1].hop, 2);
}

#[test]
fn design_one_process_1() {
    let array = array(&polynomial_one(2));
    let process = &array.processes[1];
    assert_eq!(process.instances.first(), Some(&vec![1, 0]));
    assert_eq!(process.instances.last(), Some(&vec![1, 2]));
    let station = array.stations[1][2].as_ref().expect("on a pipe of c");
    assert_eq!((station.soak, station.drain), (1, 1));
}

#[test]
fn words_and_steps() {
    let one = Lists::new(&polynomial_one(2)).accepted();
    assert_eq!((one.words, one.steps), (61, 97));
    assert_eq!(Lists::new(&polynomial_two(2)).accepted().steps, 141);
}

#[test]
fn product() {
    // a 1,2,3, b 4,5,6, c zeros.
    let values = [1, 2, 3, 4, 5, 6, 0, 0, 0, 0, 0];
    let product = [1, 2, 3, 4, 5, 6, 4, 13, 28, 27, 18];
    for (description, steps) in [(polynomial_one(2), 97), (polynomial_two(2), 141)] {
        let mut lists = Lists::started(&description, &values);
        assert_eq!(lists.plain_run(&values), product);
        let ran = lists.run(1000).unwrap();
        assert_eq!((ran.done, ran.ready), (steps, false));
        assert_eq!(lists.results().unwrap(), product);
    }
}

#[test]
fn places_that_are_declined() {
    let mut description = polynomial_two(2);
    description.place = vec![vec![1, -1]];
    assert_eq!(refusal(&description), Some(13));
    description.place = vec![vec![2, 1]];
    description.step = vec![3, 1];
    assert_eq!(refusal(&description), Some(13));
}

#[test]
fn bounds_at_the_limit_of_6() {
    for mut description in [polynomial_one(63), polynomial_two(63)] {
        assert_eq!(refusal(&description), None);
        description.right[1] = 64;
        assert_eq!(refusal(&description), Some(6));
    }
}

#[test]
fn hop_at_the_limit_of_14() {
    let mut description = polynomial_one(2);
    description.maps[2] = vec![vec![1, -1]];
    description.step = vec![4, 1];
    assert_eq!(array(&description).streams[2].hop, 5);
    for factor in [5, 8] {
        description.step = vec![factor, 1];
        assert_eq!(refusal(&description), Some(14));
    }
}

#[test]
fn one_instance_takes_13_steps() {
    let mut lists = Lists::started(&polynomial_one(0), &[3, 5, 7]);
    assert_eq!(lists.accepted().steps, 13);
    assert_eq!(lists.run(100).unwrap().done, 13);
    assert_eq!(lists.results().unwrap(), [3, 5, 22]);
}

#[test]
fn grid_at_the_limit_of_10() {
    for last in [0, 3] {
        let mut description = matrix_straight(31);
        description.right[2] = last;
        if last == 0 {
            assert_eq!(refusal(&description), None);
            description.right[0] = 32;
            assert_eq!(refusal(&description), Some(10));
        } else {
            assert_eq!(Lists::new(&description).accepted().processes, 1024);
        }
    }
}

#[test]
fn printed_table() {
    let text = "\
processes 5 instances 9 steps 141
y 0 n 1 f 0 0 l 0 0 s 0 2 0 d 2 0 4
y 1 n 2 f 0 1 l 1 0 s 0 1 1 d 1 0 3
y 2 n 3 f 0 2 l 2 0 s 0 0 2 d 0 0 2
y 3 n 2 f 1 2 l 2 1 s 1 0 3 d 0 1 1
y 4 n 1 f 2 2 l 2 2 s 2 0 4 d 0 2 0
";
    assert_eq!(table_text(GAUGE, &polynomial_two(2).bytes()), text);
    assert_eq!(table_text(GAUGE, &[0; 11]), "refused 1\n");
}
