//! Increments, lines, boxes and pipes against searches over everything.

use reference::board::GAUGE;
use reference::calls::Calls;
use reference::description::{Description, Matrix};
use reference::divisor::{greatest_common_divisor, shorten};
use reference::geometry::Array;
use reference::random::Random;
use reference::random_description::accepted;
use reference::vectors::{dot, times};

/// The shortest non-zero vector with a positive step that the rows send to zero, by a search over
/// all vectors of a box.
fn searched(rows: &Matrix, step: &[i32], reach: i32) -> Vec<i32> {
    let mut vectors = vec![Vec::new()];
    for _ in step {
        vectors = vectors
            .iter()
            .flat_map(|vector: &Vec<i32>| {
                (-reach..=reach).map(move |word| [vector.as_slice(), &[word]].concat())
            })
            .collect();
    }
    vectors.retain(|vector| dot(step, vector) > 0 && times(rows, vector).iter().all(|&x| x == 0));
    vectors
        .into_iter()
        .min_by_key(|vector| dot(vector, vector))
        .expect("a vector")
}

fn arrays(seed: u64, count: usize) -> impl Iterator<Item = (Description, Array)> {
    let mut random = Random::new(seed);
    (0..count).map(move |_| {
        let description = accepted(&mut random);
        let calls = Calls::on(GAUGE, &description.bytes());
        let array = calls
            .network()
            .expect("an accepted description")
            .array
            .clone();
        (description, array)
    })
}

#[test]
fn increments_and_lines_are_the_shortest() {
    for (description, array) in arrays(11, 60) {
        assert_eq!(
            array.increment,
            searched(&description.place, &description.step, 28)
        );
        for (map, stream) in description.maps.iter().zip(&array.streams) {
            assert_eq!(stream.line, searched(map, &description.step, 28));
        }
    }
}

#[test]
fn a_description_is_read_as_it_was_written() {
    for (description, _) in arrays(12, 200) {
        assert_eq!(Description::read(&description.bytes()), Ok(description));
    }
}

#[test]
fn every_instance_is_run_by_one_process_and_every_element_is_on_one_pipe() {
    for (description, array) in arrays(13, 500) {
        let mut run: Vec<_> = array
            .processes
            .iter()
            .flat_map(|process| &process.instances)
            .collect();
        let mut all: Vec<_> = array.instances.iter().collect();
        run.sort();
        all.sort();
        assert_eq!(run, all);
        for process in &array.processes {
            let places = process
                .instances
                .iter()
                .map(|x| times(&description.place, x));
            assert!(places.into_iter().all(|place| place == process.point));
        }
        let mut piped: Vec<_> = array
            .pipes
            .iter()
            .flat_map(|pipe| &pipe.elements)
            .copied()
            .collect();
        piped.sort();
        assert!(piped.into_iter().eq(0..array.number_of_elements()));
    }
}

#[test]
fn soak_count_and_drain_make_a_moving_pipe() {
    for (_, array) in arrays(14, 500) {
        for (process, stations) in array.processes.iter().zip(&array.stations) {
            for (stream, station) in array.streams.iter().zip(stations) {
                let Some(station) = station else {
                    assert!(process.null());
                    continue;
                };
                let elements = &array.pipes[station.pipe].elements;
                let used = match (process.null(), stream.moving) {
                    (true, _) => 0,
                    (false, true) => process.count(),
                    (false, false) => 1,
                };
                assert_eq!(station.soak + used + station.drain, elements.len());
                for (firing, element) in station.uses.iter().enumerate() {
                    let place = if stream.moving { firing } else { 0 };
                    assert_eq!(elements[station.soak + place], *element);
                }
            }
        }
    }
}

#[test]
fn divisors() {
    let shortened = |vector: [i32; 3]| {
        let short = shorten(&vector);
        (short.divisor, short.vector)
    };
    assert_eq!(shortened([0, 0, 0]), (0, vec![0, 0, 0]));
    assert_eq!(shortened([i32::MIN, 0, 0]), (1 << 31, vec![-1, 0, 0]));
    assert_eq!(shortened([i32::MIN, 1, 0]), (1, vec![i32::MIN, 1, 0]));
    assert_eq!(
        shortened([0, i32::MAX, i32::MAX]),
        (i32::MAX as u32, vec![0, 1, 1])
    );
    assert_eq!(shortened([-12, 18, 30]), (6, vec![-2, 3, 5]));
    for a in -20i32..=20 {
        for b in 1..=20 {
            let largest = (1..=20).filter(|d| a % d == 0 && b % d == 0).max();
            assert_eq!(Some(greatest_common_divisor(&[a, b]) as i32), largest);
        }
    }
}
