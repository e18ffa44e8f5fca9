//! The report's designs for other sizes, a slanted array, and one that needs its hops.

use reference::calls::Row;
use reference::description::Description;
use reference::designs::{
    matrix_moving, matrix_slanted, matrix_straight, needs_its_hops, polynomial_one, polynomial_two,
};
use reference::network::Network;
use reference::random::Random;

use crate::lists::Lists;

/// Processes, null ones, elements, pipes and state words.
type Figures = (usize, usize, usize, usize, usize);

/// Checks the figures and the steps, if they are known, and that a run gives the plain run's values.
fn check(description: &Description, figures: Figures, steps: Option<u64>) {
    let mut lists = Lists::new(description);
    let accepted = lists.accepted();
    let mut rows = vec![Row::default(); accepted.processes];
    lists.calls.table(&mut rows).unwrap();
    let null = rows.iter().filter(|row| row.count == 0).count();
    let counted = (
        accepted.processes,
        null,
        accepted.elements,
        accepted.pipes,
        accepted.words,
    );
    assert_eq!(counted, figures);
    if let Some(steps) = steps {
        assert_eq!(accepted.steps, steps);
    }
    let values = Random::new(7).values(accepted.elements);
    lists.start(&values).unwrap();
    assert_eq!(lists.run(u64::MAX).unwrap().done, accepted.steps);
    assert_eq!(lists.results().unwrap(), lists.plain_run(&values));
}

/// The figure for n, of a list that begins with n = 2.
fn from_two(list: [u64; 5], n: usize) -> Option<u64> {
    n.checked_sub(2).map(|number| list[number])
}

#[test]
fn polynomials() {
    for n in 0..=6 {
        let elements = 4 * n + 3;
        check(
            &polynomial_one(n as i32),
            (n + 1, 0, elements, 3, 17 * (n + 1) + 10),
            from_two([97, 166, 253, 358, 481], n),
        );
        check(
            &polynomial_two(n as i32),
            (2 * n + 1, 0, elements, 3, 17 * (2 * n + 1) + 10),
            from_two([141, 256, 405, 588, 805], n),
        );
    }
}

#[test]
fn matrices() {
    for n in 0..=6 {
        let (side, wide) = (n + 1, 2 * n + 1);
        let elements = 3 * side * side;
        check(
            &matrix_straight(n as i32),
            (
                side * side,
                0,
                elements,
                3 * side,
                16 * side * side + 9 * side,
            ),
            from_two([243, 544, 1025, 1728, 2695], n),
        );
        check(
            &matrix_moving(n as i32),
            (
                wide * wide,
                n * (n + 1),
                elements,
                3 * wide,
                16 * wide * wide + 9 * wide,
            ),
            from_two([335, 792, 1545, 2668, 4235], n),
        );
    }
}

#[test]
fn slanted_matrices() {
    check(&matrix_slanted(2), (25, 16, 27, 11, 433), Some(303));
    check(&matrix_slanted(3), (49, 33, 48, 15, 829), Some(704));
}

#[test]
fn null_rows_have_the_lengths_of_their_pipes() {
    let lists = Lists::new(&matrix_slanted(2));
    let mut rows = vec![Row::default(); 25];
    lists.calls.table(&mut rows).unwrap();
    let array = &lists.network().array;
    for (process, row) in rows.iter().enumerate().filter(|(_, row)| row.count == 0) {
        let mut soak = [0; 6];
        for (pipe, elements) in array.pipes.iter().map(|pipe| (pipe, pipe.elements.len())) {
            if pipe.processes.contains(&process) {
                soak[pipe.stream] = elements as u32;
            }
        }
        assert_eq!((row.soak, row.drain), (soak, [0; 6]));
        assert_eq!((row.first, row.last), ([0; 3], [0; 3]));
    }
}

/// Runs a network from its start; the answer is the number of steps.
fn steps_until_none_is_ready(network: &Network) -> u64 {
    let elements = network.array.number_of_elements();
    let waiting: Vec<u32> = (1..=elements as u32).collect();
    let mut received = vec![0; elements];
    let mut state = vec![0; network.words()];
    let mut steps = 0;
    while let Some(step) = network.lowest_ready(&state) {
        network.apply(&waiting, &mut received, &mut state, step);
        steps += 1;
    }
    steps
}

#[test]
fn links_of_one_place_get_stuck() {
    let lists = Lists::new(&needs_its_hops());
    assert_eq!(lists.accepted().steps, 46);
    let array = &lists.network().array;
    assert_eq!(steps_until_none_is_ready(&Network::new(array.clone())), 46);
    let narrow = Network::with_places(array.clone(), vec![1; 2]);
    assert!(steps_until_none_is_ready(&narrow) < 46);
}
