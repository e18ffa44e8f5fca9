//! The body and the plain run against loops written out here.

use reference::body::{run_instance, Line, Operation};
use reference::description::Description;
use reference::designs::polynomial_one;

use crate::lists::Lists;

/// The values of the streams after one instance.
fn after(body: &[Line], values: &[u32]) -> Vec<u32> {
    let mut values = values.to_vec();
    run_instance(body, &[0, 0], &mut values);
    values
}

#[test]
fn operations() {
    let cases = [
        (Operation::Copy, 5, 9, 5),
        (Operation::Add, u32::MAX, 3, 2),
        (Operation::Subtract, 3, 5, u32::MAX - 1),
        (Operation::Multiply, 0x1_0001, 0x1_0003, 0x4_0003),
        (Operation::Smaller, 7, 1 << 31, 7),
        (Operation::Larger, 7, 1 << 31, 1 << 31),
    ];
    for (operation, first, second, value) in cases {
        assert_eq!(operation.apply(first, second), value);
        let body = [Line::always(operation, 0, 0, 1)];
        assert_eq!(after(&body, &[first, second]), [value, second]);
    }
    for word in 0..=6 {
        assert_eq!(Operation::of_word(word).map(Operation::word), Some(word));
    }
    assert_eq!(Operation::of_word(7), None);
    assert_eq!(Operation::of_word(-1), None);
}

#[test]
fn scratch_is_zero_at_the_start() {
    for scratch in [2, 3] {
        let body = [Line::always(Operation::Copy, 0, scratch, 0)];
        assert_eq!(after(&body, &[7, 8]), [0, 8]);
        let body = [
            Line::always(Operation::Copy, scratch, 1, 0),
            Line::always(Operation::Add, 0, scratch, scratch),
        ];
        assert_eq!(after(&body, &[7, 8]), [16, 8]);
    }
}

/// Design one with the loops the other way round and a body whose order matters: c := a − c and
/// then c := c times b.
fn backwards() -> Description {
    let mut description = polynomial_one(2);
    description.left = vec![-1, 2];
    description.right = vec![1, 5];
    description.directions = vec![-1, 1];
    description.step = vec![-2, 1];
    description.body = vec![
        Line::always(Operation::Subtract, 2, 0, 2),
        Line::always(Operation::Multiply, 2, 2, 1),
    ];
    description
}

#[test]
fn written_order() {
    let description = backwards();
    let mut lists = Lists::new(&description);
    // a has 3 elements, b 4 and c 6.
    let values: Vec<u32> = (0..13).map(|number| 1000 + 37 * number * number).collect();
    let mut expected = values.clone();
    for i in [1i32, 0, -1] {
        for j in 2i32..=5 {
            let (a, b, c) = (
                (i + 1) as usize,
                (3 + j - 2) as usize,
                (7 + i + j - 1) as usize,
            );
            expected[c] = expected[a].wrapping_sub(expected[c]);
            expected[c] = expected[c].wrapping_mul(expected[b]);
        }
    }
    assert_eq!(lists.plain_run(&values), expected);
    lists.start(&values).expect("a proper start");
    lists.run(u64::MAX).expect("a sound state");
    assert_eq!(lists.results(), Ok(expected));
}
