//! Request 2.8: the limit of refusal 14 is 5, and what has no moving hop from 6 to 8 is answered as before.

use reference::board::{Limits, GAUGE};
use reference::calls::Calls;
use reference::description::Description;
use reference::random::Random;
use reference::random_description::{changed, given, refused};
use reference::vectors::{dot, is_zero, shortest, times};
use reference::Refusal;

use crate::streams_before;

/// The limits before the request.
const FORMER: Limits = Limits {
    hop: 8,
    ..Limits::GAUGE
};

/// The first stream with a moving hop from 6 to 8. A stream without a line has none.
fn long_hop(description: &Description) -> Option<usize> {
    (0..description.streams()).find(|&stream| {
        let line = shortest(&description.maps[stream], &description.step, 11, 12);
        line.is_ok_and(|line| {
            let moving = !is_zero(&times(&description.place, &line.vector));
            moving && (6..=8).contains(&dot(&description.step, &line.vector))
        })
    })
}

/// How often a test met: no long hop and accepted; none and refused; a long hop, accepted before; one, refused before by 15 to 17; one,
/// refused by what comes before its 14.
#[derive(Debug, Default)]
struct Met([u32; 5]);

impl Met {
    fn judge(&mut self, bytes: &[u8]) {
        let now = Calls::on(GAUGE, bytes).accept();
        let before = Calls::within(bytes, &FORMER).accept();
        let description = Description::read(bytes).ok();
        let long = description
            .as_ref()
            .and_then(|description| Some((description, long_hop(description)?)));
        let Some((description, stream)) = long else {
            assert_eq!(now, before, "{bytes:?}");
            self.0[usize::from(now.is_err())] += 1;
            return;
        };
        if now == Err(Refusal(14)) && before != now {
            self.0[if before.is_ok() { 2 } else { 3 }] += 1;
            return;
        }
        // Refused all the same: by what comes before.
        assert_eq!(now, before, "{bytes:?}");
        self.0[4] += 1;
        let Err(Refusal(number)) = now else {
            panic!("a long hop of stream {stream} accepted: {bytes:?}");
        };
        let of_an_earlier = stream > 0
            && Calls::on(GAUGE, &streams_before(description, stream).bytes()).accept() == now;
        assert!(number <= 14 || of_an_earlier, "{number}: {bytes:?}");
    }
}

#[test]
fn as_before_or_fourteen() {
    let mut random = Random::new(28);
    let mut met = Met::default();
    for _ in 0..2000 {
        met.judge(&changed(&mut random));
        met.judge(&refused(&mut random, GAUGE, 14));
    }
    for number in given() {
        met.judge(&refused(&mut random, GAUGE, number));
    }
    assert!(met.0.iter().all(|&count| count > 0), "{met:?}");
}

#[test]
fn the_worked_cases() {
    let with_step = |factor| {
        let mut description = reference::designs::polynomial_one(2);
        description.maps[2] = vec![vec![1, -1]];
        description.step = vec![factor, 1];
        description
    };
    let answers = |factor| {
        let bytes = with_step(factor).bytes();
        let number = |calls: Calls| calls.accept().err().map_or(0, |Refusal(number)| number);
        (
            number(Calls::within(&bytes, &FORMER)),
            number(Calls::on(GAUGE, &bytes)),
        )
    };
    // With 8i+j the hop of b is 8 and that of c is 9.
    let expected = [
        (4, None, (0, 0)),
        (5, Some(2), (0, 14)),
        (7, Some(1), (0, 14)),
        (8, Some(1), (14, 14)),
    ];
    for (factor, stream, numbers) in expected {
        assert_eq!(long_hop(&with_step(factor)), stream, "{factor}");
        assert_eq!(answers(factor), numbers, "{factor}");
    }
}
