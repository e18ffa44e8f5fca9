//! Arbitrary bytes and words as descriptions, scripts, lists and states: nothing panics.

use reference::board::GAUGE;
use reference::calls::{Calls, Row};
use reference::random::Random;
use reference::random_description::{accepted, changed, given, large, refused};
use reference::random_script::scripts;
use reference::replay::replay;
use reference::table::table_text;

use crate::lists::Lists;

/// A byte changed, taken out or put in, a few times.
fn disturb(random: &mut Random, bytes: &mut Vec<u8>) {
    for _ in 0..random.below(4) + 1 {
        let place = random.below(bytes.len() + 1);
        match random.below(3) {
            0 if place < bytes.len() => bytes[place] = random.bits() as u8,
            1 if place < bytes.len() => {
                bytes.remove(place);
            }
            _ => bytes.insert(place, random.bits() as u8),
        }
    }
}

#[test]
fn descriptions() {
    let mut random = Random::new(31);
    for _ in 0..2000 {
        let length = random.below(520);
        let bytes = random.bytes(length);
        assert!(table_text(GAUGE, &bytes).starts_with("refused "));
        let mut bytes = changed(&mut random);
        disturb(&mut random, &mut bytes);
        table_text(GAUGE, &bytes);
        // Small words reach further than any words.
        let length = random.below(130);
        let words = random.words(length, -4, 4);
        table_text(GAUGE, &reference::description::bytes_of(&words));
    }
    for number in given() {
        assert_eq!(
            table_text(GAUGE, &refused(&mut random, GAUGE, number)),
            format!("refused {number}\n")
        );
    }
    for _ in 0..20 {
        table_text(GAUGE, &large(&mut random, GAUGE).bytes());
    }
}

/// The widest boxes that the ranges allow are declined soon.
#[test]
fn wide_boxes() {
    let mut random = Random::new(32);
    for _ in 0..300 {
        let mut description = accepted(&mut random);
        for map in description.maps.iter_mut().chain([&mut description.place]) {
            for word in map.iter_mut().flatten() {
                *word = random.between(-4, 4);
            }
        }
        for number in 0..description.loops() {
            description.left[number] = random.between(-64, 0);
            description.right[number] = random.between(0, 64);
        }
        table_text(GAUGE, &description.bytes());
    }
}

#[test]
fn replay_scripts() {
    let mut random = Random::new(33);
    for mut script in scripts(33, 400) {
        disturb(&mut random, &mut script);
        assert!(replay(&script).ends_with('\n'));
        let length = random.below(200);
        assert!(replay(&random.bytes(length)).ends_with('\n'));
    }
}

/// A list of any length near the right one, of words that are mostly small.
fn any_list(random: &mut Random, length: usize) -> Vec<u32> {
    let length = match random.below(4) {
        0 => random.below(length + 5),
        _ => length,
    };
    (0..length)
        .map(|_| match random.below(20) {
            0 => random.bits() as u32,
            1..=5 => random.below(4) as u32,
            _ => 0,
        })
        .collect()
}

#[test]
fn states_and_lists() {
    let mut random = Random::new(34);
    for _ in 0..2000 {
        let mut lists = Lists::new(&accepted(&mut random));
        let lengths = lists.accepted();
        for _ in 0..10 {
            lists.waiting = any_list(&mut random, lengths.elements);
            lists.received = any_list(&mut random, lengths.elements);
            lists.state = any_list(&mut random, lengths.words);
            let sound = lists.state.len() >= lengths.words && lists.network().sound(&lists.state);
            let [kind, number, stream] = [5, 9, 6].map(|limit| random.below(limit) as u32);
            let before = lists.words();
            if lists.step_words(kind, number, stream).is_err() {
                assert_eq!(lists.words(), before);
            } else {
                assert!(sound && lists.network().sound(&lists.state));
            }
            if lists.run(1000).is_ok() {
                assert!(lists.network().sound(&lists.state));
            }
            let count = random.below(20);
            let _ = lists.ready(&mut vec![0; count]);
            let _ = lists.window(number, kind);
            let mut output = any_list(&mut random, lengths.elements);
            let _ = lists.result(&mut output);
            let values = any_list(&mut random, lengths.elements);
            let _ = lists.calls.plain_run(&values, &mut output);
            let _ = lists.start(&values);
        }
    }
}

/// A sound state that no start leads to is stepped by the same rules: every step that is ready is
/// granted, keeps the state sound and adds one to one count; the others are declined by 24.
#[test]
fn sound_states_that_no_start_leads_to() {
    let mut random = Random::new(35);
    let mut found = 0;
    for _ in 0..1000 {
        let mut lists = Lists::new(&accepted(&mut random));
        lists.waiting = random.values(lists.waiting.len());
        let started = lists.clone();
        for _ in 0..20 {
            lists.state = started.state.clone();
            let most = lists.accepted().steps as usize;
            lists.run(random.below(most) as u64).expect("a sound state");
            for _ in 0..random.below(5) + 1 {
                let word = random.below(lists.state.len());
                lists.state[word] = random.below(4) as u32;
            }
            if !lists.network().sound(&lists.state) {
                continue;
            }
            found += 1;
            for step in lists.network().steps().to_vec() {
                let mut after = lists.clone();
                let ready = lists.network().ready(&lists.state, step);
                assert_eq!(after.step(step).is_ok(), ready);
                assert_eq!(after.words() == lists.words(), !ready);
                assert!(after.network().sound(&after.state));
            }
        }
    }
    assert!(found > 1000);
}

#[test]
fn no_lists_at_all() {
    let calls = Calls::on(GAUGE, &[]);
    assert!(calls.table(&mut [] as &mut [Row]).is_err());
    assert!(calls.start(&[], &mut [], &mut [], &mut []).is_err());
    assert!(calls.ready(&[], &[], &[], &mut []).is_err());
    assert!(calls.window(&[], &[], 0, 0).is_err());
    assert!(calls.result(&[], &[], &[], &mut []).is_err());
    assert!(calls.plain_run(&[], &mut []).is_err());
}
