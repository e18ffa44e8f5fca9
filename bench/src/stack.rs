//! How much stack each call of the library takes: the least with which a thread that does the call comes to its end, less that of a thread
//! that does nothing.

use std::env;
use std::hint::black_box;
use std::process::{Command, Stdio};
use std::thread;

use crate::arrays;
use crate::load::Load;
use crate::named;
use crate::sides::LIBRARY;
use crate::work::Call;

/// The first word of the command line of a child.
pub const CHILD: &str = "in-thread";

/// The call of a thread that does nothing.
const NOTHING: &str = "nothing";

/// A stack is measured to so many bytes.
const STEP: usize = 4096;

/// More than any call takes, in steps.
const MOST: usize = 4096;

/// What a thread has on its stack before the call, more than the least stack that the system gives.
const PAD: usize = 1 << 16;

pub fn print() {
    println!("stack: array or load, call, KiB of the library");
    for array in [arrays::TWICE, arrays::MOVING] {
        print_calls(array, &Call::ALL.map(|(_, call)| call));
    }
    for load in Load::all() {
        print_calls(load.name, &[load.call]);
    }
}

/// A line for each call on an array or load.
fn print_calls(name: &str, calls: &[&str]) {
    let nothing = least(name, NOTHING);
    for call in calls {
        let kib = (least(name, call) - nothing) * STEP / 1024;
        println!("{name:24} {call:12} {kib:6}");
    }
}

/// The least stack, in steps, with which a child comes to its end.
fn least(name: &str, call: &str) -> usize {
    let (mut short, mut enough) = (0, MOST);
    while enough - short > 1 {
        let middle = (short + enough) / 2;
        if ends(name, call, middle * STEP) {
            enough = middle;
        } else {
            short = middle;
        }
    }
    enough
}

/// Whether a child that does the call in a thread with so much stack comes to its end; without enough it dies by a signal.
fn ends(name: &str, call: &str, bytes: usize) -> bool {
    let program = env::current_exe().expect("the program has a path");
    let mut child = Command::new(program);
    child.args([CHILD, name, call, &bytes.to_string()]);
    let child = child.stderr(Stdio::null()).status();
    child.expect("the program can be run again").success()
}

/// Does a call of the library, or nothing, in a thread with so much stack.
pub fn child(name: &str, call: &str, bytes: &str) {
    let bytes = bytes.parse().expect("the stack is a number");
    let mut call = match call {
        NOTHING => Box::new(|| 0),
        _ => named::call(&LIBRARY, name, call),
    };
    let thread = thread::Builder::new().stack_size(bytes);
    let done = thread.spawn(move || padded(&mut || assert_eq!(call(), 0)));
    done.expect("the thread starts")
        .join()
        .expect("the thread ends");
}

/// Does something below a part of the stack that is in use.
#[inline(never)]
fn padded(call: &mut dyn FnMut()) {
    let pad = [0_u8; PAD];
    black_box(&pad);
    call();
    black_box(&pad);
}
