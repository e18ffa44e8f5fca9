//! How many instructions each call takes, counted by callgrind.

use std::env;
use std::process::{Command, Stdio};

use crate::arrays;
use crate::load::Load;
use crate::named;
use crate::sides::SIDES;
use crate::work::{Call, Work};

/// The first word of the command line of a child.
pub const CHILD: &str = "counted";

/// The arrays that are counted.
const ARRAYS: [&str; 6] = [
    "polynomial two 64",
    "matrix straight 16",
    arrays::MOVING,
    "matrix straight 32x32x4",
    arrays::TWICE,
    "sheet 64x64x1",
];

pub fn print() {
    if Command::new("valgrind")
        .arg("--version")
        .stdout(Stdio::null())
        .status()
        .is_err()
    {
        println!("instructions: valgrind is missing");
        return;
    }
    println!("instructions: array or load, call, library, quick, ratio");
    for array in ARRAYS {
        print_array(array);
    }
    for load in Load::all() {
        let counts = SIDES.map(|side| count(side.name, load.name, load.call));
        print_counts(load.name, load.call, counts);
    }
}

/// A line for each call; that of a run is by the step, without what a run of no step takes.
fn print_array(name: &str) {
    let array = arrays::named(name).expect("the array has a name");
    let steps = u64::from(Work::new(&array).steps());
    let mut none = [0; 2];
    for (call, mut call_name) in Call::ALL {
        let mut counts = SIDES.map(|side| count(side.name, name, call_name));
        match call {
            Call::RunNone => none = counts,
            Call::RunAll => {
                counts = [(counts[0] - none[0]) / steps, (counts[1] - none[1]) / steps];
                call_name = "run, a step";
            }
            _ => {}
        }
        print_counts(name, call_name, counts);
    }
}

fn print_counts(name: &str, call: &str, [library, quick]: [u64; 2]) {
    let ratio = library as f64 / quick as f64;
    println!("{name:24} {call:12} {library:>10} {quick:>10} {ratio:8.2}");
}

/// The instructions of one call, as callgrind says on its last lines.
fn count(side: &str, name: &str, call: &str) -> u64 {
    let program = env::current_exe().expect("the program has a path");
    let mut child = Command::new("valgrind");
    child.args(["--tool=callgrind", "--callgrind-out-file=/dev/null"]);
    child.arg("--toggle-collect=*instructions*counted*");
    child.arg(program).args([CHILD, side, name, call]);
    let output = child.output().expect("valgrind can be run");
    let text = String::from_utf8_lossy(&output.stderr);
    let collected = text.lines().find_map(|line| line.split_once("Collected :"));
    let number = collected.and_then(|(_, number)| number.trim().parse().ok());
    number.expect("callgrind says what it collected")
}

/// Does a call of one program once.
pub fn child(side: &str, name: &str, call: &str) {
    let side = SIDES.into_iter().find(|other| other.name == side);
    let side = side.expect("the program has a name");
    let mut call = named::call(side, name, call);
    assert_eq!(counted(&mut call), 0);
}

/// What is done in here is counted.
#[inline(never)]
fn counted(call: &mut dyn FnMut() -> u32) -> u32 {
    call()
}
