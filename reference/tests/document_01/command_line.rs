//! The command line: what it prints, and what it does with bad input.

use std::fs::{self, File};
use std::io::{Read, Write};
use std::path::PathBuf;
use std::process::{Command, Output, Stdio};

use reference::board::GAUGE;
use reference::designs::{grid, polynomial_one, polynomial_two};
use reference::examples::{example_scripts, examples};
use reference::expected::vectors;
use reference::generator::{made, values};
use reference::random_script::scripts;
use reference::replay::replay;
use reference::steps_text::steps_text;
use reference::table::table_text;
use reference::walk_text::walk_text;

fn command(arguments: &[&str]) -> Command {
    let mut command = Command::new(env!("CARGO_BIN_EXE_reference"));
    command.args(arguments);
    command
}

/// Runs a command on an input.
fn run(arguments: &[&str], input: &[u8]) -> Output {
    let mut child = command(arguments)
        .stdin(Stdio::piped())
        .stdout(Stdio::piped())
        .stderr(Stdio::piped())
        .spawn()
        .expect("the program starts");
    // A program that does not read its input may be gone by now.
    let _ = child.stdin.take().expect("an input").write_all(input);
    child.wait_with_output().expect("the program ends")
}

/// An empty directory of its own below the target directory.
fn directory(name: &str) -> PathBuf {
    let directory = PathBuf::from(env!("CARGO_TARGET_TMPDIR")).join(name);
    let _ = fs::remove_dir_all(&directory);
    directory
}

/// Status 2, nothing on standard output, a message and the usage on standard error.
fn check_bad(output: &Output) {
    assert_eq!(output.status.code(), Some(2));
    let message = String::from_utf8_lossy(&output.stderr);
    let lines: Vec<&str> = message.lines().collect();
    assert_eq!(lines.len(), 2, "{message}");
    assert!(lines[0].starts_with("reference: "), "{message}");
    assert!(lines[1].starts_with("usage: "), "{message}");
}

#[test]
fn table_walk_and_replay() {
    let description = polynomial_two(2).bytes();
    let texts: [fn(u32, &[u8]) -> String; 2] = [table_text, walk_text];
    for (name, text) in ["table", "walk"].into_iter().zip(texts) {
        let output = run(&[name], &description);
        assert!(output.status.success());
        assert_eq!(output.stdout, text(GAUGE, &description).as_bytes());
        assert_eq!(run(&[name], &[1; 5000]).stdout, b"refused 2\n");
    }
    for script in scripts(3, 60) {
        let output = run(&["replay"], &script);
        assert!(output.status.success());
        assert_eq!(output.stdout, replay(&script).as_bytes());
    }
}

/// Request 2.9: the board is the gauge where nothing is said.
#[test]
fn boards() {
    let texts: [fn(u32, &[u8]) -> String; 2] = [table_text, walk_text];
    for (name, text) in ["table", "walk"].into_iter().zip(texts) {
        for description in [polynomial_two(2), polynomial_one(63), grid(17, 16, 3)] {
            let description = description.bytes();
            for board in [0, 1, 2, u32::MAX] {
                let output = run(&[name, "--board", &board.to_string()], &description);
                assert!(output.status.success());
                assert_eq!(output.stdout, text(board, &description).as_bytes());
            }
        }
        let on_the_bench = |description: &[u8]| run(&[name, "--board", "1"], description).stdout;
        assert_eq!(on_the_bench(&polynomial_one(63).bytes()), b"refused 6\n");
        assert_eq!(on_the_bench(&grid(17, 16, 3).bytes()), b"refused 10\n");
        assert_eq!(run(&[name, "--board", "2"], &[]).stdout, b"refused 33\n");
    }
}

/// Request 2.10: eighteen lines, or the refusal.
#[test]
fn steps() {
    let steps = |arguments: &[&str], description: &[u8]| {
        let output = run(&[&["steps"], arguments].concat(), description);
        assert!(output.status.success() && output.stderr.is_empty());
        String::from_utf8(output.stdout).expect("plain text")
    };
    let one = polynomial_one(2).bytes();
    assert_eq!(steps(&["1"], &one), steps_text(GAUGE, 1, &one));
    assert_eq!(steps(&["4"], &one), "refused 34\n");
    assert_eq!(steps(&["4294967295"], &[]), "refused 34\n");
    assert_eq!(steps(&["0"], &[]), "refused 1\n");
    let wide = grid(17, 16, 3).bytes();
    for board in ["0", "1"] {
        let text = steps_text(board.parse().expect("a number"), 2, &wide);
        assert_eq!(steps(&["--board", board, "2"], &wide), text);
    }
    let large = polynomial_one(63).bytes();
    assert_eq!(steps(&["--board", "1", "2"], &large), "refused 6\n");
    assert_eq!(steps(&["--board", "2", "4"], &large), "refused 33\n");
}

/// Request 2.3: a value to a line, or the refusal.
#[test]
fn fill() {
    let fill = |seed: &str, n: &str| {
        let output = run(&["fill", seed, n], &[]);
        assert!(output.status.success() && output.stderr.is_empty());
        String::from_utf8(output.stdout).expect("plain text")
    };
    let five = "270369\n67634689\n2647435461\n307599695\n2398689233\n";
    assert_eq!(fill("1", "5"), five);
    assert_eq!(fill("1", "0"), "");
    let most: Vec<u32> = fill("4294967295", "65536")
        .lines()
        .map(|line| line.parse().expect("a number"))
        .collect();
    assert_eq!(most, values(u32::MAX, 65_536));
    assert_eq!(fill("1", "65537"), "refused 31\n");
    assert_eq!(fill("0", "5"), "refused 29\n");
    assert_eq!(fill("0", "65537"), "refused 29\n");
}

/// Request 2.3: the bytes of the description, or the refusal on standard error.
#[test]
fn make() {
    let make = |arguments: [&str; 4]| {
        let output = run(&[&["make"], arguments.as_slice()].concat(), &[]);
        assert!(output.status.success());
        (output.stdout, output.stderr)
    };
    for (arguments, seed, sizes) in [
        (["1", "2", "3", "2"], 1, [2, 3, 2]),
        (["77", "2", "1", "1"], 77, [2, 1, 1]),
        (["4294967295", "3", "6", "8"], u32::MAX, [3, 6, 8]),
    ] {
        let bytes = made(seed, sizes).expect("sizes in range");
        assert_eq!(make(arguments), (bytes, Vec::new()));
    }
    for (arguments, refusal) in [
        (["0", "2", "1", "1"], "refused 29\n"),
        (["0", "4", "1", "1"], "refused 29\n"),
        (["1", "4", "1", "1"], "refused 30\n"),
        (["1", "2", "7", "1"], "refused 30\n"),
        (["1", "2", "1", "4294967295"], "refused 30\n"),
    ] {
        assert_eq!(make(arguments), (Vec::new(), refusal.into()));
    }
}

#[test]
fn random_bundle_and_files() {
    let bundle = run(&["random", "9", "55"], &[]).stdout;
    let (mark, mut rest) = bundle.split_at(4);
    assert_eq!(mark, u32::MAX.to_le_bytes());
    let place = directory("scripts");
    let text = place.to_str().expect("a path in plain text");
    assert!(run(&["random", "9", "55", text], &[]).status.success());
    for (number, script) in scripts(9, 55).enumerate() {
        let (length, after) = rest.split_at(4);
        assert_eq!(length, (script.len() as u32).to_le_bytes());
        assert_eq!(after[..script.len()], script);
        rest = &after[script.len()..];
        let file = place.join(format!("{number:05}.script"));
        assert_eq!(fs::read(file).expect("a script file"), script);
    }
    assert!(rest.is_empty());
    assert_eq!(fs::read_dir(place).expect("a directory").count(), 55);
}

#[test]
fn expected_files() {
    let place = directory("expected");
    let text = place.to_str().expect("a path in plain text");
    // An earlier file is in the way, and is written over.
    let folder = place.join("crates").join("shorten");
    fs::create_dir_all(&folder).expect("a directory");
    fs::write(folder.join("stdin"), "an earlier file").expect("a file");
    assert!(run(&["expected", text], &[]).status.success());
    let input = fs::read(folder.join("stdin")).expect("an input file");
    let output = fs::read_to_string(folder.join("stdout")).expect("an output file");
    assert_eq!(input.len(), 12 * vectors().len());
    assert_eq!(output.lines().count(), vectors().len());
    for (vector, line) in vectors().iter().zip(output.lines()) {
        let words: Vec<i64> = line
            .split(' ')
            .map(|word| word.parse().expect("a number"))
            .collect();
        let again: Vec<i64> = words[1..].iter().map(|word| word * words[0]).collect();
        assert_eq!(vector.map(i64::from).to_vec(), again);
        assert_eq!(words[0] == 0, vector == &[0; 3]);
        // No prime is left in all three.
        let left = |d: &i64| words[0] != 0 && words[1..].iter().all(|word| word % d == 0);
        assert!(!(2..1000).any(|d| left(&d)), "{line}");
    }
    assert!(output.contains("2147483648 -1 0 0\n"));
    for program in [
        "print_table",
        "print_walk",
        "compare",
        "replay",
        "loads",
        "vector_counts",
    ] {
        let folder = place.join("crates").join(program);
        assert!(["stdin", "stdout"]
            .iter()
            .all(|name| folder.join(name).is_file()));
        assert!(!folder.join("args").exists());
    }
    // These two are given arguments and no input.
    for (program, command, args) in [
        ("print_fill", "fill", "1\n5\n"),
        ("print_make", "make", "1\n2\n3\n2\n"),
    ] {
        let folder = place.join("crates").join(program);
        let words = fs::read_to_string(folder.join("args")).expect("the arguments");
        assert_eq!(words, args);
        let arguments: Vec<&str> = [command].into_iter().chain(words.lines()).collect();
        let output = fs::read(folder.join("stdout")).expect("an output file");
        assert_eq!(output, run(&arguments, &[]).stdout);
        assert!(!folder.join("stdin").exists());
    }
    // This one is given both.
    let folder = place.join("crates").join("print_steps");
    let file = |name: &str| fs::read(folder.join(name)).expect("a file");
    assert_eq!(file("args"), b"3\n");
    assert_eq!(file("stdin"), polynomial_one(2).bytes());
    assert_eq!(file("stdout"), run(&["steps", "3"], &file("stdin")).stdout);
    for example in examples() {
        let file = place.join("examples").join(format!("{}.bin", example.name));
        let bytes = fs::read(file).expect("an example");
        assert_eq!(bytes, example.description.bytes());
    }
    for example in example_scripts() {
        let name = format!("{}.script", example.name);
        let bytes = fs::read(place.join("examples").join(name)).expect("a script");
        assert_eq!(bytes, example.script.bytes());
    }
}

#[test]
fn bad_arguments() {
    let bad: [&[&str]; 45] = [
        &[],
        &["tables"],
        &[""],
        &["table", "more"],
        &["walk", "more"],
        &["table", "--board"],
        &["table", "--board", "bench"],
        &["table", "--board", "-1"],
        &["table", "--bench", "1"],
        &["walk", "--board", "4294967296"],
        &["walk", "--board", "1", "more"],
        &["steps"],
        &["steps", "one"],
        &["steps", "-1"],
        &["steps", "4294967296"],
        &["steps", "1", "1"],
        &["steps", "--board", "1"],
        &["steps", "--board", "bench", "1"],
        &["steps", "1", "--board", "1"],
        &["replay", "--board", "1"],
        &["replay", "more"],
        &["fill"],
        &["fill", "1"],
        &["fill", "1", "2", "3"],
        &["fill", "one", "2"],
        &["fill", "-1", "2"],
        &["fill", "4294967296", "2"],
        &["fill", "1", "-2"],
        &["make"],
        &["make", "1", "2", "3"],
        &["make", "1", "2", "3", "2", "1"],
        &["make", "4294967296", "2", "3", "2"],
        &["make", "1", "two", "3", "2"],
        &["make", "1", "2", "-3", "2"],
        &["make", "1", "2", "3", "4294967296"],
        &["random"],
        &["random", "1"],
        &["random", "one", "2"],
        &["random", "1", "-2"],
        &["random", "1", "2.5"],
        &["random", "99999999999999999999999", "2"],
        &["random", "1", "2", "a", "b"],
        &["expected"],
        &["expected", "a", "b"],
        &["--help\nme"],
    ];
    for arguments in bad {
        check_bad(&run(arguments, &[]));
    }
}

#[cfg(unix)]
#[test]
fn arguments_that_are_no_text() {
    use std::ffi::OsStr;
    use std::os::unix::ffi::OsStrExt;
    let odd = OsStr::from_bytes(&[0xFF, b'a', 0xFE]);
    check_bad(&command(&[]).arg(odd).output().expect("the program ends"));
    check_bad(
        &command(&["random", "1"])
            .arg(odd)
            .output()
            .expect("the program ends"),
    );
}

#[cfg(unix)]
#[test]
fn unreadable_input() {
    for arguments in [&["table"][..], &["walk"], &["steps", "1"], &["replay"]] {
        let folder = File::open(env!("CARGO_TARGET_TMPDIR")).expect("a directory");
        check_bad(
            &command(arguments)
                .stdin(folder)
                .output()
                .expect("the program ends"),
        );
    }
}

#[test]
fn directories_that_cannot_be_written() {
    let place = directory("blocked");
    fs::create_dir_all(&place).expect("a directory");
    let file = place.join("file");
    fs::write(&file, "in the way").expect("a file");
    let text = file.to_str().expect("a path in plain text");
    check_bad(&run(&["expected", text], &[]));
    check_bad(&run(&["random", "1", "3", text], &[]));
    // A directory stands where a script should go.
    fs::create_dir_all(place.join("00001.script")).expect("a directory");
    check_bad(&run(
        &["random", "1", "3", place.to_str().expect("a path")],
        &[],
    ));
}

#[test]
fn a_reader_that_goes_away() {
    let mut child = command(&["random", "1", "2000"])
        .stdout(Stdio::piped())
        .stderr(Stdio::piped())
        .spawn()
        .expect("the program starts");
    let mut some = [0; 10];
    let mut output = child.stdout.take().expect("an output");
    output.read_exact(&mut some).expect("some bytes");
    drop(output);
    check_bad(&child.wait_with_output().expect("the program ends"));
}
