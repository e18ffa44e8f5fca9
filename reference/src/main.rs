//! The command line: table, walk, steps, replay, fill, make, random, expected.

use std::ffi::OsString;
use std::fs;
use std::io::{self, Read, Write};
use std::path::Path;
use std::process::ExitCode;

use reference::board::GAUGE;
use reference::expected::write_files;
use reference::fill_text::fill_text;
use reference::generator::made;
use reference::random_script::scripts;
use reference::replay::{bundle, replay};
use reference::steps_text::steps_text;
use reference::table::table_text;
use reference::walk_text::walk_text;

const USAGE: &str = "usage: reference table [--board N] | walk [--board N] | steps [--board N] K \
    | replay | fill SEED N | make SEED R M B | random SEED N [DIR] | expected DIR";

fn main() -> ExitCode {
    let arguments: Vec<OsString> = std::env::args_os().skip(1).collect();
    match command(&arguments) {
        Ok(()) => ExitCode::SUCCESS,
        Err(message) => {
            // Nothing is left to be done if this cannot be written either.
            let _ = writeln!(io::stderr(), "reference: {message}\n{USAGE}");
            ExitCode::from(2)
        }
    }
}

/// Does what the arguments ask for; the answer is a message if it cannot be done.
fn command(arguments: &[OsString]) -> Result<(), String> {
    let (name, rest) = arguments.split_first().ok_or("no command")?;
    match (name.to_str(), rest) {
        (Some("table"), []) => print_text(table_text, GAUGE),
        (Some("walk"), []) => print_text(walk_text, GAUGE),
        (Some("table"), [option, board]) if option == "--board" => {
            print_text(table_text, number("N", board)?)
        }
        (Some("walk"), [option, board]) if option == "--board" => {
            print_text(walk_text, number("N", board)?)
        }
        (Some("steps"), [k]) => print_steps(GAUGE, k),
        (Some("steps"), [option, board, k]) if option == "--board" => {
            print_steps(number("N", board)?, k)
        }
        (Some("replay"), []) => print(replay(&input()?).as_bytes()),
        (Some("fill"), [seed, n]) => {
            let text = fill_text(number("SEED", seed)?, number("N", n)?);
            print(text.as_bytes())
        }
        (Some("make"), [seed, loops, streams, lines]) => {
            let seed = number("SEED", seed)?;
            let sizes = [
                number("R", loops)?,
                number("M", streams)?,
                number("B", lines)?,
            ];
            print_made(seed, sizes)
        }
        (Some("random"), [seed, count]) => {
            let scripts: Vec<Vec<u8>> =
                scripts(number("SEED", seed)?, number("N", count)?).collect();
            print(&bundle(&scripts))
        }
        (Some("random"), [seed, count, directory]) => write_scripts(
            number("SEED", seed)?,
            number("N", count)?,
            Path::new(directory),
        ),
        (Some("expected"), [directory]) => write_files(Path::new(directory))
            .map_err(|error| format!("cannot write {directory:?}: {error}")),
        (
            Some("table" | "walk" | "steps" | "replay" | "fill" | "make" | "random" | "expected"),
            _,
        ) => Err(format!("wrong arguments for {name:?}")),
        _ => Err(format!("unknown command {name:?}")),
    }
}

/// Prints the text of the description on standard input for a board.
fn print_text(text: impl Fn(u32, &[u8]) -> String, board: u32) -> Result<(), String> {
    print(text(board, &input()?).as_bytes())
}

/// Prints the counts of step vectors of the description on standard input for a board.
fn print_steps(board: u32, k: &OsString) -> Result<(), String> {
    let k = number("K", k)?;
    print_text(|board, bytes| steps_text(board, k, bytes), board)
}

/// Prints the bytes of a made description; a refusal is a line on standard error.
fn print_made(seed: u32, sizes: [u32; 3]) -> Result<(), String> {
    match made(seed, sizes) {
        Ok(bytes) => print(&bytes),
        Err(refusal) => writeln!(io::stderr(), "{refusal}")
            .map_err(|error| format!("cannot write standard error: {error}")),
    }
}

/// A number in decimal.
fn number<T: std::str::FromStr>(name: &str, text: &OsString) -> Result<T, String> {
    let parsed = text.to_str().and_then(|text| text.parse().ok());
    parsed.ok_or_else(|| format!("{name} is not a number: {text:?}"))
}

/// Standard input to its end.
fn input() -> Result<Vec<u8>, String> {
    let mut bytes = Vec::new();
    io::stdin()
        .read_to_end(&mut bytes)
        .map_err(|error| format!("cannot read standard input: {error}"))?;
    Ok(bytes)
}

/// Writes to standard output, all at once.
fn print(bytes: &[u8]) -> Result<(), String> {
    let mut output = io::stdout().lock();
    output
        .write_all(bytes)
        .and_then(|()| output.flush())
        .map_err(|error| format!("cannot write standard output: {error}"))
}

/// Writes scripts into a directory, a file for each.
fn write_scripts(seed: u64, count: usize, directory: &Path) -> Result<(), String> {
    let failed = |path: &Path, error: io::Error| format!("cannot write {path:?}: {error}");
    fs::create_dir_all(directory).map_err(|error| failed(directory, error))?;
    for (number, script) in scripts(seed, count).enumerate() {
        let path = directory.join(format!("{number:05}.script"));
        fs::write(&path, script).map_err(|error| failed(&path, error))?;
    }
    Ok(())
}
