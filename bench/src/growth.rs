//! How the library's times grow with the array.

use crate::arrays::{self, Array};
use crate::measure::{least, shown};
use crate::sides::LIBRARY;
use crate::work::{Call, Work};

pub fn print() {
    println!("growth: the library's least times, and below them ns by instances + elements + state words");
    for family in arrays::families() {
        print_family(&family);
    }
}

/// Two lines for each call, a column for each array; a run has one line, by the step.
fn print_family(family: &[Array]) {
    let names: Vec<&str> = family.iter().map(|array| array.name.as_str()).collect();
    print_row("", names);
    let mut works: Vec<Work> = family.iter().map(Work::new).collect();
    let sizes = works.iter().map(|work| work.size().to_string());
    print_row("size", sizes.collect());
    let mut none = Vec::new();
    for (call, name) in Call::ALL {
        let times = works
            .iter_mut()
            .map(|work| least(work, call, [&LIBRARY])[0]);
        let times: Vec<f64> = times.collect();
        if call == Call::RunAll {
            let pairs = times.iter().zip(&none).zip(&works);
            let by_step = pairs.map(|((time, none), work)| (time - none) / f64::from(work.steps()));
            print_row("run, a step", by_step.map(shown).collect());
            continue;
        }
        print_row(name, times.iter().copied().map(shown).collect());
        let pairs = times.iter().zip(&works);
        let by_size = pairs.map(|(time, work)| time * 1e9 / f64::from(work.size()));
        print_row("", by_size.map(|time| format!("{time:.2}")).collect());
        none = times;
    }
}

fn print_row<T: AsRef<str>>(name: &str, columns: Vec<T>) {
    let columns = columns
        .iter()
        .map(|column| format!(" {:>18}", column.as_ref()));
    println!("{name:12}{}", columns.collect::<String>());
}
