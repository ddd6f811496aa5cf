//! How long the proved library and the programs take, against the reference, on worst cases.
//!
//! ```text
//! tools/build && cd tests && cargo --offline build --release
//! target/release/benchmark [BIN]
//! target/release/benchmark alone proved|peer ROW
//! ```
//!
//! BIN is the folder of the project's programs, `target/bin` of the repository where it is left out; programs
//! that are not there are left out. What is printed are the tables of docs/MEASUREMENTS.md, which says how to
//! read them. `alone` makes the call of one row, counted from 1, ten times for one side, and prints nothing: that
//! is for a profiler.

mod calls;
mod processes;
mod rows;
mod turns;

use processes::Processes;
use std::path::{Path, PathBuf};

fn main() {
    let arguments: Vec<String> = std::env::args().skip(1).collect();
    match &arguments[..] {
        [] => print_tables(Path::new(env!("CARGO_MANIFEST_DIR")).join("../../target/bin")),
        [bin] => print_tables(PathBuf::from(bin)),
        [alone, side, row] if alone == "alone" => call_alone(side, row),
        _ => usage(),
    }
}

fn usage() -> ! {
    eprintln!("use: benchmark [BIN] | alone proved|peer ROW");
    std::process::exit(1)
}

fn print_tables(bin: PathBuf) {
    let rows = rows::rows();
    turns::print_head("call");
    rows.iter().for_each(calls::compare);
    println!();
    turns::print_head("process");
    let processes = Processes::new(bin);
    rows.iter().for_each(|row| processes.compare(row));
}

fn call_alone(side: &str, row: &str) {
    let rows = rows::rows();
    let number = row.parse().unwrap_or(0usize);
    let Some(row) = number.checked_sub(1).and_then(|index| rows.get(index)) else { usage() };
    let [proved, peer] = calls::sides(&row.input);
    let mut call = match side {
        "proved" => proved,
        "peer" => peer,
        _ => usage(),
    };
    (0..10).for_each(|_| call());
}
