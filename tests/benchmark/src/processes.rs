//! The processes. A program reads files and writes to /dev/null; its time is that from its start to its end.

use crate::rows::{Input, Row};
use crate::turns;
use std::fs::File;
use std::path::PathBuf;
use std::process::{Command, Stdio};

/// How often each process is timed.
const TURNS: usize = 101;

/// Where the programs of both sides are, and a folder for their input files.
pub struct Processes {
    bin: PathBuf,
    reference: PathBuf,
    folder: PathBuf,
}

impl Processes {
    /// The project's programs in a folder, and the reference's beside this program.
    pub fn new(bin: PathBuf) -> Processes {
        let reference = std::env::current_exe().expect("this program's path").with_file_name("reference");
        let folder = std::env::temp_dir().join(format!("gellunka-benchmark-{}", std::process::id()));
        std::fs::create_dir_all(&folder).expect("a folder for the input files");
        Processes { bin, reference, folder }
    }

    /// Prints the line of a row.
    pub fn compare(&self, row: &Row) {
        match &row.input {
            Input::List(trace) => self.by_turns("racelist", "list", row, &[trace]),
            Input::Page(trace) => self.by_turns("racepage", "page", row, &[trace]),
            Input::Share(trace) => self.by_turns("raceshare", "share", row, &[trace]),
            Input::Normalise(tables) => self.by_turns("normalise", "normalise", row, &[tables]),
            Input::Replay(trace, tables) => self.by_turns("replay_trace", "replay", row, &[trace, tables]),
            Input::Orders(trace, tables, orders) => {
                self.by_turns("replay_orders", "orders", row, &[trace, tables, orders]);
            }
        }
    }

    /// The project's program and the reference with its word, on files: one is standard input, several are
    /// arguments.
    fn by_turns(&self, program: &str, word: &str, row: &Row, inputs: &[&[u8]]) {
        let name = format!("{program}, {}", row.name);
        let program = self.bin.join(program);
        if !program.exists() || !self.reference.exists() {
            println!("| {name} | not built | | |");
            return;
        }
        let files = self.files(inputs);
        turns::compare(
            &name,
            row.input.turns(TURNS),
            || run(&mut Command::new(&program), &files),
            || run(Command::new(&self.reference).arg(word), &files),
        );
    }

    /// Files of some bytes.
    fn files(&self, inputs: &[&[u8]]) -> Vec<PathBuf> {
        let file = |(number, input): (usize, &&[u8])| {
            let file = self.folder.join(number.to_string());
            std::fs::write(&file, input).expect("the input file is written");
            file
        };
        inputs.iter().enumerate().map(file).collect()
    }
}

fn run(command: &mut Command, files: &[PathBuf]) {
    if let [file] = files {
        command.stdin(File::open(file).expect("the input file"));
    } else {
        command.args(files);
    }
    let status = command.stdout(Stdio::null()).status().expect("the program runs");
    assert!(status.success(), "{command:?}: {status}");
}

impl Drop for Processes {
    fn drop(&mut self) {
        // Left behind where it can't be removed.
        let _ = std::fs::remove_dir_all(&self.folder);
    }
}
