//! What the programs do where something can't be read or written, where arguments are missing or too many, and where an
//! input comes in parts: seen from outside.

use cases::{tables, traces};
use differential::{program, Folder, DELAY};
use reference::output::{normalised, racelist, racepage, raceshare, replayed, tried};
use reference::replay::recorded_order;
use std::fs::File;
use std::io::Write;
use std::path::{Path, PathBuf};
use std::process::{Command, Output, Stdio};
use std::time::Duration;

const TRACE: &[u8] = b"ev=0 do=bar in=- out=- from=0 to=0 sw=1\n";
const TABLES: &[u8] =
    b"sw=1 prio=1 port=* vlan=* src=00000000/0 dst=00000000/0 proto=* sport=* dport=* act=drop\n";

/// Nothing printed; on standard error a line that begins so.
fn says(output: &Output, begins: &str) {
    let said = String::from_utf8_lossy(&output.stderr);
    let printed = &output.stdout[..output.stdout.len().min(1_000)];
    assert!(printed.is_empty(), "printed {}", printed.escape_ascii());
    assert!(said.starts_with(begins) && said.ends_with('\n'), "said {said:?} and not {begins:?}");
    assert_eq!(said.lines().count(), 1, "{said:?}");
}

/// The programs that read standard input.
const READING: [&str; 4] = ["racelist", "racepage", "raceshare", "normalise"];

/// The programs that read files. The third may be left out of the first's.
const OF_FILES: [&str; 2] = ["replay_trace", "replay_orders"];

/// A program of these with a trace, tables and an order in files.
fn of_files(name: &str, folder: &Folder, trace: &[u8]) -> Command {
    let mut command = program(name);
    command.arg(folder.file("trace", trace)).arg(folder.file("tables", TABLES));
    command.arg(folder.file("order", b"\0"));
    command
}

/// Each of them with an input that is accepted and with one that is refused.
fn readings() -> impl Iterator<Item = (&'static str, &'static [u8])> {
    let accepted = |name| if name == "normalise" { TABLES } else { TRACE };
    READING.into_iter().flat_map(move |name| [(name, accepted(name)), (name, b"x\n")])
}

fn run(command: &mut Command, input: Stdio, output: Stdio) -> Output {
    let running = command.stdin(input).stdout(output).stderr(Stdio::piped()).spawn();
    running.expect("the program starts").wait_with_output().expect("the program ends")
}

fn file(path: &Path) -> Stdio {
    Stdio::from(File::open(path).expect("the file is opened"))
}

/// Through a shell, which opens and closes as it is told.
fn shell(redirected: &str, command: &Command) -> Output {
    let words = std::iter::once(command.get_program()).chain(command.get_args());
    let script = format!("exec \"$@\" {redirected}");
    Command::new("sh").arg("-c").arg(script).arg("sh").args(words).output().expect("the shell runs")
}

#[test]
fn a_full_disk_is_said() {
    let folder = Folder::new("full");
    let full = || Stdio::from(File::options().write(true).open("/dev/full").expect("/dev/full"));
    for (name, input) in readings() {
        let input = file(&folder.file("input", input));
        says(&run(&mut program(name), input, full()), "standard output: No space left");
    }
    for trace in [TRACE, b"x\n"] {
        let mut replay = program("replay_trace");
        replay.arg(folder.file("trace", trace)).arg(folder.file("tables", TABLES));
        says(&run(&mut replay, Stdio::null(), full()), "standard output: No space left");
        let mut orders = of_files("replay_orders", &folder, trace);
        says(&run(&mut orders, Stdio::null(), full()), "standard output: No space left");
    }
}

#[test]
fn a_closed_output_is_said() {
    let folder = Folder::new("closed");
    for (name, input) in readings() {
        let input = folder.file("input", input);
        let output = shell(&format!("<\"{}\" >&-", input.display()), &program(name));
        says(&output, "standard output: Bad file descriptor");
    }
    let mut replay = program("replay_trace");
    replay.arg(folder.file("trace", TRACE)).arg(folder.file("tables", TABLES));
    says(&shell(">&-", &replay), "standard output: Bad file descriptor");
    let orders = of_files("replay_orders", &folder, TRACE);
    says(&shell(">&-", &orders), "standard output: Bad file descriptor");
}

#[test]
fn an_input_that_cannot_be_read_is_said() {
    let folder = Folder::new("unread");
    for name in READING {
        let directory = run(&mut program(name), file(&folder.path("")), Stdio::piped());
        says(&directory, "standard input: Is a directory");
        says(&shell("<&-", &program(name)), "standard input: Bad file descriptor");
    }
    let (trace, tables) = (folder.file("trace", TRACE), folder.file("tables", TABLES));
    let (order, missing) = (folder.file("order", b"\0"), folder.path("missing"));
    for absent in 0..3 {
        for (bad, said) in [(&missing, "No such file or directory"), (&folder.path(""), "Is a directory")] {
            let mut arguments = [&trace, &tables, &order];
            arguments[absent] = bad;
            for name in OF_FILES {
                let output = program(name).args(arguments).output().expect("the program ends");
                says(&output, &format!("{}: {said}", bad.display()));
            }
        }
    }
    let long = "x".repeat(5_000);
    for name in OF_FILES {
        let output = program(name).args([&long, "tables", "order"]).output().expect("the program ends");
        says(&output, "argument: File name too long");
    }
}

/// Of the orders 1,048,576 bytes are read. A longer file is told, also where the trace would be refused.
#[test]
fn too_many_orders_are_said() {
    let folder = Folder::new("long");
    let tables = folder.file("tables", TABLES);
    for trace in [TRACE, b"", b"x\n"] {
        let trace = folder.file("trace", trace);
        for length in [1_048_577, 1_048_578, 3_000_000] {
            let orders = folder.file("orders", &vec![0; length]);
            let output = program("replay_orders").args([&trace, &tables, &orders]).output();
            says(&output.expect("the program ends"), "");
        }
    }
}

#[test]
fn missing_and_surplus_arguments_are_said() {
    for name in READING {
        let output = run(program(name).arg("trace"), Stdio::null(), Stdio::piped());
        let input = if name == "normalise" { "TABLES" } else { "TRACE" };
        says(&output, &format!("usage: {name} < {input}\n"));
    }
    for count in [0, 1, 5, 6] {
        let output = program("replay_trace").args(vec!["x"; count]).output().expect("the program ends");
        says(&output, "usage: replay_trace TRACE TABLES [ORDER [DELAY]]\n");
    }
    for count in [0, 1, 2, 5, 6] {
        let output = program("replay_orders").args(vec!["x"; count]).output().expect("the program ends");
        says(&output, "usage: replay_orders TRACE TABLES ORDERS [DELAY]\n");
    }
}

/// Also where the texts would be refused.
#[test]
fn what_is_no_delay_is_said() {
    let folder = Folder::new("delay");
    let long = "0".repeat(5_000);
    for bad in [
        "",
        "-",
        "-1",
        "+1",
        "00",
        "01",
        "02000",
        "4294967296",
        "42949672950",
        "18446744073709551616",
        " 1",
        "1 ",
        "1\t",
        "2s",
        "2000ms",
        "*",
        "1e3",
        "0x1",
        &long,
    ] {
        for (name, trace) in OF_FILES.into_iter().flat_map(|name| [(name, TRACE), (name, b"x\n")]) {
            let output = of_files(name, &folder, trace).arg(bad).output().expect("the program ends");
            says(&output, "");
        }
    }
    for good in ["0", "1", "2000", "4294967295"] {
        for name in OF_FILES {
            let output = of_files(name, &folder, TRACE).arg(good).output().expect("the program ends");
            assert!(!output.stdout.is_empty() && output.stderr.is_empty(), "{name} {good}");
        }
    }
}

/// Writes a text in parts, with a pause after each.
fn in_parts(mut to: impl Write, text: &[u8]) {
    for part in text.chunks(text.len() / 3 + 1) {
        to.write_all(part).expect("the program reads on");
        to.flush().expect("the program reads on");
        std::thread::sleep(Duration::from_millis(40));
    }
}

#[test]
fn an_input_may_come_in_parts() {
    let (trace, tables) = (traces::long_adds(), tables::reversed());
    for (name, input, expected) in [
        ("racelist", &trace, racelist(&trace)),
        ("racepage", &trace, racepage(&trace)),
        ("raceshare", &trace, raceshare(&trace)),
        ("normalise", &tables, normalised(&tables)),
    ] {
        let mut running =
            program(name).stdin(Stdio::piped()).stdout(Stdio::piped()).spawn().expect("the program starts");
        in_parts(running.stdin.take().expect("piped"), input);
        let printed = running.wait_with_output().expect("the program ends").stdout;
        assert!(printed == expected, "{name} printed {}", printed.escape_ascii());
    }
    let folder = Folder::new("parts");
    let (trace_file, tables_file) = (folder.file("trace", &trace), folder.file("tables", &tables));
    let standard_input = PathBuf::from("/dev/stdin");
    let orders = [recorded_order(256), vec![0; 256]].concat().repeat(100);
    for (name, arguments, input, expected) in [
        ("replay_trace", vec![&standard_input, &tables_file], &trace, replayed(&trace, &tables, None, DELAY)),
        (
            "replay_orders",
            vec![&trace_file, &tables_file, &standard_input],
            &orders,
            tried(&trace, &tables, &orders, DELAY),
        ),
    ] {
        let mut command = program(name);
        command.args(arguments).stdin(Stdio::piped()).stdout(Stdio::piped());
        let mut running = command.spawn().expect("the program starts");
        in_parts(running.stdin.take().expect("piped"), input);
        let printed = running.wait_with_output().expect("the program ends").stdout;
        assert!(printed == expected, "{name} printed {}", printed.escape_ascii());
    }
}
