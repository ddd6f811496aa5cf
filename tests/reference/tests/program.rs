//! What the program prints.

use std::io::Write;
use std::process::{Command, Stdio};

fn printed(arguments: &[&str], input: &[u8]) -> String {
    let mut program = Command::new(env!("CARGO_BIN_EXE_reference"))
        .args(arguments)
        .stdin(Stdio::piped())
        .stdout(Stdio::piped())
        .spawn()
        .unwrap();
    program.stdin.take().unwrap().write_all(input).unwrap();
    String::from_utf8(program.wait_with_output().unwrap().stdout).unwrap()
}

#[test]
fn list() {
    assert_eq!(printed(&["list"], b""), "pairs=0 ordered=0 commuting=0 listed=0\n");
    assert_eq!(printed(&["list"], b"ev=0\n"), "refused=4 place=0\nev=0\n");
    assert_eq!(printed(&["list"], b"\n"), "refused=4 place=0\n\n");
    assert_eq!(printed(&["list"], b"x"), "refused=2 place=0\n");
}

#[test]
fn page() {
    let counts: String = ["pairs    ", "ordered  ", "commuting", "listed   "]
        .map(|name| format!("{name}{:>51}\n", 0))
        .concat();
    assert_eq!(printed(&["page"], b""), counts);
    assert_eq!(printed(&["page"], b"ev=0 do=oth in=- out=- from=0 to=0\n"), counts);
    assert_eq!(printed(&["page"], b"ev=0\n"), "refused=4 place=0\nev=0\n");
    assert_eq!(printed(&["page"], b"x"), "refused=2 place=0\n");
}

#[test]
fn share() {
    assert_eq!(printed(&["share"], b""), "share=0 remainder=0 divisor=0\n");
    let any = "port=* vlan=* src=00000000/0 dst=00000000/0 proto=* sport=* dport=*";
    let rule = |event, prio, port| {
        format!("ev={event} do=add in=- out=- from=0 to=0 sw=1 prio={prio} {any} act=p{port}\n")
    };
    let rules = [rule(0, 1, 1), rule(1, 1, 2), rule(2, 9, 3)].concat();
    assert_eq!(printed(&["share"], rules.as_bytes()), "share=666 remainder=2 divisor=3\n");
    assert_eq!(printed(&["share"], b"ev=0\n"), "refused=4 place=0\nev=0\n");
    assert_eq!(printed(&["share"], b"x"), "refused=2 place=0\n");
}

#[test]
fn normalise() {
    assert_eq!(printed(&["normalise"], b""), "");
    assert_eq!(printed(&["normalise"], b"x"), "refused=12 place=0\n");
    assert_eq!(printed(&["normalise"], b"x\n"), "refused=14 place=0\nx\n");
}

/// What the program prints with files of some bytes behind its first argument.
fn printed_of(word: &str, files: &[&[u8]]) -> String {
    printed_at(word, files, None)
}

/// The same with a delay behind the files, if one is given.
fn printed_at(word: &str, files: &[&[u8]], delay: Option<&str>) -> String {
    let folder = std::env::temp_dir().join(format!("reference-{word}-{}", std::process::id()));
    std::fs::create_dir_all(&folder).unwrap();
    let write = |(number, bytes): (usize, &&[u8])| {
        let path = folder.join(number.to_string());
        std::fs::write(&path, bytes).unwrap();
        path.into_os_string().into_string().unwrap()
    };
    let paths: Vec<String> = files.iter().enumerate().map(write).collect();
    let arguments = std::iter::once(word).chain(paths.iter().map(String::as_str)).chain(delay);
    let arguments: Vec<&str> = arguments.collect();
    let text = printed(&arguments, b"");
    std::fs::remove_dir_all(&folder).unwrap();
    text
}

/// A packet that waits for another event.
const TRACE: &[u8] = b"\
ev=0 do=oth in=- out=1 from=0 to=0
ev=1 do=pkt in=1 out=- from=0 to=0 sw=1 port=1 vlan=1 src=00000000 dst=00000000 proto=1 sport=1 dport=1
";

/// A message and a packet that comes 2001 milliseconds behind it.
const CLOCKS: &[u8] = b"\
ev=0 do=msg in=- out=- from=7 to=9 sw=2
ev=1 do=pkt in=- out=- from=2010 to=2010 sw=1 port=1 vlan=1 src=00000000 dst=00000000 proto=1 sport=1 dport=1
";

/// What is no delay.
const BAD_DELAYS: [&str; 9] = ["", "00", "02000", "-1", "+1", "4294967296", "2000 ", "2s", "*"];

#[test]
fn replay() {
    assert_eq!(printed_of("replay", &[TRACE, b""]), "ev=1 hit=-\n");
    assert_eq!(printed_of("replay", &[TRACE, b"", &[0, 1]]), "ev=1 hit=-\n");
    assert_eq!(printed_of("replay", &[TRACE, b"", &[1, 0]]), "refused=22 place=0\n");
    assert_eq!(printed_of("replay", &[TRACE, b"", &[0]]), "refused=21 place=0\n");
    let turned = |delay| printed_at("replay", &[CLOCKS, b"", &[1, 0]], delay);
    for delay in [None, Some("0"), Some("1"), Some("2000")] {
        assert_eq!(turned(delay), "refused=22 place=0\n");
    }
    for delay in ["2001", "60000", "4294967295"] {
        assert_eq!(turned(Some(delay)), "ev=1 hit=-\n");
    }
    for bad in BAD_DELAYS {
        assert_eq!(turned(Some(bad)), "", "{bad}");
    }
}

#[test]
fn orders() {
    let tried = |tables: &[u8], orders: &[u8]| printed_of("orders", &[TRACE, tables, orders]);
    assert_eq!(tried(b"", &[0, 1, 1, 0, 0, 0]), "order=0 result=0\norder=1 result=2\norder=2 result=2\n");
    assert_eq!(tried(b"", b""), "");
    assert_eq!(tried(b"", &[0]), "refused=52 place=0\n");
    assert_eq!(tried(b"x\n", &[0]), "refused=14 place=0\nx\n");
    let at = |delay| printed_at("orders", &[CLOCKS, b"", &[0, 1, 1, 0]], delay);
    for delay in [None, Some("0"), Some("2000")] {
        assert_eq!(at(delay), "order=0 result=0\norder=1 result=2\n");
    }
    assert_eq!(at(Some("2001")), "order=0 result=0\norder=1 result=0\n");
    for bad in BAD_DELAYS {
        assert_eq!(at(Some(bad)), "", "{bad}");
    }
    let many = tried(b"", &[0, 1].repeat(70_000));
    assert!(many.ends_with("order=69999 result=0\n"));
    assert_eq!(many.lines().count(), 70_000);
}
