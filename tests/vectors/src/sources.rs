//! What the sources of the test programs and `examples/README.md` say of the cases.

use crate::notation::{Case, Kind};
use crate::printed::replay_sets;
use reference::output::racelist;

/// What a test program's source says otherwise than the cases: `const CASES: u8 = 40;` is the number of
/// the numbered ones, and `run(rt, b"hall");` stands for each named one, in their order.
pub fn program_faults(source: &str, cases: &[Case]) -> Vec<String> {
    let numbered = cases.iter().filter(|case| case.kind == Kind::Numbered).count();
    let count = number_between(source, "const CASES: u8 = ", ";");
    let named = cases.iter().filter(|case| case.kind == Kind::Named);
    let names: Vec<&str> = named.map(|case| case.name.as_str()).collect();
    let name_in =
        |call: &'_ str| -> Option<String> { Some(call.split_once("b\"")?.1.strip_suffix('"')?.to_owned()) };
    let run: Vec<String> = all_between(source, " run(", ");").filter_map(name_in).collect();
    let mut faults = count_fault("CASES", count, numbered);
    if run != names {
        faults.push(format!("runs the files {run:?}, the cases have {names:?}"));
    }
    faults
}

/// The same of `replay_test`, which names each set and its three files, on one line or on several.
pub fn replay_faults(source: &str, cases: &[Case]) -> Vec<String> {
    let names = |set| ["", "_trace", "_tables", "_orders"].map(|end| format!("{set}{end}"));
    let sets: Vec<[String; 4]> = replay_sets(cases).map(names).collect();
    let strings =
        |call: &str| -> Vec<String> { call.split('"').skip(1).step_by(2).map(str::to_owned).collect() };
    let run: Vec<Vec<String>> = all_between(source, "    replay_files(", ");").map(strings).collect();
    if run == sets {
        return Vec::new();
    }
    vec![format!("replays {run:?}, the cases have {sets:?}")]
}

/// Whether an array that a program has for its vectors, `const PAIRS: [u32; 100]`, has as many elements.
pub fn array_faults(source: &str, name: &str, length: usize) -> Vec<String> {
    let declared = source.lines().find(|line| line.starts_with(&format!("const {name}: ")));
    let count = declared.and_then(|line| line.rsplit_once("; ")?.1.split_once(']')?.0.parse().ok());
    count_fault(name, count, length)
}

fn count_fault(name: &str, found: Option<usize>, wanted: usize) -> Vec<String> {
    match found {
        Some(count) if count == wanted => Vec::new(),
        Some(count) => vec![format!("{name} is {count}, the cases are {wanted}")],
        None => vec![format!("has no {name}, the cases are {wanted}")],
    }
}

fn number_between(text: &str, before: &str, after: &str) -> Option<usize> {
    all_between(text, before, after).next()?.parse().ok()
}

/// What stands between two texts, each time that the first occurs.
fn all_between<'a>(text: &'a str, before: &'a str, after: &'a str) -> impl Iterator<Item = &'a str> {
    text.split(before).skip(1).filter_map(move |rest| Some(rest.split_once(after)?.0))
}

/// The rehearsals whose row in the table of `examples/README.md`, `` | `NAME` | what happens | LIST | ``,
/// is missing or has another list.
pub fn readme_faults(readme: &str, rehearsals: &[Case]) -> Vec<String> {
    let mut faults = Vec::new();
    for case in rehearsals.iter().filter(|case| case.kind == Kind::Named) {
        let (start, end) = (format!("| `{}` | ", case.name), format!(" | {} |", list(case)));
        if !readme.lines().any(|line| line.starts_with(&start) && line.ends_with(&end)) {
            faults.push(format!("has no row `{start}..{end}`"));
        }
    }
    faults
}

/// The list as the table has it: `` `race=1,2`, `race=1,3` `` or `empty`.
fn list(case: &Case) -> String {
    let printed = String::from_utf8(racelist(&case.bytes())).expect("a list is ASCII");
    let races: Vec<String> =
        printed.lines().filter(|line| line.starts_with("race=")).map(|race| format!("`{race}`")).collect();
    if races.is_empty() {
        return "empty".to_owned();
    }
    races.join(", ")
}

#[cfg(test)]
mod tests {
    use super::*;
    use crate::notation::Reader;

    fn cases(text: &str) -> Vec<Case> {
        let mut reader = Reader::new(2);
        reader.read("x.txt", text).unwrap();
        reader.files()
    }

    #[test]
    fn counts_and_names() {
        let cases = cases("file hall\nfile stand\ncase first\ncase second");
        let source = "const CASES: u8 = 2;\n    run(b\"hall\");\n    run(b\"stand\");\n";
        assert!(program_faults(source, &cases).is_empty());
        let with_handle = "const CASES: u8 = 2;\n    run(rt, b\"hall\");\n    run(&rt, b\"stand\");\n";
        assert!(program_faults(with_handle, &cases).is_empty());
        assert_eq!(program_faults(&source.replace('2', "3"), &cases), ["CASES is 3, the cases are 2"]);
        assert_eq!(program_faults("run(b\"hall\")", &cases).len(), 2);
        assert!(array_faults("const PAIRS: [[u32; 8]; 26] = [", "PAIRS", 26).is_empty());
        assert_eq!(
            array_faults("const PAIRS: [u32; 25] = [", "PAIRS", 26),
            ["PAIRS is 25, the cases are 26"]
        );
        assert_eq!(array_faults("", "PAIRS", 26), ["has no PAIRS, the cases are 26"]);
    }

    #[test]
    fn sets_of_replays() {
        let cases = cases("file a_trace\nfile a_tables\nfile a_orders\n");
        let source = "    replay_files(b\"a\", b\"a_trace\", b\"a_tables\", b\"a_orders\");\n";
        assert!(replay_faults(source, &cases).is_empty());
        let laid_out = source.replace(", ", ",\n        ").replace(");", ",\n    );");
        assert!(replay_faults(&laid_out, &cases).is_empty());
        assert_eq!(replay_faults(&source.replace("a_tables", "a_trace"), &cases).len(), 1);
        assert_eq!(replay_faults("", &cases).len(), 1);
    }

    #[test]
    fn lists_of_the_readme() {
        let cases = cases("file race\nadd sw=1 prio=1 act=p1\nadd sw=1 prio=1 act=p2\nfile none\n");
        let readme = "| `race` | Two adds. | `race=0,1` |\n| `none` | Nothing. | empty |\n";
        assert!(readme_faults(readme, &cases).is_empty());
        assert_eq!(
            readme_faults(&readme.replace("0,1", "1,2"), &cases),
            ["has no row `| `race` | .. | `race=0,1` |`"]
        );
    }
}
