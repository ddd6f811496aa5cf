//! The stored vectors of the crates: their data files, stored inputs and outputs, and the examples. All
//! are written from the case files in `cases/`, which are in short form, and from the reference, which
//! works the outputs out. `../README.md` says how to use it, [`notation`] how a case is written.

pub mod commuting;
pub mod counting;
pub mod damage;
pub mod drawn;
pub mod flow;
pub mod items;
pub mod notation;
pub mod printed;
pub mod sources;
pub mod text;
pub mod tree;

use cases::orders::{all_orders, is_allowed};
use notation::{Case, Kind, Reader};
use reference::output::{normalised, racelist, racepage, raceshare, replayed, tried, DEFAULT_DELAY};
use reference::replay::recorded_order;
use reference::{happens_before, read_trace};
use std::path::Path;
use tree::{Content, File};

/// The delay that `replay_trace` is called with. `replay_orders` is called with none.
const REPLAY_DELAY: u32 = 3_000;
/// A delay that rules out no race of the rehearsals.
const LONG_DELAY: u32 = 60_000;

/// All vectors.
pub struct Vectors {
    trace_test: Vec<Case>,
    list_test: Vec<Case>,
    tables_test: Vec<Case>,
    replay_test: Vec<Case>,
    replay_trace: Vec<Case>,
    replay_orders: Vec<Case>,
    raceshare: Vec<Case>,
    flow_test: flow::Vectors,
    commuting_test: commuting::Vectors,
}

impl Vectors {
    /// The vectors of the case files.
    pub fn read(root: &Path) -> Result<Vectors, String> {
        let text = |name: &str| {
            let path = format!("tests/vectors/cases/{name}.txt");
            read(root, &path).map(|text| (path, text))
        };
        let reader = |digits: usize| {
            let mut reader = Reader::new(digits);
            let (path, common) = text("common")?;
            reader.read(&path, &common).map(|()| reader)
        };
        let cases = |name: &str, digits: usize| {
            let (path, text) = text(name)?;
            let mut reader = reader(digits)?;
            reader.read(&path, &text).map(|()| reader.files())
        };
        let (flow_path, flow_text) = text("flow_test")?;
        let (pairs_path, pairs_text) = text("commuting_test")?;
        Ok(Vectors {
            trace_test: cases("trace_test", 3)?,
            list_test: cases("list_test", 3)?,
            tables_test: cases("tables_test", 2)?,
            replay_test: cases("replay_test", 0)?,
            replay_trace: cases("replay_trace", 0)?,
            replay_orders: cases("replay_orders", 0)?,
            raceshare: cases("raceshare", 0)?,
            flow_test: flow::Vectors::read(&flow_path, &flow_text)?,
            commuting_test: commuting::Vectors::read(reader(0)?, &pairs_path, &pairs_text)?,
        })
    }

    /// All files that are written.
    pub fn files(&self) -> Vec<File> {
        let mut files = Vec::new();
        for (crate_name, cases, output) in [
            ("trace_test", &self.trace_test, printed::trace_test(&self.trace_test)),
            ("list_test", &self.list_test, printed::list_test(&self.list_test)),
            ("tables_test", &self.tables_test, printed::tables_test(&self.tables_test)),
            ("replay_test", &self.replay_test, printed::replay_test(&self.replay_test)),
            ("replay_trace", &self.replay_trace, self.replay_trace_output()),
            ("replay_orders", &self.replay_orders, self.replay_orders_output()),
            ("flow_test", &Vec::new(), self.flow_test.printed().into_bytes()),
            ("commuting_test", &Vec::new(), self.commuting_test.printed().into_bytes()),
        ] {
            files.extend(cases.iter().map(|case| data_file(crate_name, case)));
            files.push(stored(crate_name, "stdout", output));
        }
        for (crate_name, cases, delay) in [
            ("replay_trace", &self.replay_trace, Some(REPLAY_DELAY)),
            ("replay_orders", &self.replay_orders, None),
        ] {
            let names = cases.iter().map(|case| case.name.clone());
            let arguments = names.chain(delay.map(|delay| delay.to_string())).map(|argument| argument + "\n");
            files.push(stored(crate_name, "args", arguments.collect::<String>().into_bytes()));
        }
        let trace = text_of(&self.list_test, "packet_early");
        for (crate_name, output) in [("racelist", racelist(&trace)), ("racepage", racepage(&trace))] {
            files.push(stored(crate_name, "stdout", output));
            files.push(stored(crate_name, "stdin", trace.clone()));
        }
        let trace = text_of(&self.raceshare, "stdin");
        files.push(stored("raceshare", "stdout", raceshare(&trace)));
        files.push(stored("raceshare", "stdin", trace));
        let tables = text_of(&self.tables_test, "hall_typed_anew");
        files.push(stored("normalise", "stdout", normalised(&tables)));
        files.push(stored("normalise", "stdin", tables));
        for cases in [&self.list_test, &self.tables_test] {
            let named = cases.iter().filter(|case| case.kind == Kind::Named);
            files.extend(named.map(example));
        }
        let rehearsals = self.list_test.iter().filter(|case| case.kind == Kind::Named);
        files.extend(rehearsals.flat_map(|case| [example_page(case), example_share(case)]));
        for name in ["packet_early", "packet_early_repaired"] {
            let trace = text_of(&self.list_test, name);
            let orders = orders_at(&trace, DEFAULT_DELAY);
            files.push(example_results(name, &trace, &orders, DEFAULT_DELAY));
            files.push(example_orders(name, orders));
        }
        let trace = text_of(&self.list_test, "clock_apart");
        let orders = orders_at(&trace, LONG_DELAY);
        files.push(example_results("clock_apart", &trace, &orders, DEFAULT_DELAY));
        files.push(example_results(&format!("clock_apart_{LONG_DELAY}"), &trace, &orders, LONG_DELAY));
        files.push(example_orders("clock_apart", orders));
        files
    }

    fn replay_trace_output(&self) -> Vec<u8> {
        let text = |name| text_of(&self.replay_trace, name);
        replayed(&text("trace"), &text("tables"), Some(&text("order")), REPLAY_DELAY)
    }

    fn replay_orders_output(&self) -> Vec<u8> {
        let text = |name| text_of(&self.replay_orders, name);
        tried(&text("trace"), &text("tables"), &text("orders"), DEFAULT_DELAY)
    }

    /// What the programs' sources and `examples/README.md` say otherwise.
    pub fn source_faults(&self, root: &Path) -> Result<Vec<String>, String> {
        let mut lines = Vec::new();
        let mut check = |path: &str, faults: &dyn Fn(&str) -> Vec<String>| {
            lines.extend(faults(&read(root, path)?).iter().map(|fault| format!("{path} {fault}")));
            Ok::<(), String>(())
        };
        for (crate_name, cases) in [
            ("trace_test", &self.trace_test),
            ("list_test", &self.list_test),
            ("tables_test", &self.tables_test),
        ] {
            let path = format!("crates/{crate_name}/src/main.rt");
            check(&path, &|source| sources::program_faults(source, cases))?;
        }
        check("crates/replay_test/src/main.rt", &|source| sources::replay_faults(source, &self.replay_test))?;
        check("crates/flow_test/src/main.rt", &|source| {
            sources::array_faults(source, "MATCHES", self.flow_test.matches.len())
        })?;
        check("crates/commuting_test/src/main.rt", &|source| {
            sources::array_faults(source, "PAIRS", self.commuting_test.pairs())
        })?;
        check("examples/README.md", &|readme| sources::readme_faults(readme, &self.list_test))?;
        Ok(lines)
    }
}

fn read(root: &Path, path: &str) -> Result<String, String> {
    std::fs::read_to_string(root.join(path)).map_err(|error| format!("{path}: {error}"))
}

fn text_of(cases: &[Case], name: &str) -> Vec<u8> {
    cases.iter().find(|case| case.name == name).map(Case::bytes).expect("a case that is used by its name")
}

fn data_file(crate_name: &str, case: &Case) -> File {
    let path = format!("crates/{crate_name}/data/{}", case.name);
    File { path, title: case.title.clone(), content: Content::Bytes(case.bytes()) }
}

fn stored(crate_name: &str, name: &str, bytes: Vec<u8>) -> File {
    let title = format!("{name} of {crate_name}");
    File { path: format!("crates/{crate_name}/{name}"), title, content: Content::Bytes(bytes) }
}

/// A copy of the data file: the gate takes no links.
fn example(case: &Case) -> File {
    let path = format!("examples/{}", case.name);
    File { path, title: case.title.clone(), content: Content::Bytes(case.bytes()) }
}

/// The page of a trace among the examples.
fn example_page(case: &Case) -> File {
    let title = format!("the page of {}", case.name);
    let path = format!("examples/{}.page", case.name);
    File { path, title, content: Content::Bytes(racepage(&case.bytes())) }
}

/// The share of a trace among the examples.
fn example_share(case: &Case) -> File {
    let title = format!("the share of {}", case.name);
    let path = format!("examples/{}.share", case.name);
    File { path, title, content: Content::Bytes(raceshare(&case.bytes())) }
}

/// All orders of an example's trace that keep happens-before at a delay, rising, and then the recorded one reversed.
fn orders_at(trace: &[u8], delay: u32) -> Vec<u8> {
    let before = happens_before(&read_trace(trace, delay).expect("a rehearsal is accepted"), delay);
    let mut orders = all_orders(before.len());
    orders.retain(|order| is_allowed(order, &before, &[]));
    orders.sort_unstable();
    orders.push(recorded_order(before.len()).into_iter().rev().collect());
    orders.concat()
}

fn example_orders(name: &str, orders: Vec<u8>) -> File {
    let (path, title) = (format!("examples/{name}.orders"), format!("orders of {name}"));
    File { path, title, content: Content::Bytes(orders) }
}

/// What orders of an example's trace do to empty tables at a delay.
fn example_results(name: &str, trace: &[u8], orders: &[u8], delay: u32) -> File {
    let (path, title) = (format!("examples/{name}.results"), format!("what the orders do of {name}"));
    File { path, title, content: Content::Bytes(tried(trace, b"", orders, delay)) }
}
