//! Writes the stored vectors into the repository, or says in what the repository differs from what would
//! be written:
//!
//! ```text
//! vectors write
//! vectors check
//! ```

use std::path::Path;
use std::process::ExitCode;
use vectors::{tree, Vectors};

fn main() -> ExitCode {
    let root = Path::new(env!("CARGO_MANIFEST_DIR")).join("../..");
    let arguments: Vec<String> = std::env::args().skip(1).collect();
    let faults = match arguments.iter().map(String::as_str).collect::<Vec<_>>()[..] {
        ["write"] => write(&root),
        ["check"] => check(&root),
        _ => Err("use: vectors write | check".to_owned()),
    };
    match faults {
        Ok(faults) if faults.is_empty() => ExitCode::SUCCESS,
        Ok(faults) => {
            faults.iter().for_each(|fault| eprintln!("{fault}"));
            ExitCode::FAILURE
        }
        Err(message) => {
            eprintln!("{message}");
            ExitCode::FAILURE
        }
    }
}

/// Writes, and answers what is still not as it is to be.
fn write(root: &Path) -> Result<Vec<String>, String> {
    let written = tree::write(root, &Vectors::read(root)?.files()).map_err(|error| error.to_string())?.len();
    println!("{written} files written");
    check(root)
}

fn check(root: &Path) -> Result<Vec<String>, String> {
    let vectors = Vectors::read(root)?;
    let mut faults = tree::differences(root, &vectors.files()).map_err(|error| error.to_string())?;
    faults.extend(vectors.source_faults(root)?);
    Ok(faults)
}
