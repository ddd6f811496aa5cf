//! The reference as a program, which reads and prints as the project's programs do:
//!
//! ```text
//! reference list < TRACE
//! reference page < TRACE
//! reference share < TRACE
//! reference normalise < TABLES
//! reference replay TRACE TABLES [ORDER [DELAY]]
//! reference orders TRACE TABLES ORDERS [DELAY]
//! ```

use reference::output::{
    delay_of, normalised, racelist, racepage, raceshare, replayed, tried, DEFAULT_DELAY,
};
use std::io::{self, Read, Write};
use std::process::ExitCode;

const USE: &str =
    "use: reference list | page | share | normalise | replay TRACE TABLES [ORDER [DELAY]] | orders TRACE TABLES ORDERS [DELAY]";

fn main() -> ExitCode {
    let arguments: Vec<String> = std::env::args().skip(1).collect();
    let arguments: Vec<&str> = arguments.iter().map(String::as_str).collect();
    let output = match arguments[..] {
        ["list"] => standard_input().map(|trace| racelist(&trace)),
        ["page"] => standard_input().map(|trace| racepage(&trace)),
        ["share"] => standard_input().map(|trace| raceshare(&trace)),
        ["normalise"] => standard_input().map(|tables| normalised(&tables)),
        ["replay", trace, tables] => replay_files(trace, tables, None, None),
        ["replay", trace, tables, order] => replay_files(trace, tables, Some(order), None),
        ["replay", trace, tables, order, delay] => replay_files(trace, tables, Some(order), Some(delay)),
        ["orders", trace, tables, orders] => try_files(trace, tables, orders, None),
        ["orders", trace, tables, orders, delay] => try_files(trace, tables, orders, Some(delay)),
        _ => Err(USE.to_owned()),
    };
    let written = output.and_then(|bytes| {
        io::stdout().write_all(&bytes).map_err(|error| format!("standard output: {error}"))
    });
    match written {
        Ok(()) => ExitCode::SUCCESS,
        Err(message) => {
            eprintln!("{message}");
            ExitCode::FAILURE
        }
    }
}

fn replay_files(
    trace: &str,
    tables: &str,
    order: Option<&str>,
    delay: Option<&str>,
) -> Result<Vec<u8>, String> {
    let delay = given_delay(delay)?;
    let (trace, tables) = (file(trace)?, file(tables)?);
    let order = order.map(file).transpose()?;
    Ok(replayed(&trace, &tables, order.as_deref(), delay))
}

fn try_files(trace: &str, tables: &str, orders: &str, delay: Option<&str>) -> Result<Vec<u8>, String> {
    let delay = given_delay(delay)?;
    Ok(tried(&file(trace)?, &file(tables)?, &file(orders)?, delay))
}

/// The delay of an argument, 2000 where there is none.
fn given_delay(argument: Option<&str>) -> Result<u32, String> {
    argument.map_or(Ok(DEFAULT_DELAY), |text| delay_of(text).ok_or_else(|| format!("{text}: no delay")))
}

fn standard_input() -> Result<Vec<u8>, String> {
    // Room for the longest text that is not refused as a whole.
    let mut bytes = Vec::with_capacity(65_536);
    match io::stdin().lock().read_to_end(&mut bytes) {
        Ok(_) => Ok(bytes),
        Err(error) => Err(format!("standard input: {error}")),
    }
}

fn file(path: &str) -> Result<Vec<u8>, String> {
    std::fs::read(path).map_err(|error| format!("{path}: {error}"))
}
