//! Where the repository keeps traces and the lines that they must print.

use super::cases::{cases, traces, Trace, EXTENSION};
use crate::repository::{first_difference, names_with, path_of, read, write};
use std::collections::BTreeSet;

const FOLDER: &str = "crates/loomtrace/data";
/// A line for each run: N, L, S, the file and what is printed.
const TABLE: &str = "cases";

/// Writes every trace and the table anew.
pub fn write_all() -> Result<(), String> {
    let traces = traces();
    for trace in &traces {
        write(&path_of(FOLDER).join(trace.file()), &trace.bytes)?;
    }
    write(&path_of(FOLDER).join(TABLE), table_of(&traces).as_bytes())
}

/// Holds every stored trace and the table to what is made here, byte for byte, and says how many runs the table has. An
/// error names the first difference.
pub fn compare_all() -> Result<usize, String> {
    let traces = traces();
    same_names(&traces)?;
    for trace in &traces {
        if read(&path_of(FOLDER).join(trace.file()))? != trace.bytes {
            return Err(format!("{FOLDER}/{} is not the trace of that name", trace.file()));
        }
    }
    let made = table_of(&traces);
    let stored = read(&path_of(FOLDER).join(TABLE))?;
    if stored != made.as_bytes() {
        let difference = first_difference(&stored, made.as_bytes());
        return Err(format!("{FOLDER}/{TABLE}: {difference}"));
    }
    Ok(made.lines().count())
}

fn table_of(traces: &[Trace]) -> String {
    cases(traces).iter().map(|case| format!("{case}\n")).collect()
}

fn same_names(traces: &[Trace]) -> Result<(), String> {
    let made: BTreeSet<String> = traces.iter().map(|trace| trace.name.to_string()).collect();
    let stored = names_with(FOLDER, EXTENSION)?;
    if let Some(name) = made.difference(&stored).next() {
        return Err(format!("{FOLDER}/{name}.{EXTENSION} is not there"));
    }
    if let Some(name) = stored.difference(&made).next() {
        return Err(format!("{FOLDER}/{name}.{EXTENSION} is no trace that is run"));
    }
    Ok(())
}
