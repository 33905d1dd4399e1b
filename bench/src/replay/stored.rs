//! Where the repository keeps scripts and what they must print.

use crate::repository::{names_with, path_of};
use std::collections::BTreeSet;
use std::fs;
use std::path::PathBuf;

const CASES: &str = "crates/replaycases/data";
/// Names the scripts that the proved replay is run on, one to a line.
const CASE_NAMES: &str = "cases";
const SCRIPT: &str = "script";
const EXPECTED: &str = "expected";
/// The paper's own script and output.
const LISTING: (&str, &str) = ("crates/loomreplay/stdin", "crates/loomreplay/stdout");

pub struct Pair {
    /// The script's, in the repository.
    pub name: String,
    pub script: PathBuf,
    pub expected: PathBuf,
}

impl Pair {
    fn new(script: &str, expected: &str) -> Self {
        Pair {
            name: script.to_string(),
            script: path_of(script),
            expected: path_of(expected),
        }
    }
}

/// Every script with its expected output. An error names one without the other.
pub fn pairs() -> Result<Vec<Pair>, String> {
    let scripts = names_with(CASES, SCRIPT)?;
    if scripts.is_empty() {
        return Err(format!("{CASES} has no scripts"));
    }
    same_names(&scripts, &names_with(CASES, EXPECTED)?, "expected output")?;
    same_names(&scripts, &listed_names()?, "entry in `cases`")?;
    let file = |name: &str, extension| format!("{CASES}/{name}.{extension}");
    let cases = scripts
        .iter()
        .map(|name| Pair::new(&file(name, SCRIPT), &file(name, EXPECTED)));
    Ok(cases.chain([Pair::new(LISTING.0, LISTING.1)]).collect())
}

fn listed_names() -> Result<BTreeSet<String>, String> {
    let list = path_of(CASES).join(CASE_NAMES);
    let text = fs::read_to_string(list).map_err(|error| format!("{CASES}/{CASE_NAMES}: {error}"))?;
    Ok(text.lines().map(str::to_string).collect())
}

fn same_names(scripts: &BTreeSet<String>, others: &BTreeSet<String>, other: &str) -> Result<(), String> {
    if let Some(name) = scripts.difference(others).next() {
        return Err(format!("{CASES}/{name}.{SCRIPT} has no {other}"));
    }
    if let Some(name) = others.difference(scripts).next() {
        return Err(format!("{CASES}: {name} has an {other} and no script"));
    }
    Ok(())
}
