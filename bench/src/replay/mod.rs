//! The replay of scripts, as the paper has it, over the hand-written calls: nothing of the library has a part in it. What it
//! prints is what the proved replay has to print.

mod line;
mod program;
mod stored;

use crate::repository::{first_difference, read};
pub use line::line_of;
use std::io::{self, Write};
use std::path::Path;

/// Prints what the scripts of a file print: how an expected output is made.
pub fn print_output(scripts: &str) -> Result<(), String> {
    let output = program::output_of(&read(Path::new(scripts))?);
    io::stdout().write_all(&output).map_err(|error| error.to_string())
}

/// Holds each file of scripts in the repository to its expected output. An error names the first that has another one, or none.
pub fn compare_with_stored() -> Result<(), String> {
    let pairs = stored::pairs()?;
    for pair in &pairs {
        let replayed = program::output_of(&read(&pair.script)?);
        let expected = read(&pair.expected)?;
        if replayed != expected {
            let difference = first_difference(&replayed, &expected);
            return Err(format!("{}: in the output {difference}", pair.name));
        }
    }
    println!("{} files of scripts replayed, each as expected", pairs.len());
    Ok(())
}
