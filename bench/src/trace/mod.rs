//! Recorded traces, as the paper has them, over the hand-written calls: nothing of the library has a part in it. What it says
//! of a trace is what the proved program has to print.

mod broken;
mod cases;
mod file;
mod histories;
mod loom;
mod run;
mod stored;
#[cfg(test)]
mod tests;

pub use loom::{write_timed, write_trace};

/// The epochs of a trace of the loom's work, where nobody asks for others.
pub const DEFAULT_EPOCHS: u64 = 20;

/// Writes the repository's traces, and what they must print, anew.
pub fn write_stored() -> Result<(), String> {
    stored::write_all()
}

/// Holds the repository's traces, and what they must print, to what is made here.
pub fn compare_with_stored() -> Result<(), String> {
    let runs = stored::compare_all()?;
    println!("{runs} runs of stored traces, each file and line as the hand-written side makes it");
    Ok(())
}
