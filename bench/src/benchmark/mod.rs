//! The benchmark: both sides in one process, on the same inputs, through the same loop.

mod aligned;
mod region;
mod rows;
mod times;
mod traces;

use crate::handwritten::HandWritten;
use crate::library::Library;
use region::{Measured, Memories};
use rows::{Prepared, Row, ROWS};
use times::{take_times, REPETITIONS};

pub fn print_times() {
    println!(
        "Each row: the median of {REPETITIONS} repetitions on each side, taken by turns, in one process, warmed.\n\
         Before each repetition, and outside of the measured part, board, work memory and registers become a fresh\n\
         copy of the row's start. Board N = 65,536, L = 4,095. A row of one kind of call times each call alone, and takes\n\
         the clock's own cost off.\n"
    );
    println!(
        "{:<16}{:>7}{:>12}{:>14}{:>8}  ",
        "row", "calls", "library ns", "hand-written", "ratio"
    );
    for row in &ROWS {
        let prepared = row.prepare();
        let times = take_times(&prepared);
        println!(
            "{:<16}{:>7}{:>12.1}{:>14.1}{:>8.2}  {}",
            row.name,
            prepared.calls(),
            times.library,
            times.handwritten,
            times.ratio(),
            row.about
        );
    }
}

/// The same for programs: tab separated, with a header line.
pub fn print_table() {
    println!("row\tcalls\tlibrary_ns\thandwritten_ns\tratio_ns");
    for row in &ROWS {
        let prepared = row.prepare();
        let times = take_times(&prepared);
        println!(
            "{}\t{}\t{:.2}\t{:.2}\t{:.3}",
            row.name,
            prepared.calls(),
            times.library,
            times.handwritten,
            times.ratio()
        );
    }
}

pub fn print_row_names() {
    for row in &ROWS {
        println!("{}", row.name);
    }
}

/// Plays one side of a row, for a tool that counts instructions in that side's measured region. Prints how many calls
/// are measured.
pub fn play_row(name: &str, side: &str, repeat: u64) -> Result<(), String> {
    let row = Row::find(name)?.prepare();
    match side {
        "library" => play_side::<Library>(&row, repeat),
        "handwritten" => play_side::<HandWritten>(&row, repeat),
        _ => return Err(format!("There is no side {side}: library or handwritten")),
    }
    println!("{}", row.calls() as u64 * repeat);
    Ok(())
}

fn play_side<C: Measured>(row: &Prepared, repeat: u64) {
    let mut memories = Memories::<C>::new(&row.start);
    for _ in 0..repeat {
        memories.restore(&row.start);
        row.for_each_piece(|piece, is_measured| {
            if is_measured {
                C::play_measured(&mut memories, piece);
            } else {
                memories.play_unmeasured(piece);
            }
        });
    }
}
