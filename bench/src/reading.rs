//! Files of Intel HEX, whoever has written them, read record by record by both sides.

use crate::handwritten::layout::Shape;
use crate::handwritten::names::called;
use crate::handwritten::HandWritten;
use crate::interface::{CacheLog, FIRST_READER, OK};
use crate::library::Library;
use crate::repository::{read, write};
use std::path::Path;

/// How many records were taken, the number of the last answer, and the board's lines.
#[derive(PartialEq, Eq)]
struct Taken {
    records: usize,
    number: u64,
    lines: Vec<u64>,
}

/// Reads a file into a board of so many lines, up to the first record that is refused, and writes what its lines are then. Prints how
/// many records were taken, and the name of what the last one was answered.
pub fn read_file(file: &str, lines: u64, written: &str) -> Result<(), String> {
    let text = read(Path::new(file))?;
    let taken = taken::<Library>(&text, lines);
    if taken != self::taken::<HandWritten>(&text, lines) {
        return Err(format!("the sides do not read {file} alike"));
    }
    let bytes: Vec<u8> = taken.lines.iter().flat_map(|line| line.to_be_bytes()).collect();
    write(Path::new(written), &bytes)?;
    println!("{} {}", taken.records, called(taken.number));
    Ok(())
}

/// What a side takes of a text, each line of which with its line feed is a record.
fn taken<C: CacheLog>(text: &[u8], lines: u64) -> Taken {
    let shape = Shape { lines, entries: 1 };
    let mut board = vec![0; shape.board_words()];
    let answer = C::format(&mut board, lines, shape.entries);
    assert_eq!(answer.number, OK, "a board of {lines} lines");
    let mut reader = C::Reader::from(FIRST_READER);
    let mut number = OK;
    let mut records = 0;
    for record in text.split_inclusive(|&byte| byte == b'\n') {
        number = C::hex_in(&mut board, &mut reader, record).number;
        if number != OK {
            break;
        }
        records += 1;
    }
    Taken {
        records,
        number,
        lines: board.split_off(shape.line_place(0)),
    }
}
