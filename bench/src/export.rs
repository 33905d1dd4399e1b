//! Whole exports, record by record, and the files of them that an outside reader is given.

use crate::call::Call;
use crate::handwritten::hex::{BANK_LINES, TEXT_BYTES};
use crate::handwritten::layout::MOST_LINES;
use crate::handwritten::HandWritten;
use crate::interface::{CacheLog, NO_REGISTERS, OK, PAST};
use crate::library::Library;
use crate::random::Random;
use crate::repository::write;
use crate::sizes::Sizes;
use std::path::Path;

/// The boards that are exported have so many lines.
const LINES: [u64; 7] = [1, 2, 3, BANK_LINES - 1, BANK_LINES, BANK_LINES + 1, MOST_LINES];
const ENTRIES: u64 = 1_024;
const SLOTS: u64 = 64;

/// The stores of an epoch, for which there is room in the log.
const STORES: usize = 500;

const SEED: u64 = 16;

/// All records of a board, from number 0 to the last before one that is refused as past.
pub fn records<C: CacheLog>(board: &[u64]) -> Vec<Vec<u8>> {
    let mut records = Vec::new();
    loop {
        let mut text = [0; TEXT_BYTES];
        let answer = C::hex_out(board, &mut text, records.len() as u64);
        if answer.number == PAST {
            return records;
        }
        assert_eq!(answer.number, OK, "record {}", records.len());
        assert!(records.len() as u64 <= MOST_LINES, "more records than any board has");
        records.push(text[..answer.value as usize].to_vec());
    }
}

/// Writes into a folder what each side exports of each board, and the bytes of the board's lines. Prints the names of both files,
/// a line for each export.
pub fn write_exports(folder: &str) -> Result<(), String> {
    let folder = Path::new(folder);
    for count in LINES {
        let lines = Random::for_place(&[SEED, count]).words(count as usize);
        let bytes: Vec<u8> = lines.iter().flat_map(|line| line.to_be_bytes()).collect();
        let lines_name = format!("{count}.lines");
        write(&folder.join(&lines_name), &bytes)?;
        let exports = [
            ("library", exported::<Library>(&lines)),
            ("handwritten", exported::<HandWritten>(&lines)),
        ];
        for (side, text) in exports {
            let name = format!("{count}.{side}.hex");
            write(&folder.join(&name), &text)?;
            println!("{name} {lines_name}");
        }
    }
    Ok(())
}

/// What a side exports of a board on which its own calls have stored these lines.
fn exported<C: CacheLog>(lines: &[u64]) -> Vec<u8> {
    records::<C>(&recovered_board::<C>(lines)).concat()
}

/// A board that power-up has brought back to these lines: they were stored and persisted, epoch by epoch, and what was
/// stored in one more epoch is taken back.
fn recovered_board<C: CacheLog>(lines: &[u64]) -> Vec<u64> {
    let sizes = Sizes {
        lines: lines.len() as u64,
        entries: ENTRIES,
        slots: SLOTS,
    };
    let mut board = vec![0; sizes.board_words()];
    let mut work = vec![0; sizes.work_words()];
    let mut registers = C::Registers::from(NO_REGISTERS);
    let mut make = |call: Call| {
        let answer = call.make::<C>(&mut board, &mut work, &mut registers);
        assert_eq!(answer.number, OK, "{call}");
    };
    make(sizes.format());
    make(Call::POWER_UP);
    let stores: Vec<Call> = (0..).zip(lines).map(|(line, &data)| Call::store(line, data)).collect();
    for epoch in stores.chunks(STORES) {
        epoch.iter().for_each(|&store| make(store));
        make(Call::COMMIT);
        (0..=SLOTS).for_each(|_| make(Call::SCAN));
    }
    for line in (0..lines.len()).take(STORES) {
        make(Call::store(line as u64, !lines[line]));
    }
    make(Call::POWER_UP);
    board
}
