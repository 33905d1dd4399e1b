//! Intel HEX: the lines of a board as records of text, one a call.
//!
//! A record is a colon, some bytes of two digits each, and a line feed. The bytes are the number of data bytes, the address in
//! the bank, the kind, the data, and a check byte by which the sum of all is 0 modulo 256.

use super::checks::{self, Refusal};
use super::{accepted, refused};
use crate::interface::Answer;

/// Line i is at byte address 8i, and a data record has two lines.
pub const LINE_BYTES: usize = size_of::<u64>();
pub const RECORD_LINES: u64 = 2;

/// A bank has the addresses that two bytes can tell apart. Its records are its opener and those of its lines.
pub const BANK_LINES: u64 = (1 << 16) / LINE_BYTES as u64;
pub const BANK_RECORDS: u64 = 1 + BANK_LINES / RECORD_LINES;

/// The kinds of records, the end's aside.
pub const DATA: u8 = 0;
pub const UPPER_ADDRESS: u8 = 4;

/// The last record is always the same.
pub const END: [u8; record_bytes(0)] = *b":00000001FF\n";

/// Where the digits of an address, of the kind and of the data begin.
pub const ADDRESS_PLACE: usize = 3;
const KIND_PLACE: usize = 7;
const DATA_PLACE: usize = 9;

/// The bytes of text that a record with so many bytes of data has.
pub const fn record_bytes(data_bytes: usize) -> usize {
    DATA_PLACE + 2 * data_bytes + "FF\n".len()
}

/// A text with room for every record.
type Text = [u8; TEXT_BYTES];
pub const TEXT_BYTES: usize = record_bytes(RECORD_LINES as usize * LINE_BYTES);

/// The record of a number at the start of the text; the value is its bytes.
#[inline(never)]
pub fn hex_out(board: &[u64], text: &mut [u8], record: u64) -> Answer {
    match put_record(board, text, record) {
        Ok(bytes) => accepted(bytes as u64, 0),
        Err(refusal) => refused(refusal, 0),
    }
}

/// The number of the record that has a line: the openers up to its bank's and the records of lines come before it.
#[inline]
fn record_of(line: u64) -> u64 {
    line / BANK_LINES + 1 + line / RECORD_LINES
}

/// The number of the record that closes the file of so many lines, one at least.
#[inline]
pub fn end_record(lines: u64) -> u64 {
    record_of(lines - 1) + 1
}

/// Puts a record at the start of the text and gives its bytes.
#[inline]
fn put_record(board: &[u64], text: &mut [u8], record: u64) -> Result<usize, Refusal> {
    let (control, shape) = checks::head(board)?;
    let text = text.first_chunk_mut().ok_or(Refusal::Short)?;
    let end = end_record(shape.lines);
    if record > end {
        return Err(Refusal::Past);
    }
    if control.length > 0 {
        return Err(Refusal::LogHeld);
    }
    if record == end {
        return Ok(put_end(text));
    }
    let bank = record / BANK_RECORDS;
    if record == bank * BANK_RECORDS {
        return Ok(put_opener(text, bank as u16));
    }
    // The openers up to this bank's have no lines.
    let line = RECORD_LINES as usize * (record - bank - 1) as usize;
    let address = (line * LINE_BYTES) as u16;
    // The lines are the end of the board.
    match board[shape.line_place(line)..] {
        [first, second, ..] => Ok(put_lines(text, address, [first, second])),
        [last] => Ok(put_lines(text, address, [last])),
        [] => Err(Refusal::Past),
    }
}

#[inline]
fn put_end(text: &mut Text) -> usize {
    text[..END.len()].copy_from_slice(&END);
    END.len()
}

/// The record that says in which bank the data behind it is.
#[inline]
fn put_opener(text: &mut Text, bank: u16) -> usize {
    let data = bank.to_be_bytes();
    for (place, byte) in data.into_iter().enumerate() {
        put_byte(text, DATA_PLACE + 2 * place, byte);
    }
    let sum = data[0].wrapping_add(data[1]);
    put_around(text, data.len(), 0, UPPER_ADDRESS, sum)
}

/// The record of one line or two.
#[inline(always)]
fn put_lines<const LINES: usize>(text: &mut Text, address: u16, lines: [u64; LINES]) -> usize {
    const LINE_DIGITS: usize = 2 * LINE_BYTES;
    for (place, line) in lines.into_iter().enumerate() {
        let from = DATA_PLACE + LINE_DIGITS * place;
        text[from..from + LINE_DIGITS].copy_from_slice(digits_of(line).as_flattened());
    }
    put_around(text, LINES * LINE_BYTES, address, DATA, sum_of_bytes(lines))
}

/// Puts all that stands around the data, whose sum is given, and gives the bytes of the record.
#[inline(always)]
fn put_around(text: &mut Text, data_bytes: usize, address: u16, kind: u8, data_sum: u8) -> usize {
    let [high, low] = address.to_be_bytes();
    let sum = [data_bytes as u8, high, low, kind]
        .into_iter()
        .fold(data_sum, u8::wrapping_add);
    let behind = DATA_PLACE + 2 * data_bytes;
    text[0] = b':';
    put_byte(text, 1, data_bytes as u8);
    put_byte(text, ADDRESS_PLACE, high);
    put_byte(text, ADDRESS_PLACE + 2, low);
    put_byte(text, KIND_PLACE, kind);
    put_byte(text, behind, 0u8.wrapping_sub(sum));
    text[behind + 2] = b'\n';
    record_bytes(data_bytes)
}

/// The two digits of each byte.
const DIGITS: [[u8; 2]; 256] = {
    let digits = b"0123456789ABCDEF";
    let mut both = [[0; 2]; 256];
    let mut byte = 0;
    while byte < both.len() {
        both[byte] = [digits[byte >> 4], digits[byte & 15]];
        byte += 1;
    }
    both
};

#[inline(always)]
fn put_byte(text: &mut Text, place: usize, byte: u8) {
    text[place..place + 2].copy_from_slice(&DIGITS[usize::from(byte)]);
}

/// The digits of a line, the most significant first.
#[inline(always)]
fn digits_of(line: u64) -> [[u8; LINE_BYTES]; 2] {
    let line = line.swap_bytes();
    [line, line >> 32].map(|half| eight_digits(half as u32).to_le_bytes())
}

/// A word that has this in each of its bytes.
const fn in_each_byte(byte: u8) -> u64 {
    u64::from_le_bytes([byte; LINE_BYTES])
}

/// The eight digits of four bytes as a word. The lowest byte's are the lowest, its first digit before its second.
#[inline(always)]
fn eight_digits(bytes: u32) -> u64 {
    // Each byte to two, then each digit to one.
    let halves = u64::from(bytes);
    let halves = (halves | halves << 16) & 0x0000_FFFF_0000_FFFF;
    let bytes = (halves | halves << 8) & 0x00FF_00FF_00FF_00FF;
    let digits = (bytes >> 4 | bytes << 8) & in_each_byte(0xF);
    // With six added, 10 and more are 16 and more: a bit tells the letters.
    let letters = (digits + in_each_byte(6)) >> 4 & in_each_byte(1);
    digits + in_each_byte(b'0') + letters * u64::from(b'A' - b'9' - 1)
}

/// The sum of all bytes, modulo 256.
#[inline(always)]
fn sum_of_bytes<const LINES: usize>(lines: [u64; LINES]) -> u8 {
    // Every second byte, so that the sums have room beside each other.
    const EVERY_SECOND: u64 = 0x00FF_00FF_00FF_00FF;
    let sums: u64 = lines
        .into_iter()
        .map(|line| (line & EVERY_SECOND) + (line >> 8 & EVERY_SECOND))
        .sum();
    // The product's first part is the sum of the four.
    (sums.wrapping_mul(0x0001_0001_0001_0001) >> 48) as u8
}
