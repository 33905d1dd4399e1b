//! Intel HEX in: one record a call, which gives lines of a board their words, or tells the reader where the next ones stand. hex.rs
//! has what a record is.

use super::checks::{self, Refusal};
use super::hex::{
    record_bytes, ADDRESS_PLACE, BANK_LINES, DATA, END, LINE_BYTES, RECORD_LINES, TEXT_BYTES, UPPER_ADDRESS,
};
use super::layout::{Shape, MOST_LINES};
use super::{accepted, refused};
use crate::interface::{Answer, ReaderWords};

/// What is carried from record to record.
#[derive(Clone, Copy, Debug, Default, PartialEq, Eq)]
pub struct Reader {
    /// The number of the bank in which data stand. A board has but the first few.
    pub upper: u64,
    /// The end record was read.
    pub ended: bool,
}

impl From<ReaderWords> for Reader {
    #[inline]
    fn from([upper, ended]: ReaderWords) -> Self {
        Reader {
            upper,
            ended: ended != 0,
        }
    }
}

impl From<Reader> for ReaderWords {
    #[inline]
    fn from(Reader { upper, ended }: Reader) -> Self {
        [upper, u64::from(ended)]
    }
}

/// The banks that the largest board has.
const MOST_BANKS: u64 = MOST_LINES / BANK_LINES;

/// The bytes of text of the records that are read, the end's aside. No two of these have one length.
const PAIR_TEXT: usize = TEXT_BYTES;
const LINE_TEXT: usize = record_bytes(LINE_BYTES);
const UPPER_TEXT: usize = record_bytes(size_of::<u16>());

/// Takes the record that a text is, with its line feed.
#[inline(never)]
pub fn hex_in(board: &mut [u64], reader: &mut Reader, text: &[u8]) -> Answer {
    match take_record(board, reader, text) {
        Ok(()) => accepted(0, 0),
        Err(refusal) => refused(refusal, 0),
    }
}

#[inline]
fn take_record(board: &mut [u64], reader: &mut Reader, text: &[u8]) -> Result<(), Refusal> {
    let (control, shape) = checks::head(board)?;
    if control.length > 0 {
        return Err(Refusal::LogHeld);
    }
    if reader.ended {
        return Err(Refusal::Record);
    }
    if let Ok(text) = text.try_into() {
        let Fields { address, data } = fields::<PAIR_TEXT>(text, DATA)?;
        return put_lines(board, shape, reader.upper, address, data);
    }
    if let Ok(text) = text.try_into() {
        let Fields {
            address,
            data: [line, _],
        } = fields::<LINE_TEXT>(text, DATA)?;
        return put_lines(board, shape, reader.upper, address, [line]);
    }
    take_other(reader, text).ok_or(Refusal::Record)
}

/// A record without data for the board.
fn take_other(reader: &mut Reader, text: &[u8]) -> Option<()> {
    if let Ok(text) = text.try_into() {
        let Fields {
            address: 0,
            data: [upper, _],
        } = fields::<UPPER_TEXT>(text, UPPER_ADDRESS).ok()?
        else {
            return None;
        };
        reader.upper = upper >> (u64::BITS - u16::BITS);
    } else if text.eq_ignore_ascii_case(&END) {
        reader.ended = true;
    } else {
        return None;
    }
    Some(())
}

/// Puts the data of one line or two where they belong, all of them or none.
#[inline(always)]
fn put_lines<const LINES: usize>(
    board: &mut [u64],
    shape: Shape,
    upper: u64,
    address: u16,
    data: [u64; LINES],
) -> Result<(), Refusal> {
    let (line, byte) = (usize::from(address) / LINE_BYTES, usize::from(address) % LINE_BYTES);
    if byte != 0 || line + LINES > BANK_LINES as usize || upper >= MOST_BANKS {
        return Err(Refusal::Outside);
    }
    // The lines are the end of the board.
    let place = shape.line_place((upper * BANK_LINES) as usize + line);
    let lines = board.get_mut(place..).and_then(|lines| lines.first_chunk_mut());
    *lines.ok_or(Refusal::Outside)? = data;
    Ok(())
}

/// What a record says behind the number of its data bytes. Eight of these are a word, the most significant first; behind them comes
/// what does not belong to them.
struct Fields {
    address: u16,
    data: [u64; RECORD_LINES as usize],
}

/// Address and kind stand before the data: a word of data has its first bits, so many, in one word of the record and the others in
/// the next.
const BITS_BEFORE_DATA: u32 = u16::BITS + u8::BITS;
const BITS_IN_FIRST: u32 = u64::BITS - BITS_BEFORE_DATA;

/// The fields of a record of that kind, once all of its text is tested.
#[inline(always)]
fn fields<const TEXT: usize>(text: &[u8; TEXT], kind: u8) -> Result<Fields, Refusal> {
    let data_bytes = (TEXT - record_bytes(0)) as u8 / 2;
    // Both digits of their number are below ten, and have no case.
    let count = [b'0' + data_bytes / 16, b'0' + data_bytes % 16];
    let mut pairs = [[b'0'; 2]; MOST_PAIRS];
    let digits = &text[ADDRESS_PLACE..TEXT - 1];
    pairs.as_flattened_mut()[..digits.len()].copy_from_slice(digits);
    let (bytes, sum) = bytes_of(&pairs).ok_or(Refusal::Record)?;
    let [first, second, third] = *bytes.as_chunks().0 else {
        return Err(Refusal::Record);
    };
    let [first, second, third] = [first, second, third].map(u64::from_be_bytes);
    let address = (first >> (u64::BITS - u16::BITS)) as u16;
    let is_record = text[0] == b':'
        && text[1..ADDRESS_PLACE] == count
        && (first >> BITS_IN_FIRST) as u8 == kind
        && text[TEXT - 1] == b'\n'
        && sum.wrapping_add(data_bytes) == 0;
    let data = [(first, second), (second, third)].map(|(word, next)| word << BITS_BEFORE_DATA | next >> BITS_IN_FIRST);
    if is_record {
        Ok(Fields { address, data })
    } else {
        Err(Refusal::Record)
    }
}

/// As many digits as stand behind the number of data bytes in the longest record, and so many more that the compiler takes them by
/// sixteen.
const MOST_PAIRS: usize = 24;

/// A pair of digits as two bytes of a word, and a word that has this in both.
const fn in_both(byte: u8) -> u16 {
    u16::from_le_bytes([byte; 2])
}

/// The bytes that pairs of digits stand for, and their sum modulo 256. None where one is no digit.
#[inline(always)]
fn bytes_of(pairs: &[[u8; 2]; MOST_PAIRS]) -> Option<([u8; MOST_PAIRS], u8)> {
    let mut bytes = [0; MOST_PAIRS];
    let mut are_digits = FIRST_BITS;
    let mut sum: u16 = 0;
    for (byte, &pair) in bytes.iter_mut().zip(pairs) {
        let pair = u16::from_le_bytes(pair);
        are_digits &= tell_digits(pair);
        // Of a letter the low bits are 1 to 6, and bit 6 is set.
        let letters = pair >> 6 & in_both(1);
        let digits = (pair & in_both(0xF)) + 9 * letters;
        // The first digit is the lower byte.
        let value = (digits << 12).wrapping_add(digits) >> 8;
        *byte = value as u8;
        sum = sum.wrapping_add(value);
    }
    (are_digits == FIRST_BITS).then_some((bytes, sum as u8))
}

/// The first bits of both bytes.
const FIRST_BITS: u16 = in_both(0x80);

/// A word whose first bits tell of each byte whether it is a digit, in either case. Bytes from 80 on are none; with that the sums
/// do not go from one byte to the other, unless the answer is no.
#[inline(always)]
fn tell_digits(pair: u16) -> u16 {
    // The first bit is set from the first digit on, and no longer behind the last.
    let between = |pair: u16, first: u8, last: u8| {
        pair.wrapping_add(in_both(0x80 - first)) ^ pair.wrapping_add(in_both(0x7F - last))
    };
    let in_lower_case = pair | in_both(b'a' - b'A');
    (between(pair, b'0', b'9') | between(in_lower_case, b'a', b'f')) & !pair
}
