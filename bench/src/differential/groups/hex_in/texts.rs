//! Texts for a reader: records that are read, others, and texts that are nearly records.

use crate::differential::groups::boards::LONGEST_TEXT;
use crate::differential::hex_text::{Fields, BANK_BYTES, END_KIND, PAIR_BYTES};
use crate::handwritten::hex::{BANK_LINES, DATA, LINE_BYTES, UPPER_ADDRESS};
use crate::random::Random;

/// Bytes that are no digits: those beside them, and such as a text may have in a digit's place.
pub const SUSPECTS: [u8; 14] = *b"/:@G`g \0\r\n\t+-\xB1";

/// A text that is about a record for a board of so many lines and a reader with this upper address.
pub fn draw_text(random: &mut Random, lines: u64, upper: u64) -> Vec<u8> {
    let mut fields = draw_fields(random, lines, upper);
    if random.one_in(16) {
        let any = random.word() as u8;
        fields.sum = random.pick(&[1, 0x80, 0xFF, any]);
    }
    let text = draw_case(random, fields.text());
    if random.one_in(4) {
        return nearly(random, text);
    }
    text
}

/// A record that is read most times.
pub fn draw_fields(random: &mut Random, lines: u64, upper: u64) -> Fields {
    let mut fields = draw_read_fields(random, lines, upper);
    match random.below(24) {
        0 => fields.kind = random.pick(&[0, 1, 2, 3, 4, 5, 0x80, 0xFF]),
        1 => fields.kind = random.word() as u8,
        2 => fields.address = random.pick(&[0, 1, 8, 0x100, 0x8000]),
        3 => {
            let bytes = random.pick(&[0, 1, 2, 3, 7, 8, 9, 15, 16, 17, 24]);
            fields.data = random.bytes(bytes);
            fields.count = bytes as u8;
        }
        4 => fields.count = random.pick(&[fields.count ^ 1, fields.count ^ 8, fields.count ^ 0x10, 0xFF]),
        5 => {
            let bytes = random.pick(&[0, LINE_BYTES, PAIR_BYTES]);
            fields.data = random.bytes(bytes);
        }
        _ => {}
    }
    fields
}

/// A record that is read; its data are on the board most times.
pub fn draw_read_fields(random: &mut Random, lines: u64, upper: u64) -> Fields {
    match random.below(16) {
        0..3 => {
            let any = random.word() as u16;
            let last_bank = ((lines - 1) / BANK_LINES) as u16;
            let bank = random.pick(&[0, last_bank, last_bank + 1, 1, any, u16::MAX]);
            Fields::new(UPPER_ADDRESS, 0, bank.to_be_bytes().to_vec())
        }
        3 => Fields::new(END_KIND, 0, Vec::new()),
        _ => {
            let bytes = random.pick(&[LINE_BYTES, PAIR_BYTES, PAIR_BYTES]);
            let address = draw_address(random, lines, upper);
            Fields::new(DATA, address, random.bytes(bytes))
        }
    }
}

/// Where the board's lines are in the bank, where the bank ends, or anywhere; not at a line now and then.
fn draw_address(random: &mut Random, lines: u64, upper: u64) -> u16 {
    let in_bank = lines
        .saturating_sub(upper.saturating_mul(BANK_LINES))
        .clamp(1, BANK_LINES);
    let line = match random.below(12) {
        0..4 => random.near(in_bank - 1, 1),
        4..6 => random.pick(&[0, 1]),
        6 => random.near(BANK_LINES - 1, 1),
        7 => random.below(BANK_LINES),
        _ => random.below(in_bank),
    };
    let byte = if random.one_in(16) {
        random.pick(&[1, 2, 3, 4, 5, 6, 7])
    } else {
        0
    };
    ((line * LINE_BYTES as u64) % BANK_BYTES) as u16 + byte
}

/// The same in upper case, in lower case or in both.
pub fn draw_case(random: &mut Random, mut text: Vec<u8>) -> Vec<u8> {
    let which = random.below(3);
    for byte in &mut text {
        if which == 1 || which == 2 && random.one_in(2) {
            byte.make_ascii_lowercase();
        }
    }
    text
}

/// One byte more, less or another; a part of it; or as many bytes of any.
fn nearly(random: &mut Random, mut text: Vec<u8>) -> Vec<u8> {
    let place = random.below(text.len() as u64) as usize;
    let line_feed = text.len() - 1;
    let (suspect, any) = (random.pick(&SUSPECTS), random.word() as u8);
    let byte = random.pick(&[suspect, any, b'0', b'A']);
    match random.below(14) {
        0 => text.truncate(line_feed),
        1 => text.insert(line_feed, b'\r'),
        2 => text.push(byte),
        3 => text.insert(0, byte),
        4 => text[0] = byte,
        5 => text[line_feed] = byte,
        6 => text.truncate(place),
        7 => text.insert(place, byte),
        8 => drop(text.remove(place)),
        9 => text.extend_from_within(..),
        10 => text = random.bytes(place),
        11 => text = vec![byte; random.between(0, LONGEST_TEXT) as usize],
        _ => text[place] = byte,
    }
    text
}
