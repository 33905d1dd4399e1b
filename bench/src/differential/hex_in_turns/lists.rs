//! The lists of turns.

use super::*;
use crate::differential::hex_text::PAIR_BYTES;
use crate::handwritten::layout::{LAST_EPOCH, MOST_ENTRIES, MOST_LINES};

pub type Turn = fn(&Seen) -> bool;

/// The banks of the largest board.
const MOST_BANKS: u64 = MOST_LINES / BANK_LINES;

pub const KINDS: [(&str, Turn); 4] = [
    ("two lines", |seen| seen.takes_data(|_, _, lines| lines == 2)),
    ("a line", |seen| seen.takes_data(|_, _, lines| lines == 1)),
    ("an upper address", |seen| seen.takes(UPPER_ADDRESS)),
    ("the end", |seen| seen.takes(END_KIND)),
];

/// How each kind of record has to be taken.
pub const IN_EACH_CASE: [(&str, Turn); 4] = [
    ("in upper case", |seen| {
        has_letters(seen) && !seen.text().iter().any(u8::is_ascii_lowercase)
    }),
    ("in lower case", |seen| {
        has_letters(seen) && !seen.text().iter().any(u8::is_ascii_uppercase)
    }),
    ("in both cases", |seen| {
        let text = seen.text();
        text.iter().any(u8::is_ascii_lowercase) && text.iter().any(u8::is_ascii_uppercase)
    }),
    ("at no multiple of eight bytes", |seen| {
        !seen.before.bytes_place.start.is_multiple_of(8)
    }),
];

fn has_letters(seen: &Seen) -> bool {
    seen.text().iter().any(u8::is_ascii_alphabetic)
}

/// Records that are taken.
pub static ACCEPTED: [(&str, Turn); 20] = [
    ("two lines from an odd one on", |seen| {
        seen.takes_data(|_, line, lines| lines == 2 && line % 2 == 1)
    }),
    ("the first line of all", |seen| {
        seen.takes_data(|seen, line, _| seen.line(line) == 0)
    }),
    ("two lines end the board", |seen| {
        seen.takes_data(|seen, line, lines| lines == 2 && seen.line(line) + 2 == seen.lines())
    }),
    ("a line ends the board", |seen| {
        seen.takes_data(|seen, line, lines| lines == 1 && seen.line(line) + 1 == seen.lines())
    }),
    ("two lines end a bank before another", |seen| {
        seen.takes_data(|seen, line, lines| lines == 2 && line + 2 == BANK_LINES && seen.line(line) + 2 < seen.lines())
    }),
    ("a line ends a bank before another", |seen| {
        seen.takes_data(|seen, line, lines| lines == 1 && line + 1 == BANK_LINES && seen.line(line) + 1 < seen.lines())
    }),
    ("data in a later bank", |seen| {
        seen.takes_data(|seen, _, _| seen.upper() > 0)
    }),
    ("data in the last bank of all", |seen| {
        seen.takes_data(|seen, _, _| seen.upper() == MOST_BANKS - 1)
    }),
    ("two lines end the largest board", |seen| {
        seen.takes_data(|seen, line, lines| lines == 2 && seen.line(line) + 2 == MOST_LINES)
    }),
    ("data beside dirty slots", |seen| {
        seen.takes_data(|seen, _, _| seen.before.dirty_slots() > 0)
    }),
    ("data beside buffered entries", |seen| {
        seen.takes_data(|seen, _, _| seen.before.buffered_ranges().count() > 0)
    }),
    ("data beside an empty log that starts later", |seen| {
        seen.takes_data(|seen, _, _| seen.before.control().start > 0)
    }),
    ("data in the last epoch that can be persisted", |seen| {
        seen.takes_data(|seen, _, _| seen.before.control().persisted == LAST_EPOCH - 1)
    }),
    ("data behind the most log entries", |seen| {
        seen.takes_data(|seen, _, _| seen.before.shape().entries == MOST_ENTRIES)
    }),
    ("an upper address that the board has not", |seen| {
        seen.takes(UPPER_ADDRESS) && seen.after.reader[0] * BANK_LINES >= seen.lines()
    }),
    ("the highest upper address", |seen| {
        seen.takes(UPPER_ADDRESS) && seen.after.reader[0] == u64::from(u16::MAX)
    }),
    ("an upper address for one of more bits", |seen| {
        seen.takes(UPPER_ADDRESS) && seen.upper() > u64::from(u16::MAX)
    }),
    ("the end beside an upper address", |seen| {
        seen.takes(END_KIND) && seen.upper() > 0
    }),
    ("a reader with words behind", |seen| {
        seen.number == OK && seen.before.reader.len() > READER_WORDS
    }),
    ("an answer with words behind", |seen| {
        seen.number == OK && seen.before.answer.len() > ANSWER_WORDS
    }),
];

/// Whether a text is a record that is read.
fn is_read(text: &[u8]) -> bool {
    Fields::of(text).is_some_and(|said| said.are_read())
}

/// Whether it is one with this byte in the place of one of its digits.
fn has_for_digit(text: &[u8], byte: u8) -> bool {
    let is_repaired = |place: usize| {
        let mut repaired = text.to_vec();
        b"0123456789ABCDEF".iter().any(|&digit| {
            repaired[place] = digit;
            is_read(&repaired)
        })
    };
    let mut its = (1..text.len().saturating_sub(1)).filter(|&place| text[place] == byte);
    match (its.next(), its.next()) {
        (Some(place), None) => is_repaired(place),
        _ => false,
    }
}

/// Texts that are no record for one reason alone.
pub static NO_RECORD: [(&str, Turn); 28] = [
    ("record for no byte", |seen| seen.is_no_record(<[u8]>::is_empty)),
    ("record for a line feed that lacks, alone", |seen| {
        seen.is_no_record(|text| is_read(&[text, b"\n"].concat()))
    }),
    ("record for another byte than the line feed, alone", |seen| {
        seen.is_no_record(|text| {
            text.split_last()
                .is_some_and(|(_, record)| is_read(&[record, b"\n"].concat()))
        })
    }),
    ("record for CR LF, alone", |seen| {
        seen.is_no_record(|text| {
            text.strip_suffix(b"\r\n")
                .is_some_and(|record| is_read(&[record, b"\n"].concat()))
        })
    }),
    ("record for a byte behind, alone", |seen| {
        seen.is_no_record(|text| text.split_last().is_some_and(|(_, record)| is_read(record)))
    }),
    ("record for a second record behind, alone", |seen| {
        seen.is_no_record(|text| is_read(&text[..text.len() / 2]) && is_read(&text[text.len() / 2..]))
    }),
    ("record for a byte before, alone", |seen| {
        seen.is_no_record(|text| text.split_first().is_some_and(|(_, record)| is_read(record)))
    }),
    ("record for another byte than the colon, alone", |seen| {
        seen.is_no_record(|text| {
            text.split_first()
                .is_some_and(|(_, record)| is_read(&[b":", record].concat()))
        })
    }),
    ("record for a space, alone", |seen| {
        seen.is_no_record(|text| has_for_digit(text, b' '))
    }),
    ("record for a NUL, alone", |seen| {
        seen.is_no_record(|text| has_for_digit(text, 0))
    }),
    ("record for the byte before 0, alone", |seen| {
        seen.is_no_record(|text| has_for_digit(text, b'/'))
    }),
    ("record for the byte behind 9, alone", |seen| {
        seen.is_no_record(|text| has_for_digit(text, b':'))
    }),
    ("record for the byte before A, alone", |seen| {
        seen.is_no_record(|text| has_for_digit(text, b'@'))
    }),
    ("record for the byte behind F, alone", |seen| {
        seen.is_no_record(|text| has_for_digit(text, b'G'))
    }),
    ("record for the byte before a, alone", |seen| {
        seen.is_no_record(|text| has_for_digit(text, b'`'))
    }),
    ("record for the byte behind f, alone", |seen| {
        seen.is_no_record(|text| has_for_digit(text, b'g'))
    }),
    ("record for a digit with its highest bit set, alone", |seen| {
        seen.is_no_record(|text| has_for_digit(text, 0xB1))
    }),
    ("record for a sum of 1, alone", |seen| {
        seen.says_no_record(|said| is_but_for_sum(said) && said.sum == 1)
    }),
    ("record for a sum of FF, alone", |seen| {
        seen.says_no_record(|said| is_but_for_sum(said) && said.sum == 0xFF)
    }),
    ("record for a count one too high, alone", |seen| {
        seen.says_no_record(|said| is_but_for_count(said) && usize::from(said.count) == said.data.len() + 1)
    }),
    ("record for the count of another record, alone", |seen| {
        seen.says_no_record(|said| is_but_for_count(said) && [0, 8, 16].contains(&said.count))
    }),
    ("record for kind 02, alone", |seen| {
        seen.says_no_record(|said| is_of_kind(said, 2, 2))
    }),
    ("record for kind 03 or 05, alone", |seen| {
        seen.says_no_record(|said| is_of_kind(said, 3, said.data.len()) || is_of_kind(said, 5, said.data.len()))
    }),
    ("record for an upper address with an address, alone", |seen| {
        seen.says_no_record(|said| is_of_kind(said, UPPER_ADDRESS, 2) && said.address != 0)
    }),
    ("record for an upper address of 8 or 16 bytes, alone", |seen| {
        seen.says_no_record(|said| {
            [LINE_BYTES, PAIR_BYTES].contains(&said.data.len()) && is_of_kind(said, UPPER_ADDRESS, said.data.len())
        })
    }),
    ("record for an end with an address, alone", |seen| {
        seen.says_no_record(|said| is_of_kind(said, END_KIND, 0) && said.address != 0)
    }),
    ("record for an end with data, alone", |seen| {
        seen.says_no_record(|said| is_of_kind(said, END_KIND, said.data.len()) && !said.data.is_empty())
    }),
    ("record for data of another length, alone", |seen| {
        seen.says_no_record(|said| is_of_kind(said, DATA, said.data.len()))
    }),
];

fn is_but_for_sum(said: &Fields) -> bool {
    said.sum != 0 && Fields { sum: 0, ..said.clone() }.are_read()
}

fn is_but_for_count(said: &Fields) -> bool {
    let count = said.data.len() as u8;
    !said.agree() && Fields { count, ..said.clone() }.are_read()
}

/// A record of that kind and length in itself.
fn is_of_kind(said: &Fields, kind: u8, data_bytes: usize) -> bool {
    said.kind == kind && said.data.len() == data_bytes && said.agree() && said.sum == 0
}

/// Other refusals, for one reason alone.
pub static REFUSED: [(&str, Turn); 23] = [
    ("logheld for one entry", |seen| {
        seen.number == LOG_HELD && seen.before.control().length == 1
    }),
    ("logheld for a full log", |seen| {
        seen.number == LOG_HELD && seen.before.control().length as u64 == seen.before.shape().entries
    }),
    ("logheld for the longest log", |seen| {
        seen.number == LOG_HELD && seen.before.control().length as u64 == MOST_ENTRIES
    }),
    ("record for data behind the end, alone", |seen| {
        is_behind_end(seen, DATA)
    }),
    ("record for an upper address behind the end, alone", |seen| {
        is_behind_end(seen, UPPER_ADDRESS)
    }),
    ("record for a second end, alone", |seen| is_behind_end(seen, END_KIND)),
    ("record for a reader's word that is neither 0 nor 1, alone", |seen| {
        seen.ended() > 1 && is_behind_end(seen, END_KIND)
    }),
    ("record for a reader's upper bits, alone", |seen| {
        seen.ended().trailing_zeros() >= 32 && is_behind_end(seen, DATA)
    }),
    ("outside for bit 0 of the address, alone", |seen| {
        seen.is_outside(|said| said.address % 8 == 1, runs_over)
    }),
    ("outside for bit 1 of the address, alone", |seen| {
        seen.is_outside(|said| said.address % 8 == 2, runs_over)
    }),
    ("outside for bit 2 of the address, alone", |seen| {
        seen.is_outside(|said| said.address % 8 == 4, runs_over)
    }),
    ("outside for a bank that two lines run over, alone", |seen| {
        seen.is_outside(runs_over, is_unaligned)
    }),
    ("outside for the line behind the last, alone", |seen| {
        seen.is_past(|_, first, last, lines| first == lines && last == lines)
    }),
    ("outside for the second of two lines, alone", |seen| {
        seen.is_past(|_, first, last, lines| first + 1 == lines && last == lines)
    }),
    ("outside for the line behind a whole bank, alone", |seen| {
        seen.is_past(|_, first, _, lines| first == lines && lines % u128::from(BANK_LINES) == 0)
    }),
    ("outside for a later line of a bank, alone", |seen| {
        seen.is_past(|upper, first, _, lines| first > lines && u128::from(upper * BANK_LINES) < lines)
    }),
    ("outside for the bank behind the largest board's, alone", |seen| {
        seen.is_past(|upper, _, _, lines| upper == MOST_BANKS && lines == u128::from(MOST_LINES))
    }),
    ("outside for a bit of the upper address up to 15, alone", |seen| {
        seen.is_past(|upper, _, _, _| (2 * MOST_BANKS..1 << 16).contains(&upper))
    }),
    ("outside for a bit of the upper address from 16 on, alone", |seen| {
        seen.is_past(|upper, _, last, lines| upper < 1 << 32 && is_cut_to(upper, 16, last, lines))
    }),
    ("outside for a bit of the upper address from 32 on, alone", |seen| {
        seen.is_past(|upper, _, last, lines| upper < 1 << 48 && is_cut_to(upper, 32, last, lines))
    }),
    ("outside for a bit of the upper address from 48 on, alone", |seen| {
        seen.is_past(|upper, _, last, lines| upper < 1 << 51 && is_cut_to(upper, 48, last, lines))
    }),
    ("outside for a bit of the upper address from 51 on, alone", |seen| {
        seen.is_past(|upper, _, last, lines| is_cut_to(upper, 51, last, lines))
    }),
    ("outside for the upper address 2^64 - 1, alone", |seen| {
        seen.is_past(|upper, _, _, _| upper == u64::MAX)
    }),
];

/// A right record, were it not behind the end.
fn is_behind_end(seen: &Seen, kind: u8) -> bool {
    seen.number == RECORD && seen.ended() != 0 && seen.is_kind(kind)
}

/// The upper address has a bit from that one on; with the lower ones alone the last line would be on the board.
fn is_cut_to(upper: u64, bits: u32, last: u128, lines: u128) -> bool {
    let cut_off = u128::from(upper >> bits << bits) * u128::from(BANK_LINES);
    cut_off > 0 && last - cut_off < lines
}

/// Which refusal comes first.
pub static ORDER: [(&str, Turn); 18] = [
    ("shape before logheld", |seen| seen.number == SHAPE && seen.is_held()),
    ("shape before record", |seen| {
        seen.number == SHAPE && seen.read().is_none()
    }),
    ("shape before record behind the end", |seen| {
        seen.number == SHAPE && seen.ended() != 0
    }),
    ("shape before outside", |seen| {
        seen.number == SHAPE && seen.read().is_some_and(is_unaligned)
    }),
    ("shape before the end", |seen| {
        seen.number == SHAPE && seen.is_kind(END_KIND)
    }),
    ("logheld before record", |seen| {
        seen.number == LOG_HELD && seen.read().is_none()
    }),
    ("logheld before record behind the end", |seen| {
        seen.number == LOG_HELD && seen.ended() != 0
    }),
    ("logheld before outside", |seen| {
        seen.number == LOG_HELD && seen.read().is_some_and(is_unaligned)
    }),
    ("logheld before an upper address", |seen| {
        seen.number == LOG_HELD && seen.is_kind(UPPER_ADDRESS)
    }),
    ("record before outside", |seen| {
        seen.says_no_record(|said| is_but_for_sum(said) && (is_unaligned(said) || runs_over(said)))
    }),
    ("record behind the end before outside", |seen| {
        seen.number == RECORD && seen.ended() != 0 && seen.read().is_some_and(is_unaligned)
    }),
    ("no word of the reader, alone", |seen| {
        seen.lacks_words_before(OK) && seen.has_answer() && seen.before.reader.is_empty()
    }),
    ("one word of the reader too few, alone", |seen| {
        seen.lacks_words_before(OK) && seen.has_answer() && seen.before.reader.len() + 1 == READER_WORDS
    }),
    ("no answer word, alone", |seen| {
        seen.lacks_words_before(OK) && seen.has_reader() && seen.before.answer.is_empty()
    }),
    ("one answer word too few, alone", |seen| {
        seen.lacks_words_before(OK) && seen.has_reader() && seen.before.answer.len() + 1 == ANSWER_WORDS
    }),
    ("too few words before shape", |seen| seen.lacks_words_before(SHAPE)),
    ("too few words before logheld", |seen| seen.lacks_words_before(LOG_HELD)),
    ("too few words before record or outside", |seen| {
        seen.lacks_words_before(RECORD) || seen.lacks_words_before(OUTSIDE)
    }),
];
