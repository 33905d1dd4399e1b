//! The lists of turns.

use super::{Seen, What};
use crate::handwritten::hex::{BANK_LINES, RECORD_LINES, TEXT_BYTES};
use crate::handwritten::layout::{LAST_EPOCH, MOST_ENTRIES, MOST_LINES};
use crate::interface::{ANSWER_WORDS, LOG_HELD, OK, PAST, SHAPE, SHORT};

type Turn = fn(&Seen) -> bool;
type Kind = fn(What) -> bool;

pub const KINDS: [(&str, Kind); 4] = [
    ("an opener", |what| matches!(what, What::Opener { .. })),
    ("a pair of lines", |what| {
        matches!(what, What::Lines { is_odd: false, .. })
    }),
    ("an odd last line", |what| {
        matches!(what, What::Lines { is_odd: true, .. })
    }),
    ("the end", |what| matches!(what, What::End)),
];

/// What has to happen to each kind of record.
pub const OF_EACH_KIND: [(&str, Turn); 6] = [
    ("is put into a text just long enough", |seen| {
        seen.number == OK && seen.text_bytes() == TEXT_BYTES
    }),
    ("is put into a longer text", |seen| {
        seen.number == OK && seen.text_bytes() > TEXT_BYTES
    }),
    ("is put at no multiple of eight bytes", |seen| {
        seen.number == OK && !seen.before.bytes_place.start.is_multiple_of(8)
    }),
    ("is refused by a text one byte too short, alone", |seen| {
        seen.number == SHORT && seen.text_bytes() + 1 == TEXT_BYTES && !seen.is_held()
    }),
    ("is refused by an empty text, alone", |seen| {
        seen.number == SHORT && seen.text_bytes() == 0 && !seen.is_held()
    }),
    ("is refused for the log", |seen| seen.number == LOG_HELD),
];

/// Records that are put.
pub const PUT: [(&str, Turn); 24] = [
    ("an opener of the first bank", |seen| seen.puts_opener(|bank| bank == 0)),
    ("an opener of a later bank", |seen| seen.puts_opener(|bank| bank > 0)),
    ("an opener of the last bank of all", |seen| {
        seen.puts_opener(|bank| (bank + 1) * BANK_LINES == MOST_LINES)
    }),
    ("a pair of lines opens a board", |seen| {
        seen.puts_lines(false, |first, _| first == 0)
    }),
    ("a pair of lines opens a later bank", |seen| {
        seen.puts_lines(false, |first, _| first > 0 && first % BANK_LINES == 0)
    }),
    ("a pair of lines ends a bank before another", |seen| {
        seen.puts_lines(false, |first, lines| {
            first + RECORD_LINES < lines && (first + RECORD_LINES).is_multiple_of(BANK_LINES)
        })
    }),
    ("a pair of lines ends a bank and the board", |seen| {
        seen.puts_lines(false, |first, lines| {
            first + RECORD_LINES == lines && lines % BANK_LINES == 0
        })
    }),
    ("a pair of lines ends the largest board", |seen| {
        seen.puts_lines(false, |first, _| first + RECORD_LINES == MOST_LINES)
    }),
    ("an odd line is all of a board", |seen| {
        seen.puts_lines(true, |first, _| first == 0)
    }),
    ("an odd line is all of a later bank", |seen| {
        seen.puts_lines(true, |first, _| first > 0 && first % BANK_LINES == 0)
    }),
    ("an odd line is just before a bank's end", |seen| {
        seen.puts_lines(true, |first, _| (first + RECORD_LINES).is_multiple_of(BANK_LINES))
    }),
    ("the end behind an odd line", |seen| {
        seen.puts_end(|lines| !lines.is_multiple_of(RECORD_LINES))
    }),
    ("the end behind a pair", |seen| {
        seen.puts_end(|lines| lines.is_multiple_of(RECORD_LINES) && lines % BANK_LINES != 0)
    }),
    ("the end behind a whole bank", |seen| {
        seen.puts_end(|lines| lines == BANK_LINES)
    }),
    ("the end of the largest board", |seen| {
        seen.puts_end(|lines| lines == MOST_LINES)
    }),
    ("a check byte of 0", |seen| seen.has_check(b"00")),
    ("a check byte of FF behind lines", |seen| {
        seen.has_check(b"FF") && seen.puts_any_lines()
    }),
    ("an export of an empty log that starts later", |seen| {
        seen.number == OK && seen.before.control().start > 0
    }),
    ("an export of the last epoch that can be persisted", |seen| {
        seen.number == OK && seen.before.control().persisted == LAST_EPOCH - 1
    }),
    ("an export behind one log entry", |seen| {
        seen.puts_any_lines() && seen.before.shape().entries == 1
    }),
    ("an export behind the most log entries", |seen| {
        seen.puts_any_lines() && seen.before.shape().entries == MOST_ENTRIES
    }),
    ("an export beside dirty slots", |seen| {
        seen.puts_any_lines() && seen.before.dirty_slots() > 0
    }),
    ("an export beside buffered entries", |seen| {
        seen.puts_any_lines() && seen.before.buffered_ranges().count() > 0
    }),
    ("an export's answer has words behind", |seen| {
        seen.number == OK && seen.answer_words() > ANSWER_WORDS
    }),
];

/// Refusals for the log or the number alone.
pub const REFUSED: [(&str, Turn); 10] = [
    ("logheld beside dirty slots", |seen| {
        seen.number == LOG_HELD && seen.before.dirty_slots() > 0
    }),
    ("logheld for one entry", |seen| seen.is_held_by(|length, _| length == 1)),
    ("logheld for a full log", |seen| {
        seen.is_held_by(|length, entries| length == entries)
    }),
    ("logheld for the longest log", |seen| {
        seen.is_held_by(|length, _| length == MOST_ENTRIES)
    }),
    ("past by one, alone", |seen| {
        seen.is_past(|record, end| record == end + 1)
    }),
    ("past by a bit from 8 on, alone", |seen| {
        seen.is_past(|record, end| record & 0xFF <= end && record < 1 << 16)
    }),
    ("past by a bit from 16 on, alone", |seen| {
        seen.is_past(|record, end| record & 0xFFFF <= end && record < 1 << 32)
    }),
    ("past by a bit from 32 on, alone", |seen| {
        seen.is_past(|record, end| record & 0xFFFF_FFFF <= end && record < 1 << 63)
    }),
    ("past by the highest bit, alone", |seen| {
        seen.is_past(|record, end| record ^ 1 << 63 <= end)
    }),
    ("past for 2^64 - 1, alone", |seen| {
        seen.is_past(|record, _| record == u64::MAX)
    }),
];

/// Which refusal comes first.
pub const ORDER: [(&str, Turn); 13] = [
    ("shape before short", |seen| seen.number == SHAPE && seen.is_short()),
    ("shape before past", |seen| seen.number == SHAPE && seen.is_past_all()),
    ("shape before logheld", |seen| seen.number == SHAPE && seen.is_held()),
    ("shape before all others", |seen| {
        seen.number == SHAPE && seen.is_short() && seen.is_past_all() && seen.is_held()
    }),
    ("short before past", |seen| {
        seen.number == SHORT && seen.what().is_none() && !seen.is_held()
    }),
    ("short before logheld", |seen| {
        seen.number == SHORT && seen.what().is_some() && seen.is_held()
    }),
    ("short before past and logheld", |seen| {
        seen.number == SHORT && seen.what().is_none() && seen.is_held()
    }),
    ("past before logheld", |seen| seen.number == PAST && seen.is_held()),
    ("one answer word too few, alone", |seen| {
        seen.lacks_answer_before(OK) && seen.answer_words() + 1 == ANSWER_WORDS
    }),
    ("no answer words, alone", |seen| {
        seen.lacks_answer_before(OK) && seen.answer_words() == 0
    }),
    ("too few answer words before shape", |seen| {
        seen.lacks_answer_before(SHAPE)
    }),
    ("too few answer words before short", |seen| {
        seen.lacks_answer_before(SHORT)
    }),
    ("too few answer words before past or logheld", |seen| {
        seen.lacks_answer_before(PAST) || seen.lacks_answer_before(LOG_HELD)
    }),
];
