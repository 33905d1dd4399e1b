//! Rare turns of the writer of records: what is just written, and each refusal for one reason alone.

use crate::handwritten::layout::LAST_ADDRESS;
use crate::handwritten::record;
use crate::interface::{ANSWER_WORDS, OK, RECORD_BYTES, TRACE};
use crate::library::TOO_SHORT;
use crate::record::{Record, COMMIT, EVICT, LOAD, SCAN, STORE};
use std::ops::RangeInclusive;

/// A record that was to be written, the lengths that were lent, and the number answered.
pub struct Seen {
    pub record: Record,
    pub bytes: usize,
    pub answer_words: usize,
    pub number: u64,
}

pub type Turn = fn(&Seen) -> bool;

const NONE: RangeInclusive<u64> = 0..=0;
const SOME: RangeInclusive<u64> = 1..=u64::MAX;
const ANY: RangeInclusive<u64> = 0..=u64::MAX;
const LAST: RangeInclusive<u64> = LAST_ADDRESS..=LAST_ADDRESS;
const FITTING: RangeInclusive<u64> = 0..=LAST_ADDRESS;
const SOME_FITTING: RangeInclusive<u64> = 1..=LAST_ADDRESS;
const BEYOND: RangeInclusive<u64> = LAST_ADDRESS + 1..=u64::MAX;

pub const TURNS: [(&str, Turn); 20] = [
    ("a load of the last address is written", |seen| {
        seen.is(OK, LOAD, LAST, NONE)
    }),
    ("a store to the last address is written", |seen| {
        seen.is(OK, STORE, LAST, SOME)
    }),
    ("an eviction of the last address is written", |seen| {
        seen.is(OK, EVICT, LAST, NONE)
    }),
    ("a commit is written", |seen| seen.is(OK, COMMIT, NONE, NONE)),
    ("a scan is written", |seen| seen.is(OK, SCAN, NONE, NONE)),
    ("trace for a kind of three bits alone", |seen| {
        (5..8).any(|kind| seen.is(TRACE, kind, NONE, NONE))
    }),
    ("trace for a kind of more bits alone", |seen| {
        seen.record.kind >= 8 && seen.is(TRACE, seen.record.kind, NONE, NONE)
    }),
    ("trace for a load's address alone", |seen| {
        seen.is(TRACE, LOAD, BEYOND, NONE)
    }),
    ("trace for a store's address alone", |seen| {
        seen.is(TRACE, STORE, BEYOND, ANY)
    }),
    ("trace for an eviction's address alone", |seen| {
        seen.is(TRACE, EVICT, BEYOND, NONE)
    }),
    ("trace for an address with commit alone", |seen| {
        seen.is(TRACE, COMMIT, SOME_FITTING, NONE)
    }),
    ("trace for an address with scan alone", |seen| {
        seen.is(TRACE, SCAN, SOME_FITTING, NONE)
    }),
    ("trace for a value with load alone", |seen| {
        seen.is(TRACE, LOAD, FITTING, SOME)
    }),
    ("trace for a value with commit alone", |seen| {
        seen.is(TRACE, COMMIT, NONE, SOME)
    }),
    ("trace for a value with scan alone", |seen| {
        seen.is(TRACE, SCAN, NONE, SOME)
    }),
    ("trace for a value with evict alone", |seen| {
        seen.is(TRACE, EVICT, FITTING, SOME)
    }),
    ("just enough bytes and answer words for a record", |seen| {
        seen.number == OK && seen.bytes == RECORD_BYTES && seen.answer_words == ANSWER_WORDS
    }),
    ("short for one byte alone", |seen| {
        seen.is_short() && seen.has_place() && seen.bytes == RECORD_BYTES - 1 && seen.answer_words >= ANSWER_WORDS
    }),
    ("short for one answer word alone", |seen| {
        seen.is_short() && seen.has_place() && seen.bytes >= RECORD_BYTES && seen.answer_words == ANSWER_WORDS - 1
    }),
    ("short before trace", |seen| seen.is_short() && !seen.has_place()),
];

impl Seen {
    /// Whether a record of such a kind, address and value was answered so.
    fn is(&self, number: u64, kind: u64, addresses: RangeInclusive<u64>, values: RangeInclusive<u64>) -> bool {
        let record = self.record;
        self.number == number
            && record.kind == kind
            && addresses.contains(&record.address)
            && values.contains(&record.value)
    }

    fn is_short(&self) -> bool {
        self.number == TOO_SHORT
    }

    fn has_place(&self) -> bool {
        let Record { kind, address, value } = self.record;
        record::write(kind, address, value).is_ok()
    }
}
