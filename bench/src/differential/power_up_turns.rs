//! Rare turns of power-up, which takes entries that end up to 16 epochs after P: the latest that it takes, and such as
//! it refuses for ending too late alone.

use super::sides::Lent;
use crate::handwritten::layout::{Range, LAST_EPOCH, MOST_AHEAD};
use crate::interface::{ENTRY, OK};

/// What a power-up was lent, what it left, and the number answered.
pub struct Seen<'a> {
    pub before: &'a Lent,
    pub after: &'a Lent,
    pub number: u64,
}

pub type Turn = fn(&Seen) -> bool;

pub const TURNS: [(&str, Turn); 5] = [
    ("a power-up takes an entry that ends 16 after P", |seen| {
        seen.takes(|_, till| till == seen.latest_till())
    }),
    ("a power-up takes one, not the newest, that ends 16 after P", |seen| {
        seen.takes(|place, till| till == seen.latest_till() && place + 1 < seen.length())
    }),
    (
        "a power-up takes one that ends in the last epoch, less than 16 after P",
        |seen| seen.takes(|_, till| till == LAST_EPOCH && till < seen.latest_till()),
    ),
    ("a power-up refuses one that ends 17 after P, for that alone", |seen| {
        seen.refuses_as_too_late(|_, till| till == seen.latest_till() + 1)
    }),
    (
        "a power-up refuses one that ends at most 16 after the next older, but more after P, for that alone",
        |seen| seen.refuses_as_too_late(|older_till, till| older_till.is_some_and(|older| till <= older + MOST_AHEAD)),
    ),
];

impl Seen<'_> {
    fn persisted(&self) -> u64 {
        self.before.control().persisted
    }

    fn length(&self) -> usize {
        self.before.control().length
    }

    fn latest_till(&self) -> u64 {
        self.persisted() + MOST_AHEAD
    }

    fn entry(&self, place: usize) -> Range {
        self.before.log_entry(place)
    }

    /// Whether it is accepted, with such an entry in the log: its place, the oldest counted 0, and its ValidTill.
    fn takes(&self, is_such: impl Fn(usize, u64) -> bool) -> bool {
        self.number == OK && (0..self.length()).any(|place| is_such(place, self.entry(place).valid_till))
    }

    /// Whether the entry that the value names ends too late, is proper by the paper's other conditions, and is such:
    /// the next older entry's ValidTill, where there is one, and its own.
    fn refuses_as_too_late(&self, is_such: impl Fn(Option<u64>, u64) -> bool) -> bool {
        if self.number != ENTRY {
            return false;
        }
        let place = self.after.answer[0] as usize;
        let range = self.entry(place);
        let valid_till = range.valid_till;
        let older_till = place.checked_sub(1).map(|older| self.entry(older).valid_till);
        let is_proper_otherwise = range.address < self.before.shape().lines
            && range.has_proper_span(MOST_AHEAD)
            && self.persisted() < valid_till
            && older_till.is_none_or(|older| valid_till >= older);
        valid_till > self.latest_till() && is_proper_otherwise && is_such(older_till, valid_till)
    }
}
