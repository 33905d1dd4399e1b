//! Why a board is none: each reason of refusal 1.

use super::sides::Lent;
use crate::handwritten::layout::{ones, Shape, COUNT_BITS, LAST_EPOCH, MOST_ENTRIES, MOST_LINES};

pub type Fault = fn(&Lent) -> bool;

pub const OLD_VERSION: Fault = |lent| lent.has_head() && lent.version() == 0;
pub const ANOTHER_VERSION: Fault = |lent| lent.has_head() && ![0, Shape::VERSION].contains(&lent.version());
pub const LAST_EPOCH_PERSISTED: Fault = |lent| lent.has_head() && lent.control().persisted == LAST_EPOCH;

pub const FAULTS: [(&str, Fault); 13] = [
    ("no word", |lent| lent.board.is_empty()),
    ("one word", |lent| lent.board.len() == 1),
    ("the old version", OLD_VERSION),
    ("another version", ANOTHER_VERSION),
    ("no line", |lent| lent.has_head() && shape(lent).lines == 0),
    ("too many lines", |lent| {
        lent.has_head() && shape(lent).lines > MOST_LINES
    }),
    ("no log entry", |lent| lent.has_head() && shape(lent).entries == 0),
    ("too many log entries", |lent| {
        lent.has_head() && shape(lent).entries > MOST_ENTRIES
    }),
    ("words that lack", |lent| {
        lent.has_head() && lent.board.len() < shape(lent).board_words()
    }),
    ("words too many", |lent| {
        lent.has_head() && lent.board.len() > shape(lent).board_words()
    }),
    ("the last epoch", LAST_EPOCH_PERSISTED),
    // Where there is no entry, no start is right.
    ("a log's start", |lent| {
        lent.has_head() && (1..=start(lent)).contains(&shape(lent).entries)
    }),
    ("a log's length", |lent| {
        lent.has_head() && lent.control().length as u64 > shape(lent).entries
    }),
];

/// N and L alone, whatever the version.
fn shape(lent: &Lent) -> Shape {
    let Shape { lines, entries } = lent.shape();
    Shape {
        lines: lines & ones(COUNT_BITS),
        entries,
    }
}

fn start(lent: &Lent) -> u64 {
    lent.control().start as u64
}

/// Whether a board has this fault and no other.
pub fn is_alone(fault: Fault, lent: &Lent) -> bool {
    fault(lent) && FAULTS.iter().filter(|(_, other)| other(lent)).count() == 1
}
