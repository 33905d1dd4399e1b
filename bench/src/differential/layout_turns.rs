//! Rare turns of the packed words: spans of undo entries, each reason for which one is not proper and the ends of what is; epochs that
//! 24 and 32 bits cannot count; the longest ring, and the versions of a board.

use super::faults::{self, ANOTHER_VERSION, LAST_EPOCH_PERSISTED, OLD_VERSION};
use super::sides::Lent;
use super::turn_lists;
use crate::call::{Call, Kind};
use crate::handwritten::layout::{Control, Range, Shape, LAST_EPOCH, MOST_AHEAD, MOST_ENTRIES, MOST_LINES};
use crate::handwritten::old;
use crate::interface::{BUFFER, ENTRY, OK, SHAPE};

type Turn = turn_lists::Turn<Seen>;
type List = turn_lists::List<Seen>;

/// Every list.
pub static ALL: [&[List]; 1] = [&LISTS];

static LISTS: [List; 6] = [
    List {
        kinds: &[
            Kind::PowerUp,
            Kind::Load,
            Kind::Store,
            Kind::Evict,
            Kind::Commit,
            Kind::Begin,
            Kind::Scan,
        ],
        turns: &OF_SPANS,
    },
    List {
        kinds: &[
            Kind::PowerUp,
            Kind::Load,
            Kind::Store,
            Kind::Evict,
            Kind::Commit,
            Kind::Begin,
            Kind::Scan,
            Kind::Tally,
        ],
        turns: &OF_A_BOARD,
    },
    List {
        kinds: &[Kind::Commit],
        turns: &[
            ("goes on to epoch 2^24", |seen| seen.goes_on_to(1 << 24)),
            ("goes on to epoch 2^32", |seen| seen.goes_on_to(1 << 32)),
            ("goes on to the last epoch", |seen| seen.goes_on_to(LAST_EPOCH)),
        ],
    },
    List {
        kinds: &[Kind::PowerUp],
        turns: &OF_A_POWER_UP,
    },
    List {
        kinds: &[Kind::Format],
        turns: &OF_A_FORMAT,
    },
    List {
        kinds: &[Kind::Scan],
        turns: &OF_THE_LONGEST_RING,
    },
];

/// The entry is one of the log in a power-up, else a buffered one.
const OF_SPANS: [(&str, Turn); 8] = [
    ("is refused for a span of 0 alone", |seen| {
        seen.is_for_span(|range| range.span == 0)
    }),
    ("is refused for a span of 17 alone", |seen| {
        seen.is_for_span(|range| range.span == MOST_AHEAD + 1)
    }),
    ("is refused for a longer span alone", |seen| {
        seen.is_for_span(|range| range.span > MOST_AHEAD + 1)
    }),
    (
        "is refused for a span of its ValidTill and one more, 16 at most, alone",
        |seen| seen.is_for_span(|range| range.span <= MOST_AHEAD && range.span == range.valid_till + 1),
    ),
    ("is accepted with an entry that spans 1 epoch", |seen| {
        seen.takes(|range| range.span == 1)
    }),
    ("is accepted with an entry that spans 16 epochs", |seen| {
        seen.takes(|range| range.span == MOST_AHEAD)
    }),
    ("is accepted with an entry that spans all epochs before it", |seen| {
        seen.takes(|range| range.span == range.valid_till)
    }),
    ("is accepted with an entry that ends behind epoch 2^32", |seen| {
        seen.takes(|range| range.valid_till > 1 << 32)
    }),
];

const OF_A_BOARD: [(&str, Turn); 3] = [
    ("shape for the old version alone", |seen| {
        seen.number == SHAPE && seen.has_old_version_alone
    }),
    ("shape for another version alone", |seen| {
        seen.number == SHAPE && seen.has_another_version_alone
    }),
    ("shape for the last epoch alone", |seen| {
        seen.number == SHAPE && seen.has_last_epoch_alone
    }),
];

const OF_A_POWER_UP: [(&str, Turn); 3] = [
    ("wakes with the epoch persisted that was the last", |seen| {
        seen.number == OK && seen.control.persisted == old::LAST_EPOCH
    }),
    ("wakes with an epoch persisted that has more than 32 bits", |seen| {
        seen.number == OK && seen.control.persisted > u32::MAX.into()
    }),
    ("wakes a full log of 4,095 entries from the last place on", |seen| {
        let is_full = seen.control.length as u64 == MOST_ENTRIES;
        seen.number == OK && is_full && seen.control.start as u64 == MOST_ENTRIES - 1
    }),
];

const OF_A_FORMAT: [(&str, Turn); 3] = [
    ("takes 4,095 entries", |seen| {
        seen.number == OK && seen.format.entries == MOST_ENTRIES
    }),
    ("shape for 4,096 entries alone", |seen| {
        seen.number == SHAPE && seen.format.entries == MOST_ENTRIES + 1 && seen.fits_format
    }),
    ("shape for 65,536 entries", |seen| {
        seen.number == SHAPE && seen.format.entries == old::MOST_ENTRIES
    }),
];

const OF_THE_LONGEST_RING: [(&str, Turn); 3] = [
    ("drops entries of a full log of 4,095, over the ring's end", |seen| {
        let is_full = seen.control.length as u64 == MOST_ENTRIES;
        seen.number == OK && is_full && seen.control_after.start < seen.control.start
    }),
    ("starts a log at place 4,094", |seen| {
        seen.number == OK
            && seen.control_after.start as u64 == MOST_ENTRIES - 1
            && seen.control.start != seen.control_after.start
    }),
    ("flushes over the end of a ring of 4,095", |seen| {
        let is_over = seen.log_end < MOST_ENTRIES && seen.log_end + seen.buffered > MOST_ENTRIES;
        seen.number == OK && seen.entries == MOST_ENTRIES && is_over && seen.stores > seen.buffered
    }),
];

/// What a call that takes registers, or a format, shows.
pub struct Seen {
    number: u64,
    stores: u64,
    control: Control,
    control_after: Control,
    epoch_after: u64,
    /// The log's size, L.
    entries: u64,
    /// Where the log ends, counted from the ring's first place on, and the entries buffered then.
    log_end: u64,
    buffered: u64,
    /// What a format asks for, and whether the board has the words of it and N is in range.
    format: Shape,
    fits_format: bool,
    /// The entry that is refused for its span, and for nothing else.
    improper: Option<Range>,
    /// The entries that were accepted.
    proper: Vec<Range>,
    has_old_version_alone: bool,
    has_another_version_alone: bool,
    has_last_epoch_alone: bool,
}

impl Seen {
    pub fn new(call: Call, number: u64, before: &Lent, after: &Lent) -> Option<Self> {
        if let Call::Format { lines, entries } = call {
            return Some(Seen::of_format(Shape { lines, entries }, number, before));
        }
        if !call.takes_registers() || !before.has_head() || !before.has_registers() {
            return None;
        }
        let is_refused_shape = number == SHAPE;
        let control = before.control();
        Some(Seen {
            stores: after.answer.get(1).copied().unwrap_or(0),
            control,
            control_after: after.control(),
            epoch_after: after.registers().epoch,
            entries: before.shape().entries,
            log_end: (control.start + control.length) as u64,
            buffered: before.registers().buffered.min(MOST_ENTRIES),
            improper: improper_for_span(call, number, before, after),
            proper: if number == OK { proper(call, before) } else { Vec::new() },
            has_old_version_alone: is_refused_shape && faults::is_alone(OLD_VERSION, before),
            has_another_version_alone: is_refused_shape && faults::is_alone(ANOTHER_VERSION, before),
            has_last_epoch_alone: is_refused_shape && faults::is_alone(LAST_EPOCH_PERSISTED, before),
            ..Seen::of_number(number)
        })
    }

    fn of_number(number: u64) -> Self {
        let none = Control {
            persisted: 0,
            start: 0,
            length: 0,
        };
        Seen {
            number,
            stores: 0,
            control: none,
            control_after: none,
            epoch_after: 0,
            entries: 0,
            log_end: 0,
            buffered: 0,
            format: Shape { lines: 0, entries: 0 },
            fits_format: false,
            improper: None,
            proper: Vec::new(),
            has_old_version_alone: false,
            has_another_version_alone: false,
            has_last_epoch_alone: false,
        }
    }

    fn of_format(format: Shape, number: u64, before: &Lent) -> Self {
        let has_words = before.board.len() as u64 == format.wrapping_board_words();
        Seen {
            format,
            fits_format: has_words && (1..=MOST_LINES).contains(&format.lines),
            ..Seen::of_number(number)
        }
    }

    fn is_for_span(&self, is_such: fn(Range) -> bool) -> bool {
        self.improper.is_some_and(is_such)
    }

    fn takes(&self, is_such: fn(Range) -> bool) -> bool {
        self.proper.iter().any(|&range| is_such(range))
    }

    fn goes_on_to(&self, epoch: u64) -> bool {
        self.number == OK && self.epoch_after == epoch
    }
}

/// The entries that an accepted call has tested: those of the log in a power-up, else the buffered ones.
fn proper(call: Call, before: &Lent) -> Vec<Range> {
    match call.kind() {
        Kind::PowerUp => (0..before.control().length)
            .map(|place| before.log_entry(place))
            .collect(),
        Kind::Tally => Vec::new(),
        _ => before.buffered_ranges().collect(),
    }
}

/// The one entry that a call was refused for, where its span alone is not proper.
fn improper_for_span(call: Call, number: u64, before: &Lent, after: &Lent) -> Option<Range> {
    match (call.kind(), number) {
        (Kind::PowerUp, ENTRY) => {
            let place = after.answer[0] as usize;
            let range = before.log_entry(place);
            let persisted = before.control().persisted;
            let least_till = match place {
                0 => persisted + 1,
                _ => before.log_entry(place - 1).valid_till,
            };
            let has_proper_till = (least_till..=persisted + MOST_AHEAD).contains(&range.valid_till);
            (range.address < before.shape().lines && has_proper_till).then_some(range)
        }
        (_, BUFFER) => {
            let mut improper = before
                .buffered_ranges()
                .filter(|&range| !before.is_proper_in_buffer(range));
            let range = improper.next()?;
            let is_alone = improper.next().is_none() && before.is_proper_in_buffer_but_for_span(range);
            is_alone.then_some(range)
        }
        _ => None,
    }
}
