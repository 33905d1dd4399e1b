//! Rare turns of the count of dirty slots: what is refused for it and in which place among the tests, which calls do not test
//! it, and, in steps.rs, how each step changes it.

mod seen;
mod steps;

use super::turn_lists;
use crate::call::Kind;
use crate::interface::{BUFFER, CUT, FILTER, LAST, NONE, ROOM, WAITING};
pub use seen::Seen;

type Turn = turn_lists::Turn<Seen>;
type List = turn_lists::List<Seen>;

/// The calls that visit the set of an address, those that visit a set or a slot, and those that test the registers.
const WITH_ADDRESS: &[Kind] = &[Kind::Load, Kind::Store, Kind::Evict];
const VISITING: &[Kind] = &[Kind::Load, Kind::Store, Kind::Evict, Kind::Scan];
pub const TESTING: &[Kind] = &[
    Kind::Load,
    Kind::Store,
    Kind::Evict,
    Kind::Commit,
    Kind::Begin,
    Kind::Scan,
    Kind::Tally,
];

/// The calls that are lent registers.
const TAKING: &[Kind] = &[
    Kind::PowerUp,
    Kind::Load,
    Kind::Store,
    Kind::Evict,
    Kind::Commit,
    Kind::Begin,
    Kind::Scan,
    Kind::Tally,
];

/// Every list.
pub static ALL: [&[List]; 2] = [&LISTS, &steps::LISTS];

static LISTS: [List; 8] = [
    List {
        kinds: TAKING,
        turns: &OF_THE_ARRAY,
    },
    List {
        kinds: WITH_ADDRESS,
        turns: &OF_AN_ADDRESS,
    },
    List {
        kinds: VISITING,
        turns: &OF_A_VISIT,
    },
    List {
        kinds: TESTING,
        turns: &OF_THE_REGISTERS,
    },
    List {
        kinds: &[Kind::Store],
        turns: &[("regs for the count, before room", |seen| {
            seen.is_by_test() && seen.would_be() == ROOM
        })],
    },
    List {
        kinds: &[Kind::Scan],
        turns: &OF_A_SCAN,
    },
    List {
        kinds: &[Kind::Commit, Kind::Begin, Kind::Tally],
        turns: &WITHOUT_THE_TEST,
    },
    List {
        kinds: &[Kind::Tally],
        turns: &OF_A_TALLY,
    },
];

const OF_THE_ARRAY: [(&str, Turn); 2] = [
    ("short for one register word alone", |seen| {
        seen.is_short() && seen.has_answer() && seen.lacks_one_register()
    }),
    ("is accepted with words behind the registers", |seen| {
        seen.is_ok() && seen.has_more_than_registers()
    }),
];

const OF_AN_ADDRESS: [(&str, Turn); 11] = [
    ("regs for a count of 0 beside its own line, dirty", |seen| {
        seen.is_by_test() && seen.is_none_beside_dirty() && seen.is_held() && seen.visits_dirty()
    }),
    ("regs for a count of 0 beside other lines alone, all dirty", |seen| {
        seen.is_by_test() && seen.is_none_beside_dirty() && !seen.is_held() && seen.visits_dirty()
    }),
    (
        "regs for a count of 0 beside another line, dirty, its own being clean",
        |seen| seen.is_by_test() && seen.is_none_beside_dirty() && seen.is_held() && seen.visits_clean(),
    ),
    (
        "regs for a count of 0 beside another line, dirty, with an empty slot",
        |seen| seen.is_by_test() && seen.is_none_beside_dirty() && !seen.is_held() && seen.visits_empty(),
    ),
    ("regs for a count of 0 beside the last slot alone, dirty", |seen| {
        seen.is_by_test() && seen.is_none_beside_dirty() && seen.is_dirty_in_last_alone()
    }),
    ("regs for a count of S beside its own line, clean", |seen| {
        seen.is_by_test() && seen.is_all_beside_not_dirty() && seen.visits_clean() && seen.is_held()
    }),
    ("regs for a count of S beside another line, clean", |seen| {
        seen.is_by_test() && seen.is_all_beside_not_dirty() && seen.visits_clean() && !seen.is_held()
    }),
    (
        "regs for a count of S beside another slot, not dirty, its own line being dirty",
        |seen| seen.is_by_test() && seen.is_all_beside_not_dirty() && seen.visits_dirty() && seen.is_held(),
    ),
    ("address, and a count of 0 beside a dirty slot", |seen| {
        seen.is_for_address() && seen.is_none_beside_dirty()
    }),
    ("address, and a count of S beside a slot that is not dirty", |seen| {
        seen.is_for_address() && seen.is_all_beside_not_dirty()
    }),
    ("regs for a count above S, before address", |seen| {
        seen.is_for_excess() && seen.is_beyond()
    }),
];

const OF_A_VISIT: [(&str, Turn); 7] = [
    ("regs for a count above S, before slot", |seen| {
        seen.is_for_excess() && seen.visits_invalid()
    }),
    ("regs for a count of S beside an empty slot", |seen| {
        seen.is_by_test() && seen.is_all_beside_not_dirty() && seen.visits_empty()
    }),
    ("slot, and a count of 0 beside a dirty slot", |seen| {
        seen.is_for_slot() && seen.is_none_beside_dirty()
    }),
    ("slot, and a count of S beside a slot that is not dirty", |seen| {
        seen.is_for_slot() && seen.is_all_beside_not_dirty()
    }),
    ("regs for the count, before buffer", |seen| {
        seen.is_by_test() && seen.would_be() == BUFFER
    }),
    ("regs for the count, before filter", |seen| {
        seen.is_by_test() && seen.would_be() == FILTER
    }),
    ("regs for the count, before a cut", |seen| {
        seen.is_by_test() && seen.would_be() == CUT
    }),
];

/// A count that is cut to so many bits may be a proper one.
const HALF_A_WORD: u32 = 32;

const OF_THE_REGISTERS: [(&str, Turn); 5] = [
    ("regs for a count of S + 1 alone", |seen| {
        seen.is_for_excess() && seen.excess() == 1
    }),
    ("regs for a count of 2^64 - 1 alone", |seen| {
        seen.is_for_excess() && seen.counts(u64::MAX)
    }),
    ("regs for a count whose upper 32 bits alone are too much", |seen| {
        seen.is_for_excess() && seen.is_proper_in(HALF_A_WORD)
    }),
    ("is accepted with a count of S", |seen| {
        seen.is_ok() && seen.counts_all()
    }),
    ("is accepted with a wrong count", |seen| seen.is_ok() && !seen.is_true()),
];

const OF_A_SCAN: [(&str, Turn); 5] = [
    ("regs for a count of 0 beside a dirty slot", |seen| {
        seen.is_by_test() && seen.is_none_beside_dirty()
    }),
    ("regs for a count of S beside a clean slot", |seen| {
        seen.is_by_test() && seen.is_all_beside_not_dirty() && seen.visits_clean()
    }),
    ("regs for the count, before none", |seen| {
        seen.is_by_test() && seen.would_be() == NONE
    }),
    ("ends with a count of 0 and every slot dirty", |seen| {
        seen.is_scan_end() && seen.keeps() && seen.counts(0) && seen.every_slot_is_dirty()
    }),
    ("ends with a count of S and no slot dirty", |seen| {
        seen.is_scan_end() && seen.keeps() && seen.counts_all() && seen.no_slot_is_dirty()
    }),
];

const WITHOUT_THE_TEST: [(&str, Turn); 3] = [
    ("is accepted with a count of 0 and every slot dirty", |seen| {
        seen.keeps() && seen.counts(0) && seen.every_slot_is_dirty()
    }),
    ("is accepted with a count of S and no slot dirty", |seen| {
        seen.keeps() && seen.counts_all() && seen.no_slot_is_dirty()
    }),
    ("is accepted beside an invalid slot", |seen| {
        seen.is_ok() && seen.has_invalid_slot()
    }),
];

const OF_A_TALLY: [(&str, Turn); 6] = [
    ("answers a true count between 0 and S", |seen| {
        seen.answers_count() && seen.is_true() && !seen.counts(0) && !seen.counts_all()
    }),
    ("answers a wrong count", |seen| seen.answers_count() && !seen.is_true()),
    ("is accepted where commit answers buffer", |seen| {
        seen.is_ok() && seen.would_be() == BUFFER
    }),
    ("is accepted where commit answers filter", |seen| {
        seen.is_ok() && seen.would_be() == FILTER
    }),
    ("is accepted where commit answers waiting", |seen| {
        seen.is_ok() && seen.would_be() == WAITING
    }),
    ("is accepted where commit answers last", |seen| {
        seen.is_ok() && seen.would_be() == LAST
    }),
];
