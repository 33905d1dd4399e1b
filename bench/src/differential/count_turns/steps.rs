//! How each step changes the count: a true one by what it does, and a wrong one that no test refuses by the same.

use super::{List, Turn, VISITING};
use crate::call::Kind;

/// The steps by which a slot may be dirty no more.
const LOWERING: &[Kind] = &[Kind::Load, Kind::Evict, Kind::Scan];

pub static LISTS: [List; 9] = [
    List {
        kinds: &[Kind::Load],
        turns: &OF_A_LOAD,
    },
    List {
        kinds: &[Kind::Store],
        turns: &OF_A_STORE,
    },
    List {
        kinds: &[Kind::Evict],
        turns: &OF_AN_EVICTION,
    },
    List {
        kinds: &[Kind::Scan],
        turns: &OF_A_SCAN,
    },
    List {
        kinds: &[Kind::Commit, Kind::Begin],
        turns: &[("keeps a count that is not 0", |seen| seen.keeps() && !seen.counts(0))],
    },
    List {
        kinds: &[Kind::PowerUp],
        turns: &OF_A_POWER_UP,
    },
    List {
        kinds: VISITING,
        turns: &[("a cut leaves 0 of a count", |seen| seen.is_cut() && seen.forgets())],
    },
    List {
        kinds: LOWERING,
        turns: &OF_A_LOWERING,
    },
    // A load takes a dirty slot where all four of a set are dirty, and no other.
    List {
        kinds: &[Kind::Evict, Kind::Scan],
        turns: &[("lowers a true count to 0", |seen| {
            seen.is_true() && seen.lowers() && seen.leaves(0)
        })],
    },
];

const OF_A_LOAD: [(&str, Turn); 5] = [
    ("lowers a true count of 4 to 3", |seen| {
        seen.is_true() && seen.lowers() && seen.leaves(3)
    }),
    ("lowers a true count for another line, dirty", |seen| {
        seen.is_true() && seen.lowers() && seen.visits_dirty() && !seen.is_held()
    }),
    ("keeps a true count for another line, clean", |seen| {
        seen.is_true() && seen.keeps() && seen.visits_clean() && !seen.is_held()
    }),
    ("keeps a true count for an empty slot", |seen| {
        seen.is_true() && seen.keeps() && seen.visits_empty()
    }),
    ("keeps a true count for its own line, dirty", |seen| {
        seen.is_true() && seen.keeps() && seen.visits_dirty() && seen.is_held()
    }),
];

const OF_A_STORE: [(&str, Turn); 11] = [
    ("raises a true count for an empty slot", |seen| {
        seen.is_true() && seen.raises() && seen.visits_empty()
    }),
    ("raises a true count for its own line, clean", |seen| {
        seen.is_true() && seen.raises() && seen.visits_clean() && seen.is_held()
    }),
    ("raises a true count for another line, clean", |seen| {
        seen.is_true() && seen.raises() && seen.visits_clean() && !seen.is_held()
    }),
    ("keeps a true count for another line, dirty", |seen| {
        seen.is_true() && seen.keeps() && seen.visits_dirty() && !seen.is_held()
    }),
    ("keeps a true count for its own line, of the running epoch", |seen| {
        seen.is_true() && seen.keeps() && seen.visits_newest() && seen.is_held()
    }),
    ("keeps a true count for its own line, of an earlier epoch", |seen| {
        seen.is_true() && seen.keeps() && seen.visits_dirty() && !seen.visits_newest() && seen.is_held()
    }),
    ("raises a true count to S", |seen| {
        seen.is_true() && seen.raises() && seen.leaves_all()
    }),
    ("keeps a true count of S for another line, dirty", |seen| {
        seen.is_true() && seen.keeps() && seen.counts_all() && !seen.is_held()
    }),
    ("raises a count that is one too high", |seen| {
        seen.is_one_too_high() && seen.raises()
    }),
    ("raises a count that is one too low", |seen| {
        seen.is_one_too_low() && seen.raises()
    }),
    ("raises a wrong count to S", |seen| {
        !seen.is_true() && seen.raises() && seen.leaves_all()
    }),
];

const OF_AN_EVICTION: [(&str, Turn); 4] = [
    ("lowers a true count for its own line, dirty", |seen| {
        seen.is_true() && seen.lowers() && seen.visits_dirty() && seen.is_held()
    }),
    ("keeps a true count for its own line, clean", |seen| {
        seen.is_true() && seen.keeps() && seen.visits_clean() && seen.is_held()
    }),
    ("keeps a true count for another line, dirty", |seen| {
        seen.is_true() && seen.keeps() && seen.visits_dirty() && !seen.is_held()
    }),
    ("keeps a true count for an empty slot", |seen| {
        seen.is_true() && seen.keeps() && seen.visits_empty()
    }),
];

const OF_A_SCAN: [(&str, Turn); 5] = [
    ("lowers a true count for a line that its pass persists", |seen| {
        seen.is_true() && seen.lowers() && seen.visits_target()
    }),
    ("keeps a true count for a dirty line of a later epoch", |seen| {
        seen.is_true() && seen.keeps() && seen.visits_dirty() && !seen.visits_target()
    }),
    ("keeps a true count for a clean line", |seen| {
        seen.is_true() && seen.keeps() && seen.visits_clean()
    }),
    ("keeps a true count for an empty slot", |seen| {
        seen.is_true() && seen.keeps() && seen.visits_empty()
    }),
    ("ends and keeps a true count that is not 0", |seen| {
        seen.is_true() && seen.keeps() && seen.is_scan_end() && !seen.counts(0)
    }),
];

const OF_A_POWER_UP: [(&str, Turn); 3] = [
    ("leaves 0 of a count", |seen| seen.is_ok() && seen.forgets()),
    ("a cut leaves 0 of a count", |seen| seen.is_cut() && seen.forgets()),
    ("a refusal leaves 0 of a count", |seen| {
        !seen.is_ok() && !seen.is_cut() && seen.forgets()
    }),
];

const OF_A_LOWERING: [(&str, Turn); 4] = [
    ("lowers a true count of S", |seen| {
        seen.is_true() && seen.lowers() && seen.counts_all()
    }),
    ("lowers a count that is one too high", |seen| {
        seen.is_one_too_high() && seen.lowers()
    }),
    ("lowers a count that is one too low", |seen| {
        seen.is_one_too_low() && seen.lowers()
    }),
    ("lowers a wrong count to 0", |seen| {
        !seen.is_true() && seen.lowers() && seen.leaves(0)
    }),
];
