//! The run of a trace on a new board after its power-up, as the paper has it, over the hand-written calls.

use super::file::calls_of;
use crate::call::{Call, Kind};
use crate::handwritten::names::name_of;
use crate::interface::{OK, SHAPE, TRACE};
use crate::memories::Loom;
use crate::sizes::Sizes;
use std::collections::BTreeSet;
use std::fmt;

/// The board stores that calls of each kind have made, modulo 2^64. A commit makes none.
#[derive(Clone, Copy, Debug, Default, PartialEq, Eq)]
pub struct Totals {
    pub loads: u64,
    pub stores: u64,
    pub evictions: u64,
    pub scans: u64,
}

impl Totals {
    fn count(&mut self, kind: Kind, stores: u64) {
        let total = match kind {
            Kind::Load => &mut self.loads,
            Kind::Store => &mut self.stores,
            Kind::Evict => &mut self.evictions,
            Kind::Scan => &mut self.scans,
            _ => return,
        };
        *total = total.wrapping_add(stores);
    }
}

/// How a run ended. It shows as the line that is printed, without the line feed.
#[derive(Debug, Default, PartialEq, Eq)]
pub struct Outcome {
    /// The number of what ended it.
    pub number: u64,
    pub totals: Totals,
    /// The numbers that its calls answered.
    pub answered: BTreeSet<u64>,
}

impl fmt::Display for Outcome {
    fn fmt(&self, out: &mut fmt::Formatter) -> fmt::Result {
        let Totals {
            loads,
            stores,
            evictions,
            scans,
        } = self.totals;
        write!(out, "{} {loads} {stores} {evictions} {scans}", name_of(self.number))
    }
}

/// A run that goes on.
pub struct Run {
    loom: Loom,
    totals: Totals,
    answered: BTreeSet<u64>,
}

impl Run {
    /// Formats a board and powers it up. An error is the outcome where that is refused.
    pub fn start(sizes: Sizes) -> Result<Self, Outcome> {
        let refused = |number| Outcome {
            number,
            ..Outcome::default()
        };
        if !sizes.fit_the_replay() {
            return Err(refused(SHAPE));
        }
        let (loom, answer) = Loom::start(sizes);
        match answer.number {
            OK => Ok(Run {
                loom,
                totals: Totals::default(),
                answered: BTreeSet::new(),
            }),
            number => Err(refused(number)),
        }
    }

    pub fn make(&mut self, call: Call) {
        let answer = self.loom.make(call);
        self.totals.count(call.kind(), answer.stores);
        self.answered.insert(answer.number);
    }

    pub fn end(self, number: u64) -> Outcome {
        Outcome {
            number,
            totals: self.totals,
            answered: self.answered,
        }
    }
}

/// Runs the trace in a file's bytes; None is a file that does not open, which shows at its first record.
pub fn run(sizes: Sizes, file: Option<&[u8]>) -> Outcome {
    let mut run = match Run::start(sizes) {
        Ok(run) => run,
        Err(outcome) => return outcome,
    };
    let Some(bytes) = file else {
        return run.end(TRACE);
    };
    for call in calls_of(bytes) {
        match call {
            Ok(call) => run.make(call),
            Err(number) => return run.end(number),
        }
    }
    run.end(OK)
}

#[cfg(test)]
mod tests {
    use super::*;

    #[test]
    fn totals_are_sums_modulo_2_to_the_64() {
        let mut totals = Totals::default();
        for (kind, stores) in [
            (Kind::Load, u64::MAX),
            (Kind::Store, 2),
            (Kind::Evict, 3),
            (Kind::Load, 6),
            (Kind::Scan, 4),
            (Kind::Commit, 9),
        ] {
            totals.count(kind, stores);
        }
        let expected = Totals {
            loads: 5,
            stores: 2,
            evictions: 3,
            scans: 4,
        };
        assert_eq!(totals, expected);
    }
}
