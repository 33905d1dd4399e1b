//! What a call would be refused for, or be cut, behind the test that has refused it.

use super::sides::Lent;
use crate::call::{Call, Kind, NO_CUT};
use crate::handwritten::layout::{SlotWord, LAST_EPOCH, MOST_AHEAD};
use crate::interface::{BUFFER, CUT, FILTER, LAST, NONE, OK, ROOM, TARGET, WAITING};
use crate::placement::Placement;
use crate::write_out::WriteOut;

/// Each by itself: several may hold.
#[derive(Default)]
pub struct WouldBe {
    pub with_improper_entry: bool,
    pub with_unset_bit: bool,
    pub without_room: bool,
    pub waiting: bool,
    pub last: bool,
    pub none: bool,
    pub target: bool,
    pub cut: bool,
}

impl WouldBe {
    /// What a call on a board of a right shape would be, with proper registers.
    pub fn of(call: Call, lent: &Lent) -> Self {
        let control = lent.control();
        let registers = lent.registers();
        let ahead = registers.epoch - control.persisted;
        let kind = call.kind();
        let none = kind == Kind::Scan && ahead == 1;
        let entries = control.length as u64 + registers.buffered;
        let write_out = WriteOut::of(call, &lent.board, &lent.work, registers);
        WouldBe {
            with_improper_entry: lent.buffered_ranges().any(|range| !lent.is_proper_in_buffer(range)),
            with_unset_bit: lent
                .buffered_ranges()
                .any(|range| lent.has_bits_of(range.address).contains(&false)),
            without_room: owes_entry(call, lent) && entries == lent.shape().entries,
            waiting: kind == Kind::Commit && ahead == MOST_AHEAD,
            last: kind == Kind::Commit && registers.epoch == LAST_EPOCH,
            none,
            target: has_refused_target(call, lent),
            cut: allowance(call) == 0 && write_out.is_some() && !none,
        }
    }

    /// The number that it would answer, in the order of the tests.
    pub fn number(&self) -> u64 {
        let in_order = [
            (self.with_improper_entry, BUFFER),
            (self.with_unset_bit, FILTER),
            (self.without_room, ROOM),
            (self.waiting, WAITING),
            (self.last, LAST),
            (self.none, NONE),
            (self.target, TARGET),
            (self.cut, CUT),
        ];
        let first = in_order.iter().find(|(holds, _)| *holds);
        first.map_or(OK, |&(_, number)| number)
    }
}

fn owes_entry(call: Call, lent: &Lent) -> bool {
    let Call::Store { address, .. } = call else {
        return false;
    };
    let is_newest = |word: SlotWord| word.is_dirty() && word.tag() == lent.registers().epoch;
    !Placement::of(&lent.work, address).is_some_and(|place| place.is_held && is_newest(place.word))
}

/// Whether it is a begin call inside a pass, or for an epoch that does not wait, going by a board's first word and any registers.
pub fn has_refused_target(call: Call, lent: &Lent) -> bool {
    let Call::Begin { target } = call else {
        return false;
    };
    let registers = lent.registers();
    let waits = lent.control().persisted < target && target < registers.epoch;
    registers.target != 0 || !waits
}

/// The allowance of a call that may write a line out.
fn allowance(call: Call) -> u32 {
    match call {
        Call::Load { allowance, .. }
        | Call::Store { allowance, .. }
        | Call::Evict { allowance, .. }
        | Call::Scan { allowance } => allowance,
        _ => NO_CUT,
    }
}
