//! The scan calls of a pass: how one begins it, what a visit writes out and leaves, what the last step drops and keeps, and where
//! either is cut.

use super::{List, Seen, Turn};
use crate::call::Kind;
use crate::handwritten::layout::{SlotWord, MOST_AHEAD, MOST_ENTRIES, MOST_SLOTS};
use crate::interface::{BUFFER, FILTER, OK, REGS, SLOT};

pub static LISTS: [List; 6] = [
    List {
        kinds: &[Kind::Scan],
        turns: &BEGINNING,
    },
    List {
        kinds: &[Kind::Scan],
        turns: &OF_A_VISIT,
    },
    List {
        kinds: &[Kind::Scan],
        turns: &OF_THE_LAST_STEP,
    },
    List {
        kinds: &[Kind::Scan],
        turns: &OVER_A_CARRY,
    },
    List {
        kinds: &[Kind::Scan],
        turns: &OF_A_CUT,
    },
    List {
        kinds: &[Kind::Scan],
        turns: &OF_A_REFUSAL,
    },
];

const BEGINNING: [(&str, Turn); 5] = [
    ("begins a pass and writes slot 0 out, of P + 1", |seen| {
        seen.begins() && seen.writes_out(|tag| tag == seen.oldest())
    }),
    ("begins a pass for P + 1 where several epochs wait", |seen| {
        seen.begins() && seen.several_wait()
    }),
    ("begins a pass and leaves slot 0, of P + 2, which waits", |seen| {
        seen.begins() && seen.leaves(|tag| tag == seen.oldest() + 1 && tag < seen.registers.epoch)
    }),
    ("begins a pass and leaves slot 0, of the running epoch", |seen| {
        seen.begins() && seen.leaves(|tag| tag == seen.registers.epoch)
    }),
    ("none, and the target stays 0", |seen| {
        seen.is_none() && seen.registers == seen.registers_after && seen.registers.target == 0
    }),
];

/// All but the last three in a pass that has an epoch between the oldest and its target, and one between that and the running epoch.
const OF_A_VISIT: [(&str, Turn); 9] = [
    ("writes out a line of P + 1 in a pass over several epochs", |seen| {
        seen.is_amid() && seen.writes_out(|tag| tag == seen.oldest())
    }),
    (
        "writes out a line between P + 1 and the target of a pass over several epochs",
        |seen| seen.is_amid() && seen.writes_out(|tag| seen.oldest() < tag && tag < seen.target),
    ),
    (
        "writes out a line of the target of a pass over several epochs",
        |seen| seen.is_amid() && seen.writes_out(|tag| tag == seen.target),
    ),
    ("leaves a line of the epoch behind the target, which waits", |seen| {
        seen.is_amid() && seen.leaves(|tag| tag == seen.target + 1)
    }),
    (
        "leaves a line of the running epoch in a pass over several epochs",
        |seen| seen.is_amid() && seen.leaves(|tag| tag == seen.registers.epoch),
    ),
    ("flushes before a line of a pass over several epochs", |seen| {
        seen.is_amid() && seen.writes_out(|_| true) && seen.stores > 1
    }),
    ("visits slot 0 of a pass that was just begun", |seen| {
        seen.is_inside() && seen.registers.cursor == 0 && seen.steps_on()
    }),
    ("visits the last slot of a pass over several epochs", |seen| {
        seen.is_inside_several() && seen.registers.cursor + 1 == seen.slots && seen.steps_on()
    }),
    (
        "writes out the last of the most slots, of a later epoch than P + 1",
        |seen| {
            let is_last = seen.registers.cursor + 1 == MOST_SLOTS as u64;
            seen.steps_on() && is_last && seen.writes_out(|tag| tag > seen.oldest())
        },
    ),
];

const OF_THE_LAST_STEP: [(&str, Turn); 11] = [
    ("ends a pass over several epochs", |seen| seen.ends_several()),
    ("ends a pass for s - 1, and none waits then", |seen| {
        seen.ends_several() && seen.target == seen.newest()
    }),
    ("ends a pass over fifteen epochs", |seen| {
        seen.ends_several() && seen.is_over_most(seen.target)
    }),
    ("ends a pass for P + 1 where several epochs wait", |seen| {
        seen.ends() && !seen.is_inside_several() && seen.several_wait()
    }),
    ("drops entries of P + 1, of the target and between", |seen| {
        let has_edges = seen.drops(|till| till == seen.oldest()) && seen.drops(|till| till == seen.target);
        seen.ends_several() && has_edges && seen.drops(|till| seen.oldest() < till && till < seen.target)
    }),
    ("drops an entry of the target and keeps one of the next epoch", |seen| {
        let last_dropped = seen.dropped().last().copied();
        seen.ends_several() && last_dropped == Some(seen.target) && seen.first_kept() == Some(seen.target + 1)
    }),
    ("keeps an entry of the target behind one of a later epoch", |seen| {
        seen.ends_several() && seen.kept().contains(&seen.target)
    }),
    ("drops no entry in a pass over several epochs", |seen| {
        seen.ends_several() && seen.dropped().is_empty() && !seen.kept().is_empty()
    }),
    ("drops every entry in a pass over several epochs", |seen| {
        seen.ends_several() && !seen.dropped().is_empty() && seen.kept().is_empty()
    }),
    ("drops every entry of the longest log", |seen| {
        seen.ends_several() && seen.dropped().len() as u64 == MOST_ENTRIES
    }),
    ("drops entries of several epochs that it has just flushed", |seen| {
        let flushed = seen.dropped().get(seen.control.length..).unwrap_or(&[]);
        seen.ends_several() && flushed.iter().any(|&till| till > seen.oldest())
    }),
];

/// Epochs are compared whole: one is the earlier, although the low bits of it are the greater ones.
const OVER_A_CARRY: [(&str, Turn); 20] = [
    ("writes a line out, a carry into bit 8 before the target", |seen| {
        seen.writes_out(|tag| is_carry_between::<8>(tag, seen.target))
    }),
    ("writes a line out, a carry into bit 16 before the target", |seen| {
        seen.writes_out(|tag| is_carry_between::<16>(tag, seen.target))
    }),
    ("writes a line out, a carry into bit 24 before the target", |seen| {
        seen.writes_out(|tag| is_carry_between::<24>(tag, seen.target))
    }),
    ("writes a line out, a carry into bit 32 before the target", |seen| {
        seen.writes_out(|tag| is_carry_between::<32>(tag, seen.target))
    }),
    ("writes a line out, a carry into bit 39 before the target", |seen| {
        seen.writes_out(|tag| is_carry_between::<39>(tag, seen.target))
    }),
    ("leaves a line, a carry into bit 8 behind the target", |seen| {
        seen.leaves(|tag| is_carry_between::<8>(seen.target, tag))
    }),
    ("leaves a line, a carry into bit 16 behind the target", |seen| {
        seen.leaves(|tag| is_carry_between::<16>(seen.target, tag))
    }),
    ("leaves a line, a carry into bit 24 behind the target", |seen| {
        seen.leaves(|tag| is_carry_between::<24>(seen.target, tag))
    }),
    ("leaves a line, a carry into bit 32 behind the target", |seen| {
        seen.leaves(|tag| is_carry_between::<32>(seen.target, tag))
    }),
    ("leaves a line, a carry into bit 39 behind the target", |seen| {
        seen.leaves(|tag| is_carry_between::<39>(seen.target, tag))
    }),
    ("drops an entry, a carry into bit 8 before the target", |seen| {
        seen.drops(|till| is_carry_between::<8>(till, seen.target))
    }),
    ("drops an entry, a carry into bit 16 before the target", |seen| {
        seen.drops(|till| is_carry_between::<16>(till, seen.target))
    }),
    ("drops an entry, a carry into bit 24 before the target", |seen| {
        seen.drops(|till| is_carry_between::<24>(till, seen.target))
    }),
    ("drops an entry, a carry into bit 32 before the target", |seen| {
        seen.drops(|till| is_carry_between::<32>(till, seen.target))
    }),
    ("drops an entry, a carry into bit 39 before the target", |seen| {
        seen.drops(|till| is_carry_between::<39>(till, seen.target))
    }),
    ("keeps an entry, a carry into bit 8 behind the target", |seen| {
        seen.keeps(|till| is_carry_between::<8>(seen.target, till))
    }),
    ("keeps an entry, a carry into bit 16 behind the target", |seen| {
        seen.keeps(|till| is_carry_between::<16>(seen.target, till))
    }),
    ("keeps an entry, a carry into bit 24 behind the target", |seen| {
        seen.keeps(|till| is_carry_between::<24>(seen.target, till))
    }),
    ("keeps an entry, a carry into bit 32 behind the target", |seen| {
        seen.keeps(|till| is_carry_between::<32>(seen.target, till))
    }),
    ("keeps an entry, a carry into bit 39 behind the target", |seen| {
        seen.keeps(|till| is_carry_between::<39>(seen.target, till))
    }),
];

fn is_carry_between<const BIT: u32>(earlier: u64, later: u64) -> bool {
    earlier >> BIT < later >> BIT
}

const OF_A_CUT: [(&str, Turn); 8] = [
    (
        "a visit of a pass over several epochs is cut before its one store",
        |seen| seen.is_cut_visit() && seen.due == 1,
    ),
    (
        "a visit that flushes, of such a pass, is cut at its first store",
        |seen| seen.is_cut_visit() && seen.due > 1 && seen.stores == 0,
    ),
    ("the same is cut at a middle one", |seen| {
        seen.is_cut_visit() && (1..seen.due - 1).contains(&seen.stores)
    }),
    ("the same is cut at its last", |seen| {
        seen.is_cut_visit() && seen.due > 1 && seen.stores == seen.due - 1
    }),
    ("the last step of such a pass is cut before its one store", |seen| {
        seen.is_cut_end() && seen.due == 1
    }),
    (
        "the last step that flushes, of such a pass, is cut at its first store",
        |seen| seen.is_cut_end() && seen.due > 1 && seen.stores == 0,
    ),
    ("the same last step is cut at a middle one", |seen| {
        seen.is_cut_end() && (1..seen.due - 1).contains(&seen.stores)
    }),
    ("the same last step is cut at its last, which would persist", |seen| {
        seen.is_cut_end() && seen.due > 1 && seen.stores == seen.due - 1
    }),
];

const OF_A_REFUSAL: [(&str, Turn); 8] = [
    ("slot outside a pass, and the target stays 0", |seen| {
        seen.is_refused_outside(SLOT)
    }),
    ("regs for the count outside a pass, and the target stays 0", |seen| {
        seen.is_refused_outside(REGS)
    }),
    ("buffer outside a pass, and the target stays 0", |seen| {
        seen.is_refused_outside(BUFFER)
    }),
    ("filter outside a pass, and the target stays 0", |seen| {
        seen.is_refused_outside(FILTER)
    }),
    ("slot inside a pass over several epochs", |seen| {
        seen.number == SLOT && seen.is_inside_several()
    }),
    ("buffer inside a pass over several epochs", |seen| {
        seen.number == BUFFER && seen.is_inside_several()
    }),
    ("filter inside a pass over several epochs", |seen| {
        seen.number == FILTER && seen.is_inside_several()
    }),
    ("buffer before the last step of a pass over several epochs", |seen| {
        seen.number == BUFFER && seen.is_inside_several() && seen.is_at_end()
    }),
];

impl Seen {
    /// Accepted, and the cursor is one further in a pass with the right target.
    fn steps_on(&self) -> bool {
        let after = self.registers_after;
        self.number == OK && after.target == self.target && after.cursor == self.registers.cursor + 1
    }

    fn begins(&self) -> bool {
        !self.is_inside() && self.steps_on()
    }

    /// A visit in a pass over several epochs, one of them between the oldest and the target, and another waits behind that.
    fn is_amid(&self) -> bool {
        self.is_inside_several()
            && self.steps_on()
            && self.target > self.oldest() + 1
            && self.target + 1 < self.registers.epoch
    }

    /// The visited line is dirty before, with such a tag, and clean after.
    fn writes_out(&self, is_such: impl Fn(u64) -> bool) -> bool {
        self.visited.is_some_and(|[before, after]| {
            let is_clean_after = after == SlotWord::clean(before.address());
            before.is_valid_and_dirty() && is_such(before.tag()) && is_clean_after && self.stores > 0
        })
    }

    /// The visited line is dirty, with such a tag, and stays so.
    fn leaves(&self, is_such: impl Fn(u64) -> bool) -> bool {
        self.visited.is_some_and(|[before, after]| {
            before.is_valid_and_dirty() && is_such(before.tag()) && after == before && self.stores == 0
        })
    }

    /// The last step of a pass: its target is persisted, and the registers are outside a pass.
    fn ends(&self) -> bool {
        let after = self.registers_after;
        self.number == OK
            && self.is_at_end()
            && (after.target, after.cursor) == (0, 0)
            && self.value == self.target
            && self.control_after.persisted == self.target
    }

    fn ends_several(&self) -> bool {
        self.ends() && self.is_inside_several()
    }

    /// The ends of the entries that the last step has dropped, and of those that it has kept.
    fn dropped(&self) -> &[u64] {
        &self.tills[..self.tills.len().saturating_sub(self.control_after.length)]
    }

    fn kept(&self) -> &[u64] {
        &self.tills[self.dropped().len()..]
    }

    fn drops(&self, is_such: impl Fn(u64) -> bool) -> bool {
        self.ends() && self.dropped().iter().any(|&till| is_such(till))
    }

    /// It stops dropping at such an entry.
    fn keeps(&self, is_such: impl Fn(u64) -> bool) -> bool {
        self.ends() && self.first_kept().is_some_and(is_such)
    }

    fn first_kept(&self) -> Option<u64> {
        self.kept().first().copied()
    }

    fn is_cut_visit(&self) -> bool {
        self.is_cut() && self.is_inside_several() && self.visited.is_some()
    }

    fn is_cut_end(&self) -> bool {
        self.is_cut() && self.is_inside_several() && self.is_at_end()
    }

    /// Refused by this number with epochs waiting and no pass, which is not begun then.
    fn is_refused_outside(&self, number: u64) -> bool {
        let is_outside = self.registers.target == 0 && self.registers.cursor == 0;
        let has_epoch = self.some_wait() && self.registers.epoch <= self.persisted() + MOST_AHEAD;
        self.number == number && is_outside && has_epoch && self.registers == self.registers_after
    }
}
