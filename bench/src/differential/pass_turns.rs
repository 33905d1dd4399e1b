//! Rare turns of passes over several epochs: which targets begin takes, and what it is refused for; registers that are refused for
//! their target or cursor; what the scan calls of a pass write out, leave, drop and keep, and where they are cut; and the calls that
//! come between.

mod scans;
mod seen;

use super::count_turns::TESTING;
use super::turn_lists;
use crate::call::Kind;
use crate::handwritten::layout::LAST_EPOCH;
use crate::handwritten::old;
use crate::interface::{BUFFER, FILTER, OK, REGS, SHAPE, TARGET, WORK};
use crate::library::TOO_SHORT;
pub use seen::Seen;

type Turn = turn_lists::Turn<Seen>;
type List = turn_lists::List<Seen>;

/// Every list.
pub static ALL: [&[List]; 2] = [&LISTS, &scans::LISTS];

/// The calls that a pass may have between its scan calls, and those of them that may write a line out.
const BETWEEN: &[Kind] = &[Kind::Load, Kind::Store, Kind::Evict, Kind::Commit, Kind::Tally];
const WRITING: &[Kind] = &[Kind::Load, Kind::Store, Kind::Evict];

static LISTS: [List; 7] = [
    List {
        kinds: &[Kind::Begin],
        turns: &TAKEN,
    },
    List {
        kinds: &[Kind::Begin],
        turns: &REFUSED,
    },
    List {
        kinds: &[Kind::Begin],
        turns: &ORDER,
    },
    List {
        kinds: TESTING,
        turns: &OF_THE_REGISTERS,
    },
    List {
        kinds: BETWEEN,
        turns: &OF_A_CALL_BETWEEN,
    },
    List {
        kinds: WRITING,
        turns: &[(
            "writes a line out between the visits of a pass over several epochs",
            |seen| seen.is_between_visits() && seen.stores > 0,
        )],
    },
    List {
        kinds: &[Kind::PowerUp],
        turns: &OF_A_POWER_UP,
    },
];

const TAKEN: [(&str, Turn); 8] = [
    ("takes P + 1, and later epochs wait too", |seen| {
        seen.takes(seen.oldest()) && seen.several_wait()
    }),
    ("takes s - 1 for several epochs", |seen| {
        seen.takes(seen.newest()) && seen.several_wait()
    }),
    ("takes an epoch between P + 1 and s - 1", |seen| {
        seen.takes(seen.asked) && seen.oldest() < seen.asked && seen.asked < seen.newest()
    }),
    ("takes the one epoch that waits", |seen| {
        seen.takes(seen.newest()) && !seen.several_wait()
    }),
    ("takes fifteen epochs", |seen| {
        seen.takes(seen.newest()) && seen.is_over_most(seen.asked)
    }),
    ("takes the last epoch but one", |seen| {
        seen.takes(seen.newest()) && seen.is_last_running()
    }),
    ("is accepted where commit would answer waiting", |seen| {
        seen.number == OK && seen.is_over_most(seen.newest())
    }),
    ("is accepted with a full log", |seen| {
        seen.number == OK && seen.is_full_log()
    }),
];

/// The low bits that half a word has.
const HALF_A_WORD: u64 = u32::MAX as u64;

const REFUSED: [(&str, Turn); 17] = [
    ("target inside a pass that was just begun, alone", |seen| {
        seen.is_for_inside() && seen.registers.cursor == 0
    }),
    ("target inside a pass, between its visits, alone", |seen| {
        seen.is_for_inside() && seen.is_between()
    }),
    ("target inside a pass, before its last step, alone", |seen| {
        seen.is_for_inside() && seen.is_at_end()
    }),
    ("target inside a pass, for the epoch that it is for", |seen| {
        seen.is_for_inside() && seen.asked == seen.registers.target
    }),
    ("target inside a pass, for a later epoch", |seen| {
        seen.is_for_inside() && seen.asked > seen.registers.target
    }),
    ("target for P alone", |seen| {
        seen.is_for_range() && seen.asked == seen.persisted() && seen.asked > 0
    }),
    ("target for an epoch before P alone", |seen| {
        seen.is_for_range() && (1..seen.persisted()).contains(&seen.asked)
    }),
    ("target for 0 alone, P being 0", |seen| {
        seen.is_for_range() && seen.asked == 0 && seen.persisted() == 0
    }),
    ("target for 0 alone, P being another", |seen| {
        seen.is_for_range() && seen.asked == 0 && seen.persisted() > 0
    }),
    ("target for s alone", |seen| {
        seen.is_for_range() && seen.asked == seen.registers.epoch
    }),
    ("target for s + 1 alone", |seen| {
        seen.is_for_range() && seen.asked == seen.next_epoch()
    }),
    ("target for 2^64 - 1 alone", |seen| {
        seen.is_for_range() && seen.asked == u64::MAX
    }),
    ("target for bits from 24 to 31 alone", |seen| {
        seen.is_for_range() && seen.waits_in(old::LAST_EPOCH, seen.asked) && seen.asked <= HALF_A_WORD
    }),
    ("target for bits from 32 to 39 alone", |seen| {
        seen.is_for_range() && seen.waits_in(HALF_A_WORD, seen.asked) && seen.asked <= LAST_EPOCH
    }),
    ("target for bits above those of an epoch alone", |seen| {
        seen.is_for_range() && seen.waits_in(LAST_EPOCH, seen.asked)
    }),
    ("target for P + 1, which runs", |seen| {
        seen.is_for_none_waiting() && seen.asked == seen.oldest()
    }),
    ("target for P, and none waits", |seen| {
        seen.is_for_none_waiting() && seen.asked == seen.persisted()
    }),
];

const ORDER: [(&str, Turn); 6] = [
    ("short before target", |seen| seen.is_before_target(TOO_SHORT)),
    ("shape before target", |seen| seen.is_before_target(SHAPE)),
    ("work before target", |seen| seen.is_before_target(WORK)),
    ("regs before target", |seen| seen.is_before_target(REGS)),
    ("buffer before target", |seen| seen.is_before_target(BUFFER)),
    ("filter before target", |seen| seen.is_before_target(FILTER)),
];

/// Each of the first twelve is refused for this and for nothing else of the registers.
const OF_THE_REGISTERS: [(&str, Turn); 13] = [
    ("regs for a cursor outside a pass alone", |seen| {
        seen.is_for_cursor_outside() && seen.some_wait()
    }),
    ("regs for a cursor where none waits alone", |seen| {
        seen.is_for_cursor_outside() && !seen.some_wait()
    }),
    ("regs for a cursor of S + 1 in a pass alone", |seen| {
        seen.is_for_pass() && seen.is_waiting(seen.registers.target) && seen.registers.cursor == seen.slots + 1
    }),
    ("regs for the target P alone", |seen| {
        seen.is_for_target(seen.persisted()) && seen.some_wait()
    }),
    ("regs for a target before P alone", |seen| {
        seen.is_for_target(seen.registers.target) && seen.registers.target < seen.persisted()
    }),
    ("regs for the target s alone", |seen| {
        seen.is_for_target(seen.registers.epoch) && seen.some_wait()
    }),
    ("regs for the target s + 1 alone", |seen| {
        seen.is_for_target(seen.next_epoch())
    }),
    ("regs for the target P + 1, which runs, alone", |seen| {
        seen.is_for_target(seen.oldest()) && !seen.some_wait()
    }),
    ("regs for the target 2^64 - 1 alone", |seen| {
        seen.is_for_target(u64::MAX)
    }),
    ("regs for bits of the target from 24 to 31 alone", |seen| {
        let target = seen.registers.target;
        seen.is_for_target(target) && seen.waits_in(old::LAST_EPOCH, target) && target <= HALF_A_WORD
    }),
    ("regs for bits of the target from 32 to 39 alone", |seen| {
        let target = seen.registers.target;
        seen.is_for_target(target) && seen.waits_in(HALF_A_WORD, target) && target <= LAST_EPOCH
    }),
    ("regs for bits of the target above those of an epoch alone", |seen| {
        let target = seen.registers.target;
        seen.is_for_target(target) && seen.waits_in(LAST_EPOCH, target)
    }),
    (
        "is not refused for its registers inside a pass over several epochs",
        |seen| [OK, TARGET].contains(&seen.number) && seen.is_inside_several(),
    ),
];

const OF_A_CALL_BETWEEN: [(&str, Turn); 3] = [
    (
        "is accepted in a pass over several epochs that was just begun",
        |seen| seen.keeps_several() && seen.registers.cursor == 0,
    ),
    ("is accepted between the visits of a pass over several epochs", |seen| {
        seen.is_between_visits()
    }),
    (
        "is accepted before the last step of a pass over several epochs",
        |seen| seen.keeps_several() && seen.is_at_end(),
    ),
];

const OF_A_POWER_UP: [(&str, Turn); 3] = [
    ("forgets a pass over several epochs", |seen| {
        seen.number == OK && seen.forgets_several()
    }),
    ("a cut forgets a pass over several epochs", |seen| {
        seen.is_cut() && seen.forgets_several()
    }),
    ("a refusal forgets a pass over several epochs", |seen| {
        [SHAPE, WORK].contains(&seen.number) && seen.forgets_several()
    }),
];
