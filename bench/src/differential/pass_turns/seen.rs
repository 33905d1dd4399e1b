//! What a call that takes registers shows of the pass that it is inside of, begins or ends.

use crate::call::{Call, NO_CUT};
use crate::differential::sides::{on_handwritten, Lent};
use crate::differential::would_be::has_refused_target;
use crate::handwritten::layout::{Control, SlotWord, BUFFER_ENTRIES, LAST_EPOCH, MOST_AHEAD, MOST_WAITING};
use crate::handwritten::Registers;
use crate::interface::{ANSWER_WORDS, CUT, NONE, OK, REGS, TARGET};
use crate::write_out::scan_target;

/// A call that is lent a board's first words and whole registers.
pub struct Seen {
    pub number: u64,
    pub value: u64,
    pub stores: u64,
    pub slots: u64,
    /// Before and after.
    pub control: Control,
    pub control_after: Control,
    pub registers: Registers,
    pub registers_after: Registers,
    /// The log's size, L.
    pub entries: u64,
    /// The target that a begin call was asked for.
    pub asked: u64,
    /// The pass that a scan call is a step of has this target.
    pub target: u64,
    /// The slot at the scan's cursor, before and after.
    pub visited: Option<[SlotWord; 2]>,
    /// The ValidTills of log and buffer, oldest first, that the last step of a pass looks at.
    pub tills: Vec<u64>,
    /// The board stores that were due where a scan was cut.
    pub due: u64,
    others_are_proper: bool,
    has_refused_target: bool,
}

impl Seen {
    pub fn new(call: Call, number: u64, before: &Lent, after: &Lent) -> Option<Self> {
        if !call.takes_registers() || !before.has_head() || !before.has_registers() {
            return None;
        }
        let (control, registers) = (before.control(), before.registers());
        let answer = |place: usize| after.answer.get(place).copied().unwrap_or(0);
        let mut seen = Seen {
            number,
            value: answer(0),
            stores: answer(1),
            slots: before.slots() as u64,
            control,
            control_after: after.control(),
            registers,
            registers_after: after.registers(),
            entries: before.shape().entries,
            asked: 0,
            target: scan_target(control, registers),
            visited: None,
            tills: Vec::new(),
            due: 0,
            others_are_proper: number == REGS && are_proper_but_for_the_pass(before),
            has_refused_target: has_refused_target(call, before),
        };
        match call {
            Call::Begin { target } => seen.asked = target,
            Call::Scan { .. } => seen.look_at_scan(before, after),
            _ => {}
        }
        Some(seen)
    }

    fn look_at_scan(&mut self, before: &Lent, after: &Lent) {
        if ![OK, CUT].contains(&self.number) {
            return;
        }
        let cursor = self.registers.cursor as usize;
        if cursor < before.slots() {
            self.visited = Some([before.slot(cursor), after.slot(cursor)]);
        } else if self.number == OK {
            let log = (0..self.control.length).map(|place| before.log_entry(place));
            let ranges = log.chain(before.buffered_ranges());
            self.tills = ranges.map(|range| range.valid_till).collect();
        }
        if self.number == CUT {
            self.due = stores_due(before);
        }
    }

    pub fn persisted(&self) -> u64 {
        self.control.persisted
    }

    /// The oldest epoch that may wait, and the newest.
    pub fn oldest(&self) -> u64 {
        self.persisted() + 1
    }

    pub fn newest(&self) -> u64 {
        self.registers.epoch.saturating_sub(1)
    }

    pub fn some_wait(&self) -> bool {
        self.registers.epoch > self.oldest()
    }

    pub fn several_wait(&self) -> bool {
        self.registers.epoch > self.oldest() + 1
    }

    pub fn is_waiting(&self, epoch: u64) -> bool {
        self.persisted() < epoch && epoch < self.registers.epoch
    }

    /// These low bits of a number are an epoch that waits, and the number is not.
    pub fn waits_in(&self, low_bits: u64, number: u64) -> bool {
        self.is_waiting(number & low_bits) && !self.is_waiting(number)
    }

    pub fn is_last_running(&self) -> bool {
        self.registers.epoch == LAST_EPOCH
    }

    pub fn is_full_log(&self) -> bool {
        self.control.length as u64 + self.registers.buffered == self.entries
    }

    pub fn next_epoch(&self) -> u64 {
        self.registers.epoch.saturating_add(1)
    }

    /// A pass with this target persists as many epochs as may wait.
    pub fn is_over_most(&self, target: u64) -> bool {
        target == self.persisted() + MOST_WAITING
    }

    /// No epoch waits, and a scan says so.
    pub fn is_none(&self) -> bool {
        self.number == NONE
    }

    pub fn is_cut(&self) -> bool {
        self.number == CUT
    }

    /// A begin call takes this target, and changes nothing else of the registers.
    pub fn takes(&self, target: u64) -> bool {
        let begun = Registers {
            target,
            ..self.registers
        };
        self.number == OK && self.asked == target && self.registers_after == begun
    }

    /// Refused for being inside a pass, and for nothing of the target.
    pub fn is_for_inside(&self) -> bool {
        self.number == TARGET && self.registers.target != 0 && self.is_waiting(self.asked)
    }

    /// Refused for its target, outside a pass and with an epoch waiting.
    pub fn is_for_range(&self) -> bool {
        self.number == TARGET && self.registers.target == 0 && self.some_wait()
    }

    pub fn is_for_none_waiting(&self) -> bool {
        self.number == TARGET && !self.some_wait()
    }

    /// Answered this although 15 would hold as well.
    pub fn is_before_target(&self, number: u64) -> bool {
        self.number == number && self.has_refused_target
    }

    /// Refused for cursor or target: nothing else of the registers is improper.
    pub fn is_for_pass(&self) -> bool {
        let is_outside = self.registers.target == 0 && self.registers.cursor == 0;
        let is_inside = self.is_waiting(self.registers.target) && self.registers.cursor <= self.slots;
        self.number == REGS && self.others_are_proper && !is_outside && !is_inside
    }

    pub fn is_for_cursor_outside(&self) -> bool {
        self.is_for_pass() && self.registers.target == 0 && self.registers.cursor <= self.slots
    }

    /// Refused for this target, which is not 0, and not for the cursor.
    pub fn is_for_target(&self, target: u64) -> bool {
        let is_it = self.registers.target == target && target != 0;
        is_it && self.is_for_pass() && self.registers.cursor <= self.slots
    }

    pub fn is_inside(&self) -> bool {
        self.registers.target != 0
    }

    pub fn is_inside_several(&self) -> bool {
        self.is_waiting(self.registers.target) && self.registers.target > self.oldest()
    }

    /// The cursor is at a slot that is not the first.
    pub fn is_between(&self) -> bool {
        (1..self.slots).contains(&self.registers.cursor)
    }

    pub fn is_at_end(&self) -> bool {
        self.registers.cursor == self.slots
    }

    /// Accepted inside a pass over several epochs, which stays where it is.
    pub fn keeps_several(&self) -> bool {
        let pass = |registers: Registers| (registers.cursor, registers.target);
        self.number == OK && self.is_inside_several() && pass(self.registers) == pass(self.registers_after)
    }

    pub fn is_between_visits(&self) -> bool {
        self.keeps_several() && self.is_between()
    }

    pub fn forgets_several(&self) -> bool {
        self.is_inside_several() && self.registers_after.target == 0 && self.registers_after.cursor == 0
    }
}

/// The board stores that a scan call makes if it is not cut.
fn stores_due(before: &Lent) -> u64 {
    let mut uncut = before.clone();
    uncut.answer = vec![0; ANSWER_WORDS];
    on_handwritten(Call::Scan { allowance: NO_CUT }.into(), &mut uncut);
    uncut.answer[1]
}

fn are_proper_but_for_the_pass(lent: &Lent) -> bool {
    let Control { persisted, length, .. } = lent.control();
    let Registers {
        epoch, buffered, dirty, ..
    } = lent.registers();
    let epoch_is_proper = persisted < epoch && epoch <= LAST_EPOCH.min(persisted + MOST_AHEAD);
    let has_room = buffered < BUFFER_ENTRIES as u64 && length as u64 + buffered <= lent.shape().entries;
    epoch_is_proper && has_room && dirty <= lent.slots() as u64
}
