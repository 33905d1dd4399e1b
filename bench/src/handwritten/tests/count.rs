//! The count of dirty slots, worked by hand from the paper: what each step makes of it, and the tally. refusals.rs has what is
//! refused for it.

mod refusals;

use super::{answer, Loom};
use crate::call::{Call, NO_CUT};
use crate::handwritten::layout::{Control, SlotWord, CONTROL_PLACE, LAST_EPOCH};
use crate::handwritten::Registers;
use crate::interface::{Answer, RegisterWords, REGISTER_NAMES};

impl Loom {
    /// The slots whose words begin with valid and dirty.
    fn dirty_slots(&self) -> u64 {
        let slot_words = self.work[..2 * self.sizes.slots as usize].iter().step_by(2);
        slot_words.filter(|&word| word >> 62 == 0b11).count() as u64
    }

    /// Makes a call that is accepted and gives the count that it leaves, which has to be true.
    fn count_after(&mut self, call: Call) -> u64 {
        assert_eq!(self.make(call).number, 0, "{call}");
        assert_eq!(self.registers.dirty, self.dirty_slots(), "{call}");
        self.registers.dirty
    }

    fn tally(&mut self) -> Answer {
        self.without_change(Call::Tally)
    }
}

#[test]
fn the_count_is_the_fourth_register() {
    let registers = Registers {
        epoch: 5,
        buffered: 6,
        cursor: 7,
        dirty: 8,
        target: 9,
    };
    assert_eq!(RegisterWords::from(registers), [5, 6, 7, 8, 9]);
    assert_eq!(Registers::from([5, 6, 7, 8, 9]), registers);
    assert_eq!(REGISTER_NAMES[..4], ["s", "b", "c", "d"]);
}

#[test]
fn a_store_raises_it_where_a_line_becomes_dirty() {
    let mut loom = Loom::new(8, 16, 4);
    assert_eq!(loom.registers.dirty, 0);
    // An empty slot; the line again; another slot.
    assert_eq!(loom.count_after(Call::store(0, 7)), 1);
    assert_eq!(loom.count_after(Call::store(0, 8)), 1);
    assert_eq!(loom.count_after(Call::store(1, 7)), 2);
    // A dirty line of an earlier epoch makes an entry and stays dirty.
    assert_eq!(loom.count_after(Call::COMMIT), 2);
    assert_eq!(loom.count_after(Call::store(0, 9)), 2);
    assert_eq!(loom.registers.buffered, 3);
    assert_eq!(loom.count_after(Call::store(2, 7)), 3);
    assert_eq!(loom.count_after(Call::store(3, 7)), 4);
    // Another dirty line goes, and the new one is dirty.
    assert_eq!(loom.count_after(Call::store(4, 7)), 4);
    // Clean lines: the one that is held, and another.
    assert_eq!(loom.count_after(Call::load(5)), 3);
    assert_eq!(loom.count_after(Call::store(5, 7)), 4);
    assert_eq!(loom.count_after(Call::load(6)), 3);
    assert_eq!(loom.count_after(Call::store(7, 7)), 4);
}

#[test]
fn a_load_and_an_eviction_lower_it_where_a_dirty_line_goes() {
    let mut loom = Loom::new(8, 16, 4);
    for address in 0..4 {
        loom.store(address, 7);
    }
    assert_eq!(loom.count_after(Call::load(0)), 4);
    assert_eq!(loom.count_after(Call::load(4)), 3);
    assert_eq!(loom.count_after(Call::load(5)), 3);
    assert_eq!(loom.count_after(Call::evict(0)), 3);
    assert_eq!(loom.count_after(Call::evict(5)), 3);
    assert_eq!(loom.count_after(Call::evict(5)), 3);
    assert_eq!(loom.count_after(Call::load(0)), 3);
    // Line 6 belongs in the set of line 1, which stays there.
    assert_eq!(loom.count_after(Call::evict(6)), 3);
    assert_eq!(loom.count_after(Call::evict(1)), 2);
    assert_eq!(loom.line(1), 7);
}

#[test]
fn a_scan_lowers_it_for_lines_of_its_target_alone() {
    let mut loom = Loom::new(4, 8, 4);
    loom.store(0, 7);
    loom.store(1, 7);
    loom.store(2, 7);
    loom.load(3);
    loom.commit();
    loom.store(1, 8);
    assert_eq!(loom.registers.dirty, 3);
    // Lines 0 and 2 are of epoch 1, line 1 is of epoch 2, line 3 is clean; the fifth call persists epoch 1.
    for (count, value) in [(2, 0), (2, 0), (1, 0), (1, 0), (1, 1)] {
        assert_eq!(loom.make(Call::SCAN).value, value);
        assert_eq!((loom.registers.dirty, loom.dirty_slots()), (count, count));
    }
    // Epoch 2: a clean line, line 1, another clean one, and so on.
    loom.commit();
    for count in [1, 0, 0, 0, 0] {
        assert_eq!(loom.count_after(Call::SCAN), count);
    }
}

#[test]
fn a_full_buffer_and_a_full_cache() {
    let mut loom = Loom::new(64, 64, 32);
    for address in 0..31 {
        assert_eq!(loom.count_after(Call::store(address, 1)), address + 1);
    }
    // The 32nd entry flushes, and the last slot becomes dirty.
    assert_eq!(loom.count_after(Call::store(31, 1)), 32);
    assert_eq!(loom.registers.buffered, 0);
    // Line 63 belongs in set 7 of 8, and takes the slot of line 7: all slots stay dirty.
    assert_eq!(loom.count_after(Call::store(63, 1)), 32);
    assert_eq!(loom.count_after(Call::load(7)), 31);
}

#[test]
fn power_up_leaves_none() {
    let mut loom = Loom::new(4, 8, 4);
    loom.store(0, 7);
    loom.store(1, 7);
    assert_eq!(loom.registers.dirty, 2);
    assert_eq!(loom.count_after(Call::POWER_UP), 0);
    // Whatever registers and work memory it is lent.
    loom.work.fill(u64::MAX);
    loom.registers = Registers::from([u64::MAX; 5]);
    assert_eq!(loom.count_after(Call::POWER_UP), 0);
    assert_eq!(loom.registers, Registers::from([1, 0, 0, 0, 0]));
}

#[test]
fn a_cut_and_a_refused_power_up_leave_none() {
    let loom = || {
        let mut loom = Loom::new(8, 8, 4);
        for address in 0..4 {
            loom.store(address, 7);
        }
        loom.commit();
        loom
    };
    let calls = [
        Call::Load {
            address: 4,
            allowance: 5,
        },
        Call::Store {
            address: 4,
            data: 9,
            allowance: 5,
        },
        Call::Evict {
            address: 0,
            allowance: 0,
        },
        Call::Scan { allowance: 1 },
        Call::PowerUp { allowance: 0 },
    ];
    for call in calls {
        let mut loom = loom();
        assert_eq!(loom.make(call).number, 12, "{call}");
        assert_eq!(loom.registers, Registers::default(), "{call}");
        assert_eq!(loom.dirty_slots(), 0, "{call}");
    }
    let mut loom = loom();
    loom.work.push(0);
    assert_eq!(loom.power_up(), answer(2, 0, 0));
    assert_eq!(loom.registers, Registers::default());
}

#[test]
fn a_store_that_is_cut_behind_its_line_leaves_none() {
    // Lines 0, 10, 20 and 30 fill set 0 of 10, so that line 40 takes the slot of line 0. That is stored first, its entry
    // being in the log; then the 32nd entry flushes: 1 + 2 * 32 + 1.
    let mut loom = Loom::new(64, 64, 40);
    loom.store(0, 7);
    loom.store(1, 7);
    assert_eq!(loom.evict(1, NO_CUT), answer(0, 1, 6));
    for address in 2..33 {
        loom.store(address, 7);
    }
    assert_eq!(loom.registers.dirty, 32);
    let cut = Call::Store {
        address: 40,
        data: 7,
        allowance: 65,
    };
    assert_eq!(loom.make(cut), answer(12, 0, 65));
    assert_eq!(loom.registers, Registers::default());
}

#[test]
fn the_tally_is_read_from_the_registers() {
    let mut loom = Loom::new(4, 8, 4);
    assert_eq!(loom.tally(), answer(0, 0, 0));
    loom.store(1, 7);
    assert_eq!(loom.tally(), answer(0, 1, 0));
    loom.store(0, 7);
    assert_eq!(loom.tally(), answer(0, 2, 0));
    // The slots are nothing to it, nor are buffer and filter.
    loom.work.fill(0);
    assert_eq!(loom.tally(), answer(0, 2, 0));
    loom.work.fill(u64::MAX);
    loom.registers.dirty = 0;
    assert_eq!(loom.tally(), answer(0, 0, 0));
    loom.registers.dirty = 1;
    assert_eq!(loom.tally(), answer(0, 1, 0));
}

#[test]
fn the_tally_is_given_where_commit_answers_more_than_4() {
    let mut loom = Loom::new(4, 8, 4);
    loom.store(1, 7);
    loom.work[2 * 4 + 64..].fill(0);
    assert_eq!(loom.commit(), answer(14, 0, 0));
    assert_eq!(loom.tally(), answer(0, 1, 0));
    loom.work[2 * 4] = 0;
    assert_eq!(loom.commit(), answer(7, 0, 0));
    assert_eq!(loom.tally(), answer(0, 1, 0));

    let mut loom = Loom::new(4, 8, 4);
    for _ in 1..16 {
        loom.commit();
    }
    assert_eq!(loom.commit(), answer(9, 0, 0));
    assert_eq!(loom.tally(), answer(0, 0, 0));

    let mut loom = Loom::new(4, 8, 4);
    loom.board[CONTROL_PLACE] = Control {
        persisted: LAST_EPOCH - 1,
        start: 0,
        length: 0,
    }
    .pack();
    loom.power_up();
    assert_eq!(loom.commit(), answer(10, 0, 0));
    assert_eq!(loom.tally(), answer(0, 0, 0));
}

#[test]
fn a_wrong_count_that_no_test_refuses_is_carried_on() {
    // Even lines belong in set 0 of two, odd ones in set 1; so many are dirty in set 0.
    let loom = |dirty, count| {
        let mut loom = Loom::new(16, 8, 8);
        for turn in 0..dirty {
            loom.store(2 * turn, 7);
        }
        loom.registers.dirty = count;
        loom
    };
    let mut high = loom(3, 7);
    assert_eq!(high.load(0), answer(0, 7, 0));
    assert_eq!(high.registers.dirty, 7);
    assert_eq!(high.store(6, 7), answer(0, 0, 0));
    assert_eq!(high.registers.dirty, 8);
    assert_eq!(high.tally(), answer(0, 8, 0));
    // No slot of set 1 is dirty, so not all are.
    assert_eq!(high.without_change(Call::store(1, 7)), answer(4, 0, 0));
    assert_eq!(high.evict(6, NO_CUT).number, 0);
    assert_eq!(high.registers.dirty, 7);

    let mut low = loom(2, 1);
    assert_eq!(low.evict(0, NO_CUT).number, 0);
    assert_eq!(low.registers.dirty, 0);
    assert_eq!(low.tally(), answer(0, 0, 0));
    // Slot 1 is dirty, so one is.
    assert_eq!(low.without_change(Call::load(2)), answer(4, 0, 0));
    assert_eq!(low.store(3, 7), answer(0, 0, 0));
    assert_eq!(low.registers.dirty, 1);
    low.commit();
    low.put_cursor(1);
    assert_eq!(low.scan().number, 0);
    assert_eq!(low.work[2], SlotWord::clean(2).0);
    assert_eq!(low.registers.dirty, 0);
}
