//! Passes over several epochs, worked by hand from the paper: what a begin call leaves, what the scan calls of a pass write out, and
//! what its last step drops. refusals.rs has what is refused for a target.

mod refusals;

use super::{answer, range, Loom};
use crate::call::Call;
use crate::handwritten::layout::{Control, Range, SlotWord, LAST_EPOCH};
use crate::handwritten::Registers;
use crate::interface::REGISTER_NAMES;

const S: u64 = 4;

/// Lines 0 to 3 in slots 0 to 3, each stored to in an epoch of its own, 1 to 4. Epochs 1 to 3 wait, epoch 4 runs, and the four
/// entries are buffered.
fn four_epochs() -> Loom {
    four_epochs_behind(0)
}

/// The same with a later epoch persisted, and the four behind it.
fn four_epochs_behind(persisted: u64) -> Loom {
    let mut loom = Loom::new(8, 16, S);
    loom.put_log(persisted, &[]);
    loom.power_up();
    for (line, data) in [(0, 10), (1, 20), (2, 30)] {
        loom.store(line, data);
        loom.commit();
    }
    loom.store(3, 40);
    assert_eq!(loom.registers, Registers::from([persisted + 4, 4, 0, 4, 0]));
    loom
}

const fn control(persisted: u64, start: usize, length: usize) -> Control {
    Control {
        persisted,
        start,
        length,
    }
}

impl Loom {
    /// The stores of so many scan calls that end no pass.
    fn visits(&mut self, count: usize) -> Vec<u64> {
        let visit = |_| {
            let answer = self.scan();
            assert_eq!((answer.number, answer.value), (0, 0));
            answer.stores
        };
        (0..count).map(visit).collect()
    }

    /// Cursor and target.
    fn pass(&self) -> (u64, u64) {
        (self.registers.cursor, self.registers.target)
    }

    fn slot_word(&self, slot: usize) -> SlotWord {
        SlotWord(self.work[2 * slot])
    }

    fn lines(&self) -> Vec<u64> {
        (0..4).map(|address| self.line(address)).collect()
    }
}

#[test]
fn the_target_is_the_fifth_register() {
    let registers = Registers::from([1, 2, 3, 4, 5]);
    assert_eq!(registers.target, 5);
    assert_eq!(REGISTER_NAMES[4], "target");
}

#[test]
fn begin_sets_the_target_and_nothing_else() {
    for target in [1, 2, 3] {
        let mut loom = four_epochs();
        let before = (loom.board.clone(), loom.work.clone());
        assert_eq!(loom.begin(target), answer(0, 0, 0));
        assert_eq!(loom.registers, Registers::from([4, 4, 0, 4, target]));
        assert!(before == (loom.board, loom.work));
    }
}

#[test]
fn a_pass_over_three_epochs_writes_out_a_line_of_each_and_leaves_the_running_one() {
    let mut loom = four_epochs();
    loom.begin(3);
    // The first flushes the four entries, 2 * 4 + 1, and stores its line. Line 3 is of epoch 4.
    assert_eq!(loom.visits(4), [10, 1, 1, 0]);
    assert_eq!(loom.registers, Registers::from([4, 0, 4, 1, 3]));
    assert_eq!(loom.lines(), [10, 20, 30, 0]);
    let words = [
        SlotWord::clean(0),
        SlotWord::clean(1),
        SlotWord::clean(2),
        SlotWord::dirty(3, 4),
    ];
    assert_eq!((0..4).map(|slot| loom.slot_word(slot)).collect::<Vec<_>>(), words);
    assert_eq!(loom.control(), control(0, 0, 4));
    // The entries that end in epochs 1, 2 and 3 go.
    assert_eq!(loom.scan(), answer(0, 3, 1));
    assert_eq!(loom.control(), control(3, 3, 1));
    assert_eq!(loom.registers, Registers::from([4, 0, 0, 1, 0]));
    assert_eq!(loom.without_change(Call::SCAN), answer(11, 0, 0));
    // Epoch 4 is undone.
    assert_eq!(loom.power_up(), answer(0, 0, 2));
    assert_eq!(loom.lines(), [10, 20, 30, 0]);
    assert_eq!(loom.registers.epoch, 4);
}

#[test]
fn a_pass_writes_out_its_target_in_the_last_slot_too() {
    let mut loom = four_epochs();
    loom.commit();
    loom.begin(4);
    assert_eq!(loom.visits(4), [10, 1, 1, 1]);
    assert_eq!(loom.scan(), answer(0, 4, 1));
    assert_eq!(loom.control(), control(4, 4, 0));
    assert_eq!(loom.lines(), [10, 20, 30, 40]);
    assert_eq!(loom.registers, Registers::from([5, 0, 0, 0, 0]));
}

#[test]
fn a_pass_leaves_what_is_behind_its_target() {
    let mut loom = four_epochs();
    loom.begin(2);
    assert_eq!(loom.visits(4), [10, 1, 0, 0]);
    assert_eq!(loom.scan(), answer(0, 2, 1));
    assert_eq!(loom.control(), control(2, 2, 2));
    assert_eq!(
        [2, 3].map(|slot| loom.slot_word(slot)),
        [SlotWord::dirty(2, 3), SlotWord::dirty(3, 4)]
    );
    assert_eq!(loom.registers, Registers::from([4, 0, 0, 2, 0]));
    // The next pass, begun by a scan, persists epoch 3 alone.
    assert_eq!(loom.visits(4), [0, 0, 1, 0]);
    assert_eq!(loom.scan(), answer(0, 3, 1));
    assert_eq!(loom.control(), control(3, 3, 1));
}

#[test]
fn a_scan_outside_a_pass_begins_one_and_visits_slot_0() {
    let mut loom = four_epochs();
    assert_eq!(loom.visits(1), [10]);
    assert_eq!(loom.slot_word(0), SlotWord::clean(0));
    assert_eq!(loom.registers, Registers::from([4, 0, 1, 3, 1]));
    // Epoch 1 is its target, and no other.
    assert_eq!(loom.visits(3), [0, 0, 0]);
    assert_eq!(loom.pass(), (4, 1));
    assert_eq!(loom.scan(), answer(0, 1, 1));
    assert_eq!(loom.pass(), (0, 0));
    assert_eq!(loom.control(), control(1, 1, 3));
}

#[test]
fn one_epoch_begun_by_begin_costs_the_same_scans() {
    let mut begun = four_epochs();
    begun.begin(1);
    let mut scanned = four_epochs();
    assert_eq!(begun.visits(4), scanned.visits(4));
    assert_eq!(begun.scan(), scanned.scan());
    assert!(begun.board == scanned.board && begun.work == scanned.work && begun.registers == scanned.registers);
}

#[test]
fn the_target_stays_as_it_is_through_commits_loads_stores_and_evictions() {
    let mut loom = four_epochs();
    loom.begin(2);
    assert_eq!(loom.commit(), answer(0, 0, 0));
    assert_eq!(loom.registers, Registers::from([5, 4, 0, 4, 2]));
    assert_eq!(loom.visits(1), [10]);
    // A line of epoch 3 that is held, one that takes the slot of line 0, clean, and a line of epoch 2 that goes.
    assert_eq!(loom.load(2), answer(0, 30, 0));
    assert_eq!(loom.store(5, 50), answer(0, 0, 0));
    assert_eq!(loom.make(Call::evict(1)), answer(0, 1, 1));
    assert_eq!(loom.make(Call::Tally), answer(0, 3, 0));
    assert_eq!(loom.commit(), answer(0, 0, 0));
    assert_eq!(loom.registers, Registers::from([6, 1, 1, 3, 2]));
    assert_eq!(loom.visits(3), [0, 0, 0]);
    // The entry of line 5 is flushed, 2 + 1, and the control word stored.
    assert_eq!(loom.scan(), answer(0, 2, 4));
    assert_eq!(loom.control(), control(2, 2, 3));
    assert_eq!(loom.pass(), (0, 0));
}

#[test]
fn a_commit_in_mid_pass_does_not_move_the_target() {
    let mut loom = four_epochs();
    loom.begin(3);
    assert_eq!(loom.visits(3), [10, 1, 1]);
    loom.commit();
    assert_eq!(loom.visits(1), [0]);
    assert_eq!(loom.slot_word(3), SlotWord::dirty(3, 4));
    assert_eq!(loom.scan(), answer(0, 3, 1));
    // Epoch 4 waits now.
    assert_eq!(loom.begin(4), answer(0, 0, 0));
    assert_eq!(loom.visits(4), [0, 0, 0, 1]);
    assert_eq!(loom.scan(), answer(0, 4, 1));
    assert_eq!(loom.control(), control(4, 4, 0));
    assert_eq!(loom.lines(), [10, 20, 30, 40]);
}

#[test]
fn a_line_stored_to_in_mid_pass_is_left_and_undone_to_the_target() {
    let mut loom = four_epochs();
    loom.begin(3);
    assert_eq!(loom.visits(1), [10]);
    // Before the cursor and behind it: a clean line makes the entry 0, 4, one of epoch 3 the entry 3, 4.
    loom.store(0, 11);
    loom.store(2, 31);
    assert_eq!(
        [0, 1].map(|place| loom.buffered(place)),
        [range(0, 0, 4), range(2, 3, 4)]
    );
    assert_eq!(loom.visits(3), [1, 0, 0]);
    assert_eq!(loom.scan(), answer(0, 3, 6));
    assert_eq!(loom.control(), control(3, 3, 3));
    assert_eq!(loom.lines(), [10, 20, 0, 0]);
    // Entries of lines 3, 0 and 2 cover epoch 3.
    assert_eq!(loom.power_up(), answer(0, 0, 4));
    assert_eq!(loom.lines(), [10, 20, 30, 0]);
}

/// A pass with this target at its end, epoch 5 running, on a log of entries with these ValidTills from a place of the ring of 16
/// on. Gives the control word that the last step leaves.
fn last_step(start: usize, tills: &[u64], target: u64) -> Control {
    let mut loom = Loom::new(8, 16, S);
    let log: Vec<(Range, u64)> = tills.iter().map(|&till| (range(1, till - 1, till), 7)).collect();
    loom.put_log_from(start, 0, &log);
    loom.registers = Registers::from([5, 0, S, 0, target]);
    assert_eq!(loom.scan(), answer(0, target, 1));
    assert_eq!(loom.registers, Registers::from([5, 0, 0, 0, 0]));
    loom.control()
}

#[test]
fn the_last_step_drops_by_the_target() {
    let tills = [1, 1, 2, 3, 3, 4, 5];
    assert_eq!(last_step(0, &tills, 1), control(1, 2, 5));
    assert_eq!(last_step(0, &tills, 2), control(2, 3, 4));
    assert_eq!(last_step(0, &tills, 3), control(3, 5, 2));
    assert_eq!(last_step(0, &tills, 4), control(4, 6, 1));
    assert_eq!(last_step(0, &[2, 3, 4], 4), control(4, 3, 0));
    assert_eq!(last_step(0, &[4, 5], 3), control(3, 0, 2));
    // Over the ring's end.
    assert_eq!(last_step(13, &tills, 3), control(3, 2, 2));
    assert_eq!(last_step(13, &[1, 2, 3], 3), control(3, 0, 0));
    // The oldest run alone.
    assert_eq!(last_step(0, &[2, 4, 1], 3), control(3, 1, 2));
}

#[test]
fn the_last_step_drops_what_it_has_just_flushed() {
    let mut loom = four_epochs();
    loom.registers.cursor = S;
    loom.registers.target = 3;
    // Four entries and the control word, then the control word again.
    assert_eq!(loom.scan(), answer(0, 3, 10));
    assert_eq!(loom.control(), control(3, 3, 1));
}

#[test]
fn fifteen_epochs_go_down_in_one_pass() {
    let mut loom = Loom::new(16, 16, 16);
    for line in 0..15 {
        assert_eq!(loom.store(line, 100 + line), answer(0, 0, 0));
        assert_eq!(loom.commit(), answer(0, 0, 0));
    }
    loom.store(15, 115);
    assert_eq!(loom.commit(), answer(9, 0, 0));
    assert_eq!(loom.begin(15), answer(0, 0, 0));
    // They still wait, whatever the target is.
    assert_eq!(loom.without_change(Call::COMMIT), answer(9, 0, 0));
    // 2 * 16 + 1 for the entries, 15 lines, and the control word. Line 15, of epoch 16, is left.
    assert_eq!(loom.visits(16).iter().sum::<u64>(), 33 + 15);
    assert_eq!(loom.scan(), answer(0, 15, 1));
    assert_eq!(loom.control(), control(15, 15, 1));
    assert_eq!(loom.commit(), answer(0, 0, 0));
    let lines: Vec<u64> = (0..16).map(|line| loom.line(line)).collect();
    let stored: Vec<u64> = (100..115).chain([0]).collect();
    assert_eq!(lines, stored);
}

#[test]
fn a_pass_goes_over_a_carry() {
    // The tags go from two below the target to one above it. Of all of them the target has the smallest low bits.
    for target in [1 << 8, 1 << 16, 1 << 24, 1 << 32, 1 << 39] {
        let mut loom = four_epochs_behind(target - 3);
        assert_eq!(loom.begin(target), answer(0, 0, 0));
        assert_eq!(loom.visits(4), [10, 1, 1, 0], "{target}");
        assert_eq!(loom.scan(), answer(0, target, 1));
        assert_eq!(loom.control(), control(target, 3, 1));
        assert_eq!(loom.slot_word(3), SlotWord::dirty(3, target + 1));
        assert_eq!(loom.lines(), [10, 20, 30, 0]);
    }
}

#[test]
fn the_last_epochs_that_there_are() {
    let mut loom = Loom::new(8, 16, S);
    loom.put_log(LAST_EPOCH - 3, &[]);
    loom.power_up();
    loom.commit();
    loom.commit();
    assert_eq!(loom.registers.epoch, LAST_EPOCH);
    assert_eq!(
        loom.without_change(Call::Begin { target: LAST_EPOCH }),
        answer(15, 0, 0)
    );
    assert_eq!(loom.begin(LAST_EPOCH - 1), answer(0, 0, 0));
    assert_eq!(loom.visits(4), [0; 4]);
    assert_eq!(loom.scan(), answer(0, LAST_EPOCH - 1, 1));
    assert_eq!(loom.without_change(Call::SCAN), answer(11, 0, 0));
}

#[test]
fn a_visit_that_is_cut_leaves_no_pass() {
    for allowance in 0..10 {
        let mut loom = four_epochs();
        loom.begin(3);
        assert_eq!(loom.make(Call::Scan { allowance }), answer(12, 0, u64::from(allowance)));
        assert_eq!(loom.registers, Registers::default());
        loom.power_up();
        assert_eq!((loom.lines(), loom.control()), (vec![0; 4], control(0, 0, 0)));
        assert_eq!(loom.registers, Registers::from([1, 0, 0, 0, 0]));
    }
    let mut loom = four_epochs();
    loom.begin(3);
    assert_eq!(loom.make(Call::Scan { allowance: 10 }), answer(0, 0, 10));
    assert_eq!(loom.make(Call::Scan { allowance: 0 }), answer(12, 0, 0));
    assert_eq!(loom.registers, Registers::default());
}

#[test]
fn a_last_step_that_is_cut_persists_nothing() {
    // Lines 4 and 5 are stored to behind the cursor: their entries are flushed, 2 * 2 + 1, and then comes the control word.
    let end_of_pass = || {
        let mut loom = four_epochs();
        loom.begin(3);
        loom.visits(4);
        loom.store(4, 50);
        loom.store(5, 60);
        loom
    };
    for allowance in 0..6 {
        let mut loom = end_of_pass();
        assert_eq!(loom.make(Call::Scan { allowance }), answer(12, 0, u64::from(allowance)));
        assert_eq!(loom.control().persisted, 0);
        assert_eq!(loom.registers, Registers::default());
        loom.power_up();
        assert_eq!(loom.lines(), [0; 4]);
    }
    let mut loom = end_of_pass();
    assert_eq!(loom.make(Call::Scan { allowance: 6 }), answer(0, 3, 6));
    loom.power_up();
    assert_eq!(loom.lines(), [10, 20, 30, 0]);
}

#[test]
fn a_power_up_in_mid_pass_forgets_the_target() {
    let mut loom = four_epochs();
    loom.begin(3);
    loom.visits(2);
    assert_eq!(loom.power_up(), answer(0, 0, 5));
    assert_eq!(loom.registers, Registers::from([1, 0, 0, 0, 0]));
    assert_eq!(loom.control(), control(0, 0, 0));
    // A refused one too.
    let mut loom = four_epochs();
    loom.begin(3);
    loom.work.push(0);
    assert_eq!(loom.power_up(), answer(2, 0, 0));
    assert_eq!(loom.registers, Registers::default());
}
