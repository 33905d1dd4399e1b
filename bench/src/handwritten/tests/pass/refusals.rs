//! Number 15, and number 4 for a target or a cursor: which targets a begin call takes, which registers are those of a pass, and the
//! tests that come before.

use super::{answer, control, four_epochs, Loom, S};
use crate::call::Call;
use crate::handwritten::layout::{buffer_place, filter_place, SlotWord, CONTROL_PLACE};
use crate::handwritten::Registers;

/// Bits of no epoch that waits here, and from 40 on of no epoch at all.
const UPPER_BITS: [u64; 6] = [1 << 24, 1 << 32, 1 << 39, 1 << 40, 1 << 63, u64::MAX << 40];

/// Epoch P is persisted and epoch s runs; nothing is stored.
fn with_epochs(persisted: u64, epoch: u64) -> Loom {
    let mut loom = Loom::new(8, 16, S);
    loom.board[CONTROL_PLACE] = control(persisted, 0, 0).pack();
    loom.registers.epoch = epoch;
    loom
}

fn begin(target: u64) -> Call {
    Call::Begin { target }
}

/// Whether a begin call takes a target, outside a pass.
fn takes(persisted: u64, epoch: u64, target: u64) -> bool {
    let mut loom = with_epochs(persisted, epoch);
    let is_taken = loom.begin(target) == answer(0, 0, 0);
    let left = if is_taken { target } else { 0 };
    assert_eq!(loom.registers, Registers::from([epoch, 0, 0, 0, left]));
    if !is_taken {
        assert_eq!(loom.without_change(begin(target)), answer(15, 0, 0));
    }
    is_taken
}

#[test]
fn a_target_is_from_the_oldest_epoch_that_waits_to_the_newest() {
    let taken = |persisted, epoch| {
        let targets = 0..=epoch + 2;
        targets
            .filter(|&target| takes(persisted, epoch, target))
            .collect::<Vec<u64>>()
    };
    assert_eq!(taken(0, 4), [1, 2, 3]);
    assert_eq!(taken(0, 2), [1]);
    assert_eq!(taken(3, 6), [4, 5]);
    assert_eq!(taken(7, 9), [8]);
    assert_eq!(taken(0, 16), (1..16).collect::<Vec<u64>>());
    assert_eq!(taken(1_000, 1_016), (1_001..1_016).collect::<Vec<u64>>());
    // None waits.
    assert_eq!(taken(0, 1), []);
    assert_eq!(taken(5, 6), []);
}

#[test]
fn a_target_is_a_whole_word() {
    for upper in UPPER_BITS {
        for low in [0, 1, 2, 3] {
            assert!(!takes(0, 4, upper | low), "{upper:#x} {low}");
        }
    }
    assert!(!takes(0, 4, u64::MAX));
    assert!(!takes(0, 1, u64::MAX));
}

#[test]
fn begin_is_refused_inside_a_pass() {
    // Begun by a begin call: before its first scan call, after it, and before its last.
    let mut loom = four_epochs();
    loom.begin(3);
    for _ in 0..=S {
        for target in [0, 1, 2, 3, 4, u64::MAX] {
            assert_eq!(loom.without_change(begin(target)), answer(15, 0, 0), "{target}");
        }
        loom.scan();
    }
    // Epoch 3 is persisted, epoch 4 runs: none waits until the next commit.
    for target in [0, 3, 4, 5] {
        assert_eq!(loom.without_change(begin(target)), answer(15, 0, 0), "{target}");
    }
    loom.commit();
    assert_eq!(loom.begin(4), answer(0, 0, 0));

    // Begun by a scan call.
    let mut loom = four_epochs();
    loom.scan();
    for target in [0, 1, 2, 3, 4] {
        assert_eq!(loom.without_change(begin(target)), answer(15, 0, 0), "{target}");
    }
}

#[test]
fn begin_tests_no_slot_no_count_no_room_and_no_later_commit() {
    // An improper slot, a count of 0 beside dirty slots and one of S beside empty ones.
    let mut loom = four_epochs();
    loom.work[0] = 1;
    assert_eq!(loom.begin(3), answer(0, 0, 0));
    let mut loom = four_epochs();
    loom.registers.dirty = 0;
    assert_eq!(loom.begin(3), answer(0, 0, 0));
    let mut loom = with_epochs(0, 3);
    loom.registers.dirty = S;
    assert_eq!(loom.begin(2), answer(0, 0, 0));
    // A full log, and fifteen epochs that wait.
    let mut loom = with_epochs(0, 16);
    loom.board[CONTROL_PLACE] = control(0, 0, 16).pack();
    assert_eq!(loom.begin(15), answer(0, 0, 0));
}

#[test]
fn each_other_refusal_of_begin_comes_before_15() {
    // Every target is out of range: none waits. One entry is buffered.
    let mut loom = Loom::new(8, 16, S);
    loom.store(1, 7);
    let asked = begin(1);
    assert_eq!(loom.without_change(asked), answer(15, 0, 0));
    loom.work[filter_place(S as usize)..].fill(0);
    assert_eq!(loom.without_change(asked), answer(14, 0, 0));
    loom.work[buffer_place(S as usize, 0)] = 0;
    assert_eq!(loom.without_change(asked), answer(7, 0, 0));
    loom.registers.dirty = S + 1;
    assert_eq!(loom.without_change(asked), answer(4, 0, 0));
    loom.work.push(0);
    assert_eq!(loom.without_change(asked), answer(2, 0, 0));
    loom.board.push(0);
    assert_eq!(loom.without_change(asked), answer(1, 0, 0));
    loom.board.clear();
    assert_eq!(loom.without_change(asked), answer(1, 0, 0));
}

#[test]
fn a_scan_that_is_refused_begins_no_pass() {
    let mut loom = four_epochs();
    loom.work[0] = 1;
    assert_eq!(loom.without_change(Call::SCAN), answer(6, 0, 0));
    let mut loom = four_epochs();
    loom.registers.dirty = 0;
    assert_eq!(loom.without_change(Call::SCAN), answer(4, 0, 0));
    let mut loom = four_epochs();
    loom.work[filter_place(S as usize)..].fill(0);
    assert_eq!(loom.without_change(Call::SCAN), answer(14, 0, 0));
    loom.work[buffer_place(S as usize, 0)] = 0;
    assert_eq!(loom.without_change(Call::SCAN), answer(7, 0, 0));
    let mut loom = with_epochs(5, 6);
    assert_eq!(loom.without_change(Call::SCAN), answer(11, 0, 0));
}

/// The calls that test registers. None of them is refused otherwise with proper registers, but for begin inside a pass.
const TESTING: [Call; 7] = [
    Call::load(1),
    Call::store(1, 7),
    Call::evict(1),
    Call::COMMIT,
    Call::Begin { target: 3 },
    Call::SCAN,
    Call::Tally,
];

fn numbers_with(persisted: u64, epoch: u64, cursor: u64, target: u64) -> [u64; 7] {
    TESTING.map(|call| {
        let mut loom = with_epochs(persisted, epoch);
        loom.registers.cursor = cursor;
        loom.registers.target = target;
        loom.make(call).number
    })
}

#[test]
fn proper_registers_are_outside_a_pass_or_inside_one() {
    // Epoch 2 is persisted, epoch 6 runs.
    assert_eq!(numbers_with(2, 6, 0, 0), [0; 7]);
    for target in [3, 4, 5] {
        for cursor in 0..=S {
            assert_eq!(
                numbers_with(2, 6, cursor, target),
                [0, 0, 0, 0, 15, 0, 0],
                "{cursor} {target}"
            );
        }
    }
}

#[test]
fn any_other_target_or_cursor_is_refused() {
    // A cursor without a pass.
    for cursor in 1..=S + 1 {
        assert_eq!(numbers_with(2, 6, cursor, 0), [4; 7], "{cursor}");
    }
    // A target that is no epoch that waits.
    for cursor in [0, 1, S] {
        for target in [1, 2, 6, 7, 18, 22, u64::MAX] {
            assert_eq!(numbers_with(2, 6, cursor, target), [4; 7], "{cursor} {target}");
        }
        for upper in UPPER_BITS {
            assert_eq!(numbers_with(2, 6, cursor, upper | 3), [4; 7], "{cursor} {upper:#x}");
            assert_eq!(numbers_with(2, 6, cursor, upper), [4; 7], "{cursor} {upper:#x}");
        }
    }
    // A cursor behind the last slot, in a pass.
    for cursor in [S + 1, S + 4, 1 << 32, u64::MAX] {
        assert_eq!(numbers_with(2, 6, cursor, 3), [4; 7], "{cursor}");
    }
    // Where none waits there is no pass.
    for (cursor, target) in [(0, 2), (0, 3), (1, 3), (1, 0), (0, 1), (S, 3)] {
        assert_eq!(numbers_with(2, 3, cursor, target), [4; 7], "{cursor} {target}");
    }
}

#[test]
fn a_visit_tests_the_slot_by_all_epochs_up_to_the_running_one() {
    // In a pass for epochs 1 and 2, tags 0 and 5 are improper in epoch 4, and others are left or written out.
    for (tag, number, stores) in [(0, 6, 0), (1, 0, 1), (2, 0, 1), (3, 0, 0), (4, 0, 0), (5, 6, 0)] {
        let mut loom = with_epochs(0, 4);
        loom.work[0] = SlotWord::dirty(0, tag).0;
        loom.registers = Registers::from([4, 0, 0, 1, 2]);
        assert_eq!(loom.scan(), answer(number, 0, stores), "{tag}");
    }
}
