//! Number 14 and its place among the tests: right after 7, wherever 7 is.

use super::{answer, range, two_buffered, Loom};
use crate::call::Call;
use crate::handwritten::layout::{buffer_place, Control, CONTROL_PLACE, LAST_EPOCH};

/// Each call that looks at the buffer.
const CALLS: [Call; 5] = [
    Call::load(0),
    Call::store(0, 7),
    Call::evict(0),
    Call::COMMIT,
    Call::SCAN,
];

#[test]
fn an_unset_bit_of_a_buffered_entry_is_refused() {
    for call in CALLS {
        assert_eq!(two_buffered().make(call).number, 0);
        for bit in [1, 2_531, 2, 966] {
            let mut loom = two_buffered();
            loom.clear_bit(bit);
            assert_eq!(loom.without_change(call), answer(14, 0, 0), "{call}, bit {bit}");
        }
        let mut loom = two_buffered();
        loom.filter_mut().fill(0);
        assert_eq!(loom.without_change(call), answer(14, 0, 0), "{call}");
    }
}

#[test]
fn places_beyond_b_need_no_bits_and_more_bits_do_no_harm() {
    for call in CALLS {
        let mut loom = two_buffered();
        loom.registers.buffered = 1;
        loom.clear_bit(2);
        loom.clear_bit(966);
        assert_eq!(loom.make(call).number, 0, "{call}");

        let mut loom = two_buffered();
        loom.filter_mut().fill(u64::MAX);
        assert_eq!(loom.make(call).number, 0, "{call}");
    }
}

#[test]
fn every_improper_entry_comes_before_any_unset_bit() {
    for call in CALLS {
        let mut loom = two_buffered();
        loom.clear_bit(1);
        let till = loom.registers.epoch + 1;
        loom.work[buffer_place(4, 1)] = range(2, 0, till).pack();
        assert_eq!(loom.without_change(call), answer(7, 0, 0), "{call}");
    }
}

#[test]
fn the_tests_before_7_come_before_14() {
    let loom = || {
        let mut loom = two_buffered();
        loom.filter_mut().fill(0);
        loom
    };
    assert_eq!(loom().without_change(Call::load(4)), answer(5, 0, 0));
    for call in CALLS {
        let mut loom = loom();
        loom.registers.buffered = 32;
        assert_eq!(loom.without_change(call), answer(4, 0, 0), "{call}");
    }
    for call in [Call::load(0), Call::store(0, 7), Call::evict(0), Call::SCAN] {
        let mut loom = loom();
        loom.work[0] = 1;
        assert_eq!(loom.without_change(call), answer(6, 0, 0), "{call}");
    }
}

#[test]
fn filter_comes_before_room() {
    let mut loom = Loom::new(4, 1, 4);
    loom.store(1, 7);
    assert_eq!(loom.without_change(Call::store(0, 7)), answer(8, 0, 0));
    loom.filter_mut().fill(0);
    assert_eq!(loom.without_change(Call::store(0, 7)), answer(14, 0, 0));
}

#[test]
fn filter_comes_before_waiting() {
    let mut loom = Loom::new(4, 8, 4);
    loom.store(1, 7);
    for _ in 1..16 {
        assert_eq!(loom.commit(), answer(0, 0, 0));
    }
    assert_eq!(loom.without_change(Call::COMMIT), answer(9, 0, 0));
    loom.filter_mut().fill(0);
    assert_eq!(loom.without_change(Call::COMMIT), answer(14, 0, 0));
}

#[test]
fn filter_comes_before_last() {
    let mut loom = Loom::new(4, 8, 4);
    loom.board[CONTROL_PLACE] = Control {
        persisted: LAST_EPOCH - 1,
        start: 0,
        length: 0,
    }
    .pack();
    loom.power_up();
    loom.store(1, 7);
    assert_eq!(loom.without_change(Call::COMMIT), answer(10, 0, 0));
    loom.filter_mut().fill(0);
    assert_eq!(loom.without_change(Call::COMMIT), answer(14, 0, 0));
}

#[test]
fn filter_comes_before_none() {
    let mut loom = Loom::new(4, 8, 4);
    loom.store(1, 7);
    assert_eq!(loom.without_change(Call::SCAN), answer(11, 0, 0));
    loom.filter_mut().fill(0);
    assert_eq!(loom.without_change(Call::SCAN), answer(14, 0, 0));
}

#[test]
fn filter_comes_before_a_cut() {
    let mut loom = two_buffered();
    loom.filter_mut().fill(0);
    for call in [
        Call::Evict {
            address: 1,
            allowance: 0,
        },
        Call::Scan { allowance: 0 },
    ] {
        assert_eq!(loom.without_change(call), answer(14, 0, 0), "{call}");
    }
}
