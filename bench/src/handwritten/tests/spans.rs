//! The span of an undo entry, worked by hand from the paper: 1 to 16, and not above ValidTill; and the epochs that 24 bits
//! could not count.

use super::{answer, range, Loom};
use crate::call::{Call, NO_CUT};
use crate::handwritten::layout::{buffer_place, entry_place, Range, LAST_EPOCH};
use crate::handwritten::Registers;
use crate::interface::Answer;

fn spanning(valid_till: u64, span: u64) -> Range {
    Range {
        address: 3,
        valid_till,
        span,
    }
}

/// What a power-up answers to one entry of line 3, in a ring of 8.
fn power_up(persisted: u64, valid_till: u64, span: u64) -> Answer {
    let mut loom = Loom::new(4, 8, 4);
    loom.put_log_from(7, persisted, &[(spanning(valid_till, span), 4)]);
    let answer = loom.power_up();
    // Line 3 was 0.
    let is_restored = answer.stores == 2;
    assert_eq!(loom.line(3), if is_restored { 4 } else { 0 });
    answer
}

#[test]
fn a_log_entry_spans_1_to_16_epochs() {
    for span in 1..=16 {
        assert_eq!(power_up(20, 21, span), answer(0, 0, 2), "span {span}");
    }
    for span in [0, 17, 18, 31, 32, 33, 128, 129, 144, 240, 255] {
        assert_eq!(power_up(20, 21, span), answer(3, 0, 0), "span {span}");
        assert_eq!(power_up(1_000, 1_016, span), answer(3, 0, 0), "span {span}");
    }
}

#[test]
fn a_log_entry_spans_no_epoch_before_0() {
    // ValidTill, and the last span that is proper.
    for (till, last) in [(1, 1), (2, 2), (3, 3), (15, 15), (16, 16)] {
        assert_eq!(power_up(0, till, last), answer(0, 0, 2), "till {till}");
        assert_eq!(power_up(0, till, last + 1), answer(3, 0, 0), "till {till}");
    }
    assert_eq!(power_up(1, 16, 16), answer(0, 0, 2));
    assert_eq!(power_up(1, 17, 16), answer(0, 0, 2));
    assert_eq!(power_up(1, 17, 17), answer(3, 0, 0));
    assert_eq!(power_up(0, 1, 255), answer(3, 0, 0));
}

#[test]
fn an_entry_covers_as_many_epochs_as_it_spans() {
    // P is 20, and ValidFrom 20, 21, 20, 21, 20; then P is 0, and ValidFrom 0, 1.
    assert_eq!(power_up(20, 21, 1), answer(0, 0, 2));
    assert_eq!(power_up(20, 22, 1), answer(0, 0, 1));
    assert_eq!(power_up(20, 22, 2), answer(0, 0, 2));
    assert_eq!(power_up(20, 36, 15), answer(0, 0, 1));
    assert_eq!(power_up(20, 36, 16), answer(0, 0, 2));
    assert_eq!(power_up(0, 1, 1), answer(0, 0, 2));
    assert_eq!(power_up(0, 16, 15), answer(0, 0, 1));
}

#[test]
fn the_first_entry_with_an_improper_span_is_named() {
    let tills = [6, 7, 21, 21];
    for improper in 0..4 {
        let mut loom = Loom::new(4, 8, 4);
        let log: Vec<(Range, u64)> = tills.iter().map(|&till| (range(3, 5, till), 4)).collect();
        loom.put_log_from(6, 5, &log);
        for place in improper..4 {
            loom.board[entry_place((6 + place) % 8)] = spanning(tills[place], 17).pack();
        }
        assert_eq!(loom.power_up(), answer(3, improper as u64, 0));
    }
}

/// Each call that tests the buffer, none of which is refused otherwise.
const TESTING: [Call; 6] = [
    Call::load(3),
    Call::store(3, 7),
    Call::evict(3),
    Call::COMMIT,
    Call::Begin { target: 21 },
    Call::SCAN,
];

/// A board with epoch 20 persisted and one entry of line 3 buffered, in epoch 35.
fn one_buffered() -> Loom {
    let mut loom = Loom::new(4, 8, 4);
    loom.put_log(20, &[]);
    loom.power_up();
    for _ in 21..35 {
        assert_eq!(loom.commit(), answer(0, 0, 0));
    }
    loom.store(3, 7);
    assert_eq!(loom.registers, Registers::from([35, 1, 0, 1, 0]));
    assert_eq!(loom.buffered(0), range(3, 20, 35));
    loom
}

#[test]
fn a_buffered_entry_spans_1_to_16_epochs() {
    for call in TESTING {
        for (till, span) in [(35, 1), (35, 15), (35, 16), (21, 16), (16, 16), (15, 15), (1, 1)] {
            let mut loom = one_buffered();
            loom.work[buffer_place(4, 0)] = spanning(till, span).pack();
            assert_eq!(loom.make(call).number, 0, "{call}, {span} epochs till {till}");
        }
        for (till, span) in [
            (35, 0),
            (35, 17),
            (35, 32),
            (35, 255),
            (17, 17),
            (16, 17),
            (15, 16),
            (1, 2),
            (0, 1),
            (0, 0),
            (36, 16),
        ] {
            let mut loom = one_buffered();
            loom.work[buffer_place(4, 0)] = spanning(till, span).pack();
            assert_eq!(
                loom.without_change(call),
                answer(7, 0, 0),
                "{call}, {span} epochs till {till}"
            );
        }
    }
}

#[test]
fn the_longest_span_is_made_by_the_latest_store_to_a_clean_line() {
    for persisted in [0, 5, (1 << 24) - 1, 1 << 32, LAST_EPOCH - 16] {
        let mut loom = Loom::new(4, 8, 4);
        loom.put_log(persisted, &[]);
        loom.power_up();
        for _ in 1..16 {
            assert_eq!(loom.commit(), answer(0, 0, 0));
        }
        loom.store(1, 7);
        assert_eq!(loom.buffered(0), range(1, persisted, persisted + 16));
        loom.evict(1, NO_CUT);
        assert_eq!(loom.power_up(), answer(0, 0, 2));
        assert_eq!(loom.line(1), 0);
    }
}

/// Stores over three epochs from here on, the second of which is persisted and woken to.
#[test]
fn epochs_that_24_bits_cannot_count() {
    for persisted in [(1 << 24) - 3, (1 << 24) - 2, (1 << 24) - 1, (1 << 32) - 1, 1 << 39] {
        let mut loom = Loom::new(4, 8, 4);
        loom.put_log(persisted, &[]);
        assert_eq!(loom.power_up(), answer(0, 0, 1));
        for data in [10, 20, 30] {
            assert_eq!(loom.store(1, data), answer(0, 0, 0));
            assert_eq!(loom.commit(), answer(0, 0, 0));
        }
        assert_eq!(loom.buffered(2), range(1, persisted + 2, persisted + 3));
        loom.begin(persisted + 2);
        let values = [(); 5].map(|()| loom.scan().value);
        assert_eq!(values, [0, 0, 0, 0, persisted + 2]);
        assert_eq!(loom.control().length, 1);
        assert_eq!(loom.power_up(), answer(0, 0, 2));
        assert_eq!((loom.line(1), loom.registers.epoch), (20, persisted + 3));
    }
}

#[test]
fn the_last_epoch_is_2_to_the_40_less_1() {
    let mut loom = Loom::new(4, 8, 4);
    loom.put_log(0xFF_FFFF_FFFD, &[]);
    loom.power_up();
    loom.store(1, 7);
    assert_eq!(loom.commit(), answer(0, 0, 0));
    assert_eq!(loom.registers.epoch, 0xFF_FFFF_FFFF);
    assert_eq!(loom.without_change(Call::COMMIT), answer(10, 0, 0));
    assert_eq!(loom.store(1, 8), answer(0, 0, 0));
    assert_eq!(loom.buffered(1), range(1, 0xFF_FFFF_FFFE, 0xFF_FFFF_FFFF));
    loom.put_log(0xFF_FFFF_FFFF, &[]);
    assert_eq!(loom.power_up(), answer(1, 0, 0));
}

#[test]
fn a_log_has_up_to_4095_entries() {
    let mut board = vec![0; 2 + 2 * 4_096 + 1];
    let format = |board: &mut [u64], entries| crate::handwritten::format(board, 1, entries);
    assert_eq!(format(&mut board, 4_096), answer(1, 0, 0));
    board.truncate(2 + 2 * 4_095 + 1);
    assert_eq!(format(&mut board, 4_095), answer(0, 0, 0));
    assert_eq!(board[1], 0x0000_0100_0010_0FFF);
}

/// The last place of the longest ring, and the turn behind it.
#[test]
fn the_longest_ring_turns_round() {
    let mut loom = Loom::new(8, 4_095, 4);
    loom.put_log_from(4_094, 5, &[]);
    loom.registers = Registers::from([6, 0, 0, 0, 0]);
    loom.store(1, 7);
    assert_eq!(loom.evict(1, NO_CUT), answer(0, 1, 4));
    loom.store(2, 8);
    assert_eq!(loom.evict(2, NO_CUT), answer(0, 1, 4));
    assert_eq!(Range::unpack(loom.board[2 + 2 * 4_094]), range(1, 5, 6));
    assert_eq!(Range::unpack(loom.board[2]), range(2, 5, 6));
    assert_eq!(loom.board[0], 0x0000_0000_05FF_E002);
    // A full log that starts there.
    let full: Vec<(Range, u64)> = (0..4_095).map(|_| (range(3, 5, 6), 9)).collect();
    loom.put_log_from(4_094, 5, &full);
    assert_eq!(loom.without_change(Call::store(4, 7)), answer(8, 0, 0));
    assert_eq!(loom.power_up(), answer(0, 0, 4_096));
    assert_eq!(loom.line(3), 9);
}
