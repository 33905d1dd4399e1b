//! The paper's own examples: W5 to W12, its replay, its traps, and the latest log entry that is proper. words.rs has W1 to W4 and
//! the other words, spans.rs the spans of undo entries, filter.rs the filter, count.rs the count of dirty slots, sets.rs the sets
//! of four slots, names.rs the names, hex.rs the export, hex_in.rs its reader, pass.rs passes over several epochs, convert.rs
//! the converter.

mod convert;
mod count;
mod filter;
mod hex;
mod hex_in;
mod names;
mod pass;
mod sets;
mod spans;
mod words;

use super::layout::{buffer_place, entry_place, Control, Range, CONTROL_PLACE, LAST_EPOCH};
use super::{HandWritten, Registers};
use crate::call::{Call, NO_CUT};
use crate::interface::Answer;
use crate::sizes::Sizes;

const fn answer(number: u64, value: u64, stores: u64) -> Answer {
    Answer { number, value, stores }
}

const fn range(address: u64, valid_from: u64, valid_till: u64) -> Range {
    Range {
        address,
        valid_till,
        span: valid_till - valid_from,
    }
}

struct Loom {
    board: Vec<u64>,
    work: Vec<u64>,
    registers: Registers,
    sizes: Sizes,
}

impl Loom {
    fn new(lines: u64, entries: u64, slots: u64) -> Self {
        let sizes = Sizes { lines, entries, slots };
        let mut loom = Loom {
            board: vec![u64::MAX; sizes.board_words()],
            work: vec![u64::MAX; sizes.work_words()],
            registers: Registers::default(),
            sizes,
        };
        assert_eq!(loom.make(sizes.format()), answer(0, 0, 0));
        assert_eq!(loom.power_up(), answer(0, 0, 1));
        loom
    }

    fn make(&mut self, call: Call) -> Answer {
        call.make::<HandWritten>(&mut self.board, &mut self.work, &mut self.registers)
    }

    /// Makes the call, which has to leave all as it was.
    fn without_change(&mut self, call: Call) -> Answer {
        let before = (self.board.clone(), self.work.clone(), self.registers);
        let answer = self.make(call);
        assert!(before == (self.board.clone(), self.work.clone(), self.registers));
        answer
    }

    fn power_up(&mut self) -> Answer {
        self.make(Call::PowerUp { allowance: NO_CUT })
    }

    fn load(&mut self, address: u64) -> Answer {
        self.make(Call::Load {
            address,
            allowance: NO_CUT,
        })
    }

    fn store(&mut self, address: u64, data: u64) -> Answer {
        self.make(Call::Store {
            address,
            data,
            allowance: NO_CUT,
        })
    }

    fn evict(&mut self, address: u64, allowance: u32) -> Answer {
        self.make(Call::Evict { address, allowance })
    }

    fn commit(&mut self) -> Answer {
        self.make(Call::Commit { allowance: NO_CUT })
    }

    fn scan(&mut self) -> Answer {
        self.make(Call::Scan { allowance: NO_CUT })
    }

    fn begin(&mut self, target: u64) -> Answer {
        self.make(Call::Begin { target })
    }

    /// Makes the registers those of a pass for the oldest epoch that waits, with the cursor at this slot.
    fn put_cursor(&mut self, cursor: u64) {
        self.registers.target = self.control().persisted + 1;
        self.registers.cursor = cursor;
    }

    fn control(&self) -> Control {
        Control::unpack(self.board[CONTROL_PLACE])
    }

    fn line(&self, address: usize) -> u64 {
        self.board[self.sizes.shape().line_place(address)]
    }

    fn buffered(&self, place: usize) -> Range {
        Range::unpack(self.work[buffer_place(self.sizes.slots as usize, place)])
    }

    /// What the replay prints behind the answer: s, P, log length, b.
    fn counts(&self) -> [u64; 4] {
        [
            self.registers.epoch,
            self.control().persisted,
            self.control().length as u64,
            self.registers.buffered,
        ]
    }

    fn put_log(&mut self, persisted: u64, log: &[(Range, u64)]) {
        self.put_log_from(0, persisted, log);
    }

    /// Puts a log whose oldest entry is at place `start` of the ring.
    fn put_log_from(&mut self, start: usize, persisted: u64, log: &[(Range, u64)]) {
        self.board[CONTROL_PLACE] = Control {
            persisted,
            start,
            length: log.len(),
        }
        .pack();
        for (place, &(range, data)) in log.iter().enumerate() {
            let ring_place = (start + place) % self.sizes.entries as usize;
            self.board[entry_place(ring_place)] = range.pack();
            self.board[entry_place(ring_place) + 1] = data;
        }
    }
}

/// What a power-up answers to entries with these ValidTills, oldest first, in a ring of 8. Each covers P, or as many epochs as it
/// may, so that none is refused for its span.
fn power_up_with_tills(start: usize, persisted: u64, tills: &[u64]) -> Answer {
    let mut loom = Loom::new(4, 8, 4);
    let entry = |&till: &u64| (range(3, persisted.max(till.saturating_sub(16)), till), 4);
    let log: Vec<(Range, u64)> = tills.iter().map(entry).collect();
    loom.put_log_from(start, persisted, &log);
    loom.power_up()
}

#[test]
fn w5_range_covers() {
    let covered: Vec<bool> = (0..4).map(|epoch| range(0, 1, 3).covers(epoch)).collect();
    assert_eq!(covered, [false, true, true, false]);
}

#[test]
fn w6_oldest_covering_entry_wins() {
    let mut loom = Loom::new(4, 8, 4);
    loom.put_log(1, &[(range(3, 0, 2), 4), (range(3, 0, 2), 6)]);
    assert_eq!(loom.power_up(), answer(0, 0, 3));
    assert_eq!(loom.line(3), 4);
}

#[test]
fn w7_to_w9_undo_entries() {
    let mut loom = Loom::new(4, 8, 4);
    loom.commit();
    loom.store(1, 7);
    assert_eq!(loom.buffered(0), range(1, 0, 2));

    let mut loom = Loom::new(4, 8, 4);
    loom.store(1, 7);
    loom.commit();
    loom.commit();
    loom.store(1, 8);
    assert_eq!(loom.buffered(1), range(1, 1, 3));
    loom.store(1, 9);
    assert_eq!(loom.registers.buffered, 2);
}

#[test]
fn w10_and_w11_eviction_with_its_entry_buffered() {
    let mut loom = Loom::new(4, 8, 4);
    assert_eq!(loom.work.len(), 2 * 4 + 128);
    loom.store(1, 7);
    assert_eq!(loom.evict(1, 4), answer(0, 1, 4));
    assert_eq!(loom.line(1), 7);

    let mut loom = Loom::new(4, 8, 4);
    loom.store(1, 7);
    assert_eq!(loom.evict(1, 3), answer(12, 0, 3));
    assert_eq!(loom.control().length, 1);
    assert_eq!(loom.line(1), 0);
    assert_eq!(loom.registers, Registers::default());
    assert!(loom.work.iter().all(|&word| word == 0));
}

#[test]
fn w12_fifteen_epochs_wait() {
    let mut loom = Loom::new(4, 8, 4);
    for _ in 1..16 {
        assert_eq!(loom.commit(), answer(0, 0, 0));
    }
    assert_eq!(loom.commit(), answer(9, 0, 0));
}

#[test]
fn replay_of_the_paper() {
    let mut loom = Loom::new(4, 8, 4);
    assert_eq!(loom.counts(), [1, 0, 0, 0]);
    assert_eq!(loom.store(0, 7), answer(0, 0, 0));
    assert_eq!(loom.counts(), [1, 0, 0, 1]);
    assert_eq!(loom.commit(), answer(0, 0, 0));
    assert_eq!(loom.store(0, 9), answer(0, 0, 0));
    assert_eq!(loom.counts(), [2, 0, 0, 2]);
    assert_eq!(loom.commit(), answer(0, 0, 0));
    for _ in 0..4 {
        assert_eq!(loom.scan(), answer(0, 0, 0));
        assert_eq!(loom.counts(), [3, 0, 0, 2]);
    }
    assert_eq!(loom.scan(), answer(0, 1, 6));
    assert_eq!(loom.counts(), [3, 1, 1, 0]);
    assert_eq!(loom.power_up(), answer(0, 0, 2));
    assert_eq!(loom.counts(), [2, 1, 0, 0]);
    assert_eq!(loom.load(0), answer(0, 7, 0));
}

#[test]
fn scan_flushes_before_it_writes_out() {
    let mut loom = Loom::new(4, 8, 4);
    loom.store(0, 7);
    loom.commit();
    assert_eq!(loom.scan(), answer(0, 0, 4));
    assert_eq!(loom.control().length, 1);
    assert_eq!(loom.line(0), 7);
}

#[test]
fn clean_line_is_undone_from_the_persisted_epoch() {
    let mut loom = Loom::new(4, 8, 4);
    loom.commit();
    let values = [(); 5].map(|()| loom.scan().value);
    assert_eq!(values, [0, 0, 0, 0, 1]);
    loom.store(2, 5);
    assert_eq!(loom.buffered(0), range(2, 1, 2));
}

#[test]
fn power_up_refuses_in_the_papers_order_and_names_the_entry() {
    let mut loom = Loom::new(4, 8, 4);
    loom.put_log(1, &[(range(3, 0, 3), 4), (range(3, 0, 2), 6)]);
    assert_eq!(loom.power_up(), answer(3, 1, 0));
    assert_eq!(loom.load(0), answer(4, 0, 0));
    loom.work.push(0);
    assert_eq!(loom.power_up(), answer(2, 0, 0));
    loom.board.push(0);
    assert_eq!(loom.power_up(), answer(1, 0, 0));
}

#[test]
fn an_entry_ends_at_most_16_epochs_after_the_persisted_one() {
    assert_eq!(power_up_with_tills(0, 5, &[6, 21, 21]), answer(0, 0, 4));
    assert_eq!(power_up_with_tills(0, 5, &[6, 21, 22]), answer(3, 2, 0));
    assert_eq!(power_up_with_tills(0, 5, &[6, 22, 22]), answer(3, 1, 0));
    assert_eq!(power_up_with_tills(0, 5, &[22]), answer(3, 0, 0));
}

#[test]
fn the_16_epochs_are_not_counted_from_the_next_older_entry() {
    assert_eq!(power_up_with_tills(0, 5, &[15, 16, 31]), answer(3, 2, 0));
    assert_eq!(power_up_with_tills(0, 5, &[15, 16, 21]), answer(0, 0, 4));
}

#[test]
fn the_16_epochs_are_the_same_over_the_rings_end() {
    assert_eq!(power_up_with_tills(6, 5, &[6, 7, 21, 21]), answer(0, 0, 5));
    assert_eq!(power_up_with_tills(6, 5, &[6, 7, 21, 22]), answer(3, 3, 0));
    assert_eq!(power_up_with_tills(6, 5, &[6, 22, 22, 22]), answer(3, 1, 0));
}

#[test]
fn the_log_of_the_failing_chip_is_refused() {
    assert_eq!(power_up_with_tills(0, 5, &[6, 7, 4_005]), answer(3, 2, 0));
    assert_eq!(power_up_with_tills(7, 5, &[6, 7, 4_005]), answer(3, 2, 0));
}

#[test]
fn the_16_epochs_may_go_past_the_last_one() {
    let power_up = |persisted, till| power_up_with_tills(0, persisted, &[persisted + 1, till]);
    assert_eq!(power_up(LAST_EPOCH - 1, LAST_EPOCH), answer(0, 0, 3));
    assert_eq!(power_up(LAST_EPOCH - 15, LAST_EPOCH), answer(0, 0, 3));
    assert_eq!(power_up(LAST_EPOCH - 16, LAST_EPOCH), answer(0, 0, 3));
    assert_eq!(power_up(LAST_EPOCH - 17, LAST_EPOCH - 1), answer(0, 0, 3));
    assert_eq!(power_up(LAST_EPOCH - 17, LAST_EPOCH), answer(3, 1, 0));
}

#[test]
fn the_latest_entry_that_a_controller_writes_is_taken() {
    let mut loom = Loom::new(4, 8, 4);
    for _ in 1..16 {
        loom.commit();
    }
    loom.store(1, 7);
    assert_eq!(loom.buffered(0), range(1, 0, 16));
    assert_eq!(loom.evict(1, NO_CUT), answer(0, 1, 4));
    assert_eq!(loom.power_up(), answer(0, 0, 2));
    assert_eq!(loom.line(1), 0);
}

#[test]
fn a_full_buffer_is_flushed_at_once_and_a_full_log_has_no_room() {
    let mut loom = Loom::new(64, 33, 64);
    for address in 0..31 {
        assert_eq!(loom.store(address, 1), answer(0, 0, 0));
    }
    assert_eq!(loom.store(31, 1), answer(0, 0, 65));
    assert_eq!(loom.store(32, 1), answer(0, 0, 0));
    assert_eq!(loom.store(33, 1), answer(8, 0, 0));
    assert_eq!(loom.store(32, 2), answer(0, 0, 0));
}
