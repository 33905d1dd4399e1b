//! The filter, with numbers worked by hand from the paper: bit a mod 4,096 and bit (a * 40503 mod 65,536) / 16, bit 0 the most
//! significant of the first word. refusals.rs has number 14.

mod refusals;

use super::{answer, range, Loom};
use crate::call::{Call, NO_CUT};
use crate::handwritten::layout::{filter_place, FilterBit, SlotWord};
use crate::interface::Answer;

/// Address, first bit, second bit.
const WORKED: [(u64, usize, usize); 15] = [
    (0, 0, 0),
    // 40,503 / 16 = 2,531.4
    (1, 1, 2_531),
    // 81,006 - 65,536 = 15,470
    (2, 2, 966),
    // 2,551,689 - 38 * 65,536 = 61,321
    (63, 63, 3_832),
    // 2,592,192 - 39 * 65,536 = 36,288
    (64, 64, 2_268),
    // 4,096 * 40,503 = 165,900,288; less 2,531 * 65,536: 28,672
    (4_096, 0, 1_792),
    // 28,672 - 40,503 + 65,536 = 53,705
    (4_095, 4_095, 3_356),
    // 28,672 + 40,503 - 65,536 = 3,639
    (4_097, 1, 227),
    // 102,513,093 - 1,564 * 65,536 = 14,789
    (2_531, 2_531, 924),
    // 65,536 - 40,503 = 25,033
    (65_535, 4_095, 1_564),
    // The corner bits again, as second ones. 9,437,199 - 144 * 65,536 = 15
    (233, 233, 0),
    // 105,186,291 - 1,605 * 65,536 = 1,011
    (2_597, 2_597, 63),
    // 114,623,490 - 1,749 * 65,536 = 1,026
    (2_830, 2_830, 64),
    // 175,702,014 - 2,680 * 65,536 = 65,534
    (4_338, 242, 4_095),
    // 413,171,103 - 6,304 * 65,536 = 32,159: one bit again
    (10_201, 2_009, 2_009),
];

impl Loom {
    fn filter(&self) -> &[u64] {
        &self.work[filter_place(self.sizes.slots as usize)..]
    }

    fn filter_mut(&mut self) -> &mut [u64] {
        let place = filter_place(self.sizes.slots as usize);
        &mut self.work[place..]
    }

    /// The filter's words that are not zero, with their places.
    fn filter_words(&self) -> Vec<(usize, u64)> {
        let words = self.filter().iter().copied().enumerate();
        words.filter(|&(_, word)| word != 0).collect()
    }

    fn filter_bits(&mut self) -> Answer {
        self.make(Call::FilterBits)
    }

    fn clear_bit(&mut self, bit: usize) {
        self.filter_mut()[bit / 64] &= !(1 << (63 - bit % 64));
    }
}

/// A loom whose lines `kept` are dirty, their entries in the log; then entries for these addresses are buffered. All of them have
/// slots of their own, and so has `other`, which is no more held.
fn with_buffered(mut loom: Loom, kept: &[u64], other: u64, addresses: &[u64]) -> Loom {
    for &line in kept.iter().chain([&other]) {
        loom.store(line, 7);
    }
    let flushed = kept.len() as u64 + 1;
    assert_eq!(loom.evict(other, NO_CUT), answer(0, 1, 2 * flushed + 2));
    for &address in addresses {
        assert_eq!(loom.store(address, 7), answer(0, 0, 0));
    }
    assert_eq!(loom.registers.buffered, addresses.len() as u64);
    loom
}

#[test]
fn bits_of_addresses() {
    for (address, first, second) in WORKED {
        let bits = [FilterBit(first), FilterBit(second)];
        assert_eq!(FilterBit::both_of(address), bits, "{address}");
    }
}

#[test]
fn bit_0_is_the_most_significant_of_the_first_word() {
    let mut loom = Loom::new(4_096, 8, 256);
    assert_eq!(loom.filter_bits(), answer(0, 0, 0));
    loom.store(0, 1);
    assert_eq!(loom.filter_words(), [(0, 0x8000_0000_0000_0000)]);
    assert_eq!(loom.filter_bits(), answer(0, 1, 0));
    loom.store(63, 1);
    // 3,832 = 59 * 64 + 56
    assert_eq!(loom.filter_words(), [(0, 0x8000_0000_0000_0001), (59, 0x80)]);
    loom.store(64, 1);
    // 2,268 = 35 * 64 + 28
    let words = [
        (0, 0x8000_0000_0000_0001),
        (1, 0x8000_0000_0000_0000),
        (35, 0x0000_0008_0000_0000),
        (59, 0x80),
    ];
    assert_eq!(loom.filter_words(), words);
    assert_eq!(loom.filter_bits(), answer(0, 5, 0));

    let mut loom = Loom::new(4_096, 8, 256);
    loom.store(4_095, 1);
    // 3,356 = 52 * 64 + 28
    assert_eq!(loom.filter_words(), [(52, 0x0000_0008_0000_0000), (63, 1)]);
}

#[test]
fn corner_bits_as_second_ones() {
    let words_of = |address| {
        let mut loom = Loom::new(4_339, 8, 4);
        loom.store(address, 1);
        loom.filter_words()
    };
    // 233 = 3 * 64 + 41
    assert_eq!(words_of(233), [(0, 0x8000_0000_0000_0000), (3, 0x0000_0000_0040_0000)]);
    // 2,597 = 40 * 64 + 37
    assert_eq!(words_of(2_597), [(0, 1), (40, 0x0000_0000_0400_0000)]);
    // 2,830 = 44 * 64 + 14
    assert_eq!(
        words_of(2_830),
        [(1, 0x8000_0000_0000_0000), (44, 0x0002_0000_0000_0000)]
    );
    // 242 = 3 * 64 + 50
    assert_eq!(words_of(4_338), [(3, 0x0000_0000_0000_2000), (63, 1)]);
}

#[test]
fn addresses_that_share_a_bit() {
    // Bit 1 is the first of both; bit 2,531 is the second of 1 and the first of 2,531; one address has the same bits again.
    for (other, bits) in [(4_097, 3), (2_531, 3), (2, 4)] {
        let mut loom = Loom::new(4_098, 8, 8);
        loom.store(1, 7);
        assert_eq!(loom.filter_bits(), answer(0, 2, 0));
        loom.store(other, 7);
        assert_eq!(loom.filter_bits(), answer(0, bits, 0), "{other}");
    }
    let mut loom = Loom::new(4_098, 8, 8);
    loom.store(1, 7);
    loom.commit();
    loom.store(1, 8);
    assert_eq!(loom.registers.buffered, 2);
    assert_eq!(loom.filter_bits(), answer(0, 2, 0));
}

#[test]
fn false_hits_flush() {
    // Line 1 has the bits 1 and 2,531. 4,097 sets 1 and 227, 2,531 sets 2,531 and 924.
    let loom = |buffered: &[u64]| with_buffered(Loom::new(4_098, 8, 8), &[1], 3, buffered);
    let mut hit = loom(&[4_097, 2_531]);
    assert_eq!(hit.filter_bits(), answer(0, 4, 0));
    assert_eq!(hit.evict(1, NO_CUT), answer(0, 1, 6));
    assert_eq!(hit.control().length, 4);
    assert_eq!(hit.registers.buffered, 0);
    assert_eq!(hit.filter_bits(), answer(0, 0, 0));

    // One of the two bits is not enough.
    for address in [4_097, 2_531] {
        let mut miss = loom(&[address]);
        assert_eq!(miss.evict(1, NO_CUT), answer(0, 1, 1));
        assert_eq!(miss.registers.buffered, 1);
        assert_eq!(miss.filter_bits(), answer(0, 2, 0));
    }
}

#[test]
fn one_entry_is_enough_for_a_line_with_one_bit() {
    // Line 0 has bit 0 alone, which is the second of 233. The set is full, and line 0 in the first slot of equals.
    let loom = || with_buffered(Loom::new(234, 8, 4), &[0, 2, 4], 1, &[233]);
    assert_eq!(loom().evict(0, NO_CUT), answer(0, 1, 4));
    assert_eq!(loom().evict(0, 3), answer(12, 0, 3));
    assert_eq!(loom().load(3), answer(0, 0, 4));

    let mut store = loom();
    assert_eq!(store.store(3, 9), answer(0, 0, 4));
    assert_eq!(store.registers.buffered, 1);
    assert_eq!(store.buffered(0), range(3, 0, 1));
    // 3 has the bits 3 and 3 * 40,503 - 65,536 = 55,973, divided by 16 3,498 = 54 * 64 + 42.
    assert_eq!(store.filter_words(), [(0, 1 << 60), (54, 1 << 21)]);

    // Lines 0 and 233 are in slots 0 and 1; the entry for 233 is in the log once line 0 is stored.
    let mut scan = with_buffered(Loom::new(234, 8, 4), &[0], 1, &[233]);
    scan.commit();
    assert_eq!(scan.scan(), answer(0, 0, 4));
    assert_eq!(scan.scan(), answer(0, 0, 1));
    assert_eq!(scan.scan(), answer(0, 0, 0));

    // Without the entry, line 0 is stored alone.
    let mut alone = with_buffered(Loom::new(234, 8, 4), &[0], 1, &[]);
    assert_eq!(alone.evict(0, NO_CUT), answer(0, 1, 1));
}

#[test]
fn lines_123_157_and_70() {
    // 123: bits 123 and 4,981,869 - 76 * 65,536 = 1,133, so 70. 157: 6,358,971 - 97 * 65,536 = 1,979, so 123. 70: its first.
    let loom = |buffered: &[u64]| with_buffered(Loom::new(158, 8, 8), &[123], 4, buffered);
    assert_eq!(loom(&[157, 70]).evict(123, NO_CUT), answer(0, 1, 6));
    assert_eq!(loom(&[157]).evict(123, NO_CUT), answer(0, 1, 1));
    assert_eq!(loom(&[70]).evict(123, NO_CUT), answer(0, 1, 1));
}

#[test]
fn a_store_with_31_entries_buffered_makes_66_stores_or_64() {
    // Lines 0, 16, 32 and 48 fill set 0 of 16, so that line 64 takes the slot of line 0. That is stored, then the entry for 64
    // is the 32nd: 1 + 2 * 32 + 1.
    let buffered = Vec::from_iter((2..31).chain([32, 48]));
    let mut loom = with_buffered(Loom::new(234, 64, 64), &[0], 1, &buffered);
    assert_eq!(loom.store(64, 7), answer(0, 0, 66));
    assert_eq!(loom.registers.buffered, 0);
    assert_eq!(loom.filter_bits(), answer(0, 0, 0));

    // With an entry for 233 among the 31, line 0 is a false hit: 2 * 31 + 1 and the line, and the entry for 64 is the first.
    let buffered = Vec::from_iter((2..30).chain([32, 48, 233]));
    let mut loom = with_buffered(Loom::new(234, 64, 64), &[0], 1, &buffered);
    assert_eq!(loom.store(64, 7), answer(0, 0, 64));
    assert_eq!(loom.registers.buffered, 1);
    assert_eq!(loom.filter_bits(), answer(0, 2, 0));
}

/// Entries for 1 and 2, with the bits 1, 2,531, 2 and 966, while epoch 1 waits.
fn two_buffered() -> Loom {
    let mut loom = Loom::new(4, 8, 4);
    loom.store(1, 7);
    loom.commit();
    loom.store(2, 7);
    loom
}

#[test]
fn a_filter_whose_every_bit_is_set() {
    let mut loom = with_buffered(Loom::new(4, 8, 4), &[0], 1, &[2]);
    loom.filter_mut().fill(u64::MAX);
    assert_eq!(loom.filter_bits(), answer(0, 4_096, 0));
    assert_eq!(loom.store(3, 7), answer(0, 0, 0));
    assert_eq!(loom.filter_bits(), answer(0, 4_096, 0));
    // Two entries, the control word and the line.
    assert_eq!(loom.evict(0, NO_CUT), answer(0, 1, 6));
    assert_eq!(loom.filter_bits(), answer(0, 0, 0));
}

#[test]
fn without_entries_the_filter_decides_nothing_and_stays() {
    let mut loom = with_buffered(Loom::new(4, 8, 4), &[0], 1, &[]);
    loom.filter_mut().fill(u64::MAX);
    assert_eq!(loom.evict(0, NO_CUT), answer(0, 1, 1));
    assert_eq!(loom.filter_bits(), answer(0, 4_096, 0));
    loom.commit();
    for _ in 0..4 {
        assert_eq!(loom.scan(), answer(0, 0, 0));
    }
    assert_eq!(loom.scan(), answer(0, 1, 1));
    assert_eq!(loom.filter_bits(), answer(0, 4_096, 0));
}

#[test]
fn each_flush_clears_the_filter() {
    // By a write-out.
    let mut loom = two_buffered();
    assert_eq!(loom.filter_bits(), answer(0, 4, 0));
    assert_eq!(loom.evict(1, NO_CUT), answer(0, 1, 6));
    assert_eq!(loom.filter_words(), []);

    // By the end of a scan: line 1 is stored to in epoch 2 as well, so no slot is written out.
    let mut loom = two_buffered();
    loom.store(1, 8);
    for _ in 0..4 {
        assert_eq!(loom.scan(), answer(0, 0, 0));
    }
    assert_eq!(loom.filter_bits(), answer(0, 4, 0));
    assert_eq!(loom.scan(), answer(0, 1, 8));
    assert_eq!(loom.filter_words(), []);

    // By the 32nd entry.
    let mut loom = Loom::new(64, 33, 64);
    for address in 0..31 {
        loom.store(address, 1);
    }
    assert_eq!(loom.store(31, 1), answer(0, 0, 65));
    assert_eq!(loom.filter_words(), []);
}

#[test]
fn power_up_and_a_cut_clear_the_filter() {
    let mut loom = two_buffered();
    loom.filter_mut().fill(u64::MAX);
    loom.power_up();
    assert_eq!(loom.filter_words(), []);

    // In the midst of the flush, and behind it.
    for allowance in [4, 5] {
        let mut loom = two_buffered();
        assert_eq!(loom.evict(1, allowance), answer(12, 0, allowance.into()));
        assert_eq!(loom.filter_words(), []);
    }
}

#[test]
fn the_status_question_counts_the_filters_words_alone() {
    let mut loom = Loom::new(4, 8, 4);
    loom.work.fill(u64::MAX);
    assert_eq!(loom.without_change(Call::FilterBits), answer(0, 4_096, 0));
    loom.filter_mut().fill(0);
    assert_eq!(loom.without_change(Call::FilterBits), answer(0, 0, 0));
    loom.filter_mut()[0] = 0x8000_0000_0000_0001;
    loom.filter_mut()[31] = 0xF0;
    loom.filter_mut()[63] = 0x5555_5555_5555_5555;
    assert_eq!(loom.without_change(Call::FilterBits), answer(0, 2 + 4 + 32, 0));
    // Board and registers are nothing to it.
    loom.board.fill(u64::MAX);
    loom.registers.buffered = u64::MAX;
    loom.registers.dirty = u64::MAX;
    assert_eq!(loom.without_change(Call::FilterBits), answer(0, 38, 0));
}

#[test]
fn the_status_question_refuses_by_the_work_memorys_length() {
    let mut loom = Loom::new(4, 8, 4);
    for (words, number) in [
        (0, 2),
        (64, 2),
        (72, 2),
        (127, 2),
        (128, 2),
        (130, 2),
        (135, 2),
        (136, 0),
        (137, 2),
        (138, 2),
        (640, 0),
        (641, 2),
        (642, 2),
        (648, 2),
    ] {
        loom.work = vec![0; words];
        assert_eq!(
            loom.without_change(Call::FilterBits),
            answer(number, 0, 0),
            "{words} words"
        );
        assert_eq!(loom.without_change(Call::Tally), answer(number, 0, 0), "{words} words");
    }
}

#[test]
fn an_old_work_memory_is_one_of_fewer_slots() {
    // 2 * 36 + 64 words, for 36 slots once, have room for four: a fifth line is in the way of the first.
    let mut loom = Loom::new(8, 8, 4);
    assert_eq!(loom.work.len(), 2 * 36 + 64);
    for address in 1..5 {
        assert_eq!(loom.store(address, 7), answer(0, 0, 0));
    }
    assert_eq!(loom.load(5), answer(0, 0, 10));
    // And 2 * 32 + 64 have none.
    loom.work = vec![0; 2 * 32 + 64];
    assert_eq!(loom.without_change(Call::load(1)), answer(2, 0, 0));
}

#[test]
fn a_line_that_a_slot_holds_dirty_without_entry_is_asked_for_by_its_address() {
    // A slot word by hand: line 2 dirty in slot 1. Its bits are 2 and 966, of which the entry for 1 has none.
    let mut loom = Loom::new(4, 8, 4);
    loom.store(1, 7);
    loom.work[2] = SlotWord::dirty(2, 1).0;
    loom.work[3] = 9;
    loom.registers.dirty = 2;
    assert_eq!(loom.evict(2, NO_CUT), answer(0, 1, 1));
    assert_eq!(loom.line(2), 9);
    assert_eq!(loom.registers.buffered, 1);
}
