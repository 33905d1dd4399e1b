//! The sets of four slots, worked by hand from the paper: where a line is held, which slot one takes that is not, and what that
//! costs. refusals.rs has what is refused for a set.

mod refusals;

use super::{answer, range, Loom};
use crate::call::{Call, NO_CUT};
use crate::handwritten::layout::{SlotWord, WAYS};

const EMPTY: SlotWord = SlotWord::EMPTY;

fn clean(address: u64) -> SlotWord {
    SlotWord::clean(address)
}

fn dirty(address: u64, tag: u64) -> SlotWord {
    SlotWord::dirty(address, tag)
}

/// Epoch 4 runs and none is persisted. Set 1 of two, slots 4 to 7, has these words, of odd lines below 64; the data of a slot is
/// its number. Nothing is buffered.
fn with_set(words: [SlotWord; WAYS]) -> Loom {
    let mut loom = Loom::new(64, 8, 8);
    for _ in 1..4 {
        loom.commit();
    }
    loom.put_set(1, words);
    loom
}

impl Loom {
    /// Puts words into a set, and data that are the slots' numbers. The count of dirty slots becomes true.
    fn put_set(&mut self, set: usize, words: [SlotWord; WAYS]) {
        for (way, word) in words.into_iter().enumerate() {
            let slot = WAYS * set + way;
            self.work[2 * slot] = word.0;
            self.work[2 * slot + 1] = slot as u64;
        }
        self.registers.dirty = self
            .slot_words()
            .iter()
            .filter(|word| word.is_valid_and_dirty())
            .count() as u64;
    }

    fn slot_words(&self) -> Vec<SlotWord> {
        let slots = self.sizes.slots as usize;
        (0..slots).map(|slot| SlotWord(self.work[2 * slot])).collect()
    }

    /// The slots whose words are others than before.
    fn changed_slots(&self, before: &[SlotWord]) -> Vec<usize> {
        let words = self.slot_words();
        (0..words.len()).filter(|&slot| words[slot] != before[slot]).collect()
    }
}

/// What stands in a slot: nothing, a clean line with this address, or a dirty line with this tag and the address 2 * slot + 1.
#[derive(Clone, Copy, Debug)]
enum Put {
    E,
    C(u64),
    D(u64),
}

use Put::{C, D, E};

/// What stands in set 1, and the slot that line 41 takes there.
const TAKEN: [([Put; WAYS], usize); 22] = [
    ([E, E, E, E], 4),
    ([C(29), E, E, E], 5),
    ([D(1), E, E, E], 5),
    // An empty slot behind clean ones, and behind dirty ones; the first of two.
    ([C(29), C(31), E, E], 6),
    ([C(29), C(31), C(33), E], 7),
    ([D(1), D(1), D(1), E], 7),
    ([D(1), C(31), E, C(33)], 6),
    ([C(29), E, D(1), E], 5),
    // No empty one: the first clean one, wherever it stands and whatever its address is.
    ([C(33), C(31), C(29), C(27)], 4),
    ([D(1), C(33), C(31), D(1)], 5),
    ([D(1), D(1), C(63), C(3)], 6),
    ([D(1), D(1), D(1), C(31)], 7),
    ([D(4), D(4), D(1), C(31)], 7),
    // All are dirty: the smallest tag.
    ([D(1), D(2), D(3), D(4)], 4),
    ([D(4), D(3), D(2), D(1)], 7),
    ([D(3), D(1), D(2), D(4)], 5),
    ([D(4), D(3), D(2), D(3)], 6),
    // The lowest slot of those that have it.
    ([D(1), D(1), D(1), D(1)], 4),
    ([D(4), D(4), D(4), D(4)], 4),
    ([D(3), D(2), D(2), D(4)], 5),
    ([D(4), D(4), D(3), D(3)], 6),
    ([D(2), D(1), D(4), D(1)], 5),
];

fn words_of(row: [Put; WAYS]) -> [SlotWord; WAYS] {
    std::array::from_fn(|way| match row[way] {
        E => EMPTY,
        C(address) => clean(address),
        D(tag) => dirty(2 * (WAYS + way) as u64 + 1, tag),
    })
}

#[test]
fn a_line_that_is_not_held_takes_its_slot() {
    for (row, slot) in TAKEN {
        let words = words_of(row);
        let was_dirty = words[slot - WAYS].is_dirty();
        for call in [Call::load(41), Call::store(41, 9)] {
            let mut loom = with_set(words);
            let (before, counted) = (loom.slot_words(), loom.registers.dirty);
            // The line that goes is stored if it is dirty; no entry is buffered, so nothing is flushed.
            assert_eq!(loom.make(call), answer(0, 0, u64::from(was_dirty)), "{row:?}, {call}");
            assert_eq!(loom.changed_slots(&before), [slot], "{row:?}, {call}");
            let (word, now_dirty) = match call {
                Call::Store { .. } => (dirty(41, 4), 1),
                _ => (clean(41), 0),
            };
            assert_eq!(loom.slot_words()[slot], word);
            assert_eq!(loom.registers.dirty, counted - u64::from(was_dirty) + now_dirty);
            if was_dirty {
                assert_eq!(loom.line(2 * slot + 1), slot as u64);
            }
        }
        // An eviction takes none.
        assert_eq!(with_set(words).without_change(Call::evict(41)), answer(0, 0, 0));
    }
}

#[test]
fn a_line_is_held_in_any_slot_of_its_set() {
    let others = [dirty(1, 2), clean(3), EMPTY, dirty(5, 4)];
    for way in 0..WAYS {
        let slot = WAYS + way;
        for word in [clean(41), dirty(41, 1), dirty(41, 4)] {
            let loom = || {
                let mut words = others;
                words[way] = word;
                with_set(words)
            };
            assert_eq!(loom().without_change(Call::load(41)), answer(0, slot as u64, 0));

            let mut stored = loom();
            let before = stored.slot_words();
            assert_eq!(stored.store(41, 9), answer(0, 0, 0));
            let changed = if word == dirty(41, 4) { vec![] } else { vec![slot] };
            assert_eq!(stored.changed_slots(&before), changed);
            assert_eq!(stored.slot_words()[slot], dirty(41, 4));
            assert_eq!(stored.work[2 * slot + 1], 9);
            assert_eq!(stored.registers.buffered, changed.len() as u64);
            if word == dirty(41, 1) {
                assert_eq!(stored.buffered(0), range(41, 1, 4));
            }

            let mut evicted = loom();
            assert_eq!(evicted.evict(41, NO_CUT), answer(0, 1, u64::from(word.is_dirty())));
            assert_eq!(evicted.changed_slots(&before), [slot]);
            assert_eq!(evicted.work[2 * slot..][..2], [0, 0]);
        }
    }
}

#[test]
fn an_address_belongs_in_the_set_a_mod_a_quarter_of_s() {
    // 12 slots are 3 sets.
    let mut loom = Loom::new(64, 8, 12);
    for (address, slot) in [(0, 0), (1, 4), (2, 8), (3, 1), (4, 5), (63, 2), (62, 9), (61, 6)] {
        loom.load(address);
        assert_eq!(loom.slot_words()[slot], clean(address), "{address}");
    }
    // 256 slots are 64 sets.
    let mut loom = Loom::new(65_536, 8, 256);
    for (address, slot) in [(0, 0), (63, 252), (64, 1), (65_535, 253), (65_472, 2), (1_000, 160)] {
        loom.load(address);
        assert_eq!(loom.slot_words()[slot], clean(address), "{address}");
    }
}

#[test]
fn two_lines_of_one_slot_once_are_both_held() {
    let mut loom = Loom::new(64, 8, 4);
    loom.store(0, 7);
    loom.store(4, 8);
    for _ in 0..3 {
        assert_eq!(loom.load(0), answer(0, 7, 0));
        assert_eq!(loom.load(4), answer(0, 8, 0));
        assert_eq!(loom.store(0, 7), answer(0, 0, 0));
    }
}

#[test]
fn five_lines_of_a_set_compete_for_its_first_slot() {
    // All dirty in the running epoch: lines 1, 2 and 3 stay, incoming lines take slot 0 from each other.
    let mut loom = Loom::new(64, 64, 4);
    for address in 0..4 {
        assert_eq!(loom.store(address, 7), answer(0, 0, 0));
    }
    // Four entries are flushed and line 0 is stored: 2 * 4 + 1 + 1.
    assert_eq!(loom.store(4, 7), answer(0, 0, 10));
    // From then on one entry: 2 + 1 + 1.
    for address in [0, 4, 5, 0, 6] {
        assert_eq!(loom.store(address, 7), answer(0, 0, 4));
    }
    let words = [dirty(6, 1), dirty(1, 1), dirty(2, 1), dirty(3, 1)];
    assert_eq!(loom.slot_words(), words);
}

#[test]
fn the_victim_is_written_out_with_its_entry() {
    // Lines 0 to 3 of epoch 1, of which all but line 1 are stored to in epoch 2 again: 7 entries are buffered, one of them
    // for line 1, whose tag is the smallest.
    let mut loom = Loom::new(64, 8, 4);
    for address in 0..4 {
        loom.store(address, 7);
    }
    loom.commit();
    for address in [0, 2, 3] {
        loom.store(address, 8);
    }
    // 2 * 7 + 1 and the line.
    assert_eq!(loom.load(41), answer(0, 0, 16));
    assert_eq!(loom.slot_words(), [dirty(0, 2), clean(41), dirty(2, 2), dirty(3, 2)]);
    assert_eq!(loom.line(1), 7);
    assert_eq!(loom.control().length, 7);
}

#[test]
fn room_is_asked_for_the_line_that_is_held_or_not() {
    let mut loom = Loom::new(64, 1, 4);
    loom.store(0, 7);
    // Line 0 needs no other entry. Lines that are not held do, whatever slot they would take.
    assert_eq!(loom.store(0, 8), answer(0, 0, 0));
    assert_eq!(loom.without_change(Call::store(4, 7)), answer(8, 0, 0));
    loom.load(4);
    assert_eq!(loom.without_change(Call::store(4, 7)), answer(8, 0, 0));
    loom.commit();
    assert_eq!(loom.without_change(Call::store(0, 9)), answer(8, 0, 0));
}

#[test]
fn a_scan_goes_over_the_slots_one_by_one() {
    // Lines 1 and 3 in slots 4 and 5 of epoch 1, line 5 in slot 6 of epoch 2.
    let mut loom = with_set([dirty(1, 1), dirty(3, 1), dirty(5, 2), clean(7)]);
    let stores: Vec<u64> = (0..9).map(|_| loom.scan().stores).collect();
    assert_eq!(stores, [0, 0, 0, 0, 1, 1, 0, 0, 1]);
    assert_eq!(loom.slot_words()[4..], [clean(1), clean(3), dirty(5, 2), clean(7)]);
    assert_eq!(loom.control().persisted, 1);
}

#[test]
fn after_four_stores_the_scan_makes_room_for_incoming_lines() {
    // Clean lines are taken before dirty ones: once line 2 is clean, line 4 takes its slot and costs nothing.
    let mut loom = Loom::new(64, 64, 4);
    for address in 0..4 {
        loom.store(address, 7);
    }
    loom.commit();
    loom.put_cursor(2);
    assert_eq!(loom.scan(), answer(0, 0, 10));
    assert_eq!(loom.store(4, 9), answer(0, 0, 0));
    assert_eq!(loom.slot_words(), [dirty(0, 1), dirty(1, 1), dirty(4, 2), dirty(3, 1)]);
}
