//! Number 2 for a work memory that is not of whole sets, and number 6 over a set: each slot, the set that an address belongs in,
//! and lines held twice.

use super::{answer, clean, dirty, with_set, Loom, EMPTY};
use crate::call::Call;
use crate::handwritten::layout::{buffer_place, work_words, SlotWord, WAYS};

/// Calls that visit set 1 of two: line 41, which no slot holds, and lines 1 to 7.
const SET_VISITS: [Call; 9] = [
    Call::load(41),
    Call::load(1),
    Call::load(7),
    Call::store(41, 9),
    Call::store(1, 9),
    Call::store(7, 9),
    Call::evict(41),
    Call::evict(1),
    Call::evict(7),
];

/// Set 1 as it is proper: one slot of each kind, and one more.
fn proper() -> [SlotWord; WAYS] {
    [dirty(1, 2), clean(3), EMPTY, dirty(7, 4)]
}

/// Words that may not stand in a slot of set 1, in epoch 4 with none persisted.
fn improper_words() -> Vec<(SlotWord, &'static str)> {
    let without = |word: SlotWord, bit: u64| SlotWord(word.0 & !bit);
    vec![
        (SlotWord(1), "not valid, a zero bit"),
        (SlotWord(SlotWord::DIRTY), "dirty, not valid"),
        (without(clean(9), SlotWord::VALID), "an address, not valid"),
        (
            without(dirty(9, 2), SlotWord::VALID),
            "dirty with address and tag, not valid",
        ),
        (SlotWord(clean(9).0 | 1), "clean, the last zero bit"),
        (SlotWord(dirty(9, 2).0 | 1 << 21), "dirty, the first zero bit"),
        (without(dirty(9, 2), SlotWord::DIRTY), "clean, with a tag"),
        (dirty(9, 0), "dirty, with the persisted epoch"),
        (dirty(9, 5), "dirty, later than the running epoch"),
        (clean(65), "an address in no line, of the set"),
        (dirty(65_535, 2), "the last address"),
        (clean(8), "clean, of another set"),
        (dirty(0, 2), "dirty, of another set"),
        (dirty(62, 4), "dirty, of another set, the last line"),
    ]
}

#[test]
fn slots_are_a_multiple_of_4_from_4_to_256() {
    let mut loom = Loom::new(4, 8, 4);
    let calls = [
        Call::POWER_UP,
        Call::load(0),
        Call::store(0, 7),
        Call::evict(0),
        Call::COMMIT,
        Call::SCAN,
        Call::Tally,
        Call::FilterBits,
    ];
    for slots in (0..=300).filter(|slots| slots % 4 != 0 || *slots == 0 || *slots > 256) {
        loom.work = vec![0; work_words(slots)];
        for call in calls {
            loom.registers.epoch = 1;
            assert_eq!(loom.make(call), answer(2, 0, 0), "{call}, S = {slots}");
        }
    }
    for slots in (4..=256).step_by(4) {
        loom.work = vec![0; work_words(slots)];
        assert_eq!(loom.power_up(), answer(0, 0, 1), "S = {slots}");
        assert_eq!(loom.store(0, 7), answer(0, 0, 0), "S = {slots}");
        for words in [work_words(slots) - 1, work_words(slots) + 1] {
            loom.work = vec![0; words];
            assert_eq!(loom.power_up(), answer(2, 0, 0), "{words} words");
        }
    }
}

#[test]
fn each_slot_of_the_set_is_tested() {
    for (word, what) in improper_words() {
        for way in 0..WAYS {
            let mut words = proper();
            words[way] = word;
            for call in SET_VISITS {
                let mut loom = with_set(words);
                assert_eq!(loom.without_change(call), answer(6, 0, 0), "{call}, slot {way}: {what}");
            }
        }
    }
    for call in SET_VISITS {
        assert_eq!(with_set(proper()).make(call).number, 0, "{call}");
    }
}

#[test]
fn slots_of_other_sets_are_not_tested() {
    for (word, what) in improper_words() {
        for way in 0..WAYS {
            let mut words = proper();
            words[way] = word;
            for call in [Call::load(0), Call::store(2, 9), Call::evict(4)] {
                assert_eq!(with_set(words).make(call).number, 0, "{call}, slot {way}: {what}");
            }
        }
    }
}

#[test]
fn the_scan_tests_the_slot_at_its_cursor_alone() {
    for (word, what) in improper_words() {
        for way in 0..WAYS {
            let mut words = proper();
            words[way] = word;
            for cursor in 0..=2 * WAYS {
                let mut loom = with_set(words);
                loom.put_cursor(cursor as u64);
                let number = if cursor == WAYS + way { 6 } else { 0 };
                assert_eq!(
                    loom.make(Call::SCAN).number,
                    number,
                    "slot {way}, cursor {cursor}: {what}"
                );
            }
        }
    }
}

#[test]
fn a_line_held_twice_is_refused_whichever_it_is() {
    // Line 1 twice, in each two slots; clean, dirty and both; the asked line and another.
    let kinds = [
        [clean(1), clean(1)],
        [dirty(1, 2), dirty(1, 2)],
        [clean(1), dirty(1, 3)],
        [dirty(1, 1), dirty(1, 4)],
    ];
    for [first, second] in kinds {
        for (one, other) in [(0, 1), (0, 2), (0, 3), (1, 2), (1, 3), (2, 3)] {
            let mut words = [3, 5, 7, 9].map(clean);
            words[one] = first;
            words[other] = second;
            for call in SET_VISITS {
                assert_eq!(
                    with_set(words).without_change(call),
                    answer(6, 0, 0),
                    "{call}, slots {one} and {other}"
                );
            }
        }
    }
}

#[test]
fn empty_slots_are_no_line_held_twice() {
    // Line 0 itself among empty slots, too.
    for call in SET_VISITS {
        assert_eq!(with_set([EMPTY; WAYS]).make(call).number, 0, "{call}");
    }
    let mut loom = Loom::new(64, 8, 4);
    loom.put_set(0, [EMPTY, clean(0), EMPTY, EMPTY]);
    assert_eq!(loom.without_change(Call::load(0)), answer(0, 1, 0));
    assert_eq!(loom.load(4), answer(0, 0, 0));
}

#[test]
fn the_scan_accepts_a_line_held_twice() {
    let twice = [dirty(1, 1), clean(3), dirty(1, 1), dirty(5, 2)];
    assert_eq!(with_set(twice).without_change(Call::load(3)), answer(6, 0, 0));
    let mut loom = with_set(twice);
    let stores: Vec<u64> = (0..9).map(|_| loom.scan().stores).collect();
    assert_eq!(stores, [0, 0, 0, 0, 1, 0, 1, 0, 1]);
    // Slot 6 came later.
    assert_eq!(loom.line(1), 6);
    assert_eq!(loom.without_change(Call::load(3)), answer(6, 0, 0));
}

#[test]
fn a_line_in_two_sets_is_refused_as_of_another_set() {
    let mut loom = with_set(proper());
    loom.put_set(0, [clean(1), EMPTY, EMPTY, EMPTY]);
    assert_eq!(loom.without_change(Call::load(0)), answer(6, 0, 0));
    assert_eq!(loom.without_change(Call::load(1)).number, 0);
}

#[test]
fn address_comes_before_slot_and_slot_before_buffer() {
    let mut words = proper();
    words[3] = SlotWord(1);
    let mut loom = with_set(words);
    for call in [Call::load(65), Call::store(65, 9), Call::evict(u64::MAX)] {
        assert_eq!(loom.without_change(call), answer(5, 0, 0), "{call}");
    }
    loom.registers.buffered = 1;
    loom.work[buffer_place(8, 0)] = 0;
    for call in SET_VISITS {
        assert_eq!(loom.without_change(call), answer(6, 0, 0), "{call}");
    }
    loom.put_set(1, proper());
    for call in SET_VISITS {
        assert_eq!(loom.without_change(call), answer(7, 0, 0), "{call}");
    }
}
