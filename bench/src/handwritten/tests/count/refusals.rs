//! Number 4 for the count: above S with the other registers, in each call that tests them; and right after 6, for 0 with a slot of
//! the visited set dirty or S with one not. A scan visits the slot at its cursor alone.

use super::{answer, Loom};
use crate::call::Call;
use crate::handwritten::layout::{buffer_place, filter_place, SlotWord, WAYS};
use crate::handwritten::Registers;

const S: u64 = 8;

/// Calls that visit set 0 of two, those of line 0 and those of line 8, which belongs there too.
const SET_VISITS: [Call; 6] = [
    Call::load(0),
    Call::load(8),
    Call::store(0, 9),
    Call::store(8, 9),
    Call::evict(0),
    Call::evict(8),
];

const EMPTY: SlotWord = SlotWord::EMPTY;

/// Set 0 has these words, set 1 is empty; so many slots are counted. Epoch 1 waits, and nothing is buffered.
fn with_set(words: [SlotWord; WAYS], count: u64) -> Loom {
    let mut loom = Loom::new(16, 8, S);
    loom.commit();
    for (slot, word) in words.into_iter().enumerate() {
        loom.work[2 * slot] = word.0;
    }
    loom.registers.dirty = count;
    loom
}

/// Lines 0, 2, 4 and 6 dirty since epoch 1.
fn all_dirty() -> [SlotWord; WAYS] {
    [0, 2, 4, 6].map(|address| SlotWord::dirty(address, 1))
}

/// The same, but for one slot.
fn all_dirty_but(slot: usize, word: SlotWord) -> [SlotWord; WAYS] {
    let mut words = all_dirty();
    words[slot] = word;
    words
}

fn all_empty_but(slot: usize, word: SlotWord) -> [SlotWord; WAYS] {
    let mut words = [EMPTY; WAYS];
    words[slot] = word;
    words
}

/// Set 0 is dirty and uncounted, and so is line 1 in set 1, for which an entry is buffered.
fn none_counted() -> Loom {
    let mut loom = with_set(all_dirty(), 4);
    loom.store(1, 7);
    loom.registers.dirty = 0;
    loom
}

fn with_scan(calls: [Call; 6]) -> impl Iterator<Item = Call> {
    calls.into_iter().chain([Call::SCAN])
}

#[test]
fn a_count_above_s_is_refused_with_the_registers() {
    let loom = |count| with_set(all_dirty(), count);
    for call in with_scan(SET_VISITS).chain([Call::COMMIT, Call::Begin { target: 1 }, Call::Tally]) {
        for count in [1, 4, 7, 8] {
            assert_eq!(loom(count).make(call).number, 0, "{call}, {count}");
        }
        for count in [9, 10, 8 + (1 << 8), 1 + (1 << 16), 1 << 32, 1 + (1 << 63), u64::MAX] {
            assert_eq!(loom(count).without_change(call), answer(4, 0, 0), "{call}, {count}");
        }
    }
    // At the scan's end too.
    let mut end = loom(9);
    end.put_cursor(8);
    assert_eq!(end.without_change(Call::SCAN), answer(4, 0, 0));
}

#[test]
fn a_count_above_s_comes_before_address_and_slot() {
    let mut loom = with_set([SlotWord(1); WAYS], 9);
    for call in with_scan(SET_VISITS).chain([Call::load(16), Call::store(16, 9), Call::evict(16)]) {
        assert_eq!(loom.without_change(call), answer(4, 0, 0), "{call}");
    }
}

#[test]
fn a_count_of_s_is_proper_with_4_slots_and_with_256() {
    for slots in [4, 256] {
        let mut loom = Loom::new(256, 8, slots);
        for way in 0..4 {
            // Set 0 of 1 and of 64.
            let address = way * slots / 4;
            loom.work[2 * way as usize] = SlotWord::dirty(address, 1).0;
        }
        loom.registers.dirty = slots;
        assert_eq!(loom.without_change(Call::Tally), answer(0, slots, 0));
        assert_eq!(loom.load(0).number, 0);
        loom.registers.dirty = slots + 1;
        assert_eq!(loom.without_change(Call::Tally), answer(4, 0, 0));
        assert_eq!(loom.without_change(Call::load(0)), answer(4, 0, 0));
    }
}

#[test]
fn a_count_of_0_is_refused_where_any_slot_of_the_set_is_dirty() {
    for call in SET_VISITS {
        for slot in 0..WAYS {
            // Line 0 itself, another, and one with a later tag; beside empty slots and beside clean ones.
            for word in [SlotWord::dirty(0, 1), SlotWord::dirty(2, 1), SlotWord::dirty(2, 2)] {
                let words = all_empty_but(slot, word);
                assert_eq!(with_set(words, 0).without_change(call), answer(4, 0, 0), "{call}");
                assert_eq!(with_set(words, 1).make(call).number, 0, "{call}");
            }
            let mut words = [4, 6, 10, 12].map(SlotWord::clean);
            words[slot] = SlotWord::dirty(2, 1);
            assert_eq!(with_set(words, 0).without_change(call), answer(4, 0, 0), "{call}");
        }
        for words in [[EMPTY; WAYS], [0, 2, 4, 6].map(SlotWord::clean)] {
            assert_eq!(with_set(words, 0).make(call).number, 0, "{call}");
        }
    }
    // Beside set 1, which is empty, it is not.
    for call in [Call::load(1), Call::store(1, 9), Call::evict(1)] {
        assert_eq!(with_set(all_dirty(), 0).make(call).number, 0, "{call}");
    }
}

#[test]
fn a_count_of_s_is_refused_where_any_slot_of_the_set_is_not_dirty() {
    for call in SET_VISITS {
        for slot in 0..WAYS {
            for word in [EMPTY, SlotWord::clean(0), SlotWord::clean(10)] {
                let mut words = [2, 4, 6, 12].map(|address| SlotWord::dirty(address, 1));
                words[slot] = word;
                assert_eq!(with_set(words, S).without_change(call), answer(4, 0, 0), "{call}");
                assert_eq!(with_set(words, S - 1).make(call).number, 0, "{call}");
            }
        }
        assert_eq!(with_set(all_dirty(), S).make(call).number, 0, "{call}");
        assert_eq!(
            with_set([EMPTY; WAYS], S).without_change(call),
            answer(4, 0, 0),
            "{call}"
        );
    }
}

#[test]
fn no_other_count_is_held_to_the_set() {
    // Four dirty slots and a count of 1 to 3; none and a count of 5 to 7.
    for call in SET_VISITS {
        for count in 1..8 {
            assert_eq!(with_set(all_dirty(), count).make(call).number, 0, "{call}");
            assert_eq!(with_set([EMPTY; WAYS], count).make(call).number, 0, "{call}");
        }
    }
}

#[test]
fn a_scan_holds_the_count_to_the_slot_at_its_cursor() {
    for (cursor, slot) in [(0, 0), (1, 1), (3, 3), (1, 0), (0, 3)] {
        let mut none = with_set(all_empty_but(slot, SlotWord::dirty(0, 1)), 0);
        none.put_cursor(cursor as u64);
        let mut all = with_set(all_dirty_but(slot, SlotWord::clean(0)), S);
        all.put_cursor(cursor as u64);
        if cursor == slot {
            assert_eq!(none.without_change(Call::SCAN), answer(4, 0, 0));
            assert_eq!(all.without_change(Call::SCAN), answer(4, 0, 0));
        } else {
            assert_eq!(none.scan(), answer(0, 0, 0));
            assert_eq!(all.scan(), answer(0, 0, 1));
        }
    }
}

#[test]
fn the_scans_end_commit_and_begin_visit_no_slot() {
    for (words, count) in [
        (all_dirty(), 0),
        ([EMPTY; WAYS], S),
        ([0, 2, 4, 6].map(SlotWord::clean), S),
    ] {
        let mut loom = with_set(words, count);
        loom.put_cursor(S);
        assert_eq!(loom.scan(), answer(0, 1, 1));
        assert_eq!(loom.registers, Registers::from([2, 0, 0, count, 0]));
        let mut loom = with_set(words, count);
        assert_eq!(loom.commit(), answer(0, 0, 0));
        assert_eq!(loom.registers, Registers::from([3, 0, 0, count, 0]));
        assert_eq!(loom.begin(2), answer(0, 0, 0));
        assert_eq!(loom.registers, Registers::from([3, 0, 0, count, 2]));
    }
}

#[test]
fn address_comes_before_the_count() {
    // Lines 16 and 18 would belong in set 0.
    for (words, count) in [(all_dirty(), 0), ([EMPTY; WAYS], S)] {
        let mut loom = with_set(words, count);
        for call in [Call::load(16), Call::store(18, 9), Call::evict(16), Call::load(1 << 32)] {
            assert_eq!(loom.without_change(call), answer(5, 0, 0), "{call}");
        }
    }
}

#[test]
fn slot_comes_before_the_count() {
    let beyond = SlotWord::dirty(16, 1);
    let of_set_1 = SlotWord::dirty(1, 1);
    let too_late = SlotWord::dirty(0, 3);
    let tagged_clean = SlotWord(SlotWord::dirty(0, 1).0 & !SlotWord::DIRTY);
    let not_valid = SlotWord(1);
    for word in [beyond, of_set_1, too_late, tagged_clean, not_valid] {
        for slot in 0..WAYS {
            let (dirty, empty) = (all_dirty_but(slot, word), all_empty_but(slot, word));
            for call in SET_VISITS {
                assert_eq!(with_set(dirty, 0).without_change(call), answer(6, 0, 0), "{call}");
                assert_eq!(with_set(empty, S).without_change(call), answer(6, 0, 0), "{call}");
            }
        }
        assert_eq!(
            with_set(all_dirty_but(0, word), 0).without_change(Call::SCAN),
            answer(6, 0, 0)
        );
        assert_eq!(
            with_set(all_empty_but(0, word), S).without_change(Call::SCAN),
            answer(6, 0, 0)
        );
    }
}

#[test]
fn a_line_held_twice_comes_before_the_count() {
    let twice = all_dirty_but(3, SlotWord::dirty(2, 1));
    for call in SET_VISITS {
        assert_eq!(with_set(twice, 0).without_change(call), answer(6, 0, 0), "{call}");
    }
}

#[test]
fn the_count_comes_before_buffer_and_filter() {
    for call in with_scan(SET_VISITS) {
        let mut loom = none_counted();
        loom.work[buffer_place(8, 0)] = 0;
        assert_eq!(loom.without_change(call), answer(4, 0, 0), "{call}");
        loom.registers.dirty = 5;
        assert_eq!(loom.without_change(call), answer(7, 0, 0), "{call}");

        let mut loom = none_counted();
        loom.work[filter_place(8)..].fill(0);
        assert_eq!(loom.without_change(call), answer(4, 0, 0), "{call}");
        loom.registers.dirty = 5;
        assert_eq!(loom.without_change(call), answer(14, 0, 0), "{call}");
    }
}

#[test]
fn the_count_comes_before_room() {
    let mut loom = Loom::new(4, 1, 4);
    loom.store(1, 7);
    loom.registers.dirty = 4;
    assert_eq!(loom.without_change(Call::store(0, 7)), answer(4, 0, 0));
    loom.registers.dirty = 1;
    assert_eq!(loom.without_change(Call::store(0, 7)), answer(8, 0, 0));
}

#[test]
fn the_count_comes_before_none() {
    let mut loom = Loom::new(4, 8, 4);
    loom.store(0, 7);
    loom.registers.dirty = 0;
    assert_eq!(loom.without_change(Call::SCAN), answer(4, 0, 0));
    loom.registers.dirty = 1;
    assert_eq!(loom.without_change(Call::SCAN), answer(11, 0, 0));
}

#[test]
fn the_count_comes_before_a_cut() {
    let calls = [
        Call::Load {
            address: 8,
            allowance: 0,
        },
        Call::Store {
            address: 8,
            data: 9,
            allowance: 0,
        },
        Call::Evict {
            address: 0,
            allowance: 0,
        },
        Call::Scan { allowance: 0 },
    ];
    for call in calls {
        let mut loom = none_counted();
        assert_eq!(loom.without_change(call), answer(4, 0, 0), "{call}");
        loom.registers.dirty = 5;
        assert_eq!(loom.make(call), answer(12, 0, 0), "{call}");
    }
}

#[test]
fn the_tally_refuses_as_commit_does_up_to_4() {
    // Epoch 2 runs, with one entry buffered; epoch 0 is persisted, and the log of 8 is empty.
    let mut loom = with_set([EMPTY; WAYS], 0);
    loom.store(1, 7);
    let proper = loom.registers;
    assert_eq!(proper, Registers::from([2, 1, 0, 1, 0]));
    let improper = [
        [0, 1, 0, 1, 0],
        [17, 1, 0, 1, 0],
        [1 << 24, 1, 0, 1, 0],
        [1 << 40, 1, 0, 1, 0],
        [2, 32, 0, 1, 0],
        [2, 9, 0, 1, 0],
        [2, 1, 9, 1, 1],
        [1, 1, 1, 1, 0],
        [2, 1, 0, 9, 0],
        [2, 1, 1, 1, 0],
        [2, 1, 0, 1, 2],
    ];
    for words in improper {
        loom.registers = words.into();
        for call in [Call::Tally, Call::COMMIT, Call::Begin { target: 1 }] {
            assert_eq!(loom.without_change(call), answer(4, 0, 0), "{call}, {words:?}");
        }
    }
    loom.work.push(0);
    assert_eq!(loom.without_change(Call::Tally), answer(2, 0, 0));
    loom.board.push(0);
    assert_eq!(loom.without_change(Call::Tally), answer(1, 0, 0));
    loom.work.pop();
    loom.registers = proper;
    assert_eq!(loom.without_change(Call::Tally), answer(1, 0, 0));
    loom.board.truncate(1);
    assert_eq!(loom.without_change(Call::Tally), answer(1, 0, 0));
    loom.board.clear();
    assert_eq!(loom.without_change(Call::Tally), answer(1, 0, 0));
}
