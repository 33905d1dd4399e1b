//! What a call that takes registers shows of the count of dirty slots.

use crate::call::{Call, Kind};
use crate::differential::sides::Lent;
use crate::differential::would_be::WouldBe;
use crate::handwritten::layout::{Control, SlotWord, BUFFER_ENTRIES, LAST_EPOCH, MOST_AHEAD};
use crate::handwritten::Registers;
use crate::interface::{ADDRESS, ANSWER_WORDS, CUT, OK, REGISTER_WORDS, REGS, SHAPE, SLOT, WORK};
use crate::library::TOO_SHORT;
use crate::placement::{set_of, Placement};
use crate::write_out::scan_target;

/// A call on a board and a work memory of right sizes; or one that is lent too short an array, of which nothing else is noted.
pub struct Seen {
    pub kind: Kind,
    number: u64,
    register_words: usize,
    answer_words: usize,
    slots: u64,
    /// The epoch up to which a scan's pass persists, and the running one.
    target: u64,
    epoch: u64,
    value: u64,
    /// What the registers count, before and after.
    before: u64,
    after: u64,
    /// The slots that are dirty before, however many are counted.
    dirty_slots: u64,
    /// One of the slots has a word that is neither empty nor valid.
    has_invalid_slot: bool,
    others_are_proper: bool,
    visited: Option<Visited>,
    /// What the call would answer if it was not refused for the count; to a tally, what a commit would.
    would_be: u64,
}

/// What is visited, before the call.
struct Visited {
    /// All that the count is held to: the whole set, or the slot at the scan's cursor.
    words: Vec<SlotWord>,
    /// The slot that the line has or takes, or the one at the cursor.
    word: SlotWord,
    /// It holds the line that the call has the address of.
    is_held: bool,
    /// There is no line with that address.
    is_beyond: bool,
}

impl Seen {
    /// None where the call takes no registers, or is refused before it looks at them.
    pub fn new(call: Call, number: u64, before: &Lent, after: &Lent) -> Option<Self> {
        if !call.takes_registers() || [SHAPE, WORK].contains(&number) {
            return None;
        }
        let mut seen = Seen::of_arrays(call.kind(), number, before);
        if number != TOO_SHORT {
            seen.look_at_count(call, before, after);
        }
        Some(seen)
    }

    fn of_arrays(kind: Kind, number: u64, before: &Lent) -> Self {
        Seen {
            kind,
            number,
            register_words: before.registers.len(),
            answer_words: before.answer.len(),
            slots: 0,
            target: 0,
            epoch: 0,
            value: 0,
            before: 0,
            after: 0,
            dirty_slots: 0,
            has_invalid_slot: false,
            others_are_proper: false,
            visited: None,
            would_be: OK,
        }
    }

    fn look_at_count(&mut self, call: Call, before: &Lent, after: &Lent) {
        let registers = before.registers();
        let mut words = (0..before.slots()).map(|place| before.slot(place));
        self.slots = before.slots() as u64;
        self.target = scan_target(before.control(), registers);
        self.epoch = registers.epoch;
        self.value = after.answer[0];
        self.before = registers.dirty;
        self.after = after.registers().dirty;
        self.dirty_slots = before.dirty_slots();
        self.has_invalid_slot = words.any(is_invalid);
        self.others_are_proper = are_proper_but_for_the_count(before);
        self.visited = Visited::by(call, before);
        if self.is_by_test() {
            self.would_be = WouldBe::of(call, before).number();
        } else if self.kind == Kind::Tally && self.is_ok() {
            self.would_be = WouldBe::of(Call::COMMIT, before).number();
        }
    }

    pub fn would_be(&self) -> u64 {
        self.would_be
    }

    pub fn is_short(&self) -> bool {
        self.number == TOO_SHORT
    }

    pub fn has_answer(&self) -> bool {
        self.answer_words >= ANSWER_WORDS
    }

    pub fn lacks_one_register(&self) -> bool {
        self.register_words + 1 == REGISTER_WORDS
    }

    pub fn has_more_than_registers(&self) -> bool {
        self.register_words > REGISTER_WORDS
    }

    pub fn is_ok(&self) -> bool {
        self.number == OK
    }

    /// Accepted, and the value is the count of the registers.
    pub fn answers_count(&self) -> bool {
        self.is_ok() && self.value == self.before
    }

    pub fn is_cut(&self) -> bool {
        self.number == CUT
    }

    pub fn is_for_address(&self) -> bool {
        self.number == ADDRESS
    }

    pub fn is_for_slot(&self) -> bool {
        self.number == SLOT
    }

    /// Refused by the test right after 6: the registers are proper.
    pub fn is_by_test(&self) -> bool {
        self.number == REGS && self.others_are_proper && self.before <= self.slots
    }

    /// Refused for a count above S, and for nothing else of the registers.
    pub fn is_for_excess(&self) -> bool {
        self.number == REGS && self.others_are_proper && self.before > self.slots
    }

    pub fn excess(&self) -> u64 {
        self.before.wrapping_sub(self.slots)
    }

    pub fn counts(&self, count: u64) -> bool {
        self.before == count
    }

    /// The count would be proper if it was cut to so many bits.
    pub fn is_proper_in(&self, bits: u32) -> bool {
        self.before & u64::MAX >> (u64::BITS - bits) <= self.slots
    }

    pub fn counts_all(&self) -> bool {
        self.before == self.slots
    }

    pub fn is_true(&self) -> bool {
        self.before == self.dirty_slots
    }

    pub fn is_one_too_low(&self) -> bool {
        self.dirty_slots.checked_sub(1) == Some(self.before)
    }

    pub fn is_one_too_high(&self) -> bool {
        self.before == self.dirty_slots + 1
    }

    pub fn no_slot_is_dirty(&self) -> bool {
        self.dirty_slots == 0
    }

    pub fn every_slot_is_dirty(&self) -> bool {
        self.dirty_slots == self.slots
    }

    pub fn has_invalid_slot(&self) -> bool {
        self.has_invalid_slot
    }

    /// Accepted, and the count is one less then.
    pub fn lowers(&self) -> bool {
        self.is_ok() && self.after + 1 == self.before
    }

    pub fn raises(&self) -> bool {
        self.is_ok() && self.after == self.before + 1
    }

    pub fn keeps(&self) -> bool {
        self.is_ok() && self.after == self.before
    }

    pub fn leaves(&self, count: u64) -> bool {
        self.after == count
    }

    pub fn leaves_all(&self) -> bool {
        self.after == self.slots
    }

    /// No count is left of one that was there.
    pub fn forgets(&self) -> bool {
        self.before > 0 && self.after == 0
    }

    pub fn visits(&self, is_such: impl Fn(SlotWord) -> bool) -> bool {
        self.visited.as_ref().is_some_and(|visited| is_such(visited.word))
    }

    pub fn visits_empty(&self) -> bool {
        self.visits(|word| word == SlotWord::EMPTY)
    }

    pub fn visits_clean(&self) -> bool {
        self.visits(|word| word.is_valid() && !word.is_dirty())
    }

    pub fn visits_dirty(&self) -> bool {
        self.visits(SlotWord::is_valid_and_dirty)
    }

    /// One that is tested, whether the call would work on it or not.
    fn visits_any(&self, is_such: impl Fn(SlotWord) -> bool) -> bool {
        let visited = self.visited.as_ref();
        visited.is_some_and(|visited| visited.words.iter().any(|&word| is_such(word)))
    }

    pub fn visits_invalid(&self) -> bool {
        self.visits_any(is_invalid)
    }

    /// The last slot of a set is dirty, and no other of it.
    pub fn is_dirty_in_last_alone(&self) -> bool {
        let words = self.visited.iter().flat_map(|visited| &visited.words);
        let dirty: Vec<bool> = words.map(|word| word.is_valid_and_dirty()).collect();
        dirty == [false, false, false, true]
    }

    /// A dirty line stored to in the running epoch.
    pub fn visits_newest(&self) -> bool {
        self.visits_dirty() && self.visits(|word| word.tag() == self.epoch)
    }

    /// A dirty line that the scan's pass persists.
    pub fn visits_target(&self) -> bool {
        self.visits_dirty() && self.visits(|word| word.tag() <= self.target)
    }

    pub fn is_held(&self) -> bool {
        self.visited.as_ref().is_some_and(|visited| visited.is_held)
    }

    pub fn is_beyond(&self) -> bool {
        self.visited.as_ref().is_some_and(|visited| visited.is_beyond)
    }

    pub fn is_scan_end(&self) -> bool {
        self.kind == Kind::Scan && self.visited.is_none()
    }

    /// The first form of the test: a count of 0 beside a dirty slot.
    pub fn is_none_beside_dirty(&self) -> bool {
        self.before == 0 && self.visits_any(SlotWord::is_valid_and_dirty)
    }

    /// The second form: a count of S beside a slot that is not dirty.
    pub fn is_all_beside_not_dirty(&self) -> bool {
        self.counts_all() && self.visits_any(|word| !word.is_dirty())
    }
}

impl Visited {
    fn by(call: Call, lent: &Lent) -> Option<Self> {
        match call {
            Call::Load { address, .. } | Call::Store { address, .. } | Call::Evict { address, .. } => {
                let Placement { word, is_held, .. } = Placement::of(&lent.work, address)?;
                let (_, words) = set_of(&lent.work, address)?;
                Some(Visited {
                    words: words.to_vec(),
                    word,
                    is_held,
                    is_beyond: address >= lent.shape().lines,
                })
            }
            Call::Scan { .. } => {
                let cursor = lent.registers().cursor as usize;
                let word = (cursor < lent.slots()).then(|| lent.slot(cursor))?;
                Some(Visited {
                    words: vec![word],
                    word,
                    is_held: false,
                    is_beyond: false,
                })
            }
            _ => None,
        }
    }
}

fn is_invalid(word: SlotWord) -> bool {
    word != SlotWord::EMPTY && !word.is_valid()
}

fn are_proper_but_for_the_count(lent: &Lent) -> bool {
    let Control { persisted, length, .. } = lent.control();
    let Registers {
        epoch,
        buffered,
        cursor,
        target,
        ..
    } = lent.registers();
    let epoch_is_proper = persisted < epoch && epoch <= LAST_EPOCH.min(persisted + MOST_AHEAD);
    let is_outside = target == 0 && cursor == 0;
    let is_inside = persisted < target && target < epoch && cursor <= lent.slots() as u64;
    let has_room = buffered < BUFFER_ENTRIES as u64 && length as u64 + buffered <= lent.shape().entries;
    epoch_is_proper && (is_outside || is_inside) && has_room
}
