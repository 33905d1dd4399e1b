//! The slot that a line has or takes, as a work memory shows it before a call: looked for rule by rule, not as the calls do.

use crate::handwritten::layout::{slot_count, slots_of, SlotWord, WAYS};

#[derive(Clone, Copy, Debug, PartialEq, Eq)]
pub struct Placement {
    pub slot: usize,
    pub word: SlotWord,
    pub is_held: bool,
}

/// The number of an address's set and its words, in a work memory that has a right length. Any number has a set.
pub fn set_of(work: &[u64], address: u64) -> Option<(usize, [SlotWord; WAYS])> {
    let slots = slot_count(work.len())?;
    let set = (address % (slots / WAYS) as u64) as usize;
    let words = |way: usize| SlotWord(slots_of(work, slots)[WAYS * set + way][0]);
    Some((set, std::array::from_fn(words)))
}

impl Placement {
    /// Of a line in a set that is proper.
    pub fn of(work: &[u64], address: u64) -> Option<Self> {
        let (set, words) = set_of(work, address)?;
        let first = |is: &dyn Fn(SlotWord) -> bool| words.iter().position(|&word| is(word));
        let held = first(&|word| word.holds(address));
        let empty = || first(&|word| word == SlotWord::EMPTY);
        let clean = || first(&|word| !word.is_dirty());
        let smallest_tag = || (0..WAYS).min_by_key(|&way| words[way].tag());
        let way = held.or_else(empty).or_else(clean).or_else(smallest_tag)?;
        Some(Placement {
            slot: WAYS * set + way,
            word: words[way],
            is_held: held.is_some(),
        })
    }
}

#[cfg(test)]
mod tests {
    use super::*;
    use crate::handwritten::layout::work_words;

    #[test]
    fn each_rule_has_its_turn() {
        let (empty, clean, dirty) = (SlotWord::EMPTY, SlotWord::clean, SlotWord::dirty);
        let cases = [
            ([dirty(1, 1), clean(3), empty, dirty(5, 1)], 5, 7, true),
            ([dirty(1, 1), clean(3), empty, empty], 9, 6, false),
            ([dirty(1, 1), dirty(3, 1), clean(7), clean(5)], 9, 6, false),
            ([dirty(1, 3), dirty(3, 2), dirty(7, 2), dirty(5, 4)], 9, 5, false),
        ];
        for (words, address, slot, is_held) in cases {
            let mut work = vec![0; work_words(8)];
            for (way, word) in words.into_iter().enumerate() {
                work[2 * (WAYS + way)] = word.0;
            }
            let word = words[slot - WAYS];
            let placement = Placement { slot, word, is_held };
            assert_eq!(Placement::of(&work, address), Some(placement));
        }
    }
}
