//! The sets of four slots: which one an address belongs in, the tests of a whole set, and the slot that a line has or takes.

use super::checks::{Refusal, SlotTest};
use super::layout::{Set, SlotWord, LAST_ADDRESS, WAYS};

/// Tells the sets of addresses apart, with one division for all of them.
#[derive(Clone, Copy)]
pub struct Sets {
    count: u32,
    /// 2^32 / `count`, rounded up; 2^32 itself is 0. Times an address it is that address divided by `count`: the upper half of
    /// the product is the quotient, and the lower half the fraction, too large by less than the address.
    reciprocal: u32,
}

impl Sets {
    /// Of so many slots, a multiple of four up to 256.
    #[inline(always)]
    pub fn of(slots: usize) -> Self {
        let count = (slots / WAYS) as u32;
        Sets {
            count,
            reciprocal: (u32::MAX / count).wrapping_add(1),
        }
    }

    /// The set of an address.
    #[inline(always)]
    pub fn set_of(self, address: u64) -> usize {
        let fraction = (address as u32).wrapping_mul(self.reciprocal);
        ((u64::from(fraction) * u64::from(self.count)) >> u32::BITS) as usize
    }

    /// How far the fraction of an address is beyond that of a set's first address, which is the set's number. In the set it is
    /// less than the address, for what the reciprocal is too large by; in another it is about 2^32 / `count` or more.
    #[inline(always)]
    fn beyond(self, address: u64, set: usize) -> u32 {
        (address as u32).wrapping_sub(set as u32).wrapping_mul(self.reciprocal)
    }
}

/// A slot of a set, 0 to 3, and whether it holds the line that is looked for.
#[derive(Clone, Copy)]
pub struct Way {
    pub number: usize,
    pub is_held: bool,
}

// The next two are no parts of the calls, so as to have the processor's registers to themselves. None is a set that is not proper.

/// Tests a set of this number, and gives the slot in which the line at an address is held, if it is.
#[inline(never)]
pub fn way_with(set: &Set, number: usize, sets: Sets, test: &SlotTest, address: u64) -> Option<Option<usize>> {
    let lines = tested_lines(set, number, sets, test)?;
    Some(position(lines, address))
}

/// Tests a set of this number, and gives the slot in which the line at an address is held, or that it takes.
#[inline(never)]
pub fn way_for(set: &Set, number: usize, sets: Sets, test: &SlotTest, address: u64) -> Option<Way> {
    let lines = tested_lines(set, number, sets, test)?;
    Some(match position(lines, address) {
        Some(number) => Way { number, is_held: true },
        None => Way {
            number: victim_of(set),
            is_held: false,
        },
    })
}

#[inline(always)]
fn position(lines: [u64; WAYS], address: u64) -> Option<usize> {
    lines.iter().position(|&line| line == address)
}

/// The address of the line in each slot, once each is tested and no line is there twice. An empty slot has a number that is
/// no address, and its own.
#[inline(always)]
fn tested_lines(set: &Set, number: usize, sets: Sets, test: &SlotTest) -> Option<[u64; WAYS]> {
    let mut lines = [0; WAYS];
    let mut beyond = 0;
    for (way, &[word, _]) in set.iter().enumerate() {
        let word = SlotWord(word);
        if test.accepts(word) {
            lines[way] = word.address();
            beyond |= sets.beyond(word.address(), number);
        } else if word == SlotWord::EMPTY {
            lines[way] = LAST_ADDRESS + 1 + way as u64;
        } else {
            return None;
        }
    }
    let [a, b, c, d] = lines;
    let is_twice = a == b || a == c || a == d || b == c || b == d || c == d;
    if u64::from(beyond) > LAST_ADDRESS || is_twice {
        return None;
    }
    Some(lines)
}

/// The victim, which is the slot that an incoming line takes: the first empty one, else the first clean one, else the
/// dirty one with the smallest tag, the first of equals. Just so do the words rise without their addresses, and then by
/// their place.
#[inline(always)]
fn victim_of(set: &Set) -> usize {
    let [a, b, c, d] = set.map(|[word, _]| SlotWord(word).besides_address());
    let first_of_least = a.min(b | 1).min(c | 2).min(d | 3);
    first_of_least as usize % WAYS
}

/// Tests a count of dirty slots, of so many: it may not be 0 with one of a set dirty, nor all of them with one of the set not.
#[inline(always)]
pub fn check_count(set: &Set, dirty: u64, all: usize) -> Result<(), Refusal> {
    let mut words = set.iter().map(|&[word, _]| SlotWord(word));
    let is_belied = if dirty == 0 {
        words.any(SlotWord::is_dirty)
    } else {
        dirty == all as u64 && !words.all(SlotWord::is_dirty)
    };
    if is_belied {
        Err(Refusal::Registers)
    } else {
        Ok(())
    }
}

#[cfg(test)]
mod tests {
    use super::*;

    #[test]
    fn the_set_is_the_remainder() {
        for count in 1..=64 {
            let sets = Sets::of(WAYS * count);
            for address in 0..=LAST_ADDRESS {
                let remainder = address as usize % count;
                assert_eq!(sets.set_of(address), remainder, "{address} mod {count}");
                for set in 0..count {
                    let is_in_set = u64::from(sets.beyond(address, set)) <= LAST_ADDRESS;
                    assert_eq!(is_in_set, set == remainder, "{address}, set {set} of {count}");
                }
            }
        }
    }
}
