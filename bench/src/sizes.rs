//! The sizes of a board and a work memory, what follows from them, and how a history chooses them.

use crate::call::Call;
use crate::handwritten::layout::{work_words, Shape, WAYS};
use crate::random::Random;

#[derive(Clone, Copy, Debug, PartialEq, Eq)]
pub struct Sizes {
    pub lines: u64,
    pub entries: u64,
    pub slots: u64,
}

/// The largest sizes that the replay has memories for.
pub const MOST_OF_THE_REPLAY: Sizes = Sizes {
    lines: 2_048,
    entries: 1_024,
    slots: 64,
};

impl Sizes {
    pub fn fit_the_replay(self) -> bool {
        let most = MOST_OF_THE_REPLAY;
        self.lines <= most.lines && self.entries <= most.entries && self.slots <= most.slots
    }

    pub fn sets(self) -> u64 {
        self.slots / WAYS as u64
    }

    /// The lines that belong in a set. There may be none.
    pub fn lines_of_set(self, set: u64) -> u64 {
        self.lines.saturating_sub(set).div_ceil(self.sets())
    }

    pub fn shape(self) -> Shape {
        Shape {
            lines: self.lines,
            entries: self.entries,
        }
    }

    pub fn board_words(self) -> usize {
        self.shape().board_words()
    }

    pub fn work_words(self) -> usize {
        work_words(self.slots as usize)
    }

    pub fn format(self) -> Call {
        Call::Format {
            lines: self.lines,
            entries: self.entries,
        }
    }
}

impl Sizes {
    /// Mostly few lines, slots and entries, so that they meet; sometimes so many that a buffer fills up.
    pub fn draw(random: &mut Random) -> Self {
        if random.one_in(4) {
            return Sizes::draw_roomy(random);
        }
        Sizes {
            lines: match random.below(3) {
                0 => random.between(1, 12),
                1 => random.between(1, 40),
                _ => random.between(40, 300),
            },
            entries: match random.below(6) {
                0 => random.between(1, 8),
                1 => random.between(1, 40),
                2 => random.between(33, 120),
                _ => random.between(100, 400),
            },
            slots: match random.below(3) {
                0 => slots_of_sets(random, 1, 1),
                1 => slots_of_sets(random, 1, 4),
                _ => slots_of_sets(random, 4, 18),
            },
        }
    }

    fn draw_roomy(random: &mut Random) -> Self {
        Sizes {
            lines: random.between(200, 1000),
            entries: random.between(100, 600),
            slots: slots_of_sets(random, 25, 64),
        }
    }

    /// Lines for the slots of a set, no two the same; none where there are too few of them.
    pub fn draw_lines_of_set(self, random: &mut Random, set: u64) -> [Option<u64>; WAYS] {
        let mut turns: Vec<u64> = (0..self.lines_of_set(set)).collect();
        std::array::from_fn(|_| {
            let place = random.below(turns.len() as u64) as usize;
            (!turns.is_empty()).then(|| set + self.sets() * turns.swap_remove(place))
        })
    }

    /// Sizes with which a power-up or an edge can be tried many times.
    pub fn draw_small(random: &mut Random) -> Self {
        Sizes {
            lines: random.between(1, 20),
            entries: random.between(1, 40),
            slots: slots_of_sets(random, 1, 3),
        }
    }
}

/// The slots of some number of sets.
fn slots_of_sets(random: &mut Random, fewest: u64, most: u64) -> u64 {
    WAYS as u64 * random.between(fewest, most)
}
