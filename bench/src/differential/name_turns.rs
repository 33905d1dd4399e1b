//! Rare turns of the names: each of them put into a text and refused by one, and numbers that have none.

use crate::handwritten::names::{name_of, NAMES};
use crate::interface::{ANSWER_WORDS, OK};
use crate::library::TOO_SHORT;

/// The number whose name was asked for, the lengths that were lent, and the number answered.
pub struct Seen {
    pub asked: u64,
    pub text_bytes: usize,
    pub answer_words: usize,
    pub number: u64,
}

type Turn = fn(&Seen) -> bool;

/// What has to happen to each name.
const OF_EACH_NAME: [(&str, Turn); 3] = [
    ("is put into a text just long enough", |seen| {
        seen.is_ok() && seen.text_bytes == seen.letters()
    }),
    ("is put into a longer text", |seen| {
        seen.is_ok() && seen.text_bytes > seen.letters()
    }),
    ("is refused by a text one byte too short", |seen| {
        seen.is_short() && seen.has_answer() && seen.text_bytes + 1 == seen.letters()
    }),
];

const OTHERS: [(&str, Turn); 17] = [
    ("a number without a name, and an empty text", |seen| {
        seen.is_nameless() && seen.text_bytes == 0
    }),
    ("a number without a name, and a text with bytes", |seen| {
        seen.is_nameless() && seen.text_bytes > 0
    }),
    ("the number behind the last that has a name has none", |seen| {
        seen.is_nameless() && seen.asked == NAMES.len() as u64
    }),
    ("255 has no name", |seen| seen.is_nameless() && seen.asked == TOO_SHORT),
    ("2^64 - 1 has no name", |seen| {
        seen.is_nameless() && seen.asked == u64::MAX
    }),
    ("the low 4 bits alone have a name", |seen| seen.has_name_in(4, 8)),
    ("the low 5 bits alone have a name", |seen| seen.has_name_in(5, 8)),
    ("the low 8 bits alone have a name", |seen| seen.has_name_in(8, 16)),
    ("the low 16 bits alone have a name", |seen| seen.has_name_in(16, 32)),
    ("the low 32 bits alone have a name", |seen| seen.has_name_in(32, 63)),
    ("all bits but the highest have a name", |seen| seen.has_name_in(63, 64)),
    ("just enough bytes and answer words for a name", |seen| {
        seen.is_ok() && seen.is_named() && seen.has_just_enough()
    }),
    ("a name's answer has words behind", |seen| {
        seen.is_ok() && seen.is_named() && seen.answer_words > ANSWER_WORDS
    }),
    ("a name is short for one answer word alone", |seen| {
        seen.is_short() && seen.is_named() && seen.has_text() && seen.answer_words == ANSWER_WORDS - 1
    }),
    ("a name is short for an answer without words alone", |seen| {
        seen.is_short() && seen.is_named() && seen.has_text() && seen.answer_words == 0
    }),
    ("a number without a name is short for its answer", |seen| {
        seen.is_short() && !seen.is_named()
    }),
    ("a name is short for text and answer", |seen| {
        seen.is_short() && !seen.has_text() && !seen.has_answer()
    }),
];

impl Seen {
    fn letters(&self) -> usize {
        name_of(self.asked).len()
    }

    fn is_named(&self) -> bool {
        self.letters() > 0
    }

    fn is_ok(&self) -> bool {
        self.number == OK
    }

    fn is_short(&self) -> bool {
        self.number == TOO_SHORT
    }

    fn is_nameless(&self) -> bool {
        self.is_ok() && !self.is_named()
    }

    fn has_text(&self) -> bool {
        self.text_bytes >= self.letters()
    }

    fn has_answer(&self) -> bool {
        self.answer_words >= ANSWER_WORDS
    }

    fn has_just_enough(&self) -> bool {
        self.text_bytes == self.letters() && self.answer_words == ANSWER_WORDS
    }

    /// The number has no name. Cut to so many bits it has one, for which there is room; cut to more bits it has none.
    fn has_name_in(&self, bits: u32, more_bits: u32) -> bool {
        let cut = |bits: u32| name_of(self.asked & u64::MAX >> (u64::BITS - bits)).len();
        self.is_nameless() && (1..=self.text_bytes).contains(&cut(bits)) && cut(more_bits) == 0
    }
}

/// How often each turn was taken.
#[derive(Clone, Default)]
pub struct Counts {
    of_each_name: [[u64; OF_EACH_NAME.len()]; NAMES.len()],
    others: [u64; OTHERS.len()],
}

impl Counts {
    pub fn count(&mut self, seen: &Seen) {
        for (counts, (number, _)) in self.of_each_name.iter_mut().zip(NAMES) {
            for (count, (_, turn)) in counts.iter_mut().zip(OF_EACH_NAME) {
                *count += u64::from(seen.asked == number && turn(seen));
            }
        }
        for (count, (_, turn)) in self.others.iter_mut().zip(OTHERS) {
            *count += u64::from(turn(seen));
        }
    }

    pub fn iter(&self) -> impl Iterator<Item = &u64> {
        self.of_each_name.iter().flatten().chain(&self.others)
    }

    pub fn iter_mut(&mut self) -> impl Iterator<Item = &mut u64> {
        self.of_each_name.iter_mut().flatten().chain(&mut self.others)
    }

    /// What each turn is, and its count.
    pub fn named(&self) -> impl Iterator<Item = (String, u64)> + '_ {
        let of_each_name = NAMES
            .iter()
            .flat_map(|(_, name)| OF_EACH_NAME.map(|(what, _)| format!("the name {name} {what}")));
        let others = OTHERS.iter().map(|(what, _)| what.to_string());
        of_each_name.chain(others).zip(self.iter().copied())
    }
}
