//! Rare turns of the converter: each reason of refusal 1 and of refusal 3 alone, which comes first, and what it recovers by the old
//! rules.

use super::sides::Lent;
use crate::handwritten::convert::convert;
use crate::handwritten::layout::{
    entry_place, ones, Control, Range, Shape, COUNT_BITS, MOST_AHEAD, MOST_ENTRIES, MOST_LINES, SHAPE_PLACE,
};
use crate::handwritten::old;
use crate::interface::{ANSWER_WORDS, ENTRY, OK, SHAPE};
use crate::library::TOO_SHORT;

/// What was lent, what was left, and the number answered.
pub struct Seen<'a> {
    pub before: &'a Lent,
    pub after: &'a Lent,
    pub number: u64,
}

type Turn = fn(&Seen) -> bool;
type Fault = fn(&Head) -> bool;
type EntryFault = fn(&Improper) -> bool;

/// The first words of an old board of at least two, its length and that of the second memory.
struct Head {
    version: u64,
    shape: Shape,
    control: Control,
    words: usize,
    second_words: usize,
}

impl Head {
    fn of(lent: &Lent) -> Option<Self> {
        let (control, shape) = old::head_of(&lent.old_board)?;
        Some(Head {
            version: shape.lines >> COUNT_BITS,
            shape: Shape {
                lines: shape.lines & ones(COUNT_BITS),
                entries: shape.entries,
            },
            control,
            words: lent.old_board.len(),
            second_words: lent.board.len(),
        })
    }
}

/// Each reason of refusal 1, but for a board without two words. No two of them are one.
const FAULTS: [(&str, Fault); 14] = [
    ("the new version", |head| head.version == Shape::VERSION),
    ("another version", |head| head.version > Shape::VERSION),
    ("no line", |head| head.shape.lines == 0),
    ("too many lines", |head| head.shape.lines > MOST_LINES),
    ("no log entry", |head| head.shape.entries == 0),
    ("more log entries than the new layout has", |head| {
        (MOST_ENTRIES + 1..=old::MOST_ENTRIES).contains(&head.shape.entries)
    }),
    ("more log entries than the old layout has", |head| {
        head.shape.entries > old::MOST_ENTRIES
    }),
    ("words that lack", |head| head.words < head.shape.board_words()),
    ("words too many", |head| head.words > head.shape.board_words()),
    ("a second memory that is shorter", |head| {
        head.second_words < head.shape.board_words()
    }),
    ("a second memory that is longer", |head| {
        head.second_words > head.shape.board_words()
    }),
    ("the last epoch", |head| head.control.persisted == old::LAST_EPOCH),
    // Where there is no entry, no start is right.
    ("a log's start", |head| {
        (1..=head.control.start as u64).contains(&head.shape.entries)
    }),
    ("a log's length", |head| head.control.length as u64 > head.shape.entries),
];

/// The entry that is refused, and what it is held to.
struct Improper {
    range: Range,
    lines: u64,
    persisted: u64,
    older_till: Option<u64>,
    place: usize,
    control: Control,
    entries: usize,
}

/// Each reason of refusal 3. No two of them are one.
const ENTRY_FAULTS: [(&str, EntryFault); 7] = [
    ("an address of N", |entry| entry.range.address == entry.lines),
    ("a larger address", |entry| entry.range.address > entry.lines),
    ("a ValidFrom of ValidTill", |entry| entry.range.span == 0),
    ("a later ValidFrom", |entry| entry.range.span > entry.range.valid_till),
    ("a ValidTill up to P", |entry| entry.range.valid_till <= entry.persisted),
    ("a ValidTill more than 16 after P", |entry| {
        entry.range.valid_till > entry.persisted + MOST_AHEAD
    }),
    ("a ValidTill before that of the next older entry", |entry| {
        entry.older_till.is_some_and(|older| entry.range.valid_till < older)
    }),
];

/// Refusals just for their reason, and which comes first.
const REFUSED: [(&str, Turn); 19] = [
    ("shape for no word", |seen| {
        seen.number == SHAPE && seen.before.old_board.is_empty()
    }),
    ("shape for one word", |seen| {
        seen.number == SHAPE && seen.before.old_board.len() == 1
    }),
    ("shape for one word that lacks, alone", |seen| {
        seen.is_for(|head| head.words + 1 == head.shape.board_words())
    }),
    ("shape for one word too many, alone", |seen| {
        seen.is_for(|head| head.words == head.shape.board_words() + 1)
    }),
    ("shape for one word of the second memory that lacks, alone", |seen| {
        seen.is_for(|head| head.second_words + 1 == head.shape.board_words())
    }),
    ("shape for one word of the second memory too many, alone", |seen| {
        seen.is_for(|head| head.second_words == head.shape.board_words() + 1)
    }),
    ("shape for no second memory, alone", |seen| {
        seen.is_for(|head| head.second_words == 0 && head.words > 0)
    }),
    ("shape for 4,096 entries, alone", |seen| {
        seen.is_for(|head| head.shape.entries == MOST_ENTRIES + 1)
    }),
    ("shape for 65,536 entries, alone", |seen| {
        seen.is_for(|head| head.shape.entries == old::MOST_ENTRIES)
    }),
    ("shape for a start of L, alone", |seen| {
        seen.is_for(|head| head.control.start as u64 == head.shape.entries)
    }),
    ("shape for a length of L + 1, alone", |seen| {
        seen.is_for(|head| head.control.length as u64 == head.shape.entries + 1)
    }),
    ("shape for the second memory, before entry", |seen| {
        seen.number == SHAPE && seen.answers_alone(&seen.before.old_board) == ENTRY
    }),
    ("shape for the version, before entry", |seen| {
        seen.number == SHAPE && seen.answers_alone(&seen.without_version()) == ENTRY
    }),
    ("entry for one that ends 17 after P", |seen| {
        seen.is_entry(|entry| entry.range.valid_till == entry.persisted + MOST_AHEAD + 1)
    }),
    ("entry for one that ends in P", |seen| {
        seen.is_entry(|entry| entry.range.valid_till == entry.persisted)
    }),
    ("entry for one that ends an epoch before the next older", |seen| {
        seen.is_entry(|entry| entry.older_till == Some(entry.range.valid_till + 1))
    }),
    ("entry for the oldest of several", |seen| {
        seen.is_entry(|entry| entry.place == 0 && entry.control.length > 1)
    }),
    ("entry for the newest of several", |seen| {
        seen.is_entry(|entry| entry.place > 0 && entry.place + 1 == entry.control.length)
    }),
    ("entry for one behind the ring's end", |seen| {
        seen.is_entry(|entry| entry.control.start + entry.place >= entry.entries)
    }),
];

/// Boards that are converted, and the answer's words.
const CONVERTED: [(&str, Turn); 15] = [
    ("an empty log", |seen| seen.converts(|head| head.control.length == 0)),
    ("a full log", |seen| {
        seen.converts(|head| head.control.length as u64 == head.shape.entries)
    }),
    ("a log over the ring's end", |seen| {
        seen.converts(|head| (head.control.start + head.control.length) as u64 > head.shape.entries)
    }),
    ("an empty log that starts later", |seen| {
        seen.converts(|head| head.control.length == 0 && head.control.start > 0)
    }),
    ("epoch 0 persisted", |seen| {
        seen.converts(|head| head.control.persisted == 0)
    }),
    ("the last old epoch but one persisted", |seen| {
        seen.converts(|head| head.control.persisted == old::LAST_EPOCH - 1)
    }),
    ("the smallest board", |seen| {
        seen.converts(|head| head.shape == Shape { lines: 1, entries: 1 })
    }),
    ("the largest board", |seen| {
        seen.converts(|head| (head.shape.lines, head.shape.entries) == (MOST_LINES, MOST_ENTRIES))
    }),
    ("an entry that spans more than 16 epochs restores its line", |seen| {
        seen.has_entry(|range, persisted| range.span > MOST_AHEAD && range.covers(persisted))
    }),
    ("an entry that begins behind P restores nothing", |seen| {
        seen.has_entry(|range, persisted| !range.covers(persisted))
    }),
    ("an entry that ends 16 after P", |seen| {
        seen.has_entry(|range, persisted| range.valid_till == persisted + MOST_AHEAD)
    }),
    ("the older of two entries restores a line", |seen| {
        seen.has_two_of_a_line()
    }),
    ("an answer with words behind", |seen| {
        seen.number == OK && seen.before.answer.len() > ANSWER_WORDS
    }),
    ("too few answer words, alone", |seen| seen.lacks_answer_before(OK)),
    ("too few answer words, before shape or entry", |seen| {
        seen.lacks_answer_before(SHAPE) || seen.lacks_answer_before(ENTRY)
    }),
];

impl Seen<'_> {
    fn head(&self) -> Option<Head> {
        Head::of(self.before)
    }

    /// Refused as shape for one reason of all, and that is such.
    fn is_for(&self, is_such: fn(&Head) -> bool) -> bool {
        self.number == SHAPE
            && self
                .head()
                .is_some_and(|head| is_such(&head) && FAULTS.iter().filter(|(_, fault)| fault(&head)).count() == 1)
    }

    fn converts(&self, is_such: fn(&Head) -> bool) -> bool {
        self.number == OK && self.head().is_some_and(|head| is_such(&head))
    }

    /// The entries of an old board of a right shape, oldest first.
    fn log(&self, head: &Head) -> impl Iterator<Item = Range> + '_ {
        let (start, entries) = (head.control.start, head.shape.entries as usize);
        (0..head.control.length)
            .map(move |place| old::unpack_range(self.before.old_board[entry_place((start + place) % entries)]))
    }

    fn has_entry(&self, is_such: fn(Range, u64) -> bool) -> bool {
        self.number == OK
            && self
                .head()
                .is_some_and(|head| self.log(&head).any(|range| is_such(range, head.control.persisted)))
    }

    /// Two entries of one line both cover P.
    fn has_two_of_a_line(&self) -> bool {
        let Some(head) = self.head().filter(|_| self.number == OK) else {
            return false;
        };
        let covering = self.log(&head).filter(|range| range.covers(head.control.persisted));
        let mut lines: Vec<u64> = covering.map(|range| range.address).collect();
        lines.sort_unstable();
        lines.windows(2).any(|two| two[0] == two[1])
    }

    fn improper(&self) -> Option<Improper> {
        let head = self.head().filter(|_| self.number == ENTRY)?;
        let place = self.after.answer[0] as usize;
        let log: Vec<Range> = self.log(&head).take(place + 1).collect();
        Some(Improper {
            range: *log.get(place)?,
            lines: head.shape.lines,
            persisted: head.control.persisted,
            older_till: place.checked_sub(1).map(|older| log[older].valid_till),
            place,
            control: head.control,
            entries: head.shape.entries as usize,
        })
    }

    /// Refused for an entry that has one fault, and is such.
    fn is_entry(&self, is_such: fn(&Improper) -> bool) -> bool {
        self.improper()
            .is_some_and(|entry| is_such(&entry) && ENTRY_FAULTS.iter().filter(|(_, fault)| fault(&entry)).count() == 1)
    }

    /// The number that this old board answers beside a second memory of its own length.
    fn answers_alone(&self, old_board: &[u64]) -> u64 {
        convert(old_board, &mut vec![0; old_board.len()]).number
    }

    fn without_version(&self) -> Vec<u64> {
        let mut old_board = self.before.old_board.clone();
        if let Some(word) = old_board.get_mut(SHAPE_PLACE) {
            *word &= ones(Shape::VERSION_SHIFT);
        }
        old_board
    }

    /// Too few answer words, where it would answer such a number with enough.
    fn lacks_answer_before(&self, number: u64) -> bool {
        self.number == TOO_SHORT && convert(&self.before.old_board, &mut self.before.board.clone()).number == number
    }
}

/// How often each turn was taken.
#[derive(Clone, Default)]
pub struct Counts {
    of_faults: [u64; FAULTS.len()],
    of_entry_faults: [u64; ENTRY_FAULTS.len()],
    refused: [u64; REFUSED.len()],
    converted: [u64; CONVERTED.len()],
}

impl Counts {
    pub fn count(&mut self, seen: &Seen) {
        for (count, (_, fault)) in self.of_faults.iter_mut().zip(FAULTS) {
            *count += u64::from(seen.is_for(fault));
        }
        for (count, (_, fault)) in self.of_entry_faults.iter_mut().zip(ENTRY_FAULTS) {
            *count += u64::from(seen.is_entry(fault));
        }
        let counts = self.refused.iter_mut().chain(&mut self.converted);
        for (count, (_, turn)) in counts.zip(REFUSED.iter().chain(&CONVERTED)) {
            *count += u64::from(turn(seen));
        }
    }

    pub fn iter(&self) -> impl Iterator<Item = &u64> {
        let of_faults = self.of_faults.iter().chain(&self.of_entry_faults);
        of_faults.chain(&self.refused).chain(&self.converted)
    }

    pub fn iter_mut(&mut self) -> impl Iterator<Item = &mut u64> {
        let of_faults = self.of_faults.iter_mut().chain(&mut self.of_entry_faults);
        of_faults.chain(&mut self.refused).chain(&mut self.converted)
    }

    /// What each turn is, and its count.
    pub fn named(&self) -> impl Iterator<Item = (String, u64)> + '_ {
        let of_faults = FAULTS.iter().map(|(what, _)| format!("shape for {what}, alone"));
        let of_entries = ENTRY_FAULTS.iter().map(|(what, _)| format!("entry for {what}, alone"));
        let others = REFUSED.iter().chain(&CONVERTED).map(|(what, _)| what.to_string());
        let names = of_faults.chain(of_entries).chain(others);
        names.map(|name| format!("convert: {name}")).zip(self.iter().copied())
    }
}
