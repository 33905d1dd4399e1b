//! Rare turns of the sets of four slots: where a line is held, which slot one takes that is not, what is refused for a slot of the
//! set or for a line held twice, and what a scan accepts of that; and numbers of slots that are refused.

use super::sides::Lent;
use super::turn_lists;
use crate::call::{Call, Kind};
use crate::handwritten::layout::{slot_count, slots_in, work_words, SlotWord, MOST_SLOTS, WAYS};
use crate::interface::{OK, SLOT, WORK};
use crate::placement::Placement;

type Turn = turn_lists::Turn<Seen>;
type List = turn_lists::List<Seen>;

/// What a call shows that visits a set or a slot of it; or one that is refused for its number of slots, of which nothing else is
/// noted.
#[derive(Default)]
pub struct Seen {
    number: u64,
    work_words: usize,
    words: [SlotWord; WAYS],
    /// The slots of the set that are not proper.
    improper: [bool; WAYS],
    /// Each of them is so for its address alone, which belongs in another set.
    is_of_another_set: bool,
    /// A slot of another set is not proper.
    has_improper_elsewhere: bool,
    /// The line that is held twice in the set.
    twice: Option<u64>,
    address: Option<u64>,
    /// The slot of the set that the line has, or that it takes, or at which the scan's cursor is.
    way: usize,
    is_held: bool,
    /// After the call it holds the line, and the other slots of the set are as they were.
    is_placed: bool,
}

const PLACING: &[Kind] = &[Kind::Load, Kind::Store];
const WITH_ADDRESS: &[Kind] = &[Kind::Load, Kind::Store, Kind::Evict];
const TESTING: &[Kind] = &[Kind::Load, Kind::Store, Kind::Evict, Kind::Scan];
/// The calls that are lent a work memory.
const LENT_WORK: &[Kind] = &[
    Kind::PowerUp,
    Kind::Load,
    Kind::Store,
    Kind::Evict,
    Kind::Commit,
    Kind::Begin,
    Kind::Scan,
    Kind::Tally,
    Kind::FilterBits,
];

pub static ALL: [&[List]; 1] = [&LISTS];

static LISTS: [List; 6] = [
    List {
        kinds: PLACING,
        turns: &OF_A_PLACEMENT,
    },
    List {
        kinds: WITH_ADDRESS,
        turns: &OF_A_HELD_LINE,
    },
    List {
        kinds: WITH_ADDRESS,
        turns: &OF_A_WHOLE_SET,
    },
    List {
        kinds: TESTING,
        turns: &OF_A_SLOT,
    },
    List {
        kinds: &[Kind::Scan],
        turns: &OF_A_SCAN,
    },
    List {
        kinds: LENT_WORK,
        turns: &OF_A_LENGTH,
    },
];

const OF_A_PLACEMENT: [(&str, Turn); 14] = [
    ("takes an empty slot behind a clean one", |seen| {
        seen.takes_empty() && seen.has_before(is_clean)
    }),
    ("takes an empty slot behind a dirty one", |seen| {
        seen.takes_empty() && seen.has_before(SlotWord::is_dirty)
    }),
    ("takes the first of two empty slots, not the set's first", |seen| {
        seen.takes_empty() && seen.way > 0 && seen.has_behind(is_empty)
    }),
    ("takes the last slot, empty", |seen| {
        seen.takes_empty() && seen.way == WAYS - 1
    }),
    ("takes a clean slot behind a dirty one", |seen| {
        seen.takes_clean() && seen.has_before(SlotWord::is_dirty)
    }),
    ("takes the first of two clean slots, not the set's first", |seen| {
        seen.takes_clean() && seen.way > 0 && seen.has_behind(is_clean)
    }),
    ("takes the last slot, clean", |seen| {
        seen.takes_clean() && seen.way == WAYS - 1
    }),
    ("takes the first slot, dirty, for its smallest tag", |seen| {
        seen.takes_smallest_tag(0)
    }),
    ("takes the second slot, dirty, for its smallest tag", |seen| {
        seen.takes_smallest_tag(1)
    }),
    ("takes the third slot, dirty, for its smallest tag", |seen| {
        seen.takes_smallest_tag(2)
    }),
    ("takes the last slot, dirty, for its smallest tag", |seen| {
        seen.takes_smallest_tag(3)
    }),
    ("takes the first of four dirty slots with one tag", |seen| {
        seen.takes_dirty() && seen.slots_with_its_tag() == WAYS
    }),
    (
        "takes the lowest of the slots with the smallest tag, the set's first",
        |seen| seen.takes_dirty() && seen.way == 0 && (2..WAYS).contains(&seen.slots_with_its_tag()),
    ),
    (
        "takes the lowest of the slots with the smallest tag, not the set's first",
        |seen| seen.takes_dirty() && seen.way > 0 && seen.slots_with_its_tag() > 1,
    ),
];

const OF_A_HELD_LINE: [(&str, Turn); 4] = [
    ("finds its line in the first slot", |seen| seen.finds(0)),
    ("finds its line in the second slot", |seen| seen.finds(1)),
    ("finds its line in the third slot", |seen| seen.finds(2)),
    ("finds its line in the last slot", |seen| seen.finds(3)),
];

const OF_A_WHOLE_SET: [(&str, Turn); 5] = [
    ("slot for one behind that of its line", |seen| {
        seen.is_for_slots() && seen.is_held && !seen.improper[seen.way] && seen.improper[seen.way + 1..].contains(&true)
    }),
    ("slot for one before that of its line", |seen| {
        seen.is_for_slots() && seen.is_held && !seen.improper[seen.way] && seen.improper[..seen.way].contains(&true)
    }),
    ("slot for its own line held twice", |seen| {
        seen.is_for_twice() && seen.twice == seen.address
    }),
    ("slot for another line held twice", |seen| {
        seen.is_for_twice() && seen.twice != seen.address
    }),
    ("is accepted beside an improper slot of another set", |seen| {
        seen.number == OK && seen.has_improper_elsewhere
    }),
];

const OF_A_SLOT: [(&str, Turn); 5] = [
    ("slot for the first of the set alone", |seen| seen.is_for(0)),
    ("slot for the second of the set alone", |seen| seen.is_for(1)),
    ("slot for the third of the set alone", |seen| seen.is_for(2)),
    ("slot for the last of the set alone", |seen| seen.is_for(3)),
    ("slot for an address of another set alone", |seen| {
        seen.number == SLOT && seen.is_of_another_set
    }),
];

const OF_A_SCAN: [(&str, Turn); 3] = [
    ("is accepted where the set holds a line twice", |seen| {
        seen.number == OK && seen.twice.is_some()
    }),
    ("is accepted at a line that is held twice", |seen| {
        seen.number == OK && seen.twice.is_some() && seen.twice == seen.line_at_cursor()
    }),
    ("is accepted beside an improper slot of its set", |seen| {
        seen.number == OK && seen.improper.contains(&true)
    }),
];

const OF_A_LENGTH: [(&str, Turn); 3] = [
    ("work for slots that are no whole sets", |seen| {
        seen.is_for_slots_of(|slots| (1..MOST_SLOTS).contains(&slots) && !slots.is_multiple_of(WAYS))
    }),
    ("work for no slot", |seen| seen.is_for_slots_of(|slots| slots == 0)),
    ("work for 260 slots", |seen| {
        seen.is_for_slots_of(|slots| slots == MOST_SLOTS + WAYS)
    }),
];

fn is_empty(word: SlotWord) -> bool {
    word == SlotWord::EMPTY
}

fn is_clean(word: SlotWord) -> bool {
    word.is_valid() && !word.is_dirty()
}

impl Seen {
    /// None where the call visits no slot, or is refused before it does, but for its number of slots.
    pub fn new(call: Call, number: u64, before: &Lent, after: &Lent) -> Option<Self> {
        if number == WORK {
            return Some(Seen {
                number,
                work_words: before.work.len(),
                ..Seen::default()
            });
        }
        if ![OK, SLOT].contains(&number) || slot_count(before.work.len()).is_none() {
            return None;
        }
        let address = match call {
            Call::Load { address, .. } | Call::Store { address, .. } | Call::Evict { address, .. } => Some(address),
            Call::Scan { .. } => None,
            _ => return None,
        };
        let mut seen = Seen {
            number,
            address,
            ..Seen::default()
        };
        seen.look_at_set(before, after)?;
        Some(seen)
    }

    fn look_at_set(&mut self, before: &Lent, after: &Lent) -> Option<()> {
        let (set, slot) = match self.address {
            Some(address) => {
                let Placement { slot, is_held, .. } = Placement::of(&before.work, address)?;
                self.is_held = is_held;
                (slot / WAYS, slot)
            }
            None => {
                let cursor = before.registers().cursor as usize;
                (cursor < before.slots()).then_some((cursor / WAYS, cursor))?
            }
        };
        self.way = slot % WAYS;
        self.words = words_of(before, set);
        let faults = |word| Faults::of(word, set, before);
        self.improper = self.words.map(|word| faults(word).any());
        self.is_of_another_set = self.words.iter().all(|&word| !faults(word).besides_set)
            && self.words.iter().any(|&word| faults(word).is_of_another_set);
        self.twice = line_held_twice(self.words);
        let others = (0..before.slots()).filter(|place| place / WAYS != set);
        self.has_improper_elsewhere = others
            .into_iter()
            .any(|place| Faults::of(before.slot(place), place / WAYS, before).any());
        let changed = (0..WAYS).filter(|&way| words_of(after, set)[way] != self.words[way]);
        self.is_placed = self.address.is_some_and(|address| after.slot(slot).holds(address))
            && changed.into_iter().all(|way| way == self.way);
        Some(())
    }

    fn takes(&self) -> bool {
        self.number == OK && !self.is_held && self.is_placed
    }

    fn victim(&self) -> SlotWord {
        self.words[self.way]
    }

    fn takes_empty(&self) -> bool {
        self.takes() && is_empty(self.victim())
    }

    fn takes_clean(&self) -> bool {
        self.takes() && is_clean(self.victim())
    }

    fn takes_dirty(&self) -> bool {
        self.takes() && self.victim().is_dirty()
    }

    /// The dirty slot of this number, which alone has the smallest tag.
    fn takes_smallest_tag(&self, way: usize) -> bool {
        self.takes_dirty() && self.way == way && self.slots_with_its_tag() == 1
    }

    fn slots_with_its_tag(&self) -> usize {
        let tag = self.victim().tag();
        self.words.iter().filter(|word| word.tag() == tag).count()
    }

    fn has_before(&self, is_such: fn(SlotWord) -> bool) -> bool {
        self.words[..self.way].iter().any(|&word| is_such(word))
    }

    fn has_behind(&self, is_such: fn(SlotWord) -> bool) -> bool {
        self.words[self.way + 1..].iter().any(|&word| is_such(word))
    }

    fn finds(&self, way: usize) -> bool {
        self.number == OK && self.is_held && self.way == way
    }

    /// Refused for slots that are not proper, and for no line held twice.
    fn is_for_slots(&self) -> bool {
        self.number == SLOT && self.twice.is_none()
    }

    fn is_for(&self, way: usize) -> bool {
        let alone = std::array::from_fn(|other| other == way);
        self.is_for_slots() && self.improper == alone
    }

    fn is_for_twice(&self) -> bool {
        self.number == SLOT && self.improper == [false; WAYS] && self.twice.is_some()
    }

    fn line_at_cursor(&self) -> Option<u64> {
        let word = self.words[self.way];
        word.is_valid().then(|| word.address())
    }

    /// Refused for such a number of slots, which the length of the work memory is just right for.
    fn is_for_slots_of(&self, is_such: impl Fn(usize) -> bool) -> bool {
        let slots = slots_in(self.work_words);
        self.number == WORK && self.work_words == work_words(slots) && is_such(slots)
    }
}

fn words_of(lent: &Lent, set: usize) -> [SlotWord; WAYS] {
    std::array::from_fn(|way| lent.slot(WAYS * set + way))
}

fn line_held_twice(words: [SlotWord; WAYS]) -> Option<u64> {
    let lines: Vec<u64> = words
        .iter()
        .filter(|word| word.is_valid())
        .map(|word| word.address())
        .collect();
    let is_again = |place: usize| lines[..place].contains(&lines[place]);
    (0..lines.len())
        .find(|&place| is_again(place))
        .map(|place| lines[place])
}

/// Why a word may not stand in a slot of a set.
#[derive(Clone, Copy)]
struct Faults {
    besides_set: bool,
    is_of_another_set: bool,
}

impl Faults {
    fn of(word: SlotWord, set: usize, lent: &Lent) -> Self {
        let (persisted, epoch) = (lent.control().persisted, lent.registers().epoch);
        let tag_is_proper = match word.is_dirty() {
            true => persisted < word.tag() && word.tag() <= epoch,
            false => word.tag() == 0,
        };
        let ends_in_zeros = word.0.trailing_zeros() >= SlotWord::ZERO_BITS;
        let is_proper_line = word.is_valid() && ends_in_zeros && tag_is_proper && word.address() < lent.shape().lines;
        let sets = lent.slots() / WAYS;
        Faults {
            besides_set: !is_empty(word) && !is_proper_line,
            is_of_another_set: !is_empty(word) && word.address() as usize % sets != set,
        }
    }

    fn any(self) -> bool {
        self.besides_set || self.is_of_another_set
    }
}
