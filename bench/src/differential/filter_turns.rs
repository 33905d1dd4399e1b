//! Rare turns of the filter: what it has flush and what not, which bits are set, and what is refused for an unset one.

use super::sides::Lent;
use super::would_be::WouldBe;
use crate::call::{Call, Kind};
use crate::handwritten::layout::{slot_count, FilterBit, FILTER_BITS};
use crate::interface::{ADDRESS, BUFFER, FILTER, OK, SLOT};
use crate::write_out::WriteOut;

/// What a call that looks at the buffer, or the status question, shows on a work memory of a right size.
pub struct Seen {
    kind: Kind,
    number: u64,
    value: u64,
    stores: u64,
    /// The entries buffered before.
    buffered: usize,
    /// There is one more after.
    has_one_more: bool,
    write_out: Option<WriteOut>,
    /// The bits of the filter that are set, before and after.
    bits: [usize; 2],
    /// Before, they are those of the buffered entries and no others; looked at where a line is written out.
    is_exact: bool,
    /// The corner bits that the call has set.
    new_corners: [bool; CORNERS.len()],
    unset: Unset,
    /// What the call would be refused for behind the filter, or be cut.
    would_be: WouldBe,
}

/// The bits of buffered entries that are not set.
#[derive(Default)]
struct Unset {
    /// Entries with an unset bit: how many, the oldest's place, and whether its first and its second bit are set.
    entries: usize,
    oldest: usize,
    oldest_has: [bool; 2],
    /// An entry that is not proper comes behind one with an unset bit.
    before_improper: bool,
}

const CORNERS: [usize; 4] = [0, 63, 64, FILTER_BITS - 1];

pub type Turn = fn(&Seen) -> bool;

pub const TURNS: [(&str, Turn); 45] = [
    ("a load's write-out flushes for a false hit", |seen| {
        seen.is_false_hit(Kind::Load)
    }),
    ("a store's write-out flushes for a false hit", |seen| {
        seen.is_false_hit(Kind::Store)
    }),
    ("an eviction's write-out flushes for a false hit", |seen| {
        seen.is_false_hit(Kind::Evict)
    }),
    ("a scan's write-out flushes for a false hit", |seen| {
        seen.is_false_hit(Kind::Scan)
    }),
    (
        "a false hit of a filter that has the entries' bits and no others",
        |seen| seen.is_exact && seen.is_any_false_hit(),
    ),
    ("a false hit of one buffered entry", |seen| {
        seen.buffered == 1 && seen.is_any_false_hit()
    }),
    ("a false hit of two entries, each with one of the bits", |seen| {
        seen.buffered == 2 && seen.bits[0] <= 4 && seen.is_any_false_hit() && !seen.line_has_one_bit()
    }),
    ("a false hit of a line whose two bits are one", |seen| {
        seen.is_any_false_hit() && seen.line_has_one_bit()
    }),
    ("a false hit with 31 entries buffered", |seen| {
        seen.buffered == 31 && seen.is_any_false_hit()
    }),
    ("a load's write-out leaves the buffer", |seen| seen.leaves(Kind::Load)),
    ("a store's write-out leaves the buffer", |seen| seen.leaves(Kind::Store)),
    ("an eviction's write-out leaves the buffer", |seen| {
        seen.leaves(Kind::Evict)
    }),
    ("a scan's write-out leaves the buffer", |seen| seen.leaves(Kind::Scan)),
    ("a write-out leaves 31 entries buffered", |seen| {
        seen.buffered == 31 && seen.kind != Kind::Store && seen.leaves(seen.kind)
    }),
    (
        "a write-out without entries leaves a filter whose every bit is set",
        |seen| seen.buffered == 0 && seen.was_full() && seen.write_out.is_some() && seen.is_full_after(),
    ),
    ("a scan's end without entries leaves a filter with bits", |seen| {
        seen.is_scan_end() && seen.buffered == 0 && seen.bits[0] > 0 && seen.bits[1] == seen.bits[0]
    }),
    ("a scan's end flushes and clears the filter", |seen| {
        seen.is_scan_end() && seen.buffered > 0 && seen.bits[1] == 0
    }),
    ("the 32nd entry clears the filter", |seen| {
        seen.is_ok(Kind::Store) && seen.buffered == 31 && seen.stores >= 65 && seen.bits[1] == 0
    }),
    ("a new entry sets two bits", |seen| seen.sets(2)),
    ("a new entry sets one bit", |seen| seen.sets(1)),
    ("a new entry's bits were set", |seen| seen.sets(0)),
    ("a new entry sets bit 0", |seen| seen.new_corners[0]),
    ("a new entry sets bit 63", |seen| seen.new_corners[1]),
    ("a new entry sets bit 64", |seen| seen.new_corners[2]),
    ("a new entry sets bit 4,095", |seen| seen.new_corners[3]),
    ("a load beside a filter whose every bit is set", |seen| {
        seen.is_beside_full(Kind::Load)
    }),
    ("a store beside a filter whose every bit is set", |seen| {
        seen.is_beside_full(Kind::Store)
    }),
    ("an eviction beside a filter whose every bit is set", |seen| {
        seen.is_beside_full(Kind::Evict)
    }),
    ("a commit beside a filter whose every bit is set", |seen| {
        seen.is_beside_full(Kind::Commit)
    }),
    ("a begin call beside a filter whose every bit is set", |seen| {
        seen.is_beside_full(Kind::Begin)
    }),
    ("a scan beside a filter whose every bit is set", |seen| {
        seen.is_beside_full(Kind::Scan)
    }),
    ("a flush clears a filter whose every bit was set", |seen| {
        seen.was_full() && seen.bits[1] < FILTER_BITS
    }),
    ("the status question counts no bit", |seen| seen.counts(0)),
    ("the status question counts 4,096 bits", |seen| {
        seen.counts(FILTER_BITS as u64)
    }),
    ("filter for an entry's first bit alone", |seen| {
        seen.is_for_one_entry() && seen.unset.oldest_has == [false, true]
    }),
    ("filter for an entry's second bit alone", |seen| {
        seen.is_for_one_entry() && seen.unset.oldest_has == [true, false]
    }),
    ("filter for the newest of several entries alone", |seen| {
        seen.is_for_one_entry() && seen.buffered > 1 && seen.unset.oldest + 1 == seen.buffered
    }),
    ("filter before room", |seen| {
        seen.number == FILTER && seen.would_be.without_room
    }),
    ("filter before waiting", |seen| {
        seen.number == FILTER && seen.would_be.waiting
    }),
    ("filter before last", |seen| seen.number == FILTER && seen.would_be.last),
    ("filter before none", |seen| seen.number == FILTER && seen.would_be.none),
    ("filter before target", |seen| {
        seen.number == FILTER && seen.would_be.target
    }),
    ("filter before a cut", |seen| seen.number == FILTER && seen.would_be.cut),
    ("buffer for an entry behind one with an unset bit", |seen| {
        seen.number == BUFFER && seen.unset.before_improper
    }),
    ("address or slot, and an unset bit", |seen| {
        [ADDRESS, SLOT].contains(&seen.number) && seen.unset.entries > 0
    }),
];

impl Seen {
    /// None where the call does not look at buffer or filter, or is refused before it can.
    pub fn new(call: Call, number: u64, before: &Lent, after: &Lent) -> Option<Self> {
        let kind = call.kind();
        let looks = match kind {
            Kind::Load | Kind::Store | Kind::Evict | Kind::Commit | Kind::Begin | Kind::Scan => {
                [OK, ADDRESS, SLOT, BUFFER, FILTER].contains(&number)
            }
            Kind::FilterBits => number == OK,
            _ => false,
        };
        if !looks || slot_count(before.work.len()).is_none() {
            return None;
        }
        let mut seen = Seen {
            kind,
            number,
            value: after.answer[0],
            stores: after.answer[1],
            buffered: 0,
            has_one_more: false,
            write_out: None,
            bits: [bits_of(before), bits_of(after)],
            is_exact: false,
            new_corners: CORNERS.map(|bit| !before.has_bit(FilterBit(bit)) && after.has_bit(FilterBit(bit))),
            unset: Unset::default(),
            would_be: WouldBe::default(),
        };
        if kind != Kind::FilterBits {
            seen.look_at_buffer(call, before, after);
        }
        Some(seen)
    }

    fn look_at_buffer(&mut self, call: Call, before: &Lent, after: &Lent) {
        self.buffered = before.buffered_ranges().count();
        self.has_one_more = after.buffered_ranges().count() == self.buffered + 1;
        self.write_out = WriteOut::of(call, &before.board, &before.work, before.registers());
        if self.number != OK {
            self.unset = Unset::of(before);
        } else if self.write_out.is_some() {
            self.is_exact = *before.filter() == before.exact_filter();
        }
        if self.number == FILTER {
            self.would_be = WouldBe::of(call, before);
        }
    }

    fn is_ok(&self, kind: Kind) -> bool {
        self.number == OK && self.kind == kind
    }

    fn is_any_false_hit(&self) -> bool {
        self.is_false_hit(self.kind)
    }

    fn is_false_hit(&self, kind: Kind) -> bool {
        self.is_ok(kind) && self.write_out.is_some_and(|out| out.is_false_hit(self.stores))
    }

    fn line_has_one_bit(&self) -> bool {
        self.write_out.is_some_and(|out| {
            let [first, second] = FilterBit::both_of(out.address);
            first == second
        })
    }

    /// A line is written out beside buffered entries, and these stay.
    fn leaves(&self, kind: Kind) -> bool {
        let stays = |out: WriteOut| out.buffered > 0 && !out.flushed(self.stores);
        self.is_ok(kind) && self.write_out.is_some_and(stays)
    }

    fn is_scan_end(&self) -> bool {
        self.is_ok(Kind::Scan) && self.value != 0
    }

    /// An entry comes behind the others and sets so many bits.
    fn sets(&self, bits: usize) -> bool {
        self.is_ok(Kind::Store) && self.has_one_more && self.stores <= 1 && self.bits[1] == self.bits[0] + bits
    }

    fn was_full(&self) -> bool {
        self.number == OK && self.bits[0] == FILTER_BITS
    }

    fn is_full_after(&self) -> bool {
        self.bits[1] == FILTER_BITS
    }

    fn is_beside_full(&self, kind: Kind) -> bool {
        self.is_ok(kind) && self.was_full() && self.buffered > 0
    }

    fn counts(&self, bits: u64) -> bool {
        self.is_ok(Kind::FilterBits) && self.value == bits
    }

    fn is_for_one_entry(&self) -> bool {
        self.number == FILTER && self.unset.entries == 1
    }
}

impl Unset {
    fn of(lent: &Lent) -> Self {
        let mut unset = Unset::default();
        for (place, range) in lent.buffered_ranges().enumerate() {
            unset.before_improper |= !lent.is_proper_in_buffer(range) && unset.entries > 0;
            let has = lent.has_bits_of(range.address);
            if has == [true, true] {
                continue;
            }
            if unset.entries == 0 {
                (unset.oldest, unset.oldest_has) = (place, has);
            }
            unset.entries += 1;
        }
        unset
    }
}

/// The filter's bits that are set.
fn bits_of(lent: &Lent) -> usize {
    lent.filter().iter().map(|word| word.count_ones() as usize).sum()
}
