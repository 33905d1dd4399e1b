//! The tests that a call makes before it changes anything.

use super::layout::{
    self, Control, Entry, Filter, Range, Shape, SlotWord, BUFFER_ENTRIES, LAST_EPOCH, MOST_AHEAD, MOST_ENTRIES,
};
use super::Registers;

/// The refusals, by the paper's numbers. `Entry` is the one that comes with a value.
#[derive(Clone, Copy, Debug)]
#[repr(u64)]
pub enum Refusal {
    Shape = 1,
    Work = 2,
    Entry = 3,
    Registers = 4,
    Address = 5,
    Slot = 6,
    Buffer = 7,
    Room = 8,
    Waiting = 9,
    Last = 10,
    None = 11,
    Filter = 14,
    Target = 15,
    Short = 16,
    Past = 17,
    LogHeld = 18,
    Record = 19,
    Outside = 20,
}

/// The board's first two words, once they agree with each other and with its length.
#[inline]
pub fn head(board: &[u64]) -> Result<(Control, Shape), Refusal> {
    let (control, shape) = layout::head_of(board).ok_or(Refusal::Shape)?;
    if agree(board.len(), control, shape, MOST_ENTRIES, LAST_EPOCH) {
        Ok((control, shape))
    } else {
        Err(Refusal::Shape)
    }
}

/// Whether the first two words of a board agree with each other and with its length, in a layout that has room for so many
/// log entries and whose last epoch is this.
#[inline]
pub fn agree(board_words: usize, control: Control, shape: Shape, most_entries: u64, last_epoch: u64) -> bool {
    let entries = shape.entries as usize;
    shape.is_in_range(most_entries)
        && board_words == shape.board_words()
        && control.persisted < last_epoch
        && control.start < entries
        && control.length <= entries
}

/// How many slots a work memory of that many words has.
#[inline]
pub fn slot_count(work_words: usize) -> Result<usize, Refusal> {
    layout::slot_count(work_words).ok_or(Refusal::Work)
}

/// The board's head and the number of slots, once shape, work and registers are tested, in this order: what each call that
/// takes registers begins with, but for power-up.
#[inline]
pub fn opening(board: &[u64], work: &[u64], registers: &Registers) -> Result<(Control, Shape, usize), Refusal> {
    let (control, shape) = head(board)?;
    let slots = slot_count(work.len())?;
    if registers_are_proper(registers, control, shape, slots as u64) {
        Ok((control, shape, slots))
    } else {
        Err(Refusal::Registers)
    }
}

#[inline]
fn registers_are_proper(registers: &Registers, control: Control, shape: Shape, slots: u64) -> bool {
    let Registers {
        epoch,
        buffered,
        cursor,
        dirty,
        target,
    } = *registers;
    let ahead = epoch.wrapping_sub(control.persisted);
    (1..=MOST_AHEAD).contains(&ahead)
        && epoch <= LAST_EPOCH
        && buffered < BUFFER_ENTRIES as u64
        && cursor <= slots
        && (target | cursor == 0 || may_be_persisted(target, control.persisted, epoch))
        && control.length as u64 + buffered <= shape.entries
        && dirty <= slots
}

/// Whether an epoch waits to be persisted, so that a pass may have it as its target.
#[inline]
pub fn may_be_persisted(target: u64, persisted: u64, epoch: u64) -> bool {
    persisted < target && target < epoch
}

/// What slot words are held to, as numbers with which one comparison each is enough.
pub struct SlotTest {
    lines: u64,
    /// A dirty word with the least proper tag, P + 1, but for its address.
    least_dirty: u64,
    /// How many tags are proper from there on, up to the running epoch.
    dirty_tags: u64,
}

impl SlotTest {
    #[inline]
    pub fn new(lines: usize, persisted: u64, epoch: u64) -> Self {
        SlotTest {
            lines: lines as u64,
            least_dirty: SlotWord::dirty(0, persisted + 1).0,
            dirty_tags: epoch - persisted,
        }
    }

    /// Whether a word is that of a line, clean or dirty, wherever the line belongs.
    #[inline(always)]
    pub fn accepts(&self, word: SlotWord) -> bool {
        let besides_address = word.besides_address();
        // A zero bit that is set comes first and is too much, and so is a word below the least, which wraps round.
        let tags_behind = besides_address
            .wrapping_sub(self.least_dirty)
            .rotate_right(SlotWord::ZERO_BITS);
        let is_clean_or_dirty = tags_behind < self.dirty_tags || besides_address == SlotWord::VALID;
        is_clean_or_dirty && word.address() < self.lines
    }
}

/// How many slots are dirty besides one with this proper word, going by the count of all, which may be wrong. It is refused
/// where it leaves no right number for the others: 0 with this one dirty, or all slots with this one not.
#[inline]
pub fn other_dirty_slots(dirty: u64, word: SlotWord, slots: usize) -> Result<u64, Refusal> {
    // One less than 0 wraps round to more than all slots.
    let others = dirty.wrapping_sub(u64::from(word.is_dirty()));
    if others < slots as u64 {
        Ok(others)
    } else {
        Err(Refusal::Registers)
    }
}

/// Tests every buffered entry, and then the filter's bits of each. One pass is enough: it notes whether a bit is unset, and
/// says so at its end, since any entry that is not proper comes before.
#[inline]
pub fn buffer(buffered: &[Entry], filter: &Filter, lines: u64, epoch: u64) -> Result<(), Refusal> {
    let mut all_marked = true;
    for &[packed, _] in buffered {
        let range = Range::unpack(packed);
        let proper = range.address < lines && range.valid_till <= epoch && range.has_proper_span(MOST_AHEAD);
        if !proper {
            return Err(Refusal::Buffer);
        }
        all_marked &= layout::is_marked(filter, range.address);
    }
    if all_marked {
        Ok(())
    } else {
        Err(Refusal::Filter)
    }
}

/// The log's entries, from the oldest to the newest.
#[inline]
pub fn oldest_to_newest(log: &[Entry], control: Control) -> impl DoubleEndedIterator<Item = &Entry> {
    let (wrapped, older) = log.split_at(control.start);
    let before_end = control.length.min(older.len());
    let after_end = control.length - before_end;
    older[..before_end].iter().chain(&wrapped[..after_end])
}

/// The place, the oldest counted 0, of the first entry of a log that is not proper, where an entry spans so many epochs at
/// most.
#[inline]
pub fn first_improper(
    oldest_to_newest: impl Iterator<Item = Range>,
    persisted: u64,
    lines: u64,
    most_span: u64,
) -> Option<usize> {
    // The least ValidTill that the next entry may have: above the persisted epoch, and not below the entry before.
    let mut least_till = persisted + 1;
    // And the most: no controller is further ahead of the persisted epoch. From the last epoch on, it refuses nothing.
    let most_till = persisted + MOST_AHEAD;
    let is_proper = |range: Range| {
        let is_in_order = (least_till..=most_till).contains(&range.valid_till);
        least_till = range.valid_till;
        range.address < lines && range.has_proper_span(most_span) && is_in_order
    };
    let mut are_proper = oldest_to_newest.map(is_proper);
    are_proper.position(|is_proper| !is_proper)
}
