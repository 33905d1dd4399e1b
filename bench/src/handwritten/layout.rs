//! The packed words, fields most significant bit first, the limits of what they count, and where they stand in the two
//! memories.

pub const MOST_LINES: u64 = 1 << 16;
pub const MOST_ENTRIES: u64 = ones(RING_BITS);
pub const MOST_SLOTS: usize = 256;
pub const BUFFER_ENTRIES: usize = 32;
pub const LAST_ADDRESS: u64 = ones(ADDRESS_BITS);
pub const LAST_EPOCH: u64 = ones(EPOCH_BITS);
/// The most by which the running epoch, or the ValidTill of a log entry, is ahead of the persisted epoch; and so the most
/// epochs that an undo entry spans.
pub const MOST_AHEAD: u64 = 16;
/// The most committed epochs that wait to be persisted.
pub const MOST_WAITING: u64 = MOST_AHEAD - 1;

pub const EPOCH_BITS: u32 = 40;
/// The log's start and length in the control word.
pub const RING_BITS: u32 = 12;
/// N and L in the shape word.
pub const COUNT_BITS: u32 = 20;
pub const SPAN_BITS: u32 = 8;
pub const ADDRESS_BITS: u32 = 16;

pub const fn ones(bits: u32) -> u64 {
    (1 << bits) - 1
}

/// A word's first bit is its most significant one.
const FIRST_BIT: u64 = 1 << (u64::BITS - 1);

/// A board: control word, shape word, log entries, lines.
pub const CONTROL_PLACE: usize = 0;
pub const SHAPE_PLACE: usize = 1;
pub const HEAD_WORDS: usize = 2;

/// A packed range, then the data that the line had in it.
pub type Entry = [u64; ENTRY_WORDS];
pub const ENTRY_WORDS: usize = 2;

/// A slot word, then the data.
pub type Slot = [u64; SLOT_WORDS];
const SLOT_WORDS: usize = 2;

/// Set g is slots 4g to 4g + 3.
pub type Set = [Slot; WAYS];
pub const WAYS: usize = 4;

/// Where the range of the log entry at a place of the ring stands on a board.
#[inline]
pub const fn entry_place(ring_place: usize) -> usize {
    HEAD_WORDS + ENTRY_WORDS * ring_place
}

/// Where a slot word stands in a work memory: slots, then the buffer, then the filter.
#[inline]
pub const fn slot_place(slot: usize) -> usize {
    SLOT_WORDS * slot
}

/// Where the range of a buffered entry stands in a work memory with so many slots.
#[inline]
pub const fn buffer_place(slots: usize, place: usize) -> usize {
    slot_place(slots) + ENTRY_WORDS * place
}

/// Where the filter's first word stands in a work memory with so many slots.
#[inline]
pub const fn filter_place(slots: usize) -> usize {
    buffer_place(slots, BUFFER_ENTRIES)
}

/// The words of a work memory with so many slots.
#[inline]
pub const fn work_words(slots: usize) -> usize {
    filter_place(slots) + FILTER_WORDS
}

/// How many slots there is room for in a work memory of so many words.
#[inline]
pub const fn slots_in(words: usize) -> usize {
    words.saturating_sub(work_words(0)) / SLOT_WORDS
}

/// The number of slots that a work memory of so many words has, where it is a right one: whole sets, and not too many.
#[inline]
pub fn slot_count(words: usize) -> Option<usize> {
    let slot_words = words.wrapping_sub(work_words(0));
    let is_right = slot_words.is_multiple_of(slot_place(WAYS))
        && (slot_place(WAYS)..=slot_place(MOST_SLOTS)).contains(&slot_words);
    is_right.then_some(slot_words / SLOT_WORDS)
}

/// The slots of a work memory that has so many.
#[inline]
pub fn slots_of(work: &[u64], slots: usize) -> &[Slot] {
    work[..slot_place(slots)].as_chunks().0
}

/// The buffer and the filter of a work memory with so many slots.
#[inline]
pub fn buffer_and_filter_of(work: &[u64], slots: usize) -> Option<(&[Entry], &Filter)> {
    let (buffer, filter) = work[slot_place(slots)..].split_last_chunk()?;
    Some((buffer.as_chunks().0, filter))
}

/// The slots of a work memory that has so many, the buffer, and the filter.
#[inline]
pub fn work_parts_mut(work: &mut [u64], slots: usize) -> Option<(&mut [Slot], &mut [Entry], &mut Filter)> {
    let (slots, rest) = work.split_at_mut(slot_place(slots));
    let (buffer, filter) = rest.split_last_chunk_mut()?;
    Some((slots.as_chunks_mut().0, buffer.as_chunks_mut().0, filter))
}

/// What a board's control word and its shape word say.
#[inline]
pub fn head_of(board: &[u64]) -> Option<(Control, Shape)> {
    let [control, shape, ..] = *board else {
        return None;
    };
    Some((Control::unpack(control), Shape::unpack(shape)))
}

/// The log and the lines of a board that has the words of its shape.
#[inline]
pub fn board_parts(board: &[u64], shape: Shape) -> (&[Entry], &[u64]) {
    let (log, lines) = board[HEAD_WORDS..].split_at(ENTRY_WORDS * shape.entries as usize);
    (log.as_chunks().0, lines)
}

/// The control word, the log and the lines of a board with a shape word.
#[inline]
pub fn board_parts_mut(board: &mut [u64], shape: Shape) -> Option<(&mut u64, &mut [Entry], &mut [u64])> {
    let [control_word, _, rest @ ..] = board else {
        return None;
    };
    let (log, lines) = rest.split_at_mut(ENTRY_WORDS * shape.entries as usize);
    Some((control_word, log.as_chunks_mut().0, lines))
}

/// The control word: persisted epoch 40, log start 12, log length 12.
#[derive(Clone, Copy, Debug, PartialEq, Eq)]
pub struct Control {
    pub persisted: u64,
    pub start: usize,
    pub length: usize,
}

impl Control {
    #[inline]
    pub fn unpack(word: u64) -> Self {
        Control {
            persisted: word >> (2 * RING_BITS),
            start: (word >> RING_BITS & ones(RING_BITS)) as usize,
            length: (word & ones(RING_BITS)) as usize,
        }
    }

    #[inline]
    pub fn pack(self) -> u64 {
        self.persisted << (2 * RING_BITS) | (self.start as u64) << RING_BITS | self.length as u64
    }
}

/// The shape word: version 24, lines 20, entries 20.
///
/// Unpacking takes the version off the bits in front of `lines` and leaves the rest there: where the version is another,
/// there are too many lines.
#[derive(Clone, Copy, Debug, PartialEq, Eq)]
pub struct Shape {
    pub lines: u64,
    pub entries: u64,
}

impl Shape {
    pub const VERSION: u64 = 1;
    pub const VERSION_SHIFT: u32 = 2 * COUNT_BITS;
    const VERSION_BEFORE_LINES: u64 = Self::VERSION << COUNT_BITS;

    #[inline]
    pub fn unpack(word: u64) -> Self {
        Shape {
            lines: (word >> COUNT_BITS).wrapping_sub(Self::VERSION_BEFORE_LINES),
            entries: word & ones(COUNT_BITS),
        }
    }

    /// The word that this is unpacked from, whatever its version.
    #[inline]
    pub fn pack(self) -> u64 {
        self.lines.wrapping_add(Self::VERSION_BEFORE_LINES) << COUNT_BITS | self.entries
    }

    #[inline]
    pub fn is_in_range(self, most_entries: u64) -> bool {
        (1..=MOST_LINES).contains(&self.lines) && (1..=most_entries).contains(&self.entries)
    }

    /// The words of a board that has a shape in range.
    #[inline]
    pub fn board_words(self) -> usize {
        self.line_place(self.lines as usize)
    }

    /// Where a line stands on the board.
    #[inline]
    pub fn line_place(self, address: usize) -> usize {
        entry_place(self.entries as usize) + address
    }

    /// The same of any shape, as it is once it wraps round at 2^64.
    pub fn wrapping_board_words(self) -> u64 {
        let log_words = self.entries.wrapping_mul(ENTRY_WORDS as u64);
        log_words.wrapping_add(HEAD_WORDS as u64).wrapping_add(self.lines)
    }
}

/// The first word of an undo entry: address 16, ValidTill 40, span 8. ValidFrom is so many epochs before ValidTill.
#[derive(Clone, Copy, Debug, PartialEq, Eq)]
pub struct Range {
    pub address: u64,
    pub valid_till: u64,
    pub span: u64,
}

impl Range {
    #[inline]
    pub fn unpack(word: u64) -> Self {
        Range {
            address: word >> (EPOCH_BITS + SPAN_BITS),
            valid_till: word >> SPAN_BITS & LAST_EPOCH,
            span: word & ones(SPAN_BITS),
        }
    }

    #[inline]
    pub fn pack(self) -> u64 {
        self.address << (EPOCH_BITS + SPAN_BITS) | self.valid_till << SPAN_BITS | self.span
    }

    /// Whether the ValidTill of a packed word is behind an epoch, which is not the last. Behind the address it is the word's first
    /// field, and need not be unpacked.
    #[inline]
    pub fn ends_behind(word: u64, epoch: u64) -> bool {
        word << ADDRESS_BITS >= (epoch + 1) << (u64::BITS - EPOCH_BITS)
    }

    /// Whether the span is one up to so many epochs, and ValidFrom not before epoch 0.
    #[inline]
    pub fn has_proper_span(self, most: u64) -> bool {
        (1..=most).contains(&self.span) && self.span <= self.valid_till
    }

    /// Whether an epoch is from ValidFrom on and before ValidTill, the span being a proper one.
    #[inline]
    pub fn covers(self, epoch: u64) -> bool {
        // From ValidTill on it wraps round.
        self.valid_till.wrapping_sub(epoch + 1) < self.span
    }
}

/// The filter: bits for the addresses of the buffered entries. Bit 0 is the first bit of the first word.
pub type Filter = [u64; FILTER_WORDS];
pub const FILTER_WORDS: usize = FILTER_BITS / u64::BITS as usize;
pub const FILTER_BITS: usize = 4_096;

/// The place of a bit in the filter.
#[derive(Clone, Copy, Debug, PartialEq, Eq)]
pub struct FilterBit(pub usize);

impl FilterBit {
    const FACTOR: u16 = 40_503;
    const DIVISOR: u16 = 16;

    /// The two bits of an address. They may be one.
    #[inline]
    pub fn both_of(address: u64) -> [FilterBit; 2] {
        let scattered = (address as u16).wrapping_mul(Self::FACTOR);
        [
            FilterBit(address as usize % FILTER_BITS),
            FilterBit(usize::from(scattered / Self::DIVISOR)),
        ]
    }

    /// Its word in the filter. Any number has one.
    #[inline]
    pub fn word(self) -> usize {
        self.0 / u64::BITS as usize % FILTER_WORDS
    }

    /// How far its word has to be shifted to the left for it to be the first bit.
    #[inline]
    fn shift(self) -> usize {
        self.0 % u64::BITS as usize
    }

    /// The word that has this bit alone.
    #[inline]
    pub fn mask(self) -> u64 {
        FIRST_BIT >> self.shift()
    }
}

/// Whether both bits of an address are set.
#[inline]
pub fn is_marked(filter: &Filter, address: u64) -> bool {
    let [first, second] = FilterBit::both_of(address).map(|bit| filter[bit.word()] << bit.shift());
    first & second & FIRST_BIT != 0
}

/// Sets both bits of an address.
#[inline]
pub fn mark(filter: &mut Filter, address: u64) {
    for bit in FilterBit::both_of(address) {
        filter[bit.word()] |= bit.mask();
    }
}

/// A slot word: valid 1, dirty 1, address 16, tag 40, zero 6. An empty slot is zero.
#[derive(Clone, Copy, Debug, Default, PartialEq, Eq)]
pub struct SlotWord(pub u64);

impl SlotWord {
    pub const EMPTY: SlotWord = SlotWord(0);
    pub const VALID: u64 = 1 << 63;
    pub const DIRTY: u64 = 1 << 62;
    /// The zero bits at the word's end; the tag is before them.
    pub const ZERO_BITS: u32 = 6;
    const TAG_SHIFT: u32 = Self::ZERO_BITS;
    const ADDRESS_SHIFT: u32 = Self::TAG_SHIFT + EPOCH_BITS;

    #[inline]
    pub fn clean(address: u64) -> Self {
        SlotWord(Self::VALID | address << Self::ADDRESS_SHIFT)
    }

    #[inline]
    pub fn dirty(address: u64, tag: u64) -> Self {
        SlotWord(Self::VALID | Self::DIRTY | address << Self::ADDRESS_SHIFT | tag << Self::TAG_SHIFT)
    }

    #[inline]
    pub fn is_valid(self) -> bool {
        self.0 & Self::VALID != 0
    }

    #[inline]
    pub fn is_dirty(self) -> bool {
        self.0 & Self::DIRTY != 0
    }

    #[inline]
    pub fn is_valid_and_dirty(self) -> bool {
        self.0 >= Self::VALID | Self::DIRTY
    }

    #[inline]
    pub fn address(self) -> u64 {
        self.0 >> Self::ADDRESS_SHIFT & LAST_ADDRESS
    }

    #[inline]
    pub fn tag(self) -> u64 {
        self.0 >> Self::TAG_SHIFT & LAST_EPOCH
    }

    /// The word without its address: valid, dirty, tag and zero bits, where they stand.
    #[inline]
    pub fn besides_address(self) -> u64 {
        self.0 & !(LAST_ADDRESS << Self::ADDRESS_SHIFT)
    }

    /// Whether the line at `address` is held here.
    #[inline]
    pub fn holds(self, address: u64) -> bool {
        self.is_valid() && self.address() == address
    }
}
