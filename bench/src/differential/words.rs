//! Where the words of what a history lends stand and what is packed in them: all that damages words or looks at them goes
//! through here.

use super::sides::Lent;
use crate::call::Call;
use crate::handwritten::layout::{
    buffer_place, entry_place, filter_place, mark, ones, slot_place, slots_in, work_words, Control, Filter, FilterBit,
    Range, Shape, SlotWord, BUFFER_ENTRIES, CONTROL_PLACE, FILTER_WORDS, MOST_AHEAD, SHAPE_PLACE,
};
use crate::handwritten::{record, Registers};
use crate::interface::{RegisterWords, REGISTER_WORDS, TRACE};

impl Lent {
    /// The board's first two words are there.
    pub fn has_head(&self) -> bool {
        self.board.len() > SHAPE_PLACE
    }

    pub fn head(&mut self) -> &mut [u64] {
        &mut self.board[..=SHAPE_PLACE]
    }

    pub fn control(&self) -> Control {
        Control::unpack(self.board[CONTROL_PLACE])
    }

    pub fn set_control(&mut self, control: Control) {
        self.board[CONTROL_PLACE] = control.pack();
    }

    pub fn control_word(&self) -> u64 {
        self.board[CONTROL_PLACE]
    }

    pub fn set_control_word(&mut self, word: u64) {
        self.board[CONTROL_PLACE] = word;
    }

    pub fn shape(&self) -> Shape {
        Shape::unpack(self.board[SHAPE_PLACE])
    }

    pub fn set_shape(&mut self, shape: Shape) {
        self.board[SHAPE_PLACE] = shape.pack();
    }

    pub fn version(&self) -> u64 {
        self.board[SHAPE_PLACE] >> Shape::VERSION_SHIFT
    }

    /// Changes the shape word's version and nothing else of it.
    pub fn set_version(&mut self, version: u64) {
        let others = self.board[SHAPE_PLACE] & ones(Shape::VERSION_SHIFT);
        self.board[SHAPE_PLACE] = version << Shape::VERSION_SHIFT | others;
    }

    /// The range of the log entry at a place of the ring.
    pub fn entry(&self, ring_place: usize) -> Range {
        Range::unpack(self.board[entry_place(ring_place)])
    }

    /// The range of entry `place` of the log, 0 the oldest, on a board of a right shape.
    pub fn log_entry(&self, place: usize) -> Range {
        self.entry((self.control().start + place) % self.shape().entries as usize)
    }

    pub fn set_entry(&mut self, ring_place: usize, range: Range) {
        self.board[entry_place(ring_place)] = range.pack();
    }

    pub fn set_old_data(&mut self, ring_place: usize, data: u64) {
        self.board[entry_place(ring_place) + 1] = data;
    }

    pub fn has_entry(&self, ring_place: usize) -> bool {
        entry_place(ring_place + 1) <= self.board.len()
    }

    /// How many slots there is room for in the work memory.
    pub fn slots(&self) -> usize {
        slots_in(self.work.len())
    }

    pub fn slot(&self, place: usize) -> SlotWord {
        SlotWord(self.work[slot_place(place)])
    }

    pub fn set_slot(&mut self, place: usize, word: SlotWord) {
        self.work[slot_place(place)] = word.0;
    }

    /// The slots that are valid and dirty, whatever else they hold. The registers' count is true where it says as many.
    pub fn dirty_slots(&self) -> u64 {
        let is_dirty = |&place: &usize| self.slot(place).is_valid_and_dirty();
        (0..self.slots()).filter(is_dirty).count() as u64
    }

    /// There is room for a buffer and a filter.
    pub fn has_buffer(&self) -> bool {
        self.work.len() >= work_words(0)
    }

    /// The range of a buffered entry.
    pub fn buffered(&self, place: usize) -> Range {
        Range::unpack(self.work[buffer_place(self.slots(), place)])
    }

    pub fn set_buffered(&mut self, place: usize, range: Range) {
        let word = buffer_place(self.slots(), place);
        self.work[word] = range.pack();
    }

    /// The first b buffered entries' ranges, where there are that many.
    pub fn buffered_ranges(&self) -> impl Iterator<Item = Range> + '_ {
        let count = self.registers().buffered.min(BUFFER_ENTRIES as u64) as usize;
        (0..count).map(|place| self.buffered(place))
    }

    /// Whether the range of a buffered entry is proper on this board and beside these registers.
    pub fn is_proper_in_buffer(&self, range: Range) -> bool {
        self.is_proper_in_buffer_but_for_span(range) && range.has_proper_span(MOST_AHEAD)
    }

    pub fn is_proper_in_buffer_but_for_span(&self, range: Range) -> bool {
        range.address < self.shape().lines && range.valid_till <= self.registers().epoch
    }

    /// Whether the bits of an address are set, the first and the second.
    pub fn has_bits_of(&self, address: u64) -> [bool; 2] {
        FilterBit::both_of(address).map(|bit| self.has_bit(bit))
    }

    /// The filter of a work memory that has room for one.
    pub fn filter(&self) -> &Filter {
        let from = filter_place(self.slots());
        self.work[from..].first_chunk().expect("a work memory with a filter")
    }

    pub fn filter_mut(&mut self) -> &mut Filter {
        let from = filter_place(self.slots());
        self.work[from..]
            .first_chunk_mut()
            .expect("a work memory with a filter")
    }

    pub fn has_bit(&self, bit: FilterBit) -> bool {
        self.filter()[bit.word()] & bit.mask() != 0
    }

    pub fn set_bit(&mut self, bit: FilterBit) {
        self.filter_mut()[bit.word()] |= bit.mask();
    }

    pub fn clear_bit(&mut self, bit: FilterBit) {
        self.filter_mut()[bit.word()] &= !bit.mask();
    }

    /// Sets both bits of an address.
    pub fn mark(&mut self, address: u64) {
        mark(self.filter_mut(), address);
    }

    /// A filter with the bits of the first b buffered entries and no others.
    pub fn exact_filter(&self) -> Filter {
        let mut filter = [0; FILTER_WORDS];
        for range in self.buffered_ranges() {
            mark(&mut filter, range.address);
        }
        filter
    }

    pub fn has_registers(&self) -> bool {
        self.registers.len() >= REGISTER_WORDS
    }

    pub fn registers(&self) -> Registers {
        let words: RegisterWords = std::array::from_fn(|place| self.registers[place]);
        words.into()
    }

    /// Sets the first words of the array: what stands behind them stays.
    pub fn set_registers(&mut self, registers: Registers) {
        self.registers[..REGISTER_WORDS].copy_from_slice(&RegisterWords::from(registers));
    }

    /// Changes the count of dirty slots and no other register.
    pub fn set_count(&mut self, dirty: u64) {
        self.set_registers(Registers {
            dirty,
            ..self.registers()
        });
    }

    /// The call whose record the bytes for one begin with.
    pub fn read_record(&self) -> Result<Call, u64> {
        let bytes = self.bytes[self.bytes_place.clone()].first_chunk().ok_or(TRACE)?;
        record::read(*bytes)
    }
}
