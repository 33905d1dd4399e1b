//! The words of a board in the layout before epochs had 40 bits, and boards made of them. What a board holds is the same in
//! both layouts; only the words differ.

use super::layout::{
    ones, Control, Range, Shape, ADDRESS_BITS, CONTROL_PLACE, COUNT_BITS, ENTRY_WORDS, HEAD_WORDS, SHAPE_PLACE,
};

const EPOCH_BITS: u32 = 24;
pub const LAST_EPOCH: u64 = ones(EPOCH_BITS);
/// The most log entries that a board had.
pub const MOST_ENTRIES: u64 = 1 << 16;

/// The control word: persisted epoch 24, log start 20, log length 20.
#[inline]
pub fn unpack_control(word: u64) -> Control {
    Control {
        persisted: word >> (2 * COUNT_BITS),
        start: (word >> COUNT_BITS & ones(COUNT_BITS)) as usize,
        length: (word & ones(COUNT_BITS)) as usize,
    }
}

pub fn pack_control(control: Control) -> u64 {
    control.persisted << (2 * COUNT_BITS) | (control.start as u64) << COUNT_BITS | control.length as u64
}

/// The shape word: zero 24, lines 20, entries 20. Where the first bits are not zero, there are too many lines.
#[inline]
pub fn unpack_shape(word: u64) -> Shape {
    Shape {
        lines: word >> COUNT_BITS,
        entries: word & ones(COUNT_BITS),
    }
}

pub fn pack_shape(shape: Shape) -> u64 {
    shape.lines << COUNT_BITS | shape.entries
}

/// The first word of an undo entry: address 16, ValidFrom 24, ValidTill 24. Where ValidFrom is the later one, the span wraps
/// round and is more than ValidTill.
#[inline]
pub fn unpack_range(word: u64) -> Range {
    let (valid_from, valid_till) = (word >> EPOCH_BITS & LAST_EPOCH, word & LAST_EPOCH);
    Range {
        address: word >> (u64::BITS - ADDRESS_BITS),
        valid_till,
        span: valid_till.wrapping_sub(valid_from),
    }
}

pub fn pack_range(range: Range) -> u64 {
    let valid_from = range.valid_till.wrapping_sub(range.span) & LAST_EPOCH;
    range.address << (u64::BITS - ADDRESS_BITS) | valid_from << EPOCH_BITS | range.valid_till
}

/// What a board's control word and its shape word say.
#[inline]
pub fn head_of(board: &[u64]) -> Option<(Control, Shape)> {
    let [control, shape, ..] = *board else {
        return None;
    };
    Some((unpack_control(control), unpack_shape(shape)))
}

/// A board as the calls leave it, in the old layout. Its epochs have to be old ones; then a controller of then has left it so
/// after the same calls, since nothing else has changed between the two.
pub fn old_board(board: &[u64]) -> Vec<u64> {
    let control = Control::unpack(board[CONTROL_PLACE]);
    let shape = Shape::unpack(board[SHAPE_PLACE]);
    assert!(control.persisted <= LAST_EPOCH, "an epoch that no old board has");
    let mut old = board.to_vec();
    old[CONTROL_PLACE] = pack_control(control);
    old[SHAPE_PLACE] = pack_shape(shape);
    let log_words = ENTRY_WORDS * shape.entries as usize;
    for entry in old[HEAD_WORDS..][..log_words].as_chunks_mut::<ENTRY_WORDS>().0 {
        let range = Range::unpack(entry[0]);
        assert!(range.valid_till <= LAST_EPOCH, "an entry that no old board has");
        entry[0] = pack_range(range);
    }
    old
}
