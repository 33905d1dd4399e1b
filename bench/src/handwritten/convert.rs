//! The converter: a board in the old layout, recovered by the old rules, in the new layout on a second memory.

use super::checks::{self, Refusal};
use super::layout::{board_parts, Control, Entry, Shape, CONTROL_PLACE, MOST_ENTRIES, SHAPE_PLACE};
use super::{accepted, old, refused};
use crate::interface::Answer;

/// In the old layout an entry may span any number of epochs.
const ANY_SPAN: u64 = u64::MAX;

/// Fills the second memory, or refuses and leaves it as it was.
#[inline(never)]
pub fn convert(old_board: &[u64], board: &mut [u64]) -> Answer {
    let Some((control, shape)) = head(old_board, board.len()) else {
        return refused(Refusal::Shape, 0);
    };
    let (old_log, old_lines) = board_parts(old_board, shape);
    let ranges = checks::oldest_to_newest(old_log, control).map(|&[packed, _]| old::unpack_range(packed));
    if let Some(place) = checks::first_improper(ranges, control.persisted, shape.lines, ANY_SPAN) {
        return refused(Refusal::Entry, place as u64);
    }
    fill(board, control, shape, old_log, old_lines);
    accepted(0, 0)
}

/// The first two words of the old board, once it and the second memory have the words that they say.
#[inline]
fn head(old_board: &[u64], words: usize) -> Option<(Control, Shape)> {
    let (control, shape) = old::head_of(old_board)?;
    // More entries than the new layout has room for are refused as those that the old one had no room for.
    let agree = checks::agree(old_board.len(), control, shape, MOST_ENTRIES, old::LAST_EPOCH);
    (agree && words == old_board.len()).then_some((control, shape))
}

/// Puts the board together: the lines as they are recovered, and an empty log.
#[inline]
fn fill(board: &mut [u64], control: Control, shape: Shape, old_log: &[Entry], old_lines: &[u64]) {
    let empty_log = Control {
        start: 0,
        length: 0,
        ..control
    };
    let (before_lines, lines) = board.split_at_mut(shape.line_place(0));
    before_lines.fill(0);
    before_lines[CONTROL_PLACE] = empty_log.pack();
    before_lines[SHAPE_PLACE] = shape.pack();
    lines.copy_from_slice(old_lines);
    for &[packed, data] in checks::oldest_to_newest(old_log, control).rev() {
        let range = old::unpack_range(packed);
        if range.covers(control.persisted) {
            lines[range.address as usize] = data;
        }
    }
}
