//! Boards that are exported and read into: of any lines, and such as have something wrong with them.

use crate::differential::damage::draw_other_version;
use crate::differential::player::Player;
use crate::differential::sides::Lent;
use crate::handwritten::hex::BANK_LINES;
use crate::handwritten::layout::{Control, Shape, COUNT_BITS, LAST_EPOCH, MOST_ENTRIES, MOST_LINES, RING_BITS};
use crate::interface::ANSWER_WORDS;
use crate::random::Random;

/// The most lines and log entries of a small board, and the lowest bit that no smaller number has.
const SMALL_LINES: u64 = 300;
const SMALL_ENTRIES: u64 = 40;
const ABOVE_SMALL_LINES: u64 = 9;
const ABOVE_SMALL_ENTRIES: u64 = 6;

/// The longest text, bytes before it, which may stand at any address, and bytes behind it.
pub const LONGEST_TEXT: u64 = 60;
const MOST_BEFORE: u64 = 15;
const BEHIND: usize = 16;

/// The words of answers, one in eight of which are too short.
pub const ANSWERS: [usize; 16] = [0, 1, 2, 2, 2, 2, 2, 2, 2, 2, 2, 2, 2, 2, 3, 4];

/// Few lines behind a short log.
pub fn draw_small(random: &mut Random) -> Shape {
    let most_lines = random.pick(&[1, 2, 3, 4, 12, SMALL_LINES]);
    Shape {
        lines: random.between(1, most_lines),
        entries: random.between(1, SMALL_ENTRIES),
    }
}

/// As many lines as one bank or two have, or a few more or less.
pub fn draw_about_banks(random: &mut Random) -> Shape {
    let banks = random.pick(&[1, 1, 1, 2]);
    Shape {
        lines: random.near(banks * BANK_LINES, 3),
        entries: random.between(1, SMALL_ENTRIES),
    }
}

/// Up to the most lines and log entries.
pub fn draw_large(random: &mut Random) -> Shape {
    let banks = random.between(3, MOST_LINES / BANK_LINES);
    let about_its_end = random.near(banks * BANK_LINES, 3).min(MOST_LINES);
    let any = random.between(1, MOST_LINES);
    Shape {
        lines: random.pick(&[about_its_end, any, MOST_LINES - 1, MOST_LINES]),
        entries: random.pick(&[1, 2, SMALL_ENTRIES, 1_000, MOST_ENTRIES]),
    }
}

/// A line or a log entry more than there may be.
pub fn draw_too_large(random: &mut Random) -> Shape {
    random.pick(&[
        Shape {
            lines: MOST_LINES + 1,
            entries: 1,
        },
        Shape {
            lines: 1,
            entries: MOST_ENTRIES + 1,
        },
    ])
}

/// Lends a board with an empty log, of any lines and log words.
pub fn lend_board(player: &mut Player, shape: Shape) {
    let random = &mut player.random;
    player.state.board = random.words(shape.board_words());
    player.state.set_shape(shape);
    let any_epoch = random.below(LAST_EPOCH);
    let control = Control {
        persisted: random.pick(&[0, 1, any_epoch, LAST_EPOCH - 1]),
        start: random.below(shape.entries) as usize,
        length: 0,
    };
    player.state.set_control(control);
}

/// Lends no board, one word, or a few.
pub fn lend_any_words(player: &mut Player) {
    let words = player.random.pick(&[0, 1, 2, 3, 5, 12]);
    player.state.board = (0..words).map(|_| player.random.any_width()).collect();
}

/// The lines that a board's shape word says, or the next number that a board may have.
pub fn lines_said(state: &Lent) -> u64 {
    if state.has_head() {
        state.shape().lines.clamp(1, MOST_LINES)
    } else {
        1
    }
}

/// Lends so many bytes, at any address, with others around them.
pub fn lend_bytes(random: &mut Random, state: &mut Lent, count: usize) {
    let begin = random.between(0, MOST_BEFORE) as usize;
    let end = begin + count;
    state.bytes_place = begin..end;
    state.bytes = random.bytes(end + BEHIND);
}

/// Puts the bytes away, and lends an answer of the right length.
pub fn put_arrays_away(state: &mut Lent) {
    state.bytes.clear();
    state.bytes_place = 0..0;
    state.answer = vec![0; ANSWER_WORDS];
}

/// A log with one entry, some or as many as there is room for.
pub fn hold_log(random: &mut Random, state: &mut Lent) {
    let mut control = state.control();
    let entries = state.shape().entries;
    let some = random.between(1, entries);
    control.length = random.pick(&[1, some, entries]) as usize;
    state.set_control(control);
}

/// A log that is not empty, or one field or the length of the board that is wrong, just so or by far; sometimes both.
pub fn make_wrong(random: &mut Random, state: &mut Lent) {
    if random.one_in(3) {
        hold_log(random, state);
        if random.one_in(2) {
            return;
        }
    }
    match random.below(3) {
        0 => make_control_wrong(random, state),
        1 => make_shape_wrong(random, state),
        _ => {
            let words = random.near(state.board.len() as u64, 2) as usize;
            state.board.resize(words, random.word());
        }
    }
}

fn make_control_wrong(random: &mut Random, state: &mut Lent) {
    let mut control = state.control();
    let entries = state.shape().entries;
    let upper_bit = random.between(ABOVE_SMALL_ENTRIES, u64::from(RING_BITS) - 1);
    let (just_more, far_more) = (entries + random.below(2), entries | 1 << upper_bit);
    match random.below(4) {
        0 => control.persisted = LAST_EPOCH,
        1 => control.start = random.pick(&[just_more, far_more]) as usize,
        2 => control.length = random.pick(&[just_more + 1, far_more]) as usize,
        _ => return state.set_control_word(random.word()),
    }
    state.set_control(control);
}

fn make_shape_wrong(random: &mut Random, state: &mut Lent) {
    let mut shape = state.shape();
    let last_bit = u64::from(COUNT_BITS) - 1;
    match random.below(7) {
        0 => shape.lines = random.near(shape.lines, 2),
        1 => shape.entries = random.near(shape.entries, 2),
        2 => {
            let version = draw_other_version(random);
            return state.set_version(version);
        }
        3 => shape.lines = 0,
        4 => shape.entries = 0,
        5 => shape.lines |= 1 << random.between(ABOVE_SMALL_LINES, last_bit),
        _ => shape.entries |= 1 << random.between(ABOVE_SMALL_ENTRIES, last_bit),
    }
    state.set_shape(shape);
    // The board has the words that go with them, most times where these are not too many.
    let words = shape.wrapping_board_words();
    if words < state.board.len() as u64 && !random.one_in(4) {
        state.board.truncate(words as usize);
    }
}
