//! Images that are refused. The name of each begins with that of its refusal.

use super::{bytes_of, Image};
use crate::handwritten::layout::{entry_place, Control, Range, Shape, CONTROL_PLACE, SHAPE_PLACE};
use crate::handwritten::old;
use crate::random::Random;
use crate::sizes::MOST_OF_THE_REPLAY;

const SEED: u64 = 41;

/// A right board: four lines, eight entries, three of them in a log that turns round the ring. It is fit for changes.
const SHAPE: Shape = Shape { lines: 4, entries: 8 };
const CONTROL: Control = control(20, 6, 3);
const ENTRY: Range = range(3, 22, 3);

const fn control(persisted: u64, start: usize, length: usize) -> Control {
    Control {
        persisted,
        start,
        length,
    }
}

const fn range(address: u64, valid_till: u64, span: u64) -> Range {
    Range {
        address,
        valid_till,
        span,
    }
}

fn board() -> Vec<u64> {
    let mut board = empty_board(SHAPE);
    board[CONTROL_PLACE] = old::pack_control(CONTROL);
    for place in 0..CONTROL.length {
        set_entry(&mut board, place, ENTRY);
    }
    board
}

/// A board of lines of any words, without a log.
fn empty_board(shape: Shape) -> Vec<u64> {
    let mut board = Random::for_place(&[SEED, shape.lines, shape.entries]).words(shape.board_words());
    board[CONTROL_PLACE] = 0;
    board[SHAPE_PLACE] = old::pack_shape(shape);
    board
}

/// Entry `place` of the log, 0 the oldest.
fn set_entry(board: &mut [u64], place: usize, range: Range) {
    let ring_place = (CONTROL.start + place) % SHAPE.entries as usize;
    board[entry_place(ring_place)] = old::pack_range(range);
}

pub fn images() -> Vec<Image> {
    let mut images = of_other_lengths();
    images.extend(of_wrong_heads());
    images.extend(of_other_sizes());
    images.extend(of_improper_entries());
    images
}

fn shape_image(what: &str, board: &[u64]) -> Image {
    Image::of_board(format!("shape-{what}"), board)
}

/// No bytes, parts of a board, and more bytes than it has.
fn of_other_lengths() -> Vec<Image> {
    let whole = bytes_of(&board());
    let largest = bytes_of(&empty_board(Shape {
        lines: MOST_OF_THE_REPLAY.lines,
        entries: MOST_OF_THE_REPLAY.entries,
    }));
    let image = |what: String, bytes: Vec<u8>| Image {
        name: format!("shape-{what}"),
        bytes,
    };
    let mut images = vec![image("no-bytes".to_string(), Vec::new())];
    for bytes in [1, 7, 8, 15, 16, 17, whole.len() - 8, whole.len() - 7, whole.len() - 1] {
        images.push(image(format!("first-{bytes}-bytes"), whole[..bytes].to_vec()));
    }
    for (what, bytes) in [("small", whole), ("largest", largest)] {
        images.push(image(format!("{what}-a-byte-less"), bytes[..bytes.len() - 1].to_vec()));
        for more in [1, 7, 8, 16, 70_000] {
            let longer = [bytes.clone(), vec![0; more]].concat();
            images.push(image(format!("{what}-{more}-bytes-more"), longer));
        }
    }
    let random = &mut Random::new(SEED);
    for bytes in [40, 32_784, 100_000] {
        images.push(image(format!("any-{bytes}-bytes"), random.bytes(bytes)));
    }
    images
}

/// A field of the first two words that is just out of its range.
fn of_wrong_heads() -> Vec<Image> {
    let with_word = |what: &str, place: usize, word: u64| {
        let mut board = board();
        board[place] = word;
        shape_image(what, &board)
    };
    let with_control = |what, control| with_word(what, CONTROL_PLACE, old::pack_control(control));
    let with_shape_word = |what: &str, word| with_word(what, SHAPE_PLACE, word);
    let mut images = vec![
        with_control("last-epoch", control(old::LAST_EPOCH, 6, 3)),
        with_control("start", control(20, 8, 3)),
        with_control("length", control(20, 6, 9)),
        with_shape_word("new-version", SHAPE.pack()),
        shape_image("no-line", &empty_board(Shape { lines: 0, ..SHAPE })),
        shape_image("no-entry", &empty_board(Shape { entries: 0, ..SHAPE })),
    ];
    for bit in Shape::VERSION_SHIFT + 1..u64::BITS {
        images.push(with_shape_word(
            &format!("bit-{bit}"),
            old::pack_shape(SHAPE) | 1 << bit,
        ));
    }
    for (lines, entries) in [(5, 8), (3, 8), (4, 9), (4, 7), (2, 8), (0, 10)] {
        let word = old::pack_shape(Shape { lines, entries });
        images.push(with_shape_word(&format!("says-{lines}-{entries}"), word));
    }
    images
}

/// Right boards that are larger than the replay's, and such as never were.
fn of_other_sizes() -> Vec<Image> {
    let Shape { lines, entries } = Shape {
        lines: MOST_OF_THE_REPLAY.lines,
        entries: MOST_OF_THE_REPLAY.entries,
    };
    let sizes = [
        (lines + 1, entries),
        (lines, entries + 1),
        (lines + 1, 1),
        (1, entries + 1),
        (lines + 2, entries - 1),
        (1, 4_096),
        (65_536, 1),
        (65_537, 1),
        (65_536, old::MOST_ENTRIES),
    ];
    sizes
        .map(|(lines, entries)| shape_image(&format!("of-{lines}-{entries}"), &empty_board(Shape { lines, entries })))
        .into()
}

/// Each condition of a proper entry that is just not met, by the oldest, the middle and the newest one.
fn of_improper_entries() -> Vec<Image> {
    let improper = [
        ("address", range(4, 22, 3)),
        ("from-till", range(3, 22, 0)),
        ("from-behind-till", range(3, 22, u64::MAX)),
        ("till-p", range(3, 20, 3)),
        ("till-0", range(3, 0, 0)),
        ("till-17-after-p", range(3, 37, 3)),
        ("till-last", range(3, old::LAST_EPOCH, 3)),
    ];
    let mut images = Vec::new();
    for place in 0..CONTROL.length {
        for (what, range) in improper {
            let mut board = board();
            set_entry(&mut board, place, range);
            images.push(Image::of_board(format!("entry-{what}-{place}"), &board));
        }
    }
    let mut board = board();
    set_entry(&mut board, 1, range(3, 23, 3));
    images.push(Image::of_board("entry-before-the-next-older", &board));
    images
}
