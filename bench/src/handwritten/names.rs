//! The names of the paper's numbers, and a name put into a text.

use crate::interface::{Answer, ENTRY, FILTER, LOG_HELD, OK, OUTSIDE, PAST, RECORD, SHAPE, SHORT, TARGET, TRACE};

/// The numbers that have a name, in their order.
pub const NAMES: [(u64, &str); 19] = [
    (OK, "ok"),
    (SHAPE, "shape"),
    (2, "work"),
    (ENTRY, "entry"),
    (4, "regs"),
    (5, "address"),
    (6, "slot"),
    (7, "buffer"),
    (8, "room"),
    (9, "waiting"),
    (10, "last"),
    (11, "none"),
    (12, "cut"),
    (TRACE, "trace"),
    (FILTER, "filter"),
    (TARGET, "target"),
    (SHORT, "short"),
    (PAST, "past"),
    (LOG_HELD, "logheld"),
];

/// What the numbers behind these are called here: the library has no names for them yet.
pub const NAMELESS: [(u64, &str); 2] = [(RECORD, "record"), (OUTSIDE, "outside")];

/// What a number is called here; nothing where it is none that a call answers.
pub fn called(number: u64) -> &'static str {
    NAMELESS
        .iter()
        .find(|&&(known, _)| known == number)
        .map_or_else(|| name_of(number), |&(_, name)| name)
}

/// The name of a number; a number without one has the empty name.
pub fn name_of(number: u64) -> &'static str {
    NAMES
        .iter()
        .find(|&&(known, _)| known == number)
        .map_or("", |&(_, name)| name)
}

/// The name of a number at the start of a text, and how many bytes it has. None, and no byte touched, where the text has too
/// few of them.
#[inline(never)]
pub fn name(text: &mut [u8], number: u64) -> Option<Answer> {
    let letters = name_of(number).as_bytes();
    text.get_mut(..letters.len())?.copy_from_slice(letters);
    Some(Answer {
        number: OK,
        value: letters.len() as u64,
        stores: 0,
    })
}
