//! The names, their letters counted by hand in the paper's table and, from 13 on, in the requests.

use super::answer;
use crate::handwritten::names::{name, name_of};

/// Number, name, letters. They are 92 together.
const WORKED: [(u64, &[u8], usize); 19] = [
    (0, b"ok", 2),
    (1, b"shape", 5),
    (2, b"work", 4),
    (3, b"entry", 5),
    (4, b"regs", 4),
    (5, b"address", 7),
    (6, b"slot", 4),
    (7, b"buffer", 6),
    (8, b"room", 4),
    (9, b"waiting", 7),
    (10, b"last", 4),
    (11, b"none", 4),
    (12, b"cut", 3),
    (13, b"trace", 5),
    (14, b"filter", 6),
    (15, b"target", 6),
    (16, b"short", 5),
    (17, b"past", 4),
    (18, b"logheld", 7),
];

/// The last are named numbers, if they are cut to 4, 5, 8, 16, 32 or 63 bits.
const NAMELESS: [u64; 18] = [
    19,
    31,
    255,
    256,
    65_535,
    u32::MAX as u64,
    1 << 63,
    u64::MAX - 1,
    u64::MAX,
    16 + 4,
    32 + 3,
    32 + 18,
    (1 << 8) + 3,
    (1 << 8) + 16,
    (1 << 16) + 14,
    (1 << 32) + 3,
    (3 << 32) + 5,
    (1 << 63) + 9,
];

/// No letter.
const BYTE: u8 = 0xA5;

/// What a text of so many bytes becomes, and whether the name is put into it.
fn text_with_name(text_bytes: usize, number: u64) -> (Vec<u8>, bool) {
    let mut text = vec![BYTE; text_bytes];
    let answered = name(&mut text, number);
    if let Some(answered) = answered {
        assert_eq!(answered, answer(0, name_of(number).len() as u64, 0));
    }
    (text, answered.is_some())
}

#[test]
fn each_number_has_its_name() {
    for (number, letters, count) in WORKED {
        assert_eq!(name_of(number).as_bytes(), letters);
        assert_eq!(name_of(number).len(), count, "{number}");
    }
    assert_eq!(WORKED.iter().map(|&(_, _, count)| count).sum::<usize>(), 92);
}

#[test]
fn no_other_number_has_one() {
    for number in NAMELESS {
        assert_eq!(name_of(number), "", "{number}");
    }
    for number in 19..100_000 {
        assert_eq!(name_of(number), "", "{number}");
    }
}

#[test]
fn the_value_is_the_number_of_letters() {
    for (number, _, count) in WORKED {
        assert_eq!(name(&mut [0; 8], number), Some(answer(0, count as u64, 0)));
    }
}

#[test]
fn a_text_just_long_enough_becomes_the_name() {
    for (number, letters, count) in WORKED {
        assert_eq!(text_with_name(count, number), (letters.to_vec(), true));
    }
}

#[test]
fn the_bytes_behind_the_name_are_not_touched() {
    assert_eq!(text_with_name(5, 0), (b"ok\xA5\xA5\xA5".to_vec(), true));
    assert_eq!(text_with_name(8, 5), (b"address\xA5".to_vec(), true));
    assert_eq!(text_with_name(8, 12), (b"cut\xA5\xA5\xA5\xA5\xA5".to_vec(), true));
    for (number, letters, count) in WORKED {
        for behind in 1..20 {
            let (text, is_put) = text_with_name(count + behind, number);
            assert!(is_put);
            assert_eq!(text[..count], *letters);
            assert_eq!(text[count..], vec![BYTE; behind]);
        }
    }
}

#[test]
fn a_text_that_is_too_short_is_not_touched() {
    assert_eq!(text_with_name(0, 0), (vec![], false));
    assert_eq!(text_with_name(1, 0), (vec![BYTE], false));
    assert_eq!(text_with_name(6, 9), (vec![BYTE; 6], false));
    for (number, _, count) in WORKED {
        for text_bytes in 0..count {
            assert_eq!(text_with_name(text_bytes, number), (vec![BYTE; text_bytes], false));
        }
    }
}

#[test]
fn a_number_without_a_name_puts_nothing_into_any_text() {
    for number in NAMELESS {
        for text_bytes in 0..12 {
            assert_eq!(text_with_name(text_bytes, number), (vec![BYTE; text_bytes], true));
            assert_eq!(name(&mut vec![BYTE; text_bytes], number), Some(answer(0, 0, 0)));
        }
    }
}

#[test]
fn a_name_takes_the_place_of_another_and_leaves_its_end() {
    let mut text = [BYTE; 8];
    assert_eq!(name(&mut text, 9), Some(answer(0, 7, 0)));
    assert_eq!(name(&mut text, 8), Some(answer(0, 4, 0)));
    assert_eq!(&text, b"rooming\xA5");
    assert_eq!(name(&mut text, 19), Some(answer(0, 0, 0)));
    assert_eq!(&text, b"rooming\xA5");
}
