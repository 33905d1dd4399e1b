//! What the converter refuses, each for itself and in which order. A refusal leaves the second memory as it was.

use super::{converted, old_with, GARBAGE};
use crate::handwritten::tests::answer;
use crate::interface::Answer;

fn refused_by(old: &[u64], words: usize) -> Answer {
    let (answer, board) = converted(old, words);
    assert_eq!(board, vec![GARBAGE; words]);
    answer
}

/// The words of a board of four lines and eight entries.
const WORDS: usize = 22;

const SHAPE: Answer = answer(1, 0, 0);

/// An entry of line 3 from 0 to 2, proper where P is 0 or 1.
const PROPER: u64 = 0x0003_0000_0000_0002;

/// An old board with P = 1 and these entries from place 6 of the ring on.
fn with_log(log: &[u64]) -> Vec<u64> {
    let entries: Vec<(usize, u64, u64)> = (0..)
        .zip(log)
        .map(|(age, &packed)| ((6 + age) % 8, packed, 4))
        .collect();
    old_with(0x0000_0100_0060_0000 | log.len() as u64, &entries)
}

fn improper(log: &[u64]) -> u64 {
    let answer = refused_by(&with_log(log), WORDS);
    assert_eq!((answer.number, answer.stores), (3, 0));
    answer.value
}

/// An old board of zeros with this shape word, of so many words.
fn shaped(shape_word: u64, words: usize) -> Vec<u64> {
    let mut board = vec![0; words];
    board[1] = shape_word;
    board
}

#[test]
fn a_second_memory_of_another_length() {
    let old = with_log(&[PROPER]);
    assert_eq!(old.len(), WORDS);
    for words in [0, 1, 2, WORDS - 2, WORDS - 1, WORDS + 1, WORDS + 2, 1_000] {
        assert_eq!(refused_by(&old, words), SHAPE, "{words} words");
    }
    assert_eq!(converted(&old, WORDS).0, answer(0, 0, 0));
}

#[test]
fn an_old_board_of_another_length() {
    let old = with_log(&[PROPER]);
    for words in 0..WORDS {
        assert_eq!(refused_by(&old[..words], WORDS), SHAPE);
        assert_eq!(refused_by(&old[..words], words), SHAPE);
    }
    let longer = [&old[..], &[0]].concat();
    assert_eq!(refused_by(&longer, WORDS), SHAPE);
    assert_eq!(refused_by(&longer, WORDS + 1), SHAPE);
}

#[test]
fn a_version_that_is_not_0() {
    for bit in 40..64 {
        assert_eq!(
            refused_by(&shaped(1 << bit | 0x0040_0008, WORDS), WORDS),
            SHAPE,
            "bit {bit}"
        );
    }
    assert_eq!(converted(&shaped(0x0040_0008, WORDS), WORDS).0, answer(0, 0, 0));
}

#[test]
fn lines_and_entries_out_of_range() {
    // N and L, each just in range and just not, on boards of the right length.
    for (lines, entries, number) in [
        (0, 8, 1),
        (4, 0, 1),
        (1, 1, 0),
        (65_536, 1, 0),
        (65_537, 1, 1),
        (1, 4_095, 0),
        (1, 4_096, 1),
        (1, 65_536, 1),
        (1, 65_537, 1),
    ] {
        let words = 2 + 2 * entries + lines;
        let (answer, _) = converted(&shaped((lines << 20 | entries) as u64, words), words);
        assert_eq!((answer.number, answer.value), (number, 0), "{lines}, {entries}");
    }
}

#[test]
fn a_last_epoch_a_start_or_a_length_out_of_range() {
    for (control_word, number) in [
        (0xFFFF_FE00_0000_0000, 0),
        (0xFFFF_FF00_0000_0000, 1),
        (0x0000_0000_0070_0000, 0),
        (0x0000_0000_0080_0000, 1),
        (0x0000_00FF_FFF0_0000, 1),
        (0x0000_0000_0000_0009, 1),
        (0x0000_0000_000F_FFFF, 1),
    ] {
        let (answer, _) = converted(&old_with(control_word, &[]), WORDS);
        assert_eq!((answer.number, answer.value), (number, 0), "{control_word:#018x}");
    }
}

/// P = 1: each condition of a proper entry, just met and just not.
#[test]
fn each_condition_of_an_entry() {
    let cases = [
        // The address is 3 or 4.
        (0x0003_0000_0000_0002, true),
        (0x0004_0000_0000_0002, false),
        (0xFFFF_0000_0000_0002, false),
        // ValidFrom is 1, 2 or 3.
        (0x0003_0000_0100_0002, true),
        (0x0003_0000_0200_0002, false),
        (0x0003_0000_0300_0002, false),
        (0x0003_FFFF_FF00_0002, false),
        // ValidTill is 1, 0, 17, 18, the last epoch.
        (0x0003_0000_0000_0001, false),
        (0x0003_0000_0000_0000, false),
        (0x0003_0000_0000_0011, true),
        (0x0003_0000_0000_0012, false),
        (0x0003_0000_0000_0101, false),
        (0x0003_0000_00FF_FFFF, false),
    ];
    for (packed, is_proper) in cases {
        let (answered, _) = converted(&with_log(&[packed]), WORDS);
        let expected = if is_proper { answer(0, 0, 0) } else { answer(3, 0, 0) };
        assert_eq!(answered, expected, "{packed:#018x}");
    }
}

#[test]
fn an_entry_that_ends_before_the_next_older() {
    // They end in 3, 3 and 2.
    let (three, two) = (0x0003_0000_0000_0003, 0x0003_0000_0000_0002);
    assert_eq!(converted(&with_log(&[two, three, three]), WORDS).0, answer(0, 0, 0));
    assert_eq!(improper(&[three, three, two]), 2);
    assert_eq!(improper(&[three, two, two]), 1);
}

#[test]
fn the_value_is_the_place_of_the_first_improper_entry() {
    let wrong = 0x0004_0000_0000_0002;
    for place in 0..8 {
        let mut log = [PROPER; 8];
        log[place] = wrong;
        assert_eq!(improper(&log), place as u64);
        log[7] = wrong;
        assert_eq!(improper(&log), place as u64);
    }
}

#[test]
fn shape_comes_before_entry() {
    let mut old = with_log(&[0x0004_0000_0000_0002]);
    assert_eq!(refused_by(&old, WORDS), answer(3, 0, 0));
    assert_eq!(refused_by(&old, WORDS + 1), SHAPE);
    old[1] |= 1 << 40;
    assert_eq!(refused_by(&old, WORDS), SHAPE);
    // A full log of 4,096 entries, none of them proper.
    let mut old = vec![u64::MAX; 2 + 2 * 4_096 + 1];
    old[0] = 4_096;
    old[1] = 0x0000_0000_0010_1000;
    assert_eq!(refused_by(&old, old.len()), SHAPE);
}

/// A board that is in the new layout already is none in the old one, and the other way round.
#[test]
fn each_layout_refuses_the_other() {
    let old = with_log(&[PROPER]);
    let (_, mut board) = converted(&old, WORDS);
    assert_eq!(refused_by(&board, WORDS), SHAPE);
    let mut work = vec![0; 2 * 4 + 128];
    let mut registers = Default::default();
    let mut power_up = |board: &mut [u64]| crate::handwritten::power_up(board, &mut work, &mut registers, 9);
    assert_eq!(power_up(&mut board), answer(0, 0, 1));
    assert_eq!(power_up(&mut old.clone()), SHAPE);
}
