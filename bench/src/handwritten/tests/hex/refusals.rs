//! What the export refuses, each for itself and in which order.

use super::{board_with, records, text_with_record, Loom, BYTE, DOWN, END, FIRST_OPENER, UP};
use crate::handwritten::layout::{Control, Shape, CONTROL_PLACE, LAST_EPOCH, SHAPE_PLACE};
use crate::interface::Answer;

/// The answer to a call that has to leave the text as it was.
fn refused(board: &[u64], text_bytes: usize, record: u64) -> Answer {
    let (text, answer) = text_with_record(board, text_bytes, record);
    assert_eq!(text, vec![BYTE; text_bytes]);
    assert_eq!((answer.value, answer.stores), (0, 0));
    answer
}

fn number(board: &[u64], text_bytes: usize, record: u64) -> u64 {
    refused(board, text_bytes, record).number
}

/// Two lines, five entries.
fn board() -> Vec<u64> {
    board_with(&[UP, DOWN])
}

fn board_under(persisted: u64, start: usize, length: usize) -> Vec<u64> {
    let mut board = board();
    let control = Control {
        persisted,
        start,
        length,
    };
    board[CONTROL_PLACE] = control.pack();
    board
}

fn board_with_shape(word: u64, words: usize) -> Vec<u64> {
    let mut board = board();
    board[SHAPE_PLACE] = word;
    board.resize(words, 0);
    board
}

fn shape_word(lines: u64, entries: u64) -> u64 {
    Shape { lines, entries }.pack()
}

#[test]
fn a_text_of_43_bytes_is_short_for_every_record() {
    for text_bytes in 0..44 {
        for record in 0..3 {
            assert_eq!(
                number(&board(), text_bytes, record),
                16,
                "{text_bytes} bytes, record {record}"
            );
        }
    }
}

#[test]
fn a_longer_text_keeps_its_bytes_behind_the_record() {
    let expected = [FIRST_OPENER, ":100000000123456789ABCDEFFEDCBA9876543210F8\n", END];
    for text_bytes in 44..70 {
        for (record, expected) in expected.iter().enumerate() {
            let (text, answer) = text_with_record(&board(), text_bytes, record as u64);
            assert_eq!((answer.number, answer.value), (0, expected.len() as u64));
            let (begin, behind) = text.split_at(expected.len());
            assert_eq!(begin, expected.as_bytes());
            assert_eq!(behind, vec![BYTE; text_bytes - expected.len()]);
        }
    }
}

#[test]
fn numbers_behind_the_end_have_no_record() {
    let numbers = [
        3,
        4,
        255,
        256,
        257,
        1 << 16,
        1 << 32,
        (1 << 32) + 1,
        1 << 63,
        u64::MAX - 1,
        u64::MAX,
    ];
    for record in numbers {
        assert_eq!(number(&board(), 44, record), 17, "record {record}");
    }
}

#[test]
fn a_log_that_is_not_empty_is_held() {
    for length in 1..=5 {
        for record in 0..3 {
            assert_eq!(number(&board_under(0, 0, length), 44, record), 18);
        }
    }
}

/// The length has every bit of its field, or the highest alone.
#[test]
fn a_log_of_4095_entries_is_held() {
    let mut loom = Loom::new(2, 4_095, 4);
    assert_eq!(number(&loom.board, 44, 3), 17);
    for length in [2_048, 4_095] {
        loom.board[CONTROL_PLACE] = length;
        assert_eq!(number(&loom.board, 44, 1), 18);
    }
    // The start's highest bit is just above.
    loom.board[CONTROL_PLACE] = 2_048 << 12;
    assert_eq!(records(&loom.board).len(), 3);
}

#[test]
fn an_empty_log_may_start_anywhere_and_in_any_epoch() {
    let expected = records(&board());
    for (persisted, start) in [(0, 4), (1, 0), (LAST_EPOCH - 1, 4)] {
        assert_eq!(records(&board_under(persisted, start, 0)), expected);
    }
}

#[test]
fn a_board_that_is_none() {
    let words = board().len();
    assert_eq!(words, 2 + 2 * 5 + 2);
    let mut none = vec![
        vec![],
        board()[..1].to_vec(),
        board()[..2].to_vec(),
        board_with_shape(shape_word(2, 5), words - 1),
        board_with_shape(shape_word(2, 5), words + 1),
        board_with_shape(shape_word(3, 5), words),
        board_with_shape(shape_word(2, 4), words),
        board_with_shape(shape_word(0, 5), words - 2),
        board_with_shape(shape_word(2, 0), 4),
        board_with_shape(shape_word(65_537, 1), 4 + 65_537),
        board_with_shape(shape_word(1, 4_096), 3 + 2 * 4_096),
        board_with_shape(shape_word(1, 65_536), 3 + 2 * 65_536),
        board_under(LAST_EPOCH, 0, 0),
        board_under(0, 5, 0),
        board_under(0, 0, 6),
    ];
    // The version is 1: no other, and not 0, as it was.
    none.extend((40..64).map(|bit| board_with_shape(shape_word(2, 5) ^ 1 << bit, words)));
    for board in none {
        for record in 0..4 {
            assert_eq!(number(&board, 44, record), 1);
        }
    }
}

/// 1, 16, 17, 18: each comes before all behind it.
#[test]
fn the_order_of_the_refusals() {
    let held = board_under(0, 0, 1);
    let no_board = board_under(0, 0, 6);
    for (board, text_bytes, record, expected) in [
        (&no_board, 43, 3, 1),
        (&no_board, 43, 0, 1),
        (&no_board, 44, 3, 1),
        (&no_board, 44, 0, 1),
        (&held, 43, 3, 16),
        (&held, 43, 0, 16),
        (&board(), 43, 3, 16),
        (&held, 44, 3, 17),
        (&held, 44, 2, 18),
    ] {
        assert_eq!(
            number(board, text_bytes, record),
            expected,
            "{text_bytes} bytes, record {record}"
        );
    }
}

/// What the places of the log hold does not matter: its length is asked.
#[test]
fn a_log_with_words_but_no_length_is_empty() {
    let mut board = board();
    let expected = records(&board);
    board[2..12].fill(u64::MAX);
    assert_eq!(records(&board), expected);
}
