//! The reader of Intel HEX, its records worked by hand from the request and from Intel HEX.

use super::hex::{board_with, records, DOWN, END, UP};
use super::Loom;
use crate::handwritten::hex_in::{hex_in, Reader};
use crate::handwritten::layout::{Control, Shape, CONTROL_PLACE, LAST_EPOCH, SHAPE_PLACE};
use crate::random::Random;

const FIRST: Reader = Reader { upper: 0, ended: false };
const ENDED: Reader = Reader { upper: 0, ended: true };

/// The check bytes are worked in tests/hex.rs.
const PAIR: &str = ":100000000123456789ABCDEFFEDCBA9876543210F8\n";
const LINE: &str = ":080000000123456789ABCDEF38\n";
/// 02, 04 and 01 are 07.
const UPPER_1: &str = ":020000040001F9\n";

/// Reads a record and gives the number. A refusal has to leave all as it was.
fn take(board: &mut [u64], reader: &mut Reader, text: impl AsRef<[u8]>) -> u64 {
    let before = (board.to_vec(), *reader);
    let answer = hex_in(board, reader, text.as_ref());
    assert_eq!((answer.value, answer.stores), (0, 0));
    if answer.number != 0 {
        assert!(before == (board.to_vec(), *reader));
    }
    answer.number
}

/// What a reader with this upper address answers on a board of so many lines.
fn number_on(lines: usize, upper: u64, text: impl AsRef<[u8]>) -> u64 {
    take(
        &mut board_with(&vec![0; lines]),
        &mut Reader { upper, ended: false },
        text,
    )
}

/// What the first reader answers on a board of four lines.
fn number(text: impl AsRef<[u8]>) -> u64 {
    number_on(4, 0, text)
}

/// The lines of a board of zeros, once a record was accepted.
fn lines_with(lines: usize, upper: u64, text: &str) -> Vec<u64> {
    let mut board = board_with(&vec![0; lines]);
    let mut reader = Reader { upper, ended: false };
    assert_eq!(take(&mut board, &mut reader, text), 0, "{text}");
    assert_eq!(reader, Reader { upper, ended: false });
    board[board.len() - lines..].to_vec()
}

/// A record of these bytes, in upper case digits.
fn text_of(bytes: &[u8]) -> String {
    let digits: String = bytes.iter().map(|byte| format!("{byte:02X}")).collect();
    format!(":{digits}\n")
}

/// The same with the byte behind them that makes the sum of all 0.
fn summed(bytes: &[u8]) -> String {
    let sum = bytes.iter().fold(0, |sum: u8, &byte| sum.wrapping_add(byte));
    text_of(&[bytes, &[sum.wrapping_neg()]].concat())
}

/// A data record of zeros.
fn zeros(data_bytes: u8, address: u16) -> String {
    let [high, low] = address.to_be_bytes();
    summed(&[&[data_bytes, high, low, 0], &vec![0; data_bytes.into()][..]].concat())
}

/// Every second letter in the other case.
fn mixed(text: &str) -> String {
    let mut is_lower = false;
    text.chars()
        .map(|letter| {
            is_lower ^= letter.is_ascii_alphabetic();
            if is_lower {
                letter.to_ascii_lowercase()
            } else {
                letter
            }
        })
        .collect()
}

#[test]
fn data_go_to_the_lines_of_their_address() {
    assert_eq!(lines_with(4, 0, PAIR), [UP, DOWN, 0, 0]);
    assert_eq!(lines_with(4, 0, LINE), [UP, 0, 0, 0]);
    // 08 more in the address are 08 less in the check byte.
    let behind = ":100008000123456789ABCDEFFEDCBA9876543210F0\n";
    assert_eq!(lines_with(4, 0, behind), [0, UP, DOWN, 0]);
    let last = ":080018000123456789ABCDEF20\n";
    assert_eq!(lines_with(4, 0, last), [0, 0, 0, UP]);
    let lines = lines_with(8_194, 1, PAIR);
    assert_eq!(lines[8_192..], [UP, DOWN]);
    assert!(lines[..8_192].iter().all(|&line| line == 0));
}

#[test]
fn digits_are_of_either_case() {
    for text in [PAIR.to_lowercase(), mixed(PAIR)] {
        assert_eq!(lines_with(2, 0, &text), [UP, DOWN], "{text}");
    }
    for end in [":00000001FF\n", ":00000001Ff\n", ":00000001fF\n", ":00000001ff\n"] {
        assert_eq!(number(end), 0, "{end}");
    }
    // 02, 04, AB and CD are 17E.
    let mut reader = FIRST;
    assert_eq!(take(&mut board_with(&[0]), &mut reader, ":02000004aBCd82\n"), 0);
    assert_eq!(reader.upper, 0xABCD);
}

#[test]
fn an_upper_address_is_taken_whole_whatever_it_is() {
    let mut board = board_with(&[7]);
    let mut reader = Reader {
        upper: u64::MAX,
        ended: false,
    };
    for upper in 0..=u16::MAX {
        let [high, low] = upper.to_be_bytes();
        assert_eq!(take(&mut board, &mut reader, summed(&[2, 0, 0, 4, high, low])), 0);
        assert_eq!(
            reader,
            Reader {
                upper: upper.into(),
                ended: false
            }
        );
        assert_eq!(
            take(&mut board, &mut reader, zeros(8, 0)),
            if upper == 0 { 0 } else { 20 }
        );
    }
}

#[test]
fn after_the_end_nothing_is_read() {
    let mut board = board_with(&[0; 4]);
    let mut reader = FIRST;
    assert_eq!(take(&mut board, &mut reader, UPPER_1), 0);
    assert_eq!(take(&mut board, &mut reader, END), 0);
    assert_eq!(reader, Reader { upper: 1, ended: true });
    for text in [PAIR, LINE, UPPER_1, END, "", "\n"] {
        assert_eq!(take(&mut board, &mut reader, text), 19, "{text}");
    }
}

#[test]
fn a_byte_that_is_not_the_records_own_is_refused() {
    for text in [PAIR, LINE, UPPER_1, END] {
        for place in 0..text.len() {
            for byte in 0..=255 {
                let mut damaged = text.as_bytes().to_vec();
                damaged[place] = byte;
                let is_same = damaged.eq_ignore_ascii_case(text.as_bytes());
                assert_eq!(number(&damaged), if is_same { 0 } else { 19 }, "{text} {place} {byte}");
            }
        }
    }
}

#[test]
fn a_text_is_one_record_and_its_line_feed() {
    for text in [PAIR, LINE, UPPER_1, END] {
        let record = text.trim_end();
        for length in 0..text.len() {
            assert_eq!(number(&text[..length]), 19);
        }
        for text in [
            format!("{record}\r\n"),
            format!("{record} \n"),
            format!("{record}\n\n"),
            format!("{record}\0\n"),
            format!("{record}\n\0"),
            format!(" {record}\n"),
            format!("{record}00\n"),
            format!("{record}\n{record}\n"),
            format!("{record}\r"),
        ] {
            assert_eq!(number(&text), 19, "{text}");
        }
    }
    for bytes in 0..=60 {
        assert_eq!(number(vec![b'0'; bytes]), 19);
        assert_eq!(number(vec![b'\n'; bytes]), 19);
        assert_eq!(number(vec![0; bytes]), 19);
    }
}

#[test]
fn other_kinds_counts_and_addresses_are_refused_with_a_right_sum() {
    for kind in 0..=255 {
        for data_bytes in 0..=20 {
            let is_read = matches!((kind, data_bytes), (0, 8 | 16) | (1, 0) | (4, 2));
            let record = |count| summed(&[&[count, 0, 0, kind], &vec![0; data_bytes.into()][..]].concat());
            assert_eq!(
                number(record(data_bytes)),
                if is_read { 0 } else { 19 },
                "{kind} {data_bytes}"
            );
            for count in [
                data_bytes ^ 1,
                data_bytes ^ 8,
                data_bytes ^ 0x10,
                data_bytes ^ 0x18,
                255,
            ] {
                assert_eq!(number(record(count)), 19, "{kind} {count} for {data_bytes}");
            }
        }
    }
    for bit in 0..16 {
        let [high, low] = (1_u16 << bit).to_be_bytes();
        assert_eq!(number(summed(&[2, high, low, 4, 0, 0])), 19);
        assert_eq!(number(summed(&[0, high, low, 1])), 19);
    }
}

#[test]
fn data_have_to_be_at_a_line_of_the_board() {
    for address in 0..=u16::MAX {
        let (line, byte) = (address / 8, address % 8);
        let expected = |lines: u16| if byte == 0 && line + lines <= 4 { 0 } else { 20 };
        assert_eq!(number(zeros(8, address)), expected(1), "{address}");
        assert_eq!(number(zeros(16, address)), expected(2), "{address}");
    }
}

/// The second line would be the next bank's first, which the board has.
#[test]
fn data_do_not_run_over_their_bank() {
    assert_eq!(number_on(8_194, 0, zeros(8, 0xFFF8)), 0);
    assert_eq!(number_on(8_194, 0, zeros(16, 0xFFF0)), 0);
    assert_eq!(number_on(8_194, 0, zeros(16, 0xFFF8)), 20);
    assert_eq!(number_on(65_536, 7, zeros(16, 0xFFF0)), 0);
    assert_eq!(number_on(65_536, 7, zeros(16, 0xFFF8)), 20);
}

/// Times 65,536, or 8,192, they would be 0 or 1 again.
#[test]
fn a_large_upper_address_does_not_wrap() {
    for upper in [8, 1 << 16, 1 << 32, 1 << 48, 1 << 51, (1 << 51) + 1, 1 << 63, u64::MAX] {
        assert_eq!(number_on(65_536, upper, LINE), 20, "{upper}");
    }
    assert_eq!(number_on(65_536, 7, LINE), 0);
    assert_eq!(number_on(8_193, 1, LINE), 0);
    assert_eq!(number_on(8_193, 1, PAIR), 20);
    assert_eq!(number_on(8_192, 1, LINE), 20);
}

/// From the last test to the first, each is made to refuse what those behind it refuse as well.
#[test]
fn which_refusal_comes_first() {
    let outside = zeros(8, 4);
    let mut board = board_with(&[0; 4]);
    assert_eq!(take(&mut board, &mut { FIRST }, &outside), 20);
    assert_eq!(take(&mut board, &mut { FIRST }, outside.trim_end()), 19);
    assert_eq!(take(&mut board, &mut { ENDED }, &outside), 19);
    board[CONTROL_PLACE] = Control {
        persisted: 0,
        start: 0,
        length: 1,
    }
    .pack();
    for text in [&outside, outside.trim_end(), PAIR, END] {
        assert_eq!(take(&mut board, &mut { FIRST }, text), 18);
        assert_eq!(take(&mut board, &mut { ENDED }, text), 18);
    }
    board.push(0);
    for text in [&outside, outside.trim_end(), PAIR, END] {
        assert_eq!(take(&mut board, &mut { FIRST }, text), 1);
        assert_eq!(take(&mut board, &mut { ENDED }, text), 1);
    }
}

#[test]
fn a_board_of_another_shape_is_refused() {
    let right = board_with(&[0; 4]);
    let with = |place: usize, word: u64| {
        let mut board = right.clone();
        board[place] = word;
        board
    };
    let control = |persisted, start| {
        Control {
            persisted,
            start,
            length: 0,
        }
        .pack()
    };
    let shape = |lines, entries| Shape { lines, entries }.pack();
    for mut board in [
        vec![],
        right[..1].to_vec(),
        right[..right.len() - 1].to_vec(),
        with(CONTROL_PLACE, control(LAST_EPOCH, 0)),
        with(CONTROL_PLACE, control(0, 5)),
        with(SHAPE_PLACE, shape(4, 5) ^ 1 << 40),
        with(SHAPE_PLACE, shape(0, 7)),
        with(SHAPE_PLACE, shape(14, 0)),
        with(SHAPE_PLACE, shape(5, 5)),
    ] {
        assert_eq!(take(&mut board, &mut { FIRST }, PAIR), 1);
    }
    assert_eq!(
        take(
            &mut with(CONTROL_PLACE, control(LAST_EPOCH - 1, 4)),
            &mut { FIRST },
            PAIR
        ),
        0
    );
}

#[test]
fn the_records_of_an_export_rebuild_every_line() {
    for count in [1, 2, 3, 8_191, 8_192, 8_193, 8_194, 16_385, 65_535, 65_536] {
        let lines = Random::new(count).words(count as usize);
        let file = records(&board_with(&lines));
        for in_case in [str::to_string, str::to_lowercase, mixed] {
            let mut board = board_with(&vec![u64::MAX; lines.len()]);
            let mut reader = FIRST;
            for record in &file {
                let text = in_case(record);
                assert_eq!(hex_in(&mut board, &mut reader, text.as_bytes()).number, 0, "{record}");
            }
            assert!(reader.ended && board == board_with(&lines), "{count} lines");
        }
    }
}

/// The file is read under a controller at work, which is to power up then: the cache is lost, and the lines stay.
#[test]
fn a_power_up_behind_the_records_has_their_lines() {
    let mut loom = Loom::new(4, 8, 4);
    loom.store(0, 7);
    assert_eq!(take(&mut loom.board, &mut { FIRST }, PAIR), 0);
    assert_eq!(loom.load(0).value, 7);
    loom.power_up();
    assert_eq!(
        [loom.load(0).value, loom.load(1).value, loom.load(2).value],
        [UP, DOWN, 0]
    );
}
