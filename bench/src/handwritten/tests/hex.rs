//! The export, its records worked by hand from the request and from Intel HEX.

mod refusals;

use super::{answer, Loom};
use crate::handwritten::hex::{end_record, hex_out};
use crate::interface::Answer;
use crate::random::Random;

/// No digit, colon or line feed.
const BYTE: u8 = 0xA5;

const FIRST_OPENER: &str = ":020000040000FA\n";
pub const END: &str = ":00000001FF\n";

/// Two lines. The sums of their bytes are 3C0 and 438.
pub const UP: u64 = 0x0123_4567_89AB_CDEF;
pub const DOWN: u64 = 0xFEDC_BA98_7654_3210;

/// A board with these lines, powered up.
pub fn board_with(lines: &[u64]) -> Vec<u64> {
    let mut loom = Loom::new(lines.len() as u64, 5, 4);
    let first = loom.sizes.shape().line_place(0);
    loom.board[first..].copy_from_slice(lines);
    loom.board
}

/// What a text of so many bytes becomes, and the answer.
fn text_with_record(board: &[u64], text_bytes: usize, record: u64) -> (Vec<u8>, Answer) {
    let mut text = vec![BYTE; text_bytes];
    let answer = hex_out(board, &mut text, record);
    (text, answer)
}

/// The record of a number, put into a text with room for every record, whose other bytes have to stay.
fn record(board: &[u64], number: u64) -> String {
    let (text, answered) = text_with_record(board, 44, number);
    let (record, behind) = text.split_at(answered.value as usize);
    assert_eq!(answered, answer(0, record.len() as u64, 0), "record {number}");
    assert!(behind.iter().all(|&byte| byte == BYTE));
    String::from_utf8(record.to_vec()).unwrap()
}

/// All records, up to the first number that has none.
pub fn records(board: &[u64]) -> Vec<String> {
    let mut all = Vec::new();
    while text_with_record(board, 44, all.len() as u64).1.number != 17 {
        all.push(record(board, all.len() as u64));
    }
    all
}

#[test]
fn a_board_of_one_line() {
    // 08 and 3C0 are 3C8; C8 and 38 are 100.
    let line = ":080000000123456789ABCDEF38\n";
    assert_eq!(records(&board_with(&[UP])), [FIRST_OPENER, line, END]);
}

#[test]
fn a_board_of_two_lines() {
    // 10, 3C0 and 438 are 808.
    let pair = ":100000000123456789ABCDEFFEDCBA9876543210F8\n";
    assert_eq!(records(&board_with(&[UP, DOWN])), [FIRST_OPENER, pair, END]);
    let pair = ":10000000FEDCBA98765432100123456789ABCDEFF8\n";
    assert_eq!(records(&board_with(&[DOWN, UP])), [FIRST_OPENER, pair, END]);
}

#[test]
fn a_board_of_three_lines() {
    let pair = ":100000000123456789ABCDEFFEDCBA9876543210F8\n";
    // 08, 10 and FF are 117.
    let last = ":0800100000000000000000FFE9\n";
    assert_eq!(records(&board_with(&[UP, DOWN, 0xFF])), [FIRST_OPENER, pair, last, END]);
}

#[test]
fn a_record_has_as_many_bytes_as_its_value_says() {
    let board = board_with(&[UP, DOWN, 0xFF]);
    let values: Vec<u64> = (0..4)
        .map(|record| text_with_record(&board, 44, record).1.value)
        .collect();
    assert_eq!(values, [16, 44, 28, 12]);
}

#[test]
fn the_check_byte_makes_the_sum_0() {
    // 08 and F8 are 100: it is 0. With one less it is 1, with one more FF.
    let worked = [
        (0xF8, ":0800000000000000000000F800\n"),
        (0xF7, ":0800000000000000000000F701\n"),
        (0xF9, ":0800000000000000000000F9FF\n"),
        (0, ":080000000000000000000000F8\n"),
        (u64::MAX, ":08000000FFFFFFFFFFFFFFFF00\n"),
        (0x8000_0000_0000_0001, ":08000000800000000000000177\n"),
    ];
    for (line, expected) in worked {
        assert_eq!(record(&board_with(&[line]), 1), expected);
    }
    let highest = record(&board_with(&[u64::MAX; 2]), 1);
    // 10 and 16 times FF are 1000.
    assert_eq!(highest, ":10000000FFFFFFFFFFFFFFFFFFFFFFFFFFFFFFFF00\n");
}

#[test]
fn each_byte_has_its_place_and_its_part_in_the_sum() {
    for place in 0..16 {
        for byte in 0..=255u8 {
            let mut bytes = [0; 16];
            bytes[place] = byte;
            let (first, second) = bytes.split_at(8);
            let lines = [first, second].map(|line| u64::from_be_bytes(line.try_into().unwrap()));
            let (before, behind) = ("00".repeat(place), "00".repeat(15 - place));
            let check = 0xF0_u8.wrapping_sub(byte);
            let expected = format!(":10000000{before}{byte:02X}{behind}{check:02X}\n");
            assert_eq!(record(&board_with(&lines), 1), expected);
        }
    }
}

#[test]
fn each_address_is_eight_times_the_line() {
    let board = board_with(&[0; 8_192]);
    // 10 and F0; 10 and 01; 10, 12 and 30; 10, FF and F0.
    for (number, head, check) in [
        (2, ":10001000", "E0"),
        (16, ":1000F000", "00"),
        (17, ":10010000", "EF"),
        (0x124, ":10123000", "AE"),
        (4_096, ":10FFF000", "01"),
    ] {
        let zeros = "00".repeat(16);
        assert_eq!(record(&board, number), format!("{head}{zeros}{check}\n"));
    }
}

#[test]
fn the_first_bank_ends_with_line_8191() {
    let mut lines = [0; 8_192];
    (lines[8_190], lines[8_191]) = (UP, DOWN);
    let board = board_with(&lines);
    // 10, FF, F0, 3C0 and 438 are 9F7.
    assert_eq!(record(&board, 4_096), ":10FFF0000123456789ABCDEFFEDCBA987654321009\n");
    assert_eq!(record(&board, 4_097), END);
    let board = board_with(&lines[..8_191]);
    // 08, FF, F0 and 3C0 are 5B7.
    assert_eq!(record(&board, 4_096), ":08FFF0000123456789ABCDEF49\n");
    assert_eq!(record(&board, 4_097), END);
}

#[test]
fn line_8192_is_the_first_of_a_bank_with_an_opener_of_its_own() {
    let mut lines = [0; 8_195];
    (lines[8_192], lines[8_193], lines[8_194]) = (UP, DOWN, 0xFF);
    let opener = ":020000040001F9\n";
    let board = board_with(&lines[..8_193]);
    assert_eq!(record(&board, 4_097), opener);
    assert_eq!(record(&board, 4_098), ":080000000123456789ABCDEF38\n");
    assert_eq!(record(&board, 4_099), END);
    let board = board_with(&lines);
    assert_eq!(record(&board, 4_097), opener);
    assert_eq!(record(&board, 4_098), ":100000000123456789ABCDEFFEDCBA9876543210F8\n");
    assert_eq!(record(&board, 4_099), ":0800100000000000000000FFE9\n");
    assert_eq!(record(&board, 4_100), END);
}

/// Eight banks of 1 + 4,096 records, and the end.
#[test]
fn the_largest_board_has_32777_records() {
    let mut lines = vec![0; 65_536];
    (lines[65_534], lines[65_535]) = (UP, DOWN);
    let board = board_with(&lines);
    for bank in 0..8 {
        // 2 and 4 are 6.
        assert_eq!(
            record(&board, 4_097 * bank),
            format!(":02000004{bank:04X}{:02X}\n", 0xFA - bank)
        );
    }
    assert_eq!(record(&board, 28_679), ":020000040007F3\n");
    assert_eq!(record(&board, 28_678), format!(":10FFF000{}01\n", "00".repeat(16)));
    assert_eq!(record(&board, 28_680), format!(":10000000{}F0\n", "00".repeat(16)));
    assert_eq!(record(&board, 32_775), ":10FFF0000123456789ABCDEFFEDCBA987654321009\n");
    assert_eq!(record(&board, 32_776), END);
    assert_eq!(text_with_record(&board, 44, 32_777).1, answer(17, 0, 0));
}

#[test]
fn the_number_of_the_end() {
    let worked = [
        (1, 2),
        (2, 2),
        (3, 3),
        (4, 3),
        (8_191, 4_097),
        (8_192, 4_097),
        (8_193, 4_099),
        (8_194, 4_099),
        (16_384, 8_194),
        (16_385, 8_196),
        (65_535, 32_776),
        (65_536, 32_776),
    ];
    for (lines, end) in worked {
        assert_eq!(end_record(lines), end, "{lines} lines");
    }
}

/// The paper's replay, with exports of record 1 between its calls: line 0 is 7 in epoch 1 and 9 in epoch 2.
#[test]
fn an_export_is_of_the_persisted_epoch_and_not_of_the_cache() {
    let mut loom = Loom::new(4, 8, 4);
    loom.store(0, 7);
    assert_eq!(record(&loom.board, 1), format!(":10000000{}F0\n", "00".repeat(16)));
    loom.commit();
    loom.store(0, 9);
    loom.commit();
    for _ in 0..5 {
        loom.scan();
    }
    // Epoch 1 is persisted, and the entry with its 7 is in the log: the board's line is not yet that.
    assert_eq!(text_with_record(&loom.board, 44, 1).1, answer(18, 0, 0));
    loom.power_up();
    // 10 and 07 are 17.
    assert_eq!(record(&loom.board, 1), ":1000000000000000000000070000000000000000E9\n");
}

/// Read as the laptops read it: the bytes at their addresses, and nothing else.
#[test]
fn the_bytes_come_back_from_the_digits() {
    for count in [1, 2, 7, 8_191, 8_192, 8_193, 16_386, 20_001] {
        let lines = Random::new(count).words(count as usize);
        let mut bytes = vec![None; lines.len() * 8];
        let mut upper = 0;
        let all = records(&board_with(&lines));
        for record in &all {
            let record = bytes_of(record);
            assert_eq!(record.iter().fold(0, |sum: u8, &byte| sum.wrapping_add(byte)), 0);
            let [count, high, low, kind, data @ .., _] = &record[..] else {
                panic!("a record of fewer than five bytes");
            };
            assert_eq!(usize::from(*count), data.len());
            let address = usize::from(u16::from_be_bytes([*high, *low]));
            match kind {
                0 => data.iter().enumerate().for_each(|(place, &byte)| {
                    assert_eq!(bytes[upper + address + place].replace(byte), None);
                }),
                4 => upper = usize::from(u16::from_be_bytes([data[0], data[1]])) << 16,
                kind => assert_eq!(*kind, 1),
            }
        }
        assert_eq!(all.last().unwrap(), END);
        let expected: Vec<Option<u8>> = lines.iter().flat_map(|line| line.to_be_bytes()).map(Some).collect();
        assert!(bytes == expected, "{count} lines");
    }
}

/// The bytes of a record that has a colon, upper case digits and a line feed.
fn bytes_of(record: &str) -> Vec<u8> {
    let digits = record.strip_prefix(':').unwrap().strip_suffix('\n').unwrap();
    assert!(digits.bytes().all(|digit| matches!(digit, b'0'..=b'9' | b'A'..=b'F')));
    let pairs = digits.as_bytes().chunks(2);
    pairs
        .map(|pair| u8::from_str_radix(str::from_utf8(pair).unwrap(), 16).unwrap())
        .collect()
}
