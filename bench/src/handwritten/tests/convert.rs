//! The converter, on old boards whose words are worked by hand from the paper as it was. refusals.rs has what it refuses.

mod refusals;

use super::{answer, Loom};
use crate::call::{Call, NO_CUT};
use crate::handwritten::convert::convert;
use crate::handwritten::old::old_board;
use crate::interface::Answer;

/// What a second memory holds that no board has been put in.
const GARBAGE: u64 = 0xDEAD_BEEF_DEAD_BEEF;

/// An old board of four lines and eight entries with this control word and, at these places of the ring, these entries. Its lines
/// are 100 to 103, and the other words of its log are no entries.
fn old_with(control_word: u64, log: &[(usize, u64, u64)]) -> Vec<u64> {
    let mut board = vec![u64::MAX; 18];
    board.extend([100, 101, 102, 103]);
    board[0] = control_word;
    board[1] = 0x0000_0000_0040_0008;
    for &(place, packed, data) in log {
        board[2 + 2 * place] = packed;
        board[3 + 2 * place] = data;
    }
    board
}

/// The answer, and what the second memory of so many words is then. The old board has to stay as it was.
fn converted(old: &[u64], words: usize) -> (Answer, Vec<u64>) {
    let mut board = vec![GARBAGE; words];
    let before = old.to_vec();
    let answer = convert(old, &mut board);
    assert_eq!(old, before);
    (answer, board)
}

/// The lines that an old board of four lines and eight entries is converted to, once all else of the new one is held to the paper.
fn lines_of(old: &[u64], persisted: u64) -> Vec<u64> {
    let (answered, board) = converted(old, old.len());
    assert_eq!(answered, answer(0, 0, 0));
    assert_eq!(board[0], persisted << 24);
    assert_eq!(board[1], 0x0000_0100_0040_0008);
    assert_eq!(board[2..18], [0; 16]);
    board[18..].to_vec()
}

#[test]
fn an_empty_log_leaves_the_lines() {
    assert_eq!(lines_of(&old_with(0, &[]), 0), [100, 101, 102, 103]);
    assert_eq!(lines_of(&old_with(0x0000_0500_0070_0000, &[]), 5), [100, 101, 102, 103]);
    assert_eq!(
        lines_of(&old_with(0xFFFF_FE00_0000_0000, &[]), 16_777_214),
        [100, 101, 102, 103]
    );
}

/// W6: P = 1 and, oldest first, 0, 2 data 4 and 0, 2 data 6 for one line.
#[test]
fn the_oldest_covering_entry_wins() {
    let log = [(0, 0x0003_0000_0000_0002, 4), (1, 0x0003_0000_0000_0002, 6)];
    assert_eq!(lines_of(&old_with(0x0000_0100_0000_0002, &log), 1), [100, 101, 102, 4]);
}

#[test]
fn entries_that_do_not_cover_the_persisted_epoch_restore_nothing() {
    // P = 1: 1, 2 covers it; 2, 3 is later.
    let log = [(0, 0x0000_0000_0100_0002, 4), (1, 0x0001_0000_0200_0003, 6)];
    assert_eq!(lines_of(&old_with(0x0000_0100_0000_0002, &log), 1), [4, 101, 102, 103]);
}

#[test]
fn a_ring_that_turns_round() {
    // From place 6 on: 6, 7, 0. The entry at 7 is the newer one of line 2.
    let log = [
        (6, 0x0002_0000_0300_0005, 7),
        (7, 0x0002_0000_0400_0006, 8),
        (0, 0x0000_0000_0000_0006, 9),
    ];
    assert_eq!(lines_of(&old_with(0x0000_0400_0060_0003, &log), 4), [9, 101, 7, 103]);
    // A full ring from its last place on.
    let full: Vec<(usize, u64, u64)> = (0..8)
        .map(|place| (place, 0x0001_0000_0400_0005, place as u64))
        .collect();
    assert_eq!(lines_of(&old_with(0x0000_0400_0070_0008, &full), 4), [100, 7, 102, 103]);
}

/// The old rules know of no span: ValidFrom may be as far back as 0.
#[test]
fn an_old_entry_may_span_any_epochs() {
    // P = 1,000, 3E8; 1,016 is 3F8.
    let log = [
        (0, 0x0000_0000_0000_03E9, 4),
        (1, 0x0001_0003_E700_03F8, 5),
        (2, 0x0002_0003_E900_03F8, 6),
    ];
    assert_eq!(
        lines_of(&old_with(0x0003_E800_0000_0003, &log), 1_000),
        [4, 5, 102, 103]
    );
}

#[test]
fn words_that_no_log_counts_are_not_looked_at() {
    let log = [(3, 0x0003_0000_0000_0002, 4)];
    assert_eq!(lines_of(&old_with(0x0000_0100_0030_0001, &log), 1), [100, 101, 102, 4]);
}

#[test]
fn what_the_second_memory_held_does_not_matter() {
    let old = old_with(0x0000_0100_0000_0001, &[(0, 0x0003_0000_0000_0002, 4)]);
    let (_, expected) = converted(&old, old.len());
    for word in [0, 1, u64::MAX] {
        let mut board = vec![word; old.len()];
        assert_eq!(convert(&old, &mut board), answer(0, 0, 0));
        assert_eq!(board, expected);
    }
    let mut board = old.clone();
    assert_eq!(convert(&old, &mut board), answer(0, 0, 0));
    assert_eq!(board, expected);
}

#[test]
fn the_largest_board() {
    // The last entry of the ring is the log: P = 7, start 4,094, length 1.
    let mut old = vec![5; 2 + 2 * 4_095 + 65_536];
    old[0] = 0x0000_0700_FFE0_0001;
    old[1] = 0x0000_0010_0000_0FFF;
    old[2 + 2 * 4_094] = 0xFFFF_0000_0700_0008;
    old[3 + 2 * 4_094] = 9;
    let (answered, board) = converted(&old, old.len());
    assert_eq!(answered, answer(0, 0, 0));
    assert_eq!(board[..2], [0x0000_0000_0700_0000, 0x0000_0110_0000_0FFF]);
    assert!(board[2..2 + 2 * 4_095].iter().all(|&word| word == 0));
    assert!(board[2 + 2 * 4_095..board.len() - 1].iter().all(|&word| word == 5));
    assert_eq!(board.last(), Some(&9));
}

/// The words of the same board in both layouts, worked by hand.
#[test]
fn boards_in_the_old_layout() {
    let mut loom = Loom::new(4, 2, 4);
    loom.put_log(5, &[]);
    loom.power_up();
    loom.commit();
    loom.store(1, 7);
    loom.evict(1, NO_CUT);
    assert_eq!(
        loom.board,
        [
            0x0000_0000_0500_0001,
            0x0000_0100_0040_0002,
            0x0001_0000_0000_0702,
            0,
            0,
            0,
            0,
            7,
            0,
            0
        ]
    );
    assert_eq!(
        old_board(&loom.board),
        [
            0x0000_0500_0000_0001,
            0x0000_0000_0040_0002,
            0x0001_0000_0500_0007,
            0,
            0,
            0,
            0,
            7,
            0,
            0
        ]
    );
}

/// Every cut of a list, and the board before it: what a power-up makes of the board the converter makes of the old one.
#[test]
fn the_board_of_every_cut_is_converted_to_what_a_power_up_leaves() {
    let mut loom = Loom::new(8, 6, 4);
    let list = [
        Call::store(0, 10),
        Call::store(4, 11),
        Call::COMMIT,
        Call::store(0, 20),
        Call::store(1, 21),
        Call::store(5, 22),
        Call::load(6),
        Call::COMMIT,
    ];
    let scans = [Call::SCAN; 5];
    let calls = list.iter().chain(&scans).chain(&list[..4]).chain(&scans);
    let mut boards = 0;
    for &call in calls {
        for allowance in 0.. {
            let mut cut = Loom {
                board: loom.board.clone(),
                work: loom.work.clone(),
                ..loom
            };
            let number = cut.make(call.under(allowance)).number;
            let (answered, mut board) = converted(&old_board(&cut.board), cut.board.len());
            assert_eq!(answered, answer(0, 0, 0), "{call}");
            assert_eq!(cut.power_up().number, 0);
            // The log's words stay where a power-up has emptied it.
            board[2..14].copy_from_slice(&cut.board[2..14]);
            assert_eq!(board, cut.board, "{call}, allowance {allowance}");
            boards += 1;
            if number != 12 {
                break;
            }
        }
        assert_eq!(loom.make(call).number, 0, "{call}");
    }
    assert!(boards > 40, "{boards} boards");
}
