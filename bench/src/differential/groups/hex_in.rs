//! Records of Intel HEX, read into boards of many sizes, right and damaged, fresh and in the midst of their histories: whole files,
//! records at every edge, texts that are nearly records, readers and arrays of any words.

mod texts;

use super::boards::{
    draw_about_banks, draw_large, draw_small, draw_too_large, hold_log, lend_any_words, lend_board, lend_bytes,
    lines_said, make_wrong, put_arrays_away, ANSWERS,
};
use crate::call::Call;
use crate::differential::asked::Asked;
use crate::differential::habit::{go_on, start_mostly_small, Habit};
use crate::differential::player::{Outcome, Player};
use crate::export::records;
use crate::handwritten::hex::BANK_LINES;
use crate::handwritten::layout::{Shape, MOST_LINES};
use crate::handwritten::HandWritten;
use crate::interface::{FIRST_READER, OK};
use crate::library::Library;
use crate::random::Random;
use crate::sizes::Sizes;
use texts::{draw_case, draw_fields, draw_read_fields, draw_text, SUSPECTS};

/// Records for one board: the more words it has, the fewer.
const READS_OF_SMALL: u64 = 200;
const READS_OF_BANKS: u64 = 60;
const READS_OF_LARGE: u64 = 60;

/// The calls of a history that goes on behind its records.
const CALLS_BEHIND: u64 = 40;

/// Between the records of a file, one text in so many is no record.
const STRAY_ONE_IN: u64 = 30;

pub fn history(player: &mut Player) -> Outcome {
    match player.random.below(200) {
        0..60 => running(player),
        60..110 => small(player),
        110..130 => damaged_bytes(player),
        130..165 => file(player, draw_small),
        165..166 => file(player, draw_about_banks),
        166..186 => singles(player, draw_about_banks, READS_OF_BANKS),
        186..194 => singles(player, draw_large, READS_OF_LARGE),
        194..196 => singles(player, draw_too_large, 4),
        _ => any_words(player),
    }
}

/// A running board that is worked on, and powered up behind what is read into it.
fn running(player: &mut Player) -> Outcome {
    let habit = start_mostly_small(player)?;
    for _ in 0..player.random.between(2, 12) {
        let calls = player.random.below(2 * CALLS_BEHIND);
        go_on(player, &habit, calls)?;
        if player.random.one_in(2) {
            player.make(Call::POWER_UP)?;
            let calls = player.random.below(4);
            go_on(player, &habit, calls)?;
        }
        player.state.reader = FIRST_READER.to_vec();
        for _ in 0..player.random.between(1, 8) {
            let text = text_for(player);
            read(player, text)?;
        }
        player.make(Call::POWER_UP)?;
    }
    Ok(())
}

/// Few lines behind a short log: right boards, and such as have something wrong with them.
fn small(player: &mut Player) -> Outcome {
    let shape = draw_small(&mut player.random);
    lend_board(player, shape);
    for _ in 0..READS_OF_SMALL {
        let right = player.state.board.clone();
        let is_wrong = player.random.one_in(5);
        if is_wrong {
            make_wrong(&mut player.random, &mut player.state);
        }
        read_any(player)?;
        if is_wrong {
            player.state.board = right;
        }
    }
    Ok(())
}

/// Each byte of a record becomes each that differs from it in one bit, and some that digits have beside them.
fn damaged_bytes(player: &mut Player) -> Outcome {
    let shape = draw_small(&mut player.random);
    lend_board(player, shape);
    let text = draw_read_fields(&mut player.random, shape.lines, 0).text();
    let text = draw_case(&mut player.random, text);
    for place in 0..text.len() {
        let flipped = (0..u8::BITS).map(|bit| text[place] ^ 1 << bit);
        for byte in flipped.chain(SUSPECTS) {
            let mut damaged = text.clone();
            damaged[place] = byte;
            player.state.reader = FIRST_READER.to_vec();
            read(player, damaged)?;
        }
    }
    Ok(())
}

/// What one side exports of a board, read into another of as many lines, which then goes on as a formatted one.
fn file(player: &mut Player, draw: fn(&mut Random) -> Shape) -> Outcome {
    let shape = draw(&mut player.random);
    let entries = draw_small(&mut player.random).entries;
    lend_board(player, shape);
    let lines = player.state.board[shape.line_place(0)..].to_vec();
    let file = if player.random.one_in(2) {
        records::<Library>(&player.state.board)
    } else {
        records::<HandWritten>(&player.state.board)
    };
    let second = Shape { entries, ..shape };
    lend_board(player, second);
    player.state.reader = FIRST_READER.to_vec();
    for record in file {
        if player.random.one_in(STRAY_ONE_IN) {
            let mut stray = draw_fields(&mut player.random, shape.lines, 0);
            stray.sum = 1;
            read(player, stray.text())?;
        }
        let text = draw_case(&mut player.random, record);
        read(player, text)?;
        assert_eq!(player.last_number, OK, "a record of an export is refused");
    }
    assert!(
        player.state.board[second.line_place(0)..] == lines,
        "the records of an export do not rebuild its lines"
    );
    go_on_behind(player, second)
}

/// The board that was just read into is powered up and worked on.
fn go_on_behind(player: &mut Player, shape: Shape) -> Outcome {
    let sizes = Sizes {
        lines: shape.lines,
        entries: shape.entries,
        slots: Sizes::draw_small(&mut player.random).slots,
    };
    player.state.work = player.random.words(sizes.work_words());
    player.is_undamaged = true;
    player.make(Call::POWER_UP)?;
    let habit = Habit::draw(&mut player.random, sizes);
    go_on(player, &habit, CALLS_BEHIND)
}

/// Records for a board, whose log is empty most times.
fn singles(player: &mut Player, draw: fn(&mut Random) -> Shape, count: u64) -> Outcome {
    let shape = draw(&mut player.random);
    lend_board(player, shape);
    let empty_log = player.state.control();
    for _ in 0..count {
        if player.random.one_in(10) {
            hold_log(&mut player.random, &mut player.state);
        }
        read_any(player)?;
        player.state.set_control(empty_log);
    }
    Ok(())
}

fn any_words(player: &mut Player) -> Outcome {
    for _ in 0..20 {
        lend_any_words(player);
        read_any(player)?;
    }
    Ok(())
}

/// Has a text read by any reader, with arrays of any length.
fn read_any(player: &mut Player) -> Outcome {
    player.state.reader = draw_reader(&mut player.random, lines_said(&player.state)).to_vec();
    let text = text_for(player);
    let words = player.random.pick(&ANSWERS);
    player.state.reader.resize(words, player.random.word());
    player.state.answer = vec![0; player.random.pick(&ANSWERS)];
    read(player, text)
}

fn text_for(player: &mut Player) -> Vec<u8> {
    let upper = player.state.reader[0];
    draw_text(&mut player.random, lines_said(&player.state), upper)
}

/// Lends a text, has it read, and puts it away.
fn read(player: &mut Player, text: Vec<u8>) -> Outcome {
    lend_bytes(&mut player.random, &mut player.state, text.len());
    let place = player.state.bytes_place.clone();
    player.state.bytes[place].copy_from_slice(&text);
    player.make(Asked::HexIn)?;
    put_arrays_away(&mut player.state);
    Ok(())
}

/// Upper addresses about the board's, and such as are among them if they are cut to fewer bits, or multiplied; the end seen or not.
fn draw_reader(random: &mut Random, lines: u64) -> [u64; 2] {
    let banks = lines.div_ceil(BANK_LINES);
    let most_banks = MOST_LINES / BANK_LINES;
    let upper = match random.below(12) {
        0..5 => random.below(banks),
        5..7 => banks - 1,
        7..9 => random.pick(&[banks, banks, most_banks - 1, most_banks]),
        9 => {
            let lowest = random.pick(&[3, 16, 32, 48, 51]);
            random.below(banks) | 1 << random.between(lowest, 63)
        }
        10 => random.any_width(),
        _ => u64::MAX,
    };
    let ended = match random.below(14) {
        0 => 1,
        1 => random.pick(&[2, 256, 1 << 32, 1 << 63, u64::MAX]),
        _ => 0,
    };
    [upper, ended]
}
