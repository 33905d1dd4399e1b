//! Exports of boards of many sizes, right and damaged, fresh and in the midst of their histories: numbers about every edge, texts
//! of any length at any byte, answer arrays that are too short, just long enough, or longer.

use super::boards::{
    draw_about_banks, draw_large, draw_small, draw_too_large, hold_log, lend_any_words, lend_board, lend_bytes,
    lines_said, make_wrong, put_arrays_away, ANSWERS, LONGEST_TEXT,
};
use crate::differential::asked::Asked;
use crate::differential::damage::damage;
use crate::differential::habit::{go_on, start_mostly_small};
use crate::differential::player::{Outcome, Player};
use crate::differential::sides::Lent;
use crate::handwritten::hex::{end_record, BANK_LINES, BANK_RECORDS, TEXT_BYTES};
use crate::random::Random;

/// Exports of one board: the more words it has, the fewer.
const EXPORTS_OF_SMALL: u64 = 200;
const EXPORTS_OF_BANKS: u64 = 60;
const EXPORTS_OF_LARGE: u64 = 40;

pub fn history(player: &mut Player) -> Outcome {
    match player.random.below(200) {
        0..86 => running(player),
        86..156 => small(player),
        156..184 => about_banks(player),
        184..196 => large(player),
        196..198 => too_large(player),
        _ => any_words(player),
    }
}

/// A running board that is worked on; now and then it is damaged for some exports.
fn running(player: &mut Player) -> Outcome {
    let habit = start_mostly_small(player)?;
    for _ in 0..player.random.between(5, 40) {
        let calls = player.random.below(12);
        go_on(player, &habit, calls)?;
        let undamaged = player.state.clone();
        if player.random.one_in(4) {
            player.is_undamaged = false;
            damage(&mut player.random, &mut player.state);
        }
        for _ in 0..player.random.between(1, 4) {
            export(player)?;
        }
        player.state = undamaged;
        player.is_undamaged = true;
    }
    Ok(())
}

/// Few lines behind a short log: right boards, and such as have something wrong with them.
fn small(player: &mut Player) -> Outcome {
    let shape = draw_small(&mut player.random);
    lend_board(player, shape);
    for _ in 0..EXPORTS_OF_SMALL {
        let right = player.state.clone();
        if player.random.one_in(4) {
            make_wrong(&mut player.random, &mut player.state);
        }
        export(player)?;
        player.state = right;
    }
    Ok(())
}

/// As many lines as one bank or two have, or a few more or less.
fn about_banks(player: &mut Player) -> Outcome {
    let shape = draw_about_banks(&mut player.random);
    lend_board(player, shape);
    exports(player, EXPORTS_OF_BANKS)
}

/// Up to the most lines and log entries.
fn large(player: &mut Player) -> Outcome {
    let shape = draw_large(&mut player.random);
    lend_board(player, shape);
    exports(player, EXPORTS_OF_LARGE)
}

/// A line or a log entry more than there may be, and a board that has the words of all.
fn too_large(player: &mut Player) -> Outcome {
    let shape = draw_too_large(&mut player.random);
    lend_board(player, shape);
    for _ in 0..4 {
        export(player)?;
    }
    Ok(())
}

/// No board, one word, or a few.
fn any_words(player: &mut Player) -> Outcome {
    for _ in 0..20 {
        lend_any_words(player);
        export(player)?;
    }
    Ok(())
}

/// Exports of a right board, whose log is empty most times.
fn exports(player: &mut Player, count: u64) -> Outcome {
    let empty_log = player.state.control();
    for _ in 0..count {
        if player.random.one_in(8) {
            hold_log(&mut player.random, &mut player.state);
        }
        export(player)?;
        player.state.set_control(empty_log);
    }
    Ok(())
}

/// Asks for a record, about those that the board has, and puts the arrays for it away.
fn export(player: &mut Player) -> Outcome {
    let random = &mut player.random;
    let record = draw_record(random, lines_said(&player.state));
    lend_arrays(random, &mut player.state);
    player.make(Asked::HexOut { record })?;
    put_arrays_away(&mut player.state);
    Ok(())
}

fn lend_arrays(random: &mut Random, state: &mut Lent) {
    let text_bytes = match random.below(16) {
        0 => random.pick(&[0, TEXT_BYTES - 1]),
        1..4 => random.between(0, LONGEST_TEXT) as usize,
        4..9 => random.between(TEXT_BYTES as u64 + 1, LONGEST_TEXT) as usize,
        _ => TEXT_BYTES,
    };
    lend_bytes(random, state, text_bytes);
    state.answer = vec![0; random.pick(&ANSWERS)];
}

/// The numbers about an edge, or any; and numbers that have a record if they are cut to fewer bits.
fn draw_record(random: &mut Random, lines: u64) -> u64 {
    let end = end_record(lines);
    let last_bank = (lines - 1) / BANK_LINES;
    match random.below(24) {
        0..10 => {
            let opener = random.between(0, last_bank) * BANK_RECORDS;
            let edge = random.pick(&[0, opener, last_bank * BANK_RECORDS, end]);
            let reach = random.below(3);
            random.near(edge, reach)
        }
        10..20 => random.between(0, end),
        20 => random.any_width(),
        21 => {
            let lowest = random.pick(&[8, 16, 32, 63]);
            random.with_an_upper_bit(end, lowest)
        }
        22 => u64::MAX - random.below(4),
        _ => random.near(1 << 63, 2),
    }
}
