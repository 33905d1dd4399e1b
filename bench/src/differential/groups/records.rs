//! Records of any words, written where there are too few bytes or answer words, just enough, or more.

use crate::differential::player::{Outcome, Player};
use crate::handwritten::layout::{LAST_ADDRESS, MOST_LINES};
use crate::interface::{ANSWER_WORDS, RECORD_BYTES};
use crate::random::Random;
use crate::record::{Record, EVICT};

const MOST_BYTES: usize = 40;
const MOST_ANSWER_WORDS: usize = 5;

pub fn history(player: &mut Player) -> Outcome {
    for _ in 0..100 {
        lend(player);
        let record = draw(&mut player.random);
        player.make(record)?;
    }
    Ok(())
}

fn lend(player: &mut Player) {
    let random = &mut player.random;
    // Bytes may stand at any address, and not only at multiples of eight.
    let begin = random.below(8) as usize;
    let end = begin + draw_length(random, RECORD_BYTES, MOST_BYTES);
    player.state.bytes_place = begin..end;
    player.state.bytes = random.bytes(end + RECORD_BYTES);
    player.state.answer = vec![0; draw_length(random, ANSWER_WORDS, MOST_ANSWER_WORDS)];
}

fn draw_length(random: &mut Random, enough: usize, most: usize) -> usize {
    match random.below(16) {
        0 => random.below(enough as u64) as usize,
        1 => enough - 1,
        2..6 => enough,
        _ => random.between(enough as u64, most as u64) as usize,
    }
}

fn draw(random: &mut Random) -> Record {
    Record {
        kind: draw_kind(random),
        address: draw_address(random),
        value: draw_value(random),
    }
}

fn draw_kind(random: &mut Random) -> u64 {
    match random.below(10) {
        0 => random.any_width(),
        1 => random.between(EVICT + 1, 8),
        2 => random.with_an_upper_bit(EVICT, 3),
        _ => random.between(0, EVICT),
    }
}

fn draw_address(random: &mut Random) -> u64 {
    match random.below(10) {
        0 => random.any_width(),
        1 => random.between(0, LAST_ADDRESS),
        2 => random.with_an_upper_bit(1, 16),
        3..6 => {
            let lines = random.pick(&[1, 400, 2_048, MOST_LINES]);
            random.near(lines, 1)
        }
        _ => 0,
    }
}

fn draw_value(random: &mut Random) -> u64 {
    match random.below(6) {
        0 => random.any_width(),
        1 => random.word(),
        2 => random.pick(&[1, 0xFF, 1 << 8, 1 << 32, 1 << 56, 1 << 63, u64::MAX]),
        _ => 0,
    }
}
