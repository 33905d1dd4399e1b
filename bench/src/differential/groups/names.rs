//! Names of any numbers, asked for with texts and answer arrays that are too short, just long enough, or longer.

use crate::differential::asked::Asked;
use crate::differential::player::{Outcome, Player};
use crate::handwritten::names::NAMES;
use crate::random::Random;

/// Each number below the first is asked for with each length up to the second.
const SMALL_NUMBERS: u64 = 32;
const SHORT_TEXT: usize = 12;

/// Then come so many others, with lengths up to this one.
const OTHERS: usize = 584;
const LONGER_TEXT: usize = 40;

/// Bytes before the text, which may stand at any address, and behind it.
const MOST_BEFORE: u64 = 15;
const BEHIND: usize = 16;

pub fn history(player: &mut Player) -> Outcome {
    for number in 0..SMALL_NUMBERS {
        for text_bytes in 0..=SHORT_TEXT {
            ask(player, number, text_bytes)?;
        }
    }
    for _ in 0..OTHERS {
        let number = draw_number(&mut player.random);
        let text_bytes = draw_text_bytes(&mut player.random);
        ask(player, number, text_bytes)?;
    }
    Ok(())
}

fn ask(player: &mut Player, number: u64, text_bytes: usize) -> Outcome {
    let random = &mut player.random;
    let begin = random.between(0, MOST_BEFORE) as usize;
    let end = begin + text_bytes;
    player.state.bytes_place = begin..end;
    player.state.bytes = distinct_bytes(random, end + BEHIND);
    player.state.answer = vec![0; random.pick(&[0, 1, 2, 2, 2, 2, 3, 4])];
    player.make(Asked::Name { number })
}

/// Up to 128 bytes that are no letters, and of which no two are the same: any byte that is put or moved shows.
fn distinct_bytes(random: &mut Random, count: usize) -> Vec<u8> {
    let first = random.word() as usize % 128;
    (first..first + count).map(|byte| 0x80 | byte as u8).collect()
}

/// Numbers that have names if they are cut to fewer bits are among them.
fn draw_number(random: &mut Random) -> u64 {
    let reach = NAMES.len() as u64 + 2;
    match random.below(8) {
        0 => random.word(),
        1 => random.any_width(),
        2..4 => {
            let power = random.pick(&[1 << 8, 1 << 16, 1 << 32]);
            random.near(power, reach)
        }
        4 => u64::MAX - random.below(reach),
        5..7 => random.with_an_upper_bit(reach, 4),
        _ => random.below(reach),
    }
}

fn draw_text_bytes(random: &mut Random) -> usize {
    let most = random.pick(&[SHORT_TEXT, LONGER_TEXT]);
    random.between(0, most as u64) as usize
}
