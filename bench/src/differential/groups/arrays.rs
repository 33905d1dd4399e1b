//! Arrays for registers and answer that are too short, or longer than they must be.

use crate::differential::habit::{next_call, start, Habit};
use crate::differential::player::{Outcome, Player};
use crate::interface::{ANSWER_WORDS, REGISTER_WORDS};
use crate::random::Random;
use crate::sizes::Sizes;

const MOST_WORDS: usize = REGISTER_WORDS + 2;

pub fn history(player: &mut Player) -> Outcome {
    let sizes = Sizes::draw_small(&mut player.random);
    start(player, sizes)?;
    let habit = Habit::draw(&mut player.random, sizes);
    for _ in 0..200 {
        let call = next_call(player, &habit);
        let registers = player.state.registers.clone();
        resize_at_random(&mut player.random, &mut player.state.registers);
        resize_at_random(&mut player.random, &mut player.state.answer);
        player.make(call)?;
        // Too short an array loses registers that the history goes on with.
        if player.state.registers.len() < registers.len() {
            player.state.registers = registers;
        }
        player.state.registers.truncate(REGISTER_WORDS);
        player.state.answer = vec![0; ANSWER_WORDS];
    }
    Ok(())
}

fn resize_at_random(random: &mut Random, array: &mut Vec<u64>) {
    let words = random.below(MOST_WORDS as u64 + 1) as usize;
    let kept = array.len().min(words);
    array.resize(words, 0);
    for word in &mut array[kept..] {
        *word = random.word();
    }
}
