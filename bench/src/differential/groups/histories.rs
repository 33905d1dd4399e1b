//! Histories of a board from its format on, with cuts and power-ups, as demand 3 speaks of them.

use crate::differential::habit::{go_on, start, Habit};
use crate::differential::player::{Outcome, Player};
use crate::sizes::Sizes;

pub fn history(player: &mut Player) -> Outcome {
    let sizes = Sizes::draw(&mut player.random);
    start(player, sizes)?;
    for _ in 0..player.random.between(1, 4) {
        let habit = Habit::draw(&mut player.random, sizes);
        let calls = player.random.between(20, 500);
        go_on(player, &habit, calls)?;
    }
    Ok(())
}
