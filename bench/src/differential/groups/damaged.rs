//! Histories that are damaged again and again: a few calls on the damaged state, then on from the state before.

use crate::differential::damage::damage;
use crate::differential::habit::{go_on, next_call, start_mostly_small};
use crate::differential::player::{Outcome, Player};

pub fn history(player: &mut Player) -> Outcome {
    let habit = start_mostly_small(player)?;
    for _ in 0..player.random.between(10, 80) {
        let calls = player.random.below(12);
        go_on(player, &habit, calls)?;
        let undamaged = player.state.clone();
        player.is_undamaged = false;
        for _ in 0..player.random.between(1, 2) {
            damage(&mut player.random, &mut player.state);
        }
        for _ in 0..player.random.between(1, 10) {
            let call = next_call(player, &habit);
            player.make(call)?;
        }
        player.state = undamaged;
        player.is_undamaged = true;
    }
    Ok(())
}
