//! Histories whose epochs come to their end, or go over the last that 24 or 32 bits can count.

use crate::call::{Call, NO_CUT};
use crate::differential::habit::{go_on, start, Habit};
use crate::differential::player::{Outcome, Player};
use crate::handwritten::layout::{Control, LAST_EPOCH};
use crate::sizes::Sizes;

pub fn history(player: &mut Player) -> Outcome {
    let sizes = Sizes::draw_small(&mut player.random);
    start(player, sizes)?;
    let last = player
        .random
        .pick(&[LAST_EPOCH, LAST_EPOCH, LAST_EPOCH, (1 << 24) - 1, (1 << 32) - 1]);
    let control = Control {
        persisted: last - player.random.below(22),
        start: player.random.below(sizes.entries) as usize,
        length: 0,
    };
    player.state.set_control(control);
    player.make(Call::PowerUp { allowance: NO_CUT })?;
    for _ in 0..3 {
        let habit = Habit::draw_for_epochs(&mut player.random, sizes);
        go_on(player, &habit, 60)?;
    }
    Ok(())
}
