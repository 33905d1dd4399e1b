//! Boards and caches at the upper limits.

use super::log_edges::scan_at_the_end;
use crate::call::{Call, NO_CUT};
use crate::differential::habit::{go_on, start, Habit};
use crate::differential::player::{Outcome, Player};
use crate::handwritten::layout::{Control, Range, MOST_AHEAD, MOST_ENTRIES, MOST_LINES, MOST_SLOTS};
use crate::sizes::Sizes;

/// How many passes end on a full log.
const LAST_STEPS: u64 = 8;

/// With these a pass takes few calls.
const FEW_SLOTS: u64 = 4;

pub fn history(player: &mut Player) -> Outcome {
    let (lines, entries) = player.random.pick(&[
        (MOST_LINES, MOST_ENTRIES),
        (MOST_LINES, 1),
        (MOST_LINES, 40),
        (1, MOST_ENTRIES),
        (40, MOST_ENTRIES),
        (40, MOST_ENTRIES),
        (MOST_LINES - 1, MOST_ENTRIES - 1),
    ]);
    let slots = player
        .random
        .pick(&[FEW_SLOTS, FEW_SLOTS, MOST_SLOTS as u64 - 4, MOST_SLOTS as u64]);
    let sizes = Sizes { lines, entries, slots };
    start(player, sizes)?;
    if slots == FEW_SLOTS {
        go_over_the_end(player, sizes)?;
    }
    let habit = Habit::draw(&mut player.random, sizes);
    go_on(player, &habit, 100)?;
    fill_log(player, sizes);
    for _ in 0..LAST_STEPS {
        scan_at_the_end(player, sizes, MOST_AHEAD)?;
    }
    let some_restored = player.random.below(entries) as u32;
    let allowance = player.random.pick(&[NO_CUT, some_restored]);
    player.make(Call::PowerUp { allowance })?;
    let habit = Habit::draw(&mut player.random, sizes);
    go_on(player, &habit, 100)
}

/// Two epochs, each stored and persisted. The first begins as many places before the ring's last as it makes entries, so that the
/// second begins at the last and goes over the end.
fn go_over_the_end(player: &mut Player, sizes: Sizes) -> Outcome {
    let lines = player.random.between(1, sizes.lines.min(6));
    let Some(start) = (sizes.entries - 1).checked_sub(lines) else {
        return Ok(());
    };
    let control = Control {
        start: start as usize,
        ..player.state.control()
    };
    player.state.set_control(control);
    for _ in 0..2 {
        for line in 0..lines {
            let data = player.random.word();
            player.make(Call::store(line, data))?;
        }
        player.make(Call::COMMIT)?;
        for _ in 0..=sizes.slots {
            player.make(Call::SCAN)?;
        }
    }
    Ok(())
}

/// A full log that starts anywhere in the ring; three entries in four cover the persisted epoch, and the newest ones of
/// a long log end as late as they may, or one epoch before.
fn fill_log(player: &mut Player, sizes: Sizes) {
    let random = &mut player.random;
    let persisted = random.between(10, 1000);
    let any_place = random.below(sizes.entries);
    let start = random.pick(&[any_place, sizes.entries - 1]);
    let latest = random.pick(&[MOST_AHEAD, MOST_AHEAD - 1]);
    let control = Control {
        persisted,
        start: start as usize,
        length: sizes.entries as usize,
    };
    player.state.set_control(control);
    for age in 0..sizes.entries {
        let place = ((start + age) % sizes.entries) as usize;
        let valid_till = persisted + 2 + age * (latest - 1) / sizes.entries;
        let valid_from = persisted + 1 - random.below(4).min(1 + random.below(2));
        let range = Range {
            address: random.below(sizes.lines),
            valid_till,
            span: MOST_AHEAD.min(valid_till - valid_from),
        };
        player.state.set_entry(place, range);
        player.state.set_old_data(place, random.word());
    }
}
