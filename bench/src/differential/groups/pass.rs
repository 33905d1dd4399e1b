//! Passes over several epochs: states in which target and cursor decide, and whole passes on boards from their format on, whose every
//! scan call is cut at every store first.

use super::count::{draw_proper_span, lend_proper, make_a_slot_improper};
use super::play_states;
use crate::call::{Call, NO_CUT};
use crate::differential::damage::damage_count;
use crate::differential::habit::{start, Habit};
use crate::differential::passes::{damage_pass, draw_epoch_about_pass, draw_target};
use crate::differential::player::{Outcome, Player};
use crate::differential::sides::Lent;
use crate::handwritten::layout::{Range, MOST_AHEAD, MOST_SLOTS};
use crate::interface::{CUT, OK};
use crate::random::Random;
use crate::sizes::Sizes;

/// One state in so many has an improper slot, and as many a wrong count.
const DISTURBED_ONE_IN: u64 = 8;

pub fn history(player: &mut Player) -> Outcome {
    if player.random.one_in(4) {
        return whole_passes(player);
    }
    let sizes = draw_sizes(&mut player.random);
    play_states(player, sizes, lend, draw_call)
}

fn draw_sizes(random: &mut Random) -> Sizes {
    let slots = random.pick(&[4, 4, 8, 12, 40, MOST_SLOTS as u64]);
    Sizes {
        lines: random.between(1, 3 * slots),
        entries: random.between(1, 60),
        slots,
    }
}

/// Lends a board, registers and a work memory, proper but for what disturbs them: the pass, most times.
fn lend(player: &mut Player, sizes: Sizes) {
    let random = &mut player.random;
    let state = &mut player.state;
    lend_proper(random, state, sizes);
    lend_log(random, state, sizes);
    if random.one_in(3) {
        damage_pass(random, state);
    }
    if random.one_in(DISTURBED_ONE_IN) {
        make_a_slot_improper(random, state);
    }
    if random.one_in(DISTURBED_ONE_IN) {
        damage_count(random, state);
    }
}

/// Entries that end about the edges of the pass, most times in the order of a proper log.
fn lend_log(random: &mut Random, state: &mut Lent, sizes: Sizes) {
    let control = state.control();
    let mut tills: Vec<u64> = (0..control.length)
        .map(|_| draw_epoch_about_pass(random, state))
        .collect();
    if !random.one_in(6) {
        tills.sort_unstable();
    }
    for (place, valid_till) in tills.into_iter().enumerate() {
        let ring_place = (control.start + place) % sizes.entries as usize;
        let range = Range {
            address: random.below(sizes.lines),
            valid_till,
            span: draw_proper_span(random, valid_till),
        };
        state.set_entry(ring_place, range);
    }
}

fn draw_call(random: &mut Random, sizes: Sizes, state: &Lent) -> Call {
    let address = random.below(sizes.lines);
    let some = random.below(70) as u32;
    let allowance = random.pick(&[NO_CUT, NO_CUT, NO_CUT, 0, 1, some]);
    match random.below(18) {
        0..6 => Call::Begin {
            target: draw_target(random, state),
        },
        6..12 => Call::Scan { allowance },
        12 => Call::Load { address, allowance },
        13 => Call::Store {
            address,
            data: random.word(),
            allowance,
        },
        14 => Call::Evict { address, allowance },
        15 => Call::Commit { allowance },
        16 => Call::PowerUp { allowance },
        _ => Call::Tally,
    }
}

/// A board whose epochs wait until a pass is begun for some of them, again and again.
fn whole_passes(player: &mut Player) -> Outcome {
    let sizes = draw_sizes(&mut player.random);
    start(player, sizes)?;
    for _ in 0..3 {
        let epochs = player.random.between(2, MOST_AHEAD);
        for _ in 0..epochs {
            store_some(player, sizes)?;
            player.make(Call::COMMIT)?;
        }
        store_some(player, sizes)?;
        let target = draw_target(&mut player.random, &player.state);
        player.make(Call::Begin { target })?;
        scan_to_the_end(player, sizes)?;
    }
    Ok(())
}

fn store_some(player: &mut Player, sizes: Sizes) -> Outcome {
    for _ in 0..player.random.between(0, 4) {
        let address = player.random.below(sizes.lines);
        let data = player.random.word();
        player.make(Call::store(address, data))?;
    }
    Ok(())
}

/// Makes the scan calls of a pass, with other calls between them now and then.
fn scan_to_the_end(player: &mut Player, sizes: Sizes) -> Outcome {
    let habit = Habit::draw(&mut player.random, sizes);
    loop {
        cut_at_every_store(player)?;
        player.make(Call::SCAN)?;
        let is_inside = player.state.registers().target != 0;
        if player.last_number != OK || !is_inside {
            return Ok(());
        }
        if player.random.one_in(8) {
            let call = habit.call(&mut player.random, &player.state);
            player.make(call)?;
        }
    }
}

/// Makes the scan call that is next under the allowances 0, 1, 2 and so on, as long as it is cut, and powers the board
/// up after some of them; each from the same state, which is there again in the end.
fn cut_at_every_store(player: &mut Player) -> Outcome {
    let uncut = player.state.clone();
    for allowance in 0.. {
        player.make(Call::Scan { allowance })?;
        let is_cut = player.last_number == CUT;
        if is_cut && player.random.one_in(4) {
            player.make(Call::POWER_UP)?;
        }
        player.state = uncut.clone();
        if !is_cut {
            break;
        }
    }
    Ok(())
}
