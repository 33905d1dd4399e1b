//! Logs whose entries stand at the edges: of being proper, of covering the persisted epoch, of being dropped.

use crate::call::{Call, NO_CUT};
use crate::differential::damage::draw_span;
use crate::differential::habit::{go_on, Habit};
use crate::differential::passes::put_pass;
use crate::differential::player::{Outcome, Player};
use crate::handwritten::layout::{Control, Range, EPOCH_BITS, LAST_EPOCH, MOST_AHEAD};
use crate::handwritten::Registers;
use crate::random::Random;
use crate::sizes::Sizes;

/// How far ahead of the persisted epoch the newest entry ended on the board that came in.
const FAILING_CHIP_AHEAD: u64 = 4_000;

pub fn history(player: &mut Player) -> Outcome {
    let sizes = Sizes::draw_small(&mut player.random);
    for _ in 0..8 {
        let control = lend_log(player, sizes);
        if player.random.one_in(3) {
            let ahead = player.random.between(2, MOST_AHEAD);
            scan_at_the_end(player, sizes, ahead)?;
        }
        power_up(player, control)?;
    }
    let habit = Habit::draw(&mut player.random, sizes);
    go_on(player, &habit, 8)
}

/// Lends a board with a proper log, or with one whose entries were put at an edge, and any work memory.
fn lend_log(player: &mut Player, sizes: Sizes) -> Control {
    let random = &mut player.random;
    // Around LAST_EPOCH - MOST_AHEAD, the bound of a ValidTill is just before the last epoch, in it and just after it.
    let center = random.pick(&[0, 1, 8, 50, 1 << 24, 1 << 32, LAST_EPOCH - MOST_AHEAD, LAST_EPOCH - 2]);
    let control = Control {
        persisted: random.near(center, 1),
        start: random.below(sizes.entries) as usize,
        length: random.between(0, sizes.entries) as usize,
    };
    let mut log = proper_log(random, sizes, control);
    if !log.is_empty() {
        for _ in 0..random.pick(&[0, 0, 1, 1, 1, 2]) {
            put_at_an_edge(random, sizes, control, &mut log);
        }
    }
    player.state.board = random.words(sizes.board_words());
    player.state.set_control(control);
    player.state.set_shape(sizes.shape());
    for (place, &range) in log.iter().enumerate() {
        let ring_place = (control.start + place) % sizes.entries as usize;
        player.state.set_entry(ring_place, range);
    }
    player.state.work = random.words(sizes.work_words());
    control
}

/// In one log of two, the entries from some place on end as late as they may.
fn proper_log(random: &mut Random, sizes: Sizes, control: Control) -> Vec<Range> {
    let latest_till = LAST_EPOCH.min(control.persisted + MOST_AHEAD);
    let first_latest = random.below(2 * control.length as u64 + 1) as usize;
    let mut valid_till = control.persisted + 1;
    (0..control.length)
        .map(|place| {
            if place >= first_latest {
                valid_till = latest_till;
            } else if random.one_in(4) {
                valid_till = latest_till.min(valid_till + random.below(3));
            }
            // ValidFrom is from two epochs before P on, or as early as it may be.
            let longest = valid_till.min(MOST_AHEAD);
            let some = longest.min(valid_till - control.persisted.saturating_sub(2).min(valid_till - 1));
            let any = random.between(1, some);
            Range {
                address: random.below(sizes.lines),
                valid_till,
                span: random.pick(&[any, any, any, longest]),
            }
        })
        .collect()
}

fn put_at_an_edge(random: &mut Random, sizes: Sizes, control: Control, log: &mut [Range]) {
    let place = random.below(log.len() as u64) as usize;
    let older_till = match place {
        0 => control.persisted,
        _ => log[place - 1].valid_till,
    };
    let range = &mut log[place];
    match random.below(9) {
        0 => range.address = sizes.lines,
        1 | 2 => range.span = draw_span(random, range.valid_till),
        8 => range.valid_till = control.persisted,
        3 => range.valid_till = older_till.saturating_sub(1),
        4 => range.valid_till = older_till,
        5 => {
            range.valid_till = control.persisted + 1;
            range.span = 1;
        }
        _ => range.valid_till = late_till(random, control, older_till),
    }
    if random.one_in(2) {
        raise_newer(log, place);
    }
}

/// A ValidTill just as late as it may be, just later, or later by any bit of the field; also counted from the next
/// older entry instead of the persisted epoch. Where the field has no place for it, the last epoch.
fn late_till(random: &mut Random, control: Control, older_till: u64) -> u64 {
    let from = random.pick(&[control.persisted, older_till]);
    let any_bit = 1 << random.below(EPOCH_BITS.into());
    let ahead = random.pick(&[MOST_AHEAD, MOST_AHEAD + 1, FAILING_CHIP_AHEAD, any_bit]);
    LAST_EPOCH.min(from + ahead)
}

/// Makes each newer entry end no earlier than the one at a place.
fn raise_newer(log: &mut [Range], place: usize) {
    let least_till = log[place].valid_till;
    for newer in &mut log[place + 1..] {
        newer.valid_till = newer.valid_till.max(least_till);
    }
}

fn power_up(player: &mut Player, control: Control) -> Outcome {
    let allowance = if player.random.one_in(3) {
        player.random.below(control.length as u64 + 3) as u32
    } else {
        NO_CUT
    };
    player.make(Call::PowerUp { allowance })
}

/// A scan with its cursor at the end, most times, on an empty cache and buffer, the running epoch being so far ahead: it drops
/// the oldest run. Then the board before it again.
pub fn scan_at_the_end(player: &mut Player, sizes: Sizes, ahead: u64) -> Outcome {
    let board = player.state.board.clone();
    let persisted = player.state.control().persisted;
    player.state.work.fill(0);
    player.state.set_registers(Registers {
        epoch: LAST_EPOCH.min(persisted + ahead),
        ..Registers::default()
    });
    put_pass(&mut player.random, &mut player.state, &[sizes.slots]);
    let allowance = player.random.pick(&[NO_CUT, NO_CUT, 1, 0]);
    player.make(Call::Scan { allowance })?;
    player.state.board = board;
    Ok(())
}
