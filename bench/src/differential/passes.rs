//! Targets about every edge of what a pass may have, and the cursor and the target of registers.

use super::sides::Lent;
use crate::handwritten::layout::LAST_EPOCH;
use crate::handwritten::Registers;
use crate::random::Random;

/// A bit from here on is lost if an epoch is cut to 24 bits, from 32 on if to half a word, from 40 on if to those of an epoch.
const LOWEST_UPPER_BIT: u64 = 24;

/// A target that is right most times, or just not: the oldest and the newest epoch that wait, any between, and those beside them;
/// or 0, far too large, too large by its upper bits alone, or any.
pub fn draw_target(random: &mut Random, state: &Lent) -> u64 {
    if !state.has_head() || !state.has_registers() {
        return random.any_width();
    }
    let (persisted, epoch) = (state.control().persisted, state.registers().epoch);
    let newest = epoch.saturating_sub(1);
    let waiting = draw_waiting(random, persisted, epoch);
    match random.below(16) {
        0..3 => persisted + 1,
        3..6 => newest,
        6..9 => waiting,
        9 => persisted,
        10 => epoch,
        11 => persisted.saturating_sub(1),
        12 => epoch.saturating_add(1),
        13 => random.pick(&[0, u64::MAX]),
        14 => waiting | 1 << random.between(LOWEST_UPPER_BIT, 63),
        _ => random.any_width(),
    }
}

/// One of the epochs that wait; the newest, or what would be, where none does.
fn draw_waiting(random: &mut Random, persisted: u64, epoch: u64) -> u64 {
    let newest = epoch.saturating_sub(1);
    random.between(newest.min(persisted + 1), newest)
}

/// Gives proper registers that are outside a pass, or inside one for any of the epochs that wait, the cursor being one of these.
pub fn put_pass(random: &mut Random, state: &mut Lent, cursors: &[u64]) {
    let registers = state.registers();
    let (persisted, epoch) = (state.control().persisted, registers.epoch);
    let is_inside = epoch > persisted + 1 && !random.one_in(4);
    let (cursor, target) = match is_inside {
        true => (random.pick(cursors), draw_target_of_pass(random, persisted, epoch)),
        false => (0, 0),
    };
    state.set_registers(Registers {
        cursor,
        target,
        ..registers
    });
}

fn draw_target_of_pass(random: &mut Random, persisted: u64, epoch: u64) -> u64 {
    let any = draw_waiting(random, persisted, epoch);
    random.pick(&[persisted + 1, epoch - 1, any])
}

/// A cursor or a target, or both, at an edge of what is proper.
pub fn damage_pass(random: &mut Random, state: &mut Lent) {
    let slots = state.slots() as u64;
    let mut registers = state.registers();
    let changed = random.below(3);
    if changed != 0 {
        registers.target = draw_target(random, state);
    }
    if changed != 1 {
        let any = random.between(0, slots);
        registers.cursor = random.pick(&[0, 1, slots, slots + 1, any]);
    }
    state.set_registers(registers);
}

/// Tags, or ends of entries, about the edges of a pass: the oldest epoch that waits, the target, the one behind it, the running
/// one, or any. The epochs are those of proper registers, but for the target.
pub fn draw_epoch_about_pass(random: &mut Random, state: &Lent) -> u64 {
    let Registers { epoch, target, .. } = state.registers();
    let oldest = state.control().persisted + 1;
    let any = random.between(oldest, epoch);
    let about = random.pick(&[oldest, target, target.saturating_add(1), epoch, any]);
    about.clamp(oldest, epoch).min(LAST_EPOCH)
}
