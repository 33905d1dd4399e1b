//! States in which the filter decides: a dirty line in its set, entries buffered for lines that have its bits or one of them,
//! and a filter that has just their bits, or more, or less.

use super::count::draw_proper_span;
use crate::call::{Call, NO_CUT};
use crate::differential::damage::{damage_filter, draw_improper_span};
use crate::differential::habit::others_with;
use crate::differential::passes::{draw_epoch_about_pass, draw_target, put_pass};
use crate::differential::player::{Outcome, Player};
use crate::differential::sides::Lent;
use crate::handwritten::layout::{
    Control, FilterBit, Range, SlotWord, BUFFER_ENTRIES, FILTER_BITS, LAST_EPOCH, MOST_AHEAD, WAYS,
};
use crate::handwritten::Registers;
use crate::random::Random;
use crate::sizes::Sizes;

/// On boards of more lines than the filter has bits, lines meet in their first bits too.
const MANY_LINES: (u64, u64) = (FILTER_BITS as u64 + 2, FILTER_BITS as u64 + 300);

/// Lines with the bits 0, 63, 64 and 4,095: four that have them as first ones, four as second ones.
const CORNERS: [u64; 8] = [0, 63, 64, 4_095, 233, 2_597, 2_830, 4_338];

/// The persisted epochs: early ones, such as go over the last that 24 and 32 bits can count, and the last.
const PERSISTED: [u64; 8] = [
    0,
    5,
    1_000,
    (1 << 24) - 4,
    (1 << 32) - 4,
    LAST_EPOCH - MOST_AHEAD,
    LAST_EPOCH - 2,
    LAST_EPOCH - 1,
];

pub fn history(player: &mut Player) -> Outcome {
    let sizes = draw_sizes(&mut player.random);
    for _ in 0..16 {
        let line = lend(player, sizes);
        for _ in 0..player.random.between(1, 3) {
            let call = draw_call(&mut player.random, sizes, &player.state, line);
            player.make(call)?;
        }
    }
    Ok(())
}

fn draw_sizes(random: &mut Random) -> Sizes {
    let (fewest, most) = random.pick(&[(2, 40), (200, 600), (200, 600), MANY_LINES]);
    Sizes {
        lines: random.between(fewest, most),
        entries: random.between(1, 80),
        slots: random.pick(&[4, 4, 8, 12, 40]),
    }
}

fn draw_line(random: &mut Random, lines: u64) -> u64 {
    let corner = random.pick(&CORNERS);
    if corner < lines && random.one_in(2) {
        return corner;
    }
    random.below(lines)
}

/// Lends a board, registers and a work memory with a dirty line, and gives that line.
fn lend(player: &mut Player, sizes: Sizes) -> u64 {
    let random = &mut player.random;
    let state = &mut player.state;
    let line = draw_line(random, sizes.lines);
    let slot = WAYS as u64 * (line % sizes.sets()) + random.below(WAYS as u64);
    let addresses = draw_addresses(random, sizes, line);
    state.board = random.words(sizes.board_words());
    state.work = random.words(sizes.work_words());
    state.set_shape(sizes.shape());
    lend_registers(random, state, sizes, slot, addresses.len() as u64);
    lend_slots(random, state, sizes, line, slot);
    lend_buffer(random, state, sizes, &addresses);
    line
}

/// The control word and the registers but for the count; the scan's cursor is at the slot, most times.
fn lend_registers(random: &mut Random, state: &mut Lent, sizes: Sizes, slot: u64, buffered: u64) {
    let room = sizes.entries - buffered;
    let some_of_room = random.below(room + 1);
    let control = Control {
        persisted: random.pick(&PERSISTED),
        start: random.below(sizes.entries) as usize,
        length: random.pick(&[0, room, some_of_room]) as usize,
    };
    let any_ahead = random.between(1, MOST_AHEAD);
    let ahead = random.pick(&[1, 2, 3, MOST_AHEAD, any_ahead]);
    state.set_control(control);
    state.set_registers(Registers {
        epoch: LAST_EPOCH.min(control.persisted + ahead),
        buffered,
        ..Registers::default()
    });
    let any_cursor = random.between(0, sizes.slots);
    put_pass(random, state, &[slot, slot, slot, sizes.slots, any_cursor]);
}

/// The line alone, or in a set that is full of dirty lines of which it is the one to go, most times.
fn lend_slots(random: &mut Random, state: &mut Lent, sizes: Sizes, line: u64, slot: u64) {
    for place in 0..sizes.slots as usize {
        state.set_slot(place, SlotWord::EMPTY);
    }
    let (oldest, epoch) = (state.control().persisted + 1, state.registers().epoch);
    let tag_about_pass = draw_epoch_about_pass(random, state);
    let tag = random.pick(&[oldest, tag_about_pass]);
    let set = line % sizes.sets();
    if !random.one_in(3) {
        for (way, other) in sizes.draw_lines_of_set(random, set).into_iter().enumerate() {
            let place = WAYS as u64 * set + way as u64;
            let least_tag = epoch.min(tag + u64::from(place < slot));
            let other = other.filter(|&address| address != line);
            let word = other.map(|address| SlotWord::dirty(address, random.between(least_tag, epoch)));
            state.set_slot(place as usize, word.unwrap_or(SlotWord::EMPTY));
        }
    }
    state.set_slot(slot as usize, SlotWord::dirty(line, tag));
    state.set_count(state.dirty_slots());
}

/// The buffered entries, one of them not proper now and then, and the filter.
fn lend_buffer(random: &mut Random, state: &mut Lent, sizes: Sizes, addresses: &[u64]) {
    let (oldest, epoch) = (state.control().persisted + 1, state.registers().epoch);
    for (place, &address) in addresses.iter().enumerate() {
        state.set_buffered(place, draw_range(random, address, oldest, epoch));
    }
    if !addresses.is_empty() && random.one_in(12) {
        let place = random.below(addresses.len() as u64) as usize;
        let range = state.buffered(place);
        state.set_buffered(place, improper(random, range, sizes.lines, epoch));
    }
    *state.filter_mut() = state.exact_filter();
    for _ in 0..random.pick(&[0, 0, 1, 1, 2]) {
        damage_filter(random, state);
    }
}

/// The addresses of the buffered entries: of any other lines, and among them one with the line's first bit, one with its
/// second, both of these, or the line's own.
fn draw_addresses(random: &mut Random, sizes: Sizes, line: u64) -> Vec<u64> {
    let most = sizes.entries.min(BUFFER_ENTRIES as u64 - 1);
    let any_count = random.below(most + 1);
    let count = random.pick(&[0, 1, 2, 2, most, any_count]).min(most);
    let other = |random: &mut Random| (line + 1 + random.below(sizes.lines - 1)) % sizes.lines;
    let mut addresses: Vec<u64> = (0..count).map(|_| other(random)).collect();
    let [first, second] = FilterBit::both_of(line).map(|bit| others_with(bit, line, sizes.lines));
    let company: &[&[u64]] = match random.below(8) {
        0 => &[],
        1 => &[&first],
        2 => &[&second],
        3 => &[&[line]],
        _ => &[&first, &second],
    };
    // The last place that one of them takes is any; the others come before it.
    let mut place = random.below(count + 1) as usize;
    for lines in company.iter().rev().filter(|lines| !lines.is_empty()) {
        if place > 0 {
            place -= 1;
            addresses[place] = random.pick(lines);
        }
    }
    addresses
}

fn draw_range(random: &mut Random, address: u64, oldest: u64, epoch: u64) -> Range {
    let valid_till = random.between(oldest, epoch);
    Range {
        address,
        valid_till,
        span: draw_proper_span(random, valid_till),
    }
}

/// A range with one field just beyond what is proper, where the field has room for that.
fn improper(random: &mut Random, mut range: Range, lines: u64, epoch: u64) -> Range {
    match random.below(3) {
        0 => range.address = lines,
        1 => range.span = draw_improper_span(random, range.valid_till),
        _ => range.valid_till = LAST_EPOCH.min(epoch + 1),
    }
    range
}

fn draw_call(random: &mut Random, sizes: Sizes, state: &Lent, line: u64) -> Call {
    let set = line % sizes.sets();
    let of_the_same_set = set + sizes.sets() * random.below(sizes.lines_of_set(set));
    let any = draw_line(random, sizes.lines);
    let address = random.pick(&[line, of_the_same_set, of_the_same_set, any]);
    let some = random.below(70) as u32;
    let allowance = random.pick(&[NO_CUT, NO_CUT, NO_CUT, NO_CUT, 0, 1, some]);
    match random.below(19) {
        0..3 => Call::Load { address, allowance },
        3..8 => Call::Store {
            address,
            data: random.word(),
            allowance,
        },
        8..11 => Call::Evict {
            address: random.pick(&[line, address]),
            allowance,
        },
        11..13 => Call::Commit { allowance },
        13..16 => Call::Scan { allowance },
        16..18 => Call::Begin {
            target: draw_target(random, state),
        },
        _ => Call::FilterBits,
    }
}
