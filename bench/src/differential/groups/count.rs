//! States in which the count of dirty slots decides: slots of every kind, and a count that is true, one beside that, none, all
//! or too many; with something else that is not proper, now and then, which another test would refuse.

use super::play_states;
use crate::call::{Call, NO_CUT};
use crate::differential::damage::{damage_count, damage_filter, draw_improper_span};
use crate::differential::passes::{draw_epoch_about_pass, draw_target, put_pass};
use crate::differential::player::{Outcome, Player};
use crate::differential::sides::Lent;
use crate::handwritten::layout::{Control, Range, SlotWord, BUFFER_ENTRIES, LAST_EPOCH, MOST_AHEAD, MOST_LINES, WAYS};
use crate::handwritten::Registers;
use crate::random::Random;
use crate::sizes::Sizes;

/// One state in so many has an improper slot, and as many an improper buffered entry, or a damaged filter.
const DISTURBED_ONE_IN: u64 = 5;

/// The persisted epochs: early and late ones, and such as have a carry into bit 8, 16, 24, 32 or 39 a few epochs on.
const PERSISTED: [u64; 10] = [
    0,
    7,
    1_000,
    (1 << 8) - 6,
    (1 << 16) - 6,
    (1 << 24) - 6,
    (1 << 32) - 6,
    (1 << 39) - 6,
    LAST_EPOCH - MOST_AHEAD,
    LAST_EPOCH - 1,
];

pub fn history(player: &mut Player) -> Outcome {
    let sizes = draw_sizes(&mut player.random);
    play_states(player, sizes, lend, draw_call)
}

/// Few slots, most times: the more there are, the less often none or all of them are dirty.
fn draw_sizes(random: &mut Random) -> Sizes {
    let slots = random.pick(&[4, 4, 4, 8, 8, 40]);
    Sizes {
        lines: random.between(1, 3 * slots + 1),
        entries: random.between(1, 40),
        slots,
    }
}

/// Lends a board, registers and a work memory, proper but for what disturbs them.
fn lend(player: &mut Player, sizes: Sizes) {
    let random = &mut player.random;
    let state = &mut player.state;
    lend_proper(random, state, sizes);
    if !random.one_in(4) {
        damage_count(random, state);
    }
    if random.one_in(DISTURBED_ONE_IN) {
        make_a_slot_improper(random, state);
    }
}

/// A board whose lines and log are any words, proper registers and a proper work memory.
pub fn lend_proper(random: &mut Random, state: &mut Lent, sizes: Sizes) {
    state.board = random.words(sizes.board_words());
    state.work = random.words(sizes.work_words());
    state.set_shape(sizes.shape());
    lend_registers(random, state, sizes);
    lend_slots(random, state, sizes);
    lend_buffer(random, state, sizes);
    state.set_count(state.dirty_slots());
}

/// The control word and the registers but for the count.
pub fn lend_registers(random: &mut Random, state: &mut Lent, sizes: Sizes) {
    let most_buffered = sizes.entries.min(BUFFER_ENTRIES as u64 - 1);
    let buffered = random.between(0, most_buffered);
    let room = sizes.entries - buffered;
    let some_of_room = random.between(0, room);
    let control = Control {
        persisted: random.pick(&PERSISTED),
        start: random.below(sizes.entries) as usize,
        length: random.pick(&[0, room, some_of_room]) as usize,
    };
    let ahead = random.pick(&[1, 2, 3, 5, MOST_AHEAD]);
    state.set_control(control);
    state.set_registers(Registers {
        epoch: LAST_EPOCH.min(control.persisted + ahead),
        buffered,
        ..Registers::default()
    });
    let any_cursor = random.between(0, sizes.slots);
    put_pass(random, state, &[sizes.slots, sizes.slots - 1, any_cursor, any_cursor]);
}

/// All of one kind, or of any: empty, clean, dirty.
fn lend_slots(random: &mut Random, state: &mut Lent, sizes: Sizes) {
    const KINDS: u64 = 3;
    let of_all = random.below(KINDS);
    let is_mixed = random.one_in(2);
    for set in 0..sizes.sets() {
        for (way, line) in sizes.draw_lines_of_set(random, set).into_iter().enumerate() {
            let tag = draw_epoch_about_pass(random, state);
            let kind = if is_mixed { random.below(KINDS) } else { of_all };
            let word = match (kind, line) {
                (1, Some(address)) => SlotWord::clean(address),
                (2, Some(address)) => SlotWord::dirty(address, tag),
                _ => SlotWord::EMPTY,
            };
            state.set_slot(WAYS * set as usize + way, word);
        }
    }
}

/// The buffered entries and the filter, of which one may not be proper.
pub fn lend_buffer(random: &mut Random, state: &mut Lent, sizes: Sizes) {
    let Registers { epoch, buffered, .. } = state.registers();
    for place in 0..buffered as usize {
        let valid_till = random.between(state.control().persisted + 1, epoch);
        let range = Range {
            address: random.below(sizes.lines),
            valid_till,
            span: draw_proper_span(random, valid_till),
        };
        state.set_buffered(place, range);
    }
    if buffered > 0 && random.one_in(DISTURBED_ONE_IN) {
        let place = random.below(buffered) as usize;
        let range = state.buffered(place);
        let span = draw_improper_span(random, range.valid_till);
        state.set_buffered(place, Range { span, ..range });
    }
    *state.filter_mut() = state.exact_filter();
    if random.one_in(DISTURBED_ONE_IN) {
        damage_filter(random, state);
    }
}

/// A span that is proper beside a ValidTill, often the shortest or the longest.
pub fn draw_proper_span(random: &mut Random, valid_till: u64) -> u64 {
    let longest = valid_till.min(MOST_AHEAD);
    let any = random.between(1, longest);
    random.pick(&[1, longest, any])
}

/// The slot under the scan's cursor, or any: not valid, with a tag that is too late, or with zero bits that are not zero.
pub fn make_a_slot_improper(random: &mut Random, state: &mut Lent) {
    let slots = state.slots() as u64;
    let cursor = state.registers().cursor;
    let any = random.below(slots);
    let place = random.pick(&[cursor.min(slots - 1), any]) as usize;
    let SlotWord(word) = state.slot(place);
    let bit = random.below(u64::from(SlotWord::ZERO_BITS));
    let improper = match random.below(3) {
        0 => (word | 1 << bit) & !SlotWord::VALID,
        1 => SlotWord::dirty(state.slot(place).address(), LAST_EPOCH).0 | 1 << bit,
        _ => word | 1 << bit,
    };
    state.set_slot(place, SlotWord(improper));
}

fn draw_call(random: &mut Random, sizes: Sizes, state: &Lent) -> Call {
    let slot = random.below(sizes.slots);
    let held = state.slot(slot as usize).address();
    let set = slot / WAYS as u64;
    let of_the_set = set + sizes.sets() * random.below(sizes.lines_of_set(set));
    let beyond = random.pick(&[sizes.lines, sizes.lines + 1, MOST_LINES + slot, u64::MAX - slot]);
    let address = random.pick(&[held, held, of_the_set, of_the_set, of_the_set, beyond]);
    let allowance = random.pick(&[NO_CUT, NO_CUT, 0, 1]);
    match random.below(17) {
        0..4 => Call::Load { address, allowance },
        4..8 => Call::Store {
            address,
            data: random.word(),
            allowance,
        },
        8..11 => Call::Evict { address, allowance },
        11 => Call::Commit { allowance },
        12..15 => Call::Scan { allowance },
        15 => Call::Begin {
            target: draw_target(random, state),
        },
        _ => Call::Tally,
    }
}
