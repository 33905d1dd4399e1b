//! Damage to the memories and registers of a history.

use super::passes::damage_pass;
use super::sides::Lent;
use crate::handwritten::layout::{
    ones, slot_place, FilterBit, Range, Shape, SlotWord, BUFFER_ENTRIES, ENTRY_WORDS, FILTER_BITS, LAST_ADDRESS,
    LAST_EPOCH, MOST_AHEAD, MOST_ENTRIES, SPAN_BITS, WAYS,
};
use crate::handwritten::old;
use crate::interface::REGISTER_WORDS;
use crate::random::Random;

/// Does one thing to a state with a board of at least two words.
pub fn damage(random: &mut Random, state: &mut Lent) {
    let kinds: [fn(&mut Random, &mut Lent); 17] = [
        flip_a_bit,
        damage_control,
        damage_shape,
        damage_log_entry,
        damage_slot,
        damage_slot,
        hold_a_line_twice,
        damage_buffer,
        damage_buffer,
        damage_filter,
        damage_filter,
        damage_registers,
        damage_count,
        damage_count,
        damage_pass,
        damage_pass,
        change_length,
    ];
    random.pick(&kinds)(random, state);
}

fn flip_a_bit(random: &mut Random, state: &mut Lent) {
    let memory = match random.below(4) {
        0 => state.head(),
        1 => &mut state.board,
        2 => &mut state.work,
        _ => &mut state.registers,
    };
    let place = random.below(memory.len() as u64) as usize;
    memory[place] ^= 1 << random.below(64);
}

fn damage_control(random: &mut Random, state: &mut Lent) {
    let mut control = state.control();
    let entries = state.shape().entries;
    match random.below(3) {
        0 => control.persisted = near_epoch(random, control.persisted),
        1 => control.start = near_in_ring(random, entries),
        _ => control.length = near_in_ring(random, entries),
    }
    state.set_control(control);
}

/// Just as many as the log has, or a few more or less, as far as the control word can say.
fn near_in_ring(random: &mut Random, entries: u64) -> usize {
    random.near(entries, 2).min(MOST_ENTRIES) as usize
}

fn damage_shape(random: &mut Random, state: &mut Lent) {
    let mut shape = state.shape();
    match random.below(4) {
        0 => shape.lines = random.near(shape.lines, 2),
        1 => shape.entries = random.near(shape.entries, 2),
        2 => {
            // The words of a board are as many as before.
            shape.lines += ENTRY_WORDS as u64;
            shape.entries = shape.entries.saturating_sub(1);
        }
        _ => {
            let version = draw_other_version(random);
            return state.set_version(version);
        }
    }
    state.set_shape(shape);
}

/// A version that the layout does not have: that of the old one, the next, or one that differs by any bit.
pub fn draw_other_version(random: &mut Random) -> u64 {
    let bit = random.below(u64::from(u64::BITS - Shape::VERSION_SHIFT));
    random.pick(&[0, Shape::VERSION + 1, Shape::VERSION ^ 1 << bit])
}

fn damage_log_entry(random: &mut Random, state: &mut Lent) {
    let control = state.control();
    let entries = state.shape().entries as usize;
    if entries == 0 || !state.has_entry(entries - 1) {
        return flip_a_bit(random, state);
    }
    let back = random.below(control.length as u64 + 1) as usize;
    let place = (control.start + back) % entries;
    let range = damaged_range(random, state, state.entry(place));
    state.set_entry(place, range);
}

fn damage_buffer(random: &mut Random, state: &mut Lent) {
    if !state.has_buffer() {
        return flip_a_bit(random, state);
    }
    let buffered = state.registers().buffered.min(BUFFER_ENTRIES as u64 - 1);
    let place = random.below(buffered + 1) as usize;
    let range = damaged_range(random, state, state.buffered(place));
    state.set_buffered(place, range);
    // An entry with another address is refused for its bits, most times, unless they are set too.
    if random.one_in(2) {
        state.mark(range.address);
    }
}

/// A filter with a bit less or more than it had, without those of a buffered entry, with those of a line that a slot holds,
/// full, empty, or of any words.
pub fn damage_filter(random: &mut Random, state: &mut Lent) {
    if !state.has_buffer() {
        return flip_a_bit(random, state);
    }
    let any_bit = FilterBit(random.below(FILTER_BITS as u64) as usize);
    match random.below(8) {
        0 => state.set_bit(any_bit),
        1 => state.filter_mut().fill(u64::MAX),
        2 => state.filter_mut().fill(0),
        3 => {
            let words = random.words(state.filter().len());
            state.filter_mut().copy_from_slice(&words);
        }
        4 => {
            let slot = random.below(state.slots() as u64) as usize;
            if slot < state.slots() {
                state.mark(state.slot(slot).address());
            }
        }
        _ => clear_bits_of_an_entry(random, state, any_bit),
    }
}

/// Clears one bit of a buffered entry, or both; where none is buffered, any bit.
fn clear_bits_of_an_entry(random: &mut Random, state: &mut Lent, any_bit: FilterBit) {
    let buffered = state.buffered_ranges().count() as u64;
    if buffered == 0 {
        return state.clear_bit(any_bit);
    }
    let place = random.below(buffered) as usize;
    let bits = FilterBit::both_of(state.buffered(place).address);
    match random.below(3) {
        0 => state.clear_bit(bits[0]),
        1 => state.clear_bit(bits[1]),
        _ => bits.into_iter().for_each(|bit| state.clear_bit(bit)),
    }
}

/// A range with one field at the edge of what is proper.
fn damaged_range(random: &mut Random, state: &Lent, mut range: Range) -> Range {
    let lines = state.shape().lines;
    match random.below(4) {
        0 => range.address = random.near(lines, 1) & LAST_ADDRESS,
        1 => range.valid_till = random.near(state.registers().epoch, 1) & LAST_EPOCH,
        2 => range.valid_till = random.near(range.span, 1) & LAST_EPOCH,
        _ => range.span = draw_span(random, range.valid_till),
    }
    range
}

/// A span at an edge of what is proper beside a ValidTill, or any.
pub fn draw_span(random: &mut Random, valid_till: u64) -> u64 {
    let any = random.between(0, ones(SPAN_BITS));
    let edges = [0, 1, MOST_AHEAD, MOST_AHEAD + 1, ones(SPAN_BITS), any];
    let about_till = [valid_till, valid_till + 1].map(|span| span.min(ones(SPAN_BITS)));
    match random.one_in(3) {
        true => random.pick(&about_till),
        false => random.pick(&edges),
    }
}

/// A span that is not proper beside a ValidTill.
pub fn draw_improper_span(random: &mut Random, valid_till: u64) -> u64 {
    let too_many = random.between(MOST_AHEAD + 2, ones(SPAN_BITS));
    let above_till = (valid_till + 1).min(MOST_AHEAD + 1);
    random.pick(&[0, MOST_AHEAD + 1, too_many, above_till])
}

fn damage_slot(random: &mut Random, state: &mut Lent) {
    let slots = state.slots() as u64;
    if slots == 0 {
        return flip_a_bit(random, state);
    }
    // The slot under the scan's cursor, most times, or any.
    let place = match state.registers().cursor {
        cursor if cursor < slots && !random.one_in(4) => cursor,
        _ => random.below(slots),
    };
    let word = damaged_slot(random, state, place, slots);
    state.set_slot(place as usize, word);
    // A slot that is dirty now, or is so no more, makes the count a wrong one.
    if random.one_in(2) {
        state.set_count(state.dirty_slots());
    }
}

/// A slot word with its address and its tag at the edge of what is proper, most times.
fn damaged_slot(random: &mut Random, state: &Lent, place: u64, slots: u64) -> SlotWord {
    let lines = state.shape().lines;
    let persisted = state.control().persisted;
    let old = state.slot(place as usize);
    let address = match random.below(4) {
        0 => old.address(),
        1 => lines & LAST_ADDRESS,
        2 => (place / WAYS as u64 + slots / WAYS as u64 * random.below(12)) & LAST_ADDRESS,
        _ => random.below(lines.max(1)) & LAST_ADDRESS,
    };
    let tag = match random.below(3) {
        0 => old.tag(),
        1 => random.near(persisted, 1) & LAST_EPOCH,
        _ => random.near(state.registers().epoch, 1) & LAST_EPOCH,
    };
    // The last three: clean with a tag, dirty without being valid, and zero bits that are not zero.
    match random.below(6) {
        0 => SlotWord::clean(address),
        1 | 2 => SlotWord::dirty(address, tag),
        3 => SlotWord(SlotWord::dirty(address, tag).0 & !SlotWord::DIRTY),
        4 => SlotWord(SlotWord::dirty(address, tag).0 & !SlotWord::VALID),
        _ => SlotWord(SlotWord::dirty(address, tag).0 | 1 << random.below(u64::from(SlotWord::ZERO_BITS))),
    }
}

/// Two slots of a set with one line: the word of one in the place of the other, most times of the slot under the scan's cursor.
fn hold_a_line_twice(random: &mut Random, state: &mut Lent) {
    let slots = state.slots() as u64;
    if slots < WAYS as u64 {
        return flip_a_bit(random, state);
    }
    let any = random.below(slots);
    let cursor = state.registers().cursor.min(slots - 1);
    let place = random.pick(&[cursor, any]);
    let other = place - place % WAYS as u64 + random.below(WAYS as u64);
    if other < slots {
        state.set_slot(other as usize, state.slot(place as usize));
    }
    state.set_count(state.dirty_slots());
}

fn damage_registers(random: &mut Random, state: &mut Lent) {
    let control = state.control();
    let room = state.shape().entries.saturating_sub(control.length as u64);
    let mut registers = state.registers();
    match random.below(6) {
        0 => registers.epoch = near_epoch(random, control.persisted),
        1 => registers.epoch = random.near(control.persisted + MOST_AHEAD, 1),
        2 => registers.buffered = random.near(BUFFER_ENTRIES as u64 - 1, 1),
        3 => registers.buffered = random.near(room, 1),
        4 => registers.cursor = random.near(state.slots() as u64, 1),
        _ => {
            let word = random.any_width();
            state.registers[random.below(REGISTER_WORDS as u64) as usize] = word;
            return;
        }
    }
    state.set_registers(registers);
}

/// A count with a bit from here on is proper if it is cut to half a word, or to less.
const LOWEST_UPPER_BIT: u64 = 32;

/// A count of dirty slots that is one more or less than it was, none or one, all or all but one, just more than all, as large as
/// may be, too large by its upper bits alone, or any.
pub fn damage_count(random: &mut Random, state: &mut Lent) {
    let slots = state.slots() as u64;
    let count = match random.below(9) {
        0..3 => random.near(state.registers().dirty, 1),
        3 => random.below(2),
        4 => slots.saturating_sub(random.below(2)),
        5 => slots + 1,
        6 => u64::MAX,
        7 => random.with_an_upper_bit(slots, LOWEST_UPPER_BIT),
        _ => random.any_width(),
    };
    state.set_count(count);
}

fn near_epoch(random: &mut Random, epoch: u64) -> u64 {
    match random.below(4) {
        0 => random.near(epoch, 2),
        1 => random.near(LAST_EPOCH, 1),
        2 => random.near(old::LAST_EPOCH, 1),
        _ => random.below(LAST_EPOCH),
    }
}

fn change_length(random: &mut Random, state: &mut Lent) {
    let memory = if random.one_in(2) {
        &mut state.board
    } else {
        &mut state.work
    };
    // By a few words, or by a whole set of slots.
    let reach = random.pick(&[3, slot_place(WAYS) as u64]);
    let length = random.near(memory.len() as u64, reach).max(2) as usize;
    memory.resize(length, random.word());
}
