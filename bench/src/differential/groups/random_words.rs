//! Memories and arguments that no history leads to.

use crate::call::{Call, NO_CUT};
use crate::differential::damage::{damage_count, damage_filter, draw_span};
use crate::differential::passes::{damage_pass, draw_target, put_pass};
use crate::differential::player::{Outcome, Player};
use crate::differential::sides::Lent;
use crate::handwritten::layout::{
    entry_place, work_words, Control, Range, Shape, SlotWord, BUFFER_ENTRIES, COUNT_BITS, ENTRY_WORDS, LAST_EPOCH,
    MOST_AHEAD, MOST_ENTRIES, MOST_LINES, MOST_SLOTS, WAYS,
};
use crate::handwritten::{old, Registers};
use crate::interface::REGISTER_WORDS;
use crate::random::Random;
use crate::sizes::Sizes;

pub fn history(player: &mut Player) -> Outcome {
    match player.random.below(8) {
        0 => wild_memories(player),
        1 => wild_format(player),
        _ => right_shape_wild_words(player),
    }
}

const SMALLEST: Shape = Shape { lines: 1, entries: 1 };

/// Any lengths, any words; sometimes a shape word that fits the length.
fn wild_memories(player: &mut Player) -> Outcome {
    let random = &mut player.random;
    let board_words = random.below(40);
    player.state.board = random.words(board_words as usize);
    if board_words >= SMALLEST.board_words() as u64 && !random.one_in(4) {
        let shape = wild_shape(random, board_words);
        player.state.set_shape(shape);
        let control_word = player.state.control_word() >> random.between(0, 63);
        player.state.set_control_word(control_word);
    }
    let work_words = wild_work_words(random);
    player.state.work = random.words(work_words);
    player.state.registers = (0..REGISTER_WORDS).map(|_| random.any_width()).collect();
    for _ in 0..4 {
        let call = any_call(&mut player.random, &player.state, board_words);
        player.make(call)?;
    }
    Ok(())
}

/// A shape that a board of so many words fits.
fn wild_shape(random: &mut Random, board_words: u64) -> Shape {
    let more_words = board_words - SMALLEST.board_words() as u64;
    let entries = random.between(1, 1 + more_words / ENTRY_WORDS as u64);
    let before_lines = entry_place(entries as usize) as u64;
    Shape {
        lines: board_words - before_lines,
        entries,
    }
}

/// No work memory, and such as have just no slot, a set, the most and too many, or slots that are no whole sets.
fn wild_work_words(random: &mut Random) -> usize {
    let none = work_words(0);
    let (one_set, most) = (work_words(WAYS), work_words(MOST_SLOTS));
    let some_slots = random.between(0, MOST_SLOTS as u64 + 8) as usize;
    random.pick(&[
        0,
        2,
        none - 1,
        none,
        none + 1,
        none + 2,
        work_words(2),
        one_set - 2,
        one_set - 1,
        one_set,
        one_set,
        one_set + 1,
        one_set + 2,
        work_words(6),
        work_words(63),
        work_words(some_slots),
        most - 2,
        most - 1,
        most,
        most + 1,
        most + 2,
        work_words(MOST_SLOTS + WAYS),
    ])
}

/// A board with the most lines, or the most entries, and few of the others is below.
const MOST_FORMATTED: u64 = MOST_LINES + 20;

/// Sizes out of range, among them such as make the right number of words once it wraps round at 2^64.
fn wild_format(player: &mut Player) -> Outcome {
    for _ in 0..8 {
        let random = &mut player.random;
        let (past_field, past_word) = (1 << COUNT_BITS, 1 << (64 - COUNT_BITS));
        let edges = [0, 1, 2, 7, MOST_LINES, MOST_LINES + 1, past_field, past_word];
        let ring_edges = [MOST_ENTRIES - 1, MOST_ENTRIES, MOST_ENTRIES + 1, MOST_ENTRIES + 2];
        let (lines, entries) = match random.below(5) {
            0 => (random.pick(&edges), random.between(1, 4)),
            1 => (random.between(1, 4), random.pick(&edges)),
            4 => (random.between(1, 4), random.pick(&ring_edges)),
            2 => (random.any_width(), random.any_width()),
            _ => (random.between(0, 6), random.between(0, 6) + (1 << 63)),
        };
        let fitting_words = Shape { lines, entries }.wrapping_board_words();
        let words = match fitting_words {
            0..100 => random.near(fitting_words, 1),
            100..MOST_FORMATTED if random.one_in(4) => random.near(fitting_words, 1),
            _ => random.below(100),
        };
        player.state.board = vec![random.word(); words as usize];
        player.make(Call::Format { lines, entries })?;
    }
    Ok(())
}

/// The persisted epochs: early ones, those that 24 and 32 bits just can and cannot count, and the last.
const PERSISTED: [u64; 9] = [
    0,
    1,
    2,
    5,
    1000,
    old::LAST_EPOCH,
    1 << 32,
    LAST_EPOCH - 1,
    LAST_EPOCH - 3,
];

/// A board, a work memory and registers of right lengths and ranges, and each word behind them at the edges of proper.
fn right_shape_wild_words(player: &mut Player) -> Outcome {
    let random = &mut player.random;
    let sizes = Sizes::draw_small(random);
    let Sizes { lines, entries, slots } = sizes;
    let control = Control {
        persisted: random.pick(&PERSISTED),
        start: random.below(entries) as usize,
        length: random.between(0, entries) as usize,
    };
    let room = entries - control.length as u64;
    player.state.board = random.words(sizes.board_words());
    player.state.work = random.words(sizes.work_words());
    player.state.set_control(control);
    player.state.set_shape(sizes.shape());
    player.state.set_registers(Registers {
        epoch: control.persisted + random.between(1, MOST_AHEAD),
        buffered: random.below(BUFFER_ENTRIES as u64 + 1).min(room),
        ..Registers::default()
    });
    let cursor = random.between(0, slots);
    put_pass(random, &mut player.state, &[cursor]);
    if random.one_in(8) {
        damage_pass(random, &mut player.state);
    }
    lend_wild_words(random, &mut player.state, sizes);
    for _ in 0..player.random.between(1, 8) {
        let call = any_call(&mut player.random, &player.state, lines + 1);
        player.make(call)?;
    }
    Ok(())
}

/// The words of log, slots, buffer and filter, and a count of dirty slots that is true most times.
fn lend_wild_words(random: &mut Random, state: &mut Lent, sizes: Sizes) {
    let control = state.control();
    let epoch = state.registers().epoch;
    let range = |random: &mut Random| wild_range(random, sizes.lines, control.persisted, epoch);
    for place in 0..sizes.entries as usize {
        state.set_entry(place, range(random));
    }
    for place in 0..sizes.slots {
        let word = wild_slot(random, sizes, place, control, epoch);
        state.set_slot(place as usize, word);
    }
    for place in 0..BUFFER_ENTRIES {
        state.set_buffered(place, range(random));
    }
    wild_filter(random, state);
    state.set_count(state.dirty_slots());
    if random.one_in(4) {
        damage_count(random, state);
    }
}

/// Proper nearly always: one of many that is not makes a whole buffer or log improper.
fn wild_range(random: &mut Random, lines: u64, persisted: u64, epoch: u64) -> Range {
    let valid_till = random.between(persisted.max(2) - 1, epoch).min(LAST_EPOCH);
    let any_span = random.between(1, valid_till.min(MOST_AHEAD));
    let mut range = Range {
        address: random.below(lines),
        valid_till,
        span: random.pick(&[any_span, 1, valid_till.min(MOST_AHEAD)]),
    };
    if random.one_in(60) {
        match random.below(3) {
            0 => range.address = random.near(lines, 1),
            1 => range.valid_till = random.near(epoch, 1) & LAST_EPOCH,
            _ => range.span = draw_span(random, valid_till),
        }
    }
    range
}

/// A filter of any words would hardly ever have the bits of many entries: most times it has them, and often others.
fn wild_filter(random: &mut Random, state: &mut Lent) {
    let words = random.words(state.filter().len());
    match random.below(6) {
        0 => return,
        1 => state.filter_mut().fill(u64::MAX),
        _ => *state.filter_mut() = state.exact_filter(),
    }
    match random.below(4) {
        0 => state
            .filter_mut()
            .iter_mut()
            .zip(words)
            .for_each(|(word, more)| *word |= more),
        1 => damage_filter(random, state),
        _ => {}
    }
}

fn wild_slot(random: &mut Random, sizes: Sizes, place: u64, control: Control, epoch: u64) -> SlotWord {
    let turns = sizes.lines / sizes.sets() + 1;
    let address = place / WAYS as u64 + sizes.sets() * random.below(turns);
    let tag = random.between(control.persisted, epoch + 1) & LAST_EPOCH;
    match random.below(8) {
        0 => SlotWord::EMPTY,
        1 | 2 => SlotWord::clean(address),
        3 => SlotWord(random.word()),
        4 => SlotWord(SlotWord::dirty(address, tag).0 ^ 1 << random.below(64)),
        _ => SlotWord::dirty(address, tag),
    }
}

fn any_call(random: &mut Random, state: &Lent, lines: u64) -> Call {
    let address = if random.one_in(8) {
        random.any_width()
    } else {
        random.below(lines)
    };
    let allowance = match random.below(6) {
        0 | 1 => random.below(70) as u32,
        2 => random.word() as u32,
        _ => NO_CUT,
    };
    match random.below(18) {
        0 => Call::PowerUp { allowance },
        1..=3 => Call::Load { address, allowance },
        4..=7 => Call::Store {
            address,
            data: random.word(),
            allowance,
        },
        8..=10 => Call::Evict { address, allowance },
        11 => Call::Commit { allowance },
        12..=14 => Call::Scan { allowance },
        15 => Call::FilterBits,
        16 => Call::Begin {
            target: draw_target(random, state),
        },
        _ => Call::Tally,
    }
}
