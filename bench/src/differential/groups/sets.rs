//! States in which a set of slots decides: where a line is held in it, which slot one takes that is not, and what is refused for a
//! slot of the set or for a line held twice.

use super::count::{lend_buffer, lend_registers};
use crate::call::{Call, NO_CUT};
use crate::differential::damage::damage_count;
use crate::differential::passes::{draw_target, put_pass};
use crate::differential::player::{Outcome, Player};
use crate::differential::sides::Lent;
use crate::handwritten::layout::{work_words, SlotWord, LAST_ADDRESS, LAST_EPOCH, MOST_SLOTS, WAYS};
use crate::random::Random;
use crate::sizes::Sizes;

pub fn history(player: &mut Player) -> Outcome {
    let sizes = draw_sizes(&mut player.random);
    for _ in 0..16 {
        let set = lend(player, sizes);
        for _ in 0..player.random.between(1, 3) {
            let call = draw_call(&mut player.random, sizes, &player.state, set);
            player.make(call)?;
        }
        if player.random.one_in(4) {
            lend_other_slots(player);
            let call = draw_any_call(&mut player.random, sizes, &player.state);
            player.make(call)?;
        }
    }
    Ok(())
}

/// A work memory with a number of slots that is refused, or is just not.
fn lend_other_slots(player: &mut Player) {
    let random = &mut player.random;
    let most = MOST_SLOTS as u64 + 2 * WAYS as u64;
    let any = random.between(0, most);
    let slots = random.pick(&[0, 1, 2, 3, 5, 6, 63, 255, 257, 260, 260, any]);
    player.state.work = random.words(work_words(slots as usize));
}

/// Each call that is lent a work memory.
fn draw_any_call(random: &mut Random, sizes: Sizes, state: &Lent) -> Call {
    let address = random.below(sizes.lines);
    let target = draw_target(random, state);
    random.pick(&[
        Call::POWER_UP,
        Call::load(address),
        Call::store(address, 7),
        Call::evict(address),
        Call::COMMIT,
        Call::Begin { target },
        Call::SCAN,
        Call::Tally,
        Call::FilterBits,
    ])
}

/// About two lines for a slot.
fn draw_sizes(random: &mut Random) -> Sizes {
    let slots = random.pick(&[4, 4, 4, 8, 12, 20, 64, 252, 256]);
    Sizes {
        lines: random.between(slots, 4 * slots),
        entries: random.between(1, 80),
        slots,
    }
}

/// Lends a board, registers and a work memory in which one set is proper but for what disturbs it, and gives that set.
fn lend(player: &mut Player, sizes: Sizes) -> u64 {
    let random = &mut player.random;
    let state = &mut player.state;
    state.board = random.words(sizes.board_words());
    state.work = random.words(sizes.work_words());
    state.set_shape(sizes.shape());
    lend_registers(random, state, sizes);
    let set = random.below(sizes.sets());
    let cursor = WAYS as u64 * set + random.below(WAYS as u64);
    put_pass(random, state, &[cursor]);
    // The other sets are empty, or of any words.
    if !random.one_in(8) {
        for place in 0..sizes.slots as usize {
            state.set_slot(place, SlotWord::EMPTY);
        }
    }
    lend_set(random, state, sizes, set);
    lend_buffer(random, state, sizes);
    match random.below(6) {
        0 | 1 => make_a_slot_improper(random, state, sizes, set),
        2 => hold_a_line_twice(random, state, set),
        _ => {}
    }
    state.set_count(state.dirty_slots());
    if random.one_in(8) {
        damage_count(random, state);
    }
    set
}

#[derive(Clone, Copy)]
enum Holds {
    Nothing,
    Clean,
    Dirty,
}

/// All dirty with one tag or with any, dirty and clean, or of any kind; and one slot of another kind, now and then.
fn lend_set(random: &mut Random, state: &mut Lent, sizes: Sizes, set: u64) {
    use Holds::{Clean, Dirty, Nothing};
    let kinds: &[Holds] = match random.below(5) {
        0 | 1 => &[Dirty],
        2 => &[Dirty, Clean],
        3 => &[Clean, Clean, Nothing],
        _ => &[Dirty, Clean, Nothing],
    };
    let (oldest, epoch) = (state.control().persisted + 1, state.registers().epoch);
    let latest = random.pick(&[oldest, epoch, epoch, epoch.min(oldest + 1)]);
    let other = random.below(2 * WAYS as u64) as usize;
    for (way, line) in sizes.draw_lines_of_set(random, set).into_iter().enumerate() {
        let kind = match way == other {
            true => random.pick(&[Clean, Nothing, Dirty]),
            false => random.pick(kinds),
        };
        let word = match (kind, line) {
            (Clean, Some(address)) => SlotWord::clean(address),
            (Dirty, Some(address)) => SlotWord::dirty(address, random.between(oldest, latest)),
            _ => SlotWord::EMPTY,
        };
        state.set_slot(WAYS * set as usize + way, word);
    }
}

/// One of the words is not proper, or just so.
fn make_a_slot_improper(random: &mut Random, state: &mut Lent, sizes: Sizes, set: u64) {
    let place = WAYS * set as usize + random.below(WAYS as u64) as usize;
    let old = state.slot(place);
    let (persisted, epoch) = (state.control().persisted, state.registers().epoch);
    let tag = random.pick(&[persisted, persisted + 1, epoch, LAST_EPOCH.min(epoch + 1)]);
    let turn = random.below(sizes.lines_of_set(set) + 1);
    let of_the_set = (set + sizes.sets() * turn) & LAST_ADDRESS;
    let of_another = random.near(of_the_set, 1);
    let word = match random.below(8) {
        0 => SlotWord(random.word()),
        1 => SlotWord(old.0 ^ 1 << random.below(64)),
        2 => SlotWord::dirty(of_the_set, tag),
        3 => SlotWord::clean(of_the_set),
        4 | 5 => SlotWord::dirty(of_another, epoch),
        6 => SlotWord::clean(of_another),
        _ => SlotWord(SlotWord::dirty(of_the_set, epoch).0 & !SlotWord::VALID),
    };
    state.set_slot(place, word);
}

/// The line of one slot in another as well, as it is, clean, or dirty.
fn hold_a_line_twice(random: &mut Random, state: &mut Lent, set: u64) {
    let way = random.below(WAYS as u64);
    let other = (way + random.between(1, WAYS as u64 - 1)) % WAYS as u64;
    let place = |way: u64| WAYS * set as usize + way as usize;
    let word = state.slot(place(way));
    if !word.is_valid() {
        return;
    }
    let again = [
        word,
        SlotWord::clean(word.address()),
        SlotWord::dirty(word.address(), state.registers().epoch),
    ];
    state.set_slot(place(other), random.pick(&again));
}

fn draw_call(random: &mut Random, sizes: Sizes, state: &Lent, set: u64) -> Call {
    let slot = WAYS as u64 * set + random.below(WAYS as u64);
    let held = state.slot(slot as usize).address();
    let of_the_set = set + sizes.sets() * random.below(sizes.lines_of_set(set));
    let any = random.between(0, sizes.lines);
    let address = random.pick(&[held, held, held, of_the_set, of_the_set, of_the_set, any]);
    let some = random.below(70) as u32;
    let allowance = random.pick(&[NO_CUT, NO_CUT, NO_CUT, NO_CUT, NO_CUT, 0, 1, some]);
    match random.below(16) {
        0..4 => Call::Load { address, allowance },
        4..9 => Call::Store {
            address,
            data: random.word(),
            allowance,
        },
        9..13 => Call::Evict { address, allowance },
        _ => Call::Scan { allowance },
    }
}
