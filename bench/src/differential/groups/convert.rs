//! Conversions of boards in the old layout: those of every cut of lists, damaged ones, logs at the edges of proper, any words, and
//! boards about the largest; beside second memories of their length and of others. What is converted goes on as a formatted board does.

use crate::call::Call;
use crate::differential::asked::Asked;
use crate::differential::habit::{go_on, Habit};
use crate::differential::player::{Outcome, Player};
use crate::handwritten::layout::{
    entry_place, Control, Range, Shape, CONTROL_PLACE, COUNT_BITS, MOST_AHEAD, MOST_ENTRIES, MOST_LINES, SHAPE_PLACE,
};
use crate::handwritten::old;
use crate::interface::{ANSWER_WORDS, OK};
use crate::old_boards::List;
use crate::random::Random;
use crate::sizes::Sizes;

/// One converted board in so many goes on, with so many calls.
const GOES_ON_ONE_IN: u64 = 40;
const CALLS_OF_A_CONVERTED: u64 = 120;

pub fn history(player: &mut Player) -> Outcome {
    match player.random.below(400) {
        0..200 => cuts_of_a_list(player),
        200..290 => damaged_boards(player),
        290..370 => logs_at_the_edges(player),
        370..396 => any_words(player),
        _ => about_the_largest(player),
    }
}

/// Lends an old board, a second memory of any words, which has the same length most times, and an answer; and has it converted.
fn convert(player: &mut Player, old_board: Vec<u64>) -> Outcome {
    let random = &mut player.random;
    let words = words_of_second(random, &old_board);
    let second_words = match random.below(24) {
        0 => random.near(words, 1),
        1 => random.pick(&[0, 1, 2, words / 2, 2 * words]),
        _ => words,
    };
    player.state.board = random.words(second_words as usize);
    player.state.answer = vec![0; random.pick(&[2, 2, 2, 2, 2, 2, 2, 2, 2, 2, 2, 2, 2, 2, 2, 3, 4, 1, 0])];
    player.state.old_board = old_board;
    player.is_undamaged = false;
    player.make(Asked::Convert)?;
    player.state.answer = vec![0; ANSWER_WORDS];
    Ok(())
}

/// As many words as the old board has, or as its shape word says where these are not far more.
fn words_of_second(random: &mut Random, old_board: &[u64]) -> u64 {
    let words = old_board.len() as u64;
    match old::head_of(old_board).map(|(_, shape)| shape.wrapping_board_words()) {
        Some(said) if said < 2 * words && random.one_in(2) => said,
        _ => words,
    }
}

fn cuts_of_a_list(player: &mut Player) -> Outcome {
    let sizes = Sizes::draw_small(&mut player.random);
    for old_board in draw_list(player, sizes) {
        convert(player, old_board)?;
        if player.last_number == OK && player.random.one_in(GOES_ON_ONE_IN) {
            go_on_converted(player, sizes)?;
        }
    }
    Ok(())
}

/// The boards of every cut of a list, the epochs of which begin early, anywhere, or end in the last old one.
fn draw_list(player: &mut Player, sizes: Sizes) -> Vec<Vec<u64>> {
    let random = &mut player.random;
    let any = random.below(old::LAST_EPOCH - MOST_AHEAD);
    let late = old::LAST_EPOCH - random.between(1, MOST_AHEAD + 4);
    let list = List {
        sizes,
        persisted: random.pick(&[0, 1, 14, any, late]),
        calls: random.between(10, 80),
    };
    let mut boards = Vec::new();
    list.for_each_cut(random, |board| boards.push(board));
    boards
}

/// The board that was just converted is powered up and worked on, as one that was formatted.
fn go_on_converted(player: &mut Player, sizes: Sizes) -> Outcome {
    player.state.work = player.random.words(sizes.work_words());
    player.is_undamaged = true;
    player.is_converted = true;
    player.make(Call::POWER_UP)?;
    let habit = Habit::draw(&mut player.random, sizes);
    let outcome = go_on(player, &habit, CALLS_OF_A_CONVERTED);
    player.is_converted = false;
    outcome
}

/// Boards of a list, each with one field at its edge, another length or a bit flipped; sometimes two of these.
fn damaged_boards(player: &mut Player) -> Outcome {
    let sizes = Sizes::draw_small(&mut player.random);
    for mut old_board in draw_list(player, sizes) {
        for _ in 0..player.random.pick(&[1, 1, 1, 2]) {
            damage(&mut player.random, &mut old_board);
        }
        convert(player, old_board)?;
    }
    Ok(())
}

fn damage(random: &mut Random, old_board: &mut Vec<u64>) {
    let Some((control, shape)) = old::head_of(old_board) else {
        return;
    };
    match random.below(5) {
        0 => old_board[CONTROL_PLACE] = old::pack_control(damaged_control(random, control, shape)),
        1 => damage_shape(random, old_board, shape),
        2 => {
            let words = random.near(old_board.len() as u64, 2) as usize;
            old_board.resize(words, random.word());
        }
        3 => {
            let place = random.below(old_board.len() as u64) as usize;
            old_board[place] ^= 1 << random.below(64);
        }
        _ => damage_entry(random, old_board, control, shape),
    }
}

fn damaged_control(random: &mut Random, mut control: Control, shape: Shape) -> Control {
    match random.below(3) {
        0 => {
            control.persisted = random.pick(&[
                old::LAST_EPOCH,
                old::LAST_EPOCH - 1,
                control.persisted.saturating_sub(1),
            ])
        }
        1 => control.start = random.near(shape.entries, 1) as usize,
        _ => control.length = random.near(shape.entries, 1) as usize,
    }
    control
}

fn damage_shape(random: &mut Random, old_board: &mut Vec<u64>, mut shape: Shape) {
    match random.below(6) {
        0 => old_board[SHAPE_PLACE] |= Shape::VERSION << Shape::VERSION_SHIFT,
        1 => old_board[SHAPE_PLACE] |= 1 << random.between(Shape::VERSION_SHIFT.into(), 63),
        kind => {
            match kind {
                2 => shape.lines = random.near(shape.lines, 1),
                3 => shape.entries = random.near(shape.entries, 1),
                4 => shape.lines = 0,
                _ => shape.entries = 0,
            }
            old_board[SHAPE_PLACE] = old::pack_shape(shape);
            // The board has the words that go with it, in one case of two where these are fewer.
            if random.one_in(2) && shape.wrapping_board_words() < old_board.len() as u64 {
                old_board.truncate(shape.board_words());
            }
        }
    }
}

/// A field of an entry at its edge, or its data.
fn damage_entry(random: &mut Random, old_board: &mut [u64], control: Control, shape: Shape) {
    let age = random.below(control.length as u64 + 1);
    let place = entry_place(((control.start as u64 + age) % shape.entries.max(1)) as usize);
    if let Some(word) = old_board.get_mut(place) {
        let mut range = old::unpack_range(*word);
        put_at_an_edge(random, &mut range, control.persisted, shape.lines, None);
        *word = old::pack_range(range);
    }
}

/// One field of an entry just as it may be, or just not; the next older entry ends in `older_till`.
fn put_at_an_edge(random: &mut Random, range: &mut Range, persisted: u64, lines: u64, older_till: Option<u64>) {
    let valid_from = range.valid_till.wrapping_sub(range.span);
    match random.below(6) {
        0 => range.address = random.pick(&[lines - 1, lines, lines + 1]) & (MOST_LINES - 1),
        1 => range.span = random.pick(&[0, 1, range.valid_till, u64::MAX]),
        2 => range.span = range.valid_till.wrapping_sub(random.near(persisted, 1)),
        3 => range.valid_till = random.near(persisted, 1),
        4 => range.valid_till = random.near(persisted + MOST_AHEAD, 1).min(old::LAST_EPOCH),
        _ => {
            range.valid_till = random
                .near(older_till.unwrap_or(range.valid_till), 1)
                .min(old::LAST_EPOCH)
        }
    }
    if random.one_in(2) && range.span <= range.valid_till && valid_from < range.valid_till {
        range.span = range.valid_till - valid_from;
    }
}

/// Boards whose log is proper, or has an entry or two at an edge.
fn logs_at_the_edges(player: &mut Player) -> Outcome {
    let sizes = Sizes::draw_small(&mut player.random);
    for _ in 0..40 {
        let old_board = draw_log(&mut player.random, sizes);
        convert(player, old_board)?;
    }
    Ok(())
}

fn draw_log(random: &mut Random, sizes: Sizes) -> Vec<u64> {
    let any = random.below(old::LAST_EPOCH);
    let entries = sizes.entries as usize;
    let some = random.between(0, sizes.entries) as usize;
    let control = Control {
        persisted: random.pick(&[0, 1, 8, 1_000, any, old::LAST_EPOCH - 17, old::LAST_EPOCH - 1]),
        start: random.below(sizes.entries) as usize,
        length: random.pick(&[some, some, entries, entries.min(2)]),
    };
    let mut log = proper_log(random, sizes, control);
    for _ in 0..random.pick(&[0, 0, 1, 1, 2]) {
        let place = random.below(log.len() as u64) as usize;
        let older_till = place.checked_sub(1).map(|older| log[older].valid_till);
        if let Some(range) = log.get_mut(place) {
            put_at_an_edge(random, range, control.persisted, sizes.lines, older_till);
        }
    }
    let mut old_board = random.words(sizes.board_words());
    old_board[CONTROL_PLACE] = old::pack_control(control);
    old_board[SHAPE_PLACE] = old::pack_shape(sizes.shape());
    for (place, &range) in log.iter().enumerate() {
        old_board[entry_place((control.start + place) % entries)] = old::pack_range(range);
    }
    old_board
}

/// Entries that end in order, and begin in any epoch before, often about P.
fn proper_log(random: &mut Random, sizes: Sizes, control: Control) -> Vec<Range> {
    let latest_till = old::LAST_EPOCH.min(control.persisted + MOST_AHEAD);
    let mut valid_till = control.persisted + 1;
    (0..control.length)
        .map(|_| {
            if random.one_in(3) {
                valid_till = latest_till.min(valid_till + random.below(6));
            }
            let any_from = random.below(valid_till);
            let about = random.near(control.persisted, 1).min(valid_till - 1);
            Range {
                address: random.below(sizes.lines),
                valid_till,
                span: valid_till - random.pick(&[any_from, about, about]),
            }
        })
        .collect()
}

/// Any words, or few; sometimes a shape word that fits.
fn any_words(player: &mut Player) -> Outcome {
    for _ in 0..40 {
        let random = &mut player.random;
        let words = random.below(24);
        let mut old_board: Vec<u64> = (0..words).map(|_| random.any_width()).collect();
        if words >= 5 && random.one_in(2) {
            let entries = random.between(1, (words - 3) / 2);
            old_board[SHAPE_PLACE] = (words - 2 - 2 * entries) << COUNT_BITS | entries;
        }
        convert(player, old_board)?;
    }
    Ok(())
}

/// Boards of the most lines and entries, and of just more.
fn about_the_largest(player: &mut Player) -> Outcome {
    let (lines, entries) = player.random.pick(&[
        (MOST_LINES, MOST_ENTRIES),
        (MOST_LINES, MOST_ENTRIES),
        (1, MOST_ENTRIES),
        (MOST_LINES + 1, 1),
        (1, MOST_ENTRIES + 1),
        (1, old::MOST_ENTRIES),
        (1, old::MOST_ENTRIES + 1),
    ]);
    let sizes = Sizes {
        lines,
        entries,
        slots: 4,
    };
    for _ in 0..2 {
        let old_board = draw_log(&mut player.random, sizes);
        convert(player, old_board)?;
    }
    if player.last_number == OK {
        go_on_converted(player, sizes)?;
    }
    Ok(())
}
