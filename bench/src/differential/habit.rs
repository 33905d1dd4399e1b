//! How a history chooses its calls.

use super::difference::Difference;
use super::passes::draw_target;
use super::player::{Outcome, Player};
use super::sides::Lent;
use crate::call::{Call, NO_CUT};
use crate::handwritten::layout::{FilterBit, ENTRY_WORDS, FILTER_BITS, MOST_AHEAD, MOST_LINES, WAYS};
use crate::interface::{NONE, ROOM, WAITING};
use crate::random::Random;
use crate::sizes::Sizes;

/// No call but power-up makes more stores; allowances are drawn up to a few more.
const MOST_STORES: u64 = 66;

/// How often each call is made, in parts of their sum: load, store, evict, commit, scan, tally, power-up, format, the status
/// question, begin.
type Weights = [u64; 10];

const BALANCED: Weights = [200, 400, 50, 30, 300, 10, 9, 1, 20, 10];
const STORES: Weights = [60, 800, 10, 12, 100, 5, 3, 0, 10, 5];
const EPOCHS: Weights = [50, 300, 40, 250, 350, 5, 5, 0, 10, 20];
const SCANS: Weights = [100, 250, 30, 60, 550, 5, 5, 0, 10, 20];
const COMMITS: Weights = [50, 500, 30, 300, 100, 5, 15, 0, 10, 20];
const READS: Weights = [700, 200, 50, 10, 30, 10, 0, 0, 20, 5];

/// Outside a pass, with several epochs waiting, one call in so many begins one for them.
const SEVERAL_BEGUN_ONE_IN: u64 = 6;

pub struct Habit {
    sizes: Sizes,
    weights: Weights,
    /// Addresses that are drawn most times.
    hot: Vec<u64>,
    /// One address in so many is drawn from all lines, where there are hot ones.
    other_one_in: u64,
    /// One call in so many has a small allowance.
    cut_one_in: u64,
}

impl Habit {
    pub fn draw(random: &mut Random, sizes: Sizes) -> Self {
        Habit {
            sizes,
            weights: random.pick(&[BALANCED, STORES, EPOCHS, SCANS, COMMITS, READS]),
            hot: hot_addresses(random, sizes),
            other_one_in: random.pick(&[4, 16, 200]),
            cut_one_in: random.pick(&[3, 10, 40, 200]),
        }
    }

    /// Many commits and scans.
    pub fn draw_for_epochs(random: &mut Random, sizes: Sizes) -> Self {
        Habit {
            weights: random.pick(&[EPOCHS, SCANS, COMMITS]),
            ..Habit::draw(random, sizes)
        }
    }

    /// Any call; the target of a begin call is about what this state has.
    pub fn call(&self, random: &mut Random, state: &Lent) -> Call {
        let allowance = self.allowance(random);
        let address = self.address(random);
        match self.draw_kind(random) {
            0 => Call::Load { address, allowance },
            1 => Call::Store {
                address,
                data: random.any_width(),
                allowance,
            },
            2 => Call::Evict { address, allowance },
            3 => Call::Commit { allowance },
            4 => Call::Scan { allowance },
            5 => Call::Tally,
            6 => Call::PowerUp { allowance },
            7 => self.draw_format(random),
            8 => Call::FilterBits,
            _ => Call::Begin {
                target: draw_target(random, state),
            },
        }
    }

    fn draw_kind(&self, random: &mut Random) -> usize {
        let mut left = random.below(self.weights.iter().sum());
        self.weights
            .iter()
            .position(|&weight| {
                let found = left < weight;
                left = left.wrapping_sub(weight);
                found
            })
            .unwrap_or(0)
    }

    pub fn allowance(&self, random: &mut Random) -> u32 {
        if !random.one_in(self.cut_one_in) {
            return NO_CUT;
        }
        let most = random.pick(&[1, 5, MOST_STORES + 4]);
        random.below(most) as u32
    }

    fn address(&self, random: &mut Random) -> u64 {
        if random.one_in(300) {
            return random.pick(&[self.sizes.lines, self.sizes.lines + 1, MOST_LINES, u64::MAX]);
        }
        if self.hot.is_empty() || random.one_in(self.other_one_in) {
            return random.below(self.sizes.lines);
        }
        random.pick(&self.hot)
    }

    fn draw_format(&self, random: &mut Random) -> Call {
        let Sizes { lines, entries, .. } = self.sizes;
        match random.below(4) {
            0 => self.sizes.format(),
            1 => Call::Format {
                lines: lines + ENTRY_WORDS as u64,
                entries: entries - 1,
            },
            _ => Call::Format {
                lines: random.near(lines, 2),
                entries: random.near(entries, 2),
            },
        }
    }
}

/// None, some anywhere, some that meet in one or two sets, a row of which four meet in each, or some that meet in the filter.
fn hot_addresses(random: &mut Random, sizes: Sizes) -> Vec<u64> {
    let count = random.between(1, 24);
    match random.below(5) {
        0 => Vec::new(),
        1 => (0..count).map(|_| random.below(sizes.lines)).collect(),
        2 => {
            let set = random.below(sizes.sets());
            (0..count)
                .map(|turn| set + turn % 2 + sizes.sets() * random.below(12))
                .map(|address| address % sizes.lines)
                .collect()
        }
        3 => meeting_in_the_filter(random, sizes),
        _ => (0..sizes.slots.min(sizes.lines)).collect(),
    }
}

/// A line, lines with its bits, so that it may be a false hit, and as many other lines of its set as there are slots. Lines on a
/// small board may have no bits in common: then just the line and the others.
fn meeting_in_the_filter(random: &mut Random, sizes: Sizes) -> Vec<u64> {
    let lines = sizes.lines;
    let address = *meeting_lines(lines)
        .get(random.below(8) as usize)
        .unwrap_or(&random.below(lines));
    let [first, second] = FilterBit::both_of(address).map(|bit| others_with(bit, address, lines));
    let of_its_set = |turn| (address + sizes.sets() * turn) % lines;
    let mut hot: Vec<u64> = (0..=WAYS as u64).map(of_its_set).collect();
    for others in [first, second] {
        if !others.is_empty() {
            hot.push(random.pick(&others));
        }
    }
    hot
}

/// Lines, the lowest few, both of whose bits other lines have.
fn meeting_lines(lines: u64) -> Vec<u64> {
    let mut owners = vec![0; FILTER_BITS];
    let bits_of = |address| FilterBit::both_of(address).map(|FilterBit(bit)| bit);
    for address in 0..lines {
        let [first, second] = bits_of(address);
        owners[first] += 1;
        owners[second] += u64::from(second != first);
    }
    let meets = |address: &u64| bits_of(*address).iter().all(|&bit| owners[bit] > 1);
    (0..lines).filter(meets).take(8).collect()
}

/// The lines that have a bit, but for one of them.
pub fn others_with(bit: FilterBit, address: u64, lines: u64) -> Vec<u64> {
    let has_bit = |other: &u64| *other != address && FilterBit::both_of(*other).contains(&bit);
    (0..lines).filter(has_bit).collect()
}

/// Lends a board and a work memory of any words, formats the board and powers up. From then on the count of dirty slots is true.
pub fn start(player: &mut Player, sizes: Sizes) -> Outcome {
    player.state.board = player.random.words(sizes.board_words());
    player.state.work = player.random.words(sizes.work_words());
    player.make(sizes.format())?;
    player.is_undamaged = true;
    player.make(Call::PowerUp { allowance: NO_CUT })
}

/// The same with sizes that are small mostly, and the habit of what follows.
pub fn start_mostly_small(player: &mut Player) -> Result<Habit, Box<Difference>> {
    let sizes = if player.random.one_in(4) {
        Sizes::draw(&mut player.random)
    } else {
        Sizes::draw_small(&mut player.random)
    };
    start(player, sizes)?;
    Ok(Habit::draw(&mut player.random, sizes))
}

/// Makes `calls` calls.
pub fn go_on(player: &mut Player, habit: &Habit, calls: u64) -> Outcome {
    for _ in 0..calls {
        let call = next_call(player, habit);
        player.make(call)?;
    }
    Ok(())
}

/// The next call of a history. A power-up is lent any work memory and any registers.
pub fn next_call(player: &mut Player, habit: &Habit) -> Call {
    let call = match call_for(player, habit) {
        Some(call) => call,
        None => habit.call(&mut player.random, &player.state),
    };
    if matches!(call, Call::PowerUp { .. }) && player.random.one_in(2) {
        player.state.work = player.random.words(player.state.work.len());
        player.state.registers = player.random.words(player.state.registers.len());
    }
    call
}

/// What helps after the last answer, most times: power-up after a cut, scans for room or for an epoch that waits, a
/// commit where there is nothing to scan for. Where several epochs wait outside a pass, one for them is begun now and then.
fn call_for(player: &mut Player, habit: &Habit) -> Option<Call> {
    let random = &mut player.random;
    if random.one_in(4) {
        return None;
    }
    let allowance = habit.allowance(random);
    let is_cut = player.state.registers().epoch == 0;
    match player.last_number {
        _ if is_cut => Some(Call::PowerUp { allowance }),
        ROOM | WAITING => Some(Call::Scan { allowance }),
        NONE => Some(Call::Commit { allowance }),
        _ if several_wait(&player.state) && random.one_in(SEVERAL_BEGUN_ONE_IN) => Some(Call::Begin {
            target: draw_target(random, &player.state),
        }),
        _ => None,
    }
}

/// Several epochs wait, and there is no pass.
fn several_wait(state: &Lent) -> bool {
    let registers = state.registers();
    let ahead = registers.epoch.wrapping_sub(state.control().persisted);
    registers.target == 0 && (3..=MOST_AHEAD).contains(&ahead)
}
