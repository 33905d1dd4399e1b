//! What the customer counted on his looms, in an epoch of one second.

use crate::call::Call;
use crate::random::Random;

pub const STORES_PER_EPOCH: usize = 2_600;
pub const LINES_OF_A_LOOM: usize = 400;

/// How an epoch's stores go over the lines. The customer counted stores and lines, not their order, so both ends are
/// measured, and what he tells of Jacquard patterns.
#[derive(Clone, Copy, Debug, PartialEq, Eq)]
pub enum Order {
    /// Each store is to any of the lines, and these stand anywhere on the board: hardly a line is found in the cache again.
    Scattered,
    /// Ten picks an epoch: each pick works on lines of its own, side by side, over and over.
    ByPicks,
    /// The same, and at the end of a pick the controller evicts its lines.
    ByPicksEvicted,
    /// Pairs of lines that a cache of 64, 128 or 256 slots with one slot for a line has in one slot: a store to one of them, and
    /// then a load of the other, all day.
    Jacquard,
    /// All lines belong in one set, whatever S is, and are stored to in turn: hardly a store finds its line held, so that an epoch
    /// makes nearly as many entries as it has stores.
    OneSet,
}

pub const PICKS_PER_EPOCH: usize = 10;

pub const PAIRS: u64 = 20;
/// A multiple of every number of slots that the work is measured with.
const PAIR_DISTANCE: u64 = 256;
/// A multiple of every number of sets that the work is measured with.
const SET_DISTANCE: u64 = 64;

impl Order {
    pub const ALL: [Order; 5] = [
        Order::ByPicks,
        Order::ByPicksEvicted,
        Order::Scattered,
        Order::Jacquard,
        Order::OneSet,
    ];

    pub fn name(self) -> &'static str {
        match self {
            Order::Scattered => "scattered",
            Order::ByPicks => "by picks",
            Order::ByPicksEvicted => "picks, evicted",
            Order::Jacquard => "jacquard",
            Order::OneSet => "one set",
        }
    }

    /// The lines of a loom on a board of so many.
    pub fn lines(self, random: &mut Random, board_lines: u64) -> Vec<u64> {
        match self {
            Order::Scattered => scattered_lines(random, board_lines),
            Order::ByPicks | Order::ByPicksEvicted => (0..LINES_OF_A_LOOM as u64).collect(),
            Order::Jacquard => (0..PAIRS).flat_map(|line| [line, line + PAIR_DISTANCE]).collect(),
            Order::OneSet => (0..LINES_OF_A_LOOM as u64).map(|line| line * SET_DISTANCE).collect(),
        }
    }

    /// The address of store number `turn` of an epoch.
    pub fn address(self, random: &mut Random, lines: &[u64], turn: usize) -> u64 {
        match self {
            Order::Scattered => random.pick(lines),
            Order::ByPicks | Order::ByPicksEvicted => {
                let lines = lines_of_pick(lines, pick_of(turn));
                lines[turn % lines.len()]
            }
            Order::Jacquard | Order::OneSet => lines[turn % lines.len()],
        }
    }

    /// The address of the access that comes after that store.
    fn accessed(self, random: &mut Random, lines: &[u64], turn: usize) -> u64 {
        match self {
            // The lines of a pair are neighbours in the list, the first in an even place.
            Order::Jacquard => lines[(turn % lines.len()) ^ 1],
            // A line that is stored to half a round later.
            Order::OneSet => lines[(turn + lines.len() / 2) % lines.len()],
            _ => self.address(random, lines, turn),
        }
    }

    /// What the controller evicts after a turn.
    fn evicted(self, lines: &[u64], turn: usize) -> &[u64] {
        if self == Order::ByPicksEvicted && pick_of(turn + 1) != pick_of(turn) {
            lines_of_pick(lines, pick_of(turn))
        } else {
            &[]
        }
    }
}

/// The pick in which a turn of an epoch comes.
pub fn pick_of(turn: usize) -> usize {
    turn * PICKS_PER_EPOCH / STORES_PER_EPOCH
}

/// The lines that a pick works on. Each epoch has the same picks.
pub fn lines_of_pick(lines: &[u64], pick: usize) -> &[u64] {
    let count = lines.len() / PICKS_PER_EPOCH;
    &lines[pick % PICKS_PER_EPOCH * count..][..count]
}

/// What an epoch's calls are made of.
#[derive(Clone, Copy)]
pub struct Work<'a> {
    pub order: Order,
    /// The lines of the loom.
    pub lines: &'a [u64],
    /// What comes after each store.
    pub access: fn(u64) -> Call,
    pub scans_per_epoch: usize,
}

impl Work<'_> {
    pub fn without_scans(self) -> Self {
        Work {
            scans_per_epoch: 0,
            ..self
        }
    }

    /// The turns of an epoch, and a commit.
    pub fn epoch(self, random: &mut Random) -> Vec<Call> {
        let turns = (0..STORES_PER_EPOCH).flat_map(|turn| self.turn(random, turn));
        turns.chain([Call::COMMIT]).collect()
    }

    /// A store, an access, and the scan calls that are due then: they are spread evenly over the epoch. Then what is evicted.
    pub fn turn(self, random: &mut Random, turn: usize) -> Vec<Call> {
        let store = Call::store(self.order.address(random, self.lines, turn), random.word());
        let access = (self.access)(self.order.accessed(random, self.lines, turn));
        let scans_before = |turn: usize| (turn * self.scans_per_epoch).div_ceil(STORES_PER_EPOCH);
        let scans = scans_before(turn + 1) - scans_before(turn);
        let evicted = self.order.evicted(self.lines, turn).iter().copied();
        [store, access]
            .into_iter()
            .chain(vec![Call::SCAN; scans])
            .chain(evicted.map(Call::evict))
            .collect()
    }
}

fn scattered_lines(random: &mut Random, board_lines: u64) -> Vec<u64> {
    let mut lines = Vec::new();
    while lines.len() < LINES_OF_A_LOOM {
        let address = random.below(board_lines);
        if !lines.contains(&address) {
            lines.push(address);
        }
    }
    lines
}
