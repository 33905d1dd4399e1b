//! The groups of inputs. Each is a function that plays one history.

mod arrays;
mod boards;
mod convert;
mod count;
mod damaged;
mod filter;
mod hex;
mod hex_in;
mod histories;
mod large;
mod last_epochs;
mod log_edges;
mod names;
mod pass;
mod random_words;
mod records;
mod sets;

use super::player::{Outcome, Player};
use super::sides::Lent;
use crate::call::Call;
use crate::random::Random;
use crate::sizes::Sizes;

pub struct Group {
    pub name: &'static str,
    /// The group's part of all calls, in thousandths.
    pub share: u64,
    pub history: fn(&mut Player) -> Outcome,
}

pub const GROUPS: [Group; 16] = [
    Group {
        name: "histories",
        share: 150,
        history: histories::history,
    },
    Group {
        name: "damaged",
        share: 118,
        history: damaged::history,
    },
    Group {
        name: "random-words",
        share: 110,
        history: random_words::history,
    },
    Group {
        name: "log-edges",
        share: 80,
        history: log_edges::history,
    },
    Group {
        name: "filter",
        share: 60,
        history: filter::history,
    },
    Group {
        name: "count",
        share: 60,
        history: count::history,
    },
    Group {
        name: "sets",
        share: 60,
        history: sets::history,
    },
    Group {
        name: "pass",
        share: 60,
        history: pass::history,
    },
    Group {
        name: "last-epochs",
        share: 60,
        history: last_epochs::history,
    },
    Group {
        name: "arrays",
        share: 60,
        history: arrays::history,
    },
    Group {
        name: "hex",
        share: 40,
        history: hex::history,
    },
    Group {
        name: "hex-in",
        share: 40,
        history: hex_in::history,
    },
    Group {
        name: "convert",
        share: 70,
        history: convert::history,
    },
    Group {
        name: "records",
        share: 20,
        history: records::history,
    },
    Group {
        name: "names",
        share: 10,
        history: names::history,
    },
    Group {
        name: "large",
        share: 2,
        history: large::history,
    },
];

/// How many states a history of single states has.
const STATES: u64 = 16;

/// States that are lent one after the other, and some calls on each.
fn play_states(
    player: &mut Player,
    sizes: Sizes,
    lend: fn(&mut Player, Sizes),
    draw_call: fn(&mut Random, Sizes, &Lent) -> Call,
) -> Outcome {
    for _ in 0..STATES {
        lend(player, sizes);
        for _ in 0..player.random.between(1, 3) {
            let call = draw_call(&mut player.random, sizes, &player.state);
            player.make(call)?;
        }
    }
    Ok(())
}
