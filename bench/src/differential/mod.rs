//! The differential test: each call on two copies of the same state, one by the library and one by the hand-written
//! Rust, and all that they answer and leave compared word for word.

mod asked;
mod convert_turns;
mod count_turns;
mod damage;
mod difference;
mod faults;
mod filter_turns;
mod groups;
mod habit;
mod hex_in_turns;
mod hex_text;
mod hex_turns;
mod layout_turns;
mod name_turns;
mod occurrences;
mod pass_turns;
mod passes;
mod player;
mod power_up_turns;
mod record_turns;
mod set_turns;
mod sides;
mod turn_lists;
mod words;
mod would_be;

use crate::random::Random;
use difference::Difference;
use groups::{Group, GROUPS};
use occurrences::Occurrences;
use player::Player;

pub const DEFAULT_SEED: u64 = 1;
pub const DEFAULT_CALLS: u64 = 10_000_000;

pub struct Options {
    pub seed: u64,
    pub calls: u64,
    /// The one group and history to play, where not all are to be.
    pub only: Option<(String, u64)>,
}

/// Plays the groups and prints what occurred. An error is the first difference, or what never occurred.
pub fn run(options: &Options) -> Result<(), String> {
    match &options.only {
        Some((name, history)) => run_one(options.seed, name, *history),
        None => run_all(options),
    }
}

fn run_all(options: &Options) -> Result<(), String> {
    let mut total = Occurrences::default();
    println!("{}", Occurrences::header());
    for group in &GROUPS {
        let mut player = Player::new();
        let calls = options.calls * group.share / 1000;
        let mut history = 0;
        while player.occurrences.calls() < calls {
            let calls_before = total.calls() + player.occurrences.calls();
            play(&mut player, group, options.seed, history, calls_before)?;
            history += 1;
        }
        println!("{}", player.occurrences.line(group.name));
        total.add(&player.occurrences);
    }
    println!("\n{}", Occurrences::header());
    print_lines(&total.lines_by_function());
    println!("\nRare turns, and how often they were taken:");
    print_lines(&total.lines_of_turns());
    let missing = total.missing();
    if !missing.is_empty() {
        return Err(format!(
            "These never occurred, so the test has not tried them (more --calls may):\n  {}",
            missing.join("\n  ")
        ));
    }
    println!("\n{} calls compared, 0 differences", total.calls());
    Ok(())
}

fn run_one(seed: u64, name: &str, history: u64) -> Result<(), String> {
    let Some(group) = GROUPS.iter().find(|group| group.name == name) else {
        let names = GROUPS.map(|group| group.name).join(", ");
        return Err(format!("There is no group {name}. The groups: {names}"));
    };
    let mut player = Player::new();
    play(&mut player, group, seed, history, 0)?;
    println!("{}", Occurrences::header());
    println!("{}", player.occurrences.line(group.name));
    println!("\n{} calls compared, 0 differences", player.occurrences.calls());
    Ok(())
}

fn play(player: &mut Player, group: &Group, seed: u64, history: u64, calls_before: u64) -> Result<(), String> {
    let name_bytes = group.name.bytes().map(u64::from);
    let place: Vec<u64> = [seed, history].into_iter().chain(name_bytes).collect();
    player.start_history(Random::for_place(&place));
    (group.history)(player).map_err(|difference| report(&difference, group.name, seed, history, calls_before))
}

fn report(difference: &Difference, group: &str, seed: u64, history: u64, calls_before: u64) -> String {
    format!(
        "DIFFERENCE, marked with *, in group {group}, seed {seed}, history {history}, call {} of it, \
         call {} of this run, the first counted 0\n{difference}  again        bench/run test --seed {seed} --only {group}:{history}",
        difference.place,
        calls_before + difference.place,
    )
}

fn print_lines(lines: &[String]) {
    for line in lines {
        println!("{line}");
    }
}
