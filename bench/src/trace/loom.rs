//! The loom's work as a trace: by picks, on the replay's largest board.

use super::file::trace_of;
use super::run::{Outcome, Run, Totals};
use crate::call::Call;
use crate::handwritten::names::name_of;
use crate::interface::{NONE, OK};
use crate::loom::workload::{lines_of_pick, pick_of, Order, Work, PICKS_PER_EPOCH, STORES_PER_EPOCH};
use crate::random::Random;
use crate::replay::line_of;
use crate::repository::write;
use crate::sizes::{Sizes, MOST_OF_THE_REPLAY};
use std::path::Path;

const SIZES: Sizes = MOST_OF_THE_REPLAY;
const SEED: u64 = 2_600_400;

/// The calls of a trace that is long enough to be timed, at least.
const TIMED_CALLS: usize = 1_000_000;

/// Writes so many epochs as a trace, and prints how its run ends and what each kind of call has stored.
pub fn write_trace(file: &str, epochs: u64) -> Result<(), String> {
    if epochs == 0 {
        return Err("the loom's work is one epoch or more".to_string());
    }
    let calls = calls_of_epochs(epochs);
    let outcome = outcome_of(&calls)?;
    write(Path::new(file), &trace_of(&calls)?)?;
    println!("{outcome}\n");
    println!("{} calls in {epochs} epochs\n", calls.len());
    print_stores(outcome.totals, epochs);
    Ok(())
}

/// Writes the same calls as a trace and as a script, enough of them to be timed, and prints how the trace's run ends, then
/// the number of calls.
pub fn write_timed(trace: &str, script: &str) -> Result<(), String> {
    let epochs = TIMED_CALLS.div_ceil(calls_of_epochs(1).len());
    let calls = calls_of_epochs(epochs as u64);
    let outcome = outcome_of(&calls)?;
    write(Path::new(trace), &trace_of(&calls)?)?;
    write(Path::new(script), script_of(&calls)?.as_bytes())?;
    println!("{outcome}\n{}", calls.len());
    Ok(())
}

fn calls_of_epochs(epochs: u64) -> Vec<Call> {
    let random = &mut Random::new(SEED);
    let order = Order::ByPicks;
    let lines = order.lines(random, SIZES.lines);
    let work = Work {
        order,
        lines: &lines,
        access: Call::load,
        scans_per_epoch: SIZES.slots as usize + 1,
    };
    (0..epochs).flat_map(|_| epoch(work, random)).collect()
}

fn epoch(work: Work, random: &mut Random) -> Vec<Call> {
    let mut calls = Vec::new();
    for turn in 0..STORES_PER_EPOCH {
        calls.extend(work.turn(random, turn));
        if pick_of(turn + 1) != pick_of(turn) {
            calls.extend(change_of_picks(work.lines, pick_of(turn)));
        }
    }
    calls.push(Call::COMMIT);
    calls
}

/// The controller reads the lines of the next pick, and then gives back those of the pick before the one that is done, for which
/// it has no use before the next epoch. Those of two picks fill the cache, and some are in the way of the third's: so loads make
/// board stores, and evictions the rest.
fn change_of_picks(lines: &[u64], done: usize) -> impl Iterator<Item = Call> + '_ {
    let loads = lines_of_pick(lines, done + 1).iter().copied().map(Call::load);
    let evictions = lines_of_pick(lines, done + PICKS_PER_EPOCH - 1)
        .iter()
        .copied()
        .map(Call::evict);
    loads.chain(evictions)
}

/// Makes the calls. Any refusal but that of a scan when no epoch waits is a fault of the work.
fn outcome_of(calls: &[Call]) -> Result<Outcome, String> {
    let mut run = Run::start(SIZES).map_err(|outcome| format!("the board does not start: {outcome}"))?;
    for &call in calls {
        run.make(call);
    }
    let outcome = run.end(OK);
    match outcome.answered.iter().find(|&&number| number != OK && number != NONE) {
        Some(&number) => Err(format!("a call of the loom answered {number} {}", name_of(number))),
        None => Ok(outcome),
    }
}

fn script_of(calls: &[Call]) -> Result<String, String> {
    let Sizes { lines, entries, slots } = SIZES;
    let mut script = format!("n {lines} {entries} {slots}\n");
    for &call in calls {
        let line = line_of(call).ok_or_else(|| format!("{call}: no line"))?;
        script.push_str(&line);
        script.push('\n');
    }
    Ok(script)
}

fn print_stores(totals: Totals, epochs: u64) {
    let Totals {
        loads,
        stores,
        evictions,
        scans,
    } = totals;
    let rows = [
        ("loads", loads),
        ("stores", stores),
        ("evictions", evictions),
        ("scans", scans),
        ("all", loads + stores + evictions + scans),
    ];
    println!("{:<24}{:>10}{:>10}", "board stores made by", "in all", "an epoch");
    for (kind, total) in rows {
        println!("{kind:<24}{total:>10}{:>10.1}", total as f64 / epochs as f64);
    }
}

#[cfg(test)]
mod tests {
    use super::super::run::run;
    use super::*;

    #[test]
    fn the_trace_runs_as_the_calls_do_and_every_kind_stores() {
        let calls = calls_of_epochs(3);
        let outcome = outcome_of(&calls).unwrap();
        let Totals {
            loads,
            stores,
            evictions,
            scans,
        } = outcome.totals;
        assert!([loads, stores, evictions, scans].iter().all(|&total| total > 0));
        assert_eq!(run(SIZES, Some(&trace_of(&calls).unwrap())), outcome);
    }
}
