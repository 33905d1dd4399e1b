//! A day of the loom's work, epoch by epoch, at three rates of scan calls: how many epochs wait, and how full the log is. Now and then
//! the controller is too busy to scan. `docs/picture` draws it.

use super::controller::{Controller, Plan, SEED};
use super::workload::{Order, STORES_PER_EPOCH};
use crate::call::{Call, Kind};
use crate::handwritten::layout::{MOST_ENTRIES, MOST_LINES};
use crate::interface::ROOM;
use crate::random::Random;
use std::ops::Range;

const HOUR: u64 = 60 * 60;
const EPOCHS_OF_A_DAY: u64 = 24 * HOUR;

const ORDER: Order = Order::ByPicksEvicted;
const SLOTS: usize = 64;

/// One less than the S + 1 scan calls that persist an epoch, just these, and twice as many.
const SCAN_RATES: [usize; 3] = [SLOTS, SLOTS + 1, 2 * (SLOTS + 1)];

const ENTRIES: u64 = MOST_ENTRIES;

/// At each full hour so many epochs have no scan calls; at noon as many as the log has room for at the highest of these rates
/// (`bench/run loom`, its second table).
const BUSY_EPOCHS: u64 = 1;
const NOON: u64 = 12;
const BUSY_EPOCHS_AT_NOON: u64 = 8;

/// What an epoch has met.
#[derive(Clone, Copy, Debug, PartialEq, Eq)]
struct Met {
    /// The epochs that wait when it begins: during it no other joins them.
    waiting: u64,
    /// The most entries at once, in log and buffer.
    entries: u64,
    /// Its stores that were refused for room at first, and the scan calls that were then made in one go, until passes had ended.
    refused: u64,
    late_scans: u64,
}

/// Prints a line for each epoch that has met other figures than the one before it.
pub fn print_day() -> Result<(), String> {
    println!(
        "# {EPOCHS_OF_A_DAY} epochs of the loom at each rate of scan calls: {STORES_PER_EPOCH} stores and as many loads an epoch, {}, \
         S = {SLOTS}, L = {ENTRIES}.",
        ORDER.name(),
    );
    println!(
        "# Each full hour begins with {BUSY_EPOCHS} epoch without scan calls, {NOON}:00 with {BUSY_EPOCHS_AT_NOON}. \
         An epoch that is not listed is like the one before it."
    );
    println!("scans\tepoch\twaiting\tentries\trefused\tlate_scans");
    for scans in SCAN_RATES {
        let mut last = None;
        work_through(scans, 0..EPOCHS_OF_A_DAY, |epoch, met| {
            if last.replace(met) != Some(met) {
                print_epoch(scans, epoch, met);
            }
        })?;
    }
    Ok(())
}

fn print_epoch(scans: usize, epoch: u64, met: Met) {
    let Met {
        waiting,
        entries,
        refused,
        late_scans,
    } = met;
    println!("{scans}\t{epoch}\t{waiting}\t{entries}\t{refused}\t{late_scans}");
}

/// Works through these epochs of the day on a new board, with so many scan calls in each, and says what each has met.
fn work_through(scans_per_epoch: usize, epochs: Range<u64>, mut say: impl FnMut(u64, Met)) -> Result<(), String> {
    let plan = Plan {
        order: ORDER,
        slots: SLOTS,
        entries: ENTRIES,
        scans_per_epoch,
    };
    let random = &mut Random::new(SEED);
    let lines = plan.order.lines(random, MOST_LINES);
    let work = plan.work(&lines);
    // The stores are the same in each epoch, their data too: the library does not compare data.
    let [usual, busy] = [work, work.without_scans()].map(|work| work.epoch(random));
    let mut controller = Controller::start(plan)?;
    for epoch in epochs {
        let calls = if is_busy(epoch) { &busy } else { &usual };
        say(epoch, work_epoch(&mut controller, calls)?);
    }
    Ok(())
}

/// Whether it is one of those with which an hour begins. The day begins at work.
fn is_busy(epoch: u64) -> bool {
    let busy_epochs = match epoch / HOUR {
        0 => 0,
        NOON => BUSY_EPOCHS_AT_NOON,
        _ => BUSY_EPOCHS,
    };
    epoch % HOUR < busy_epochs
}

fn work_epoch(controller: &mut Controller, calls: &[Call]) -> Result<Met, String> {
    let mut met = Met {
        waiting: controller.waiting(),
        entries: 0,
        refused: 0,
        late_scans: 0,
    };
    for &call in calls {
        match call.kind() {
            Kind::Store => store(controller, call, &mut met)?,
            _ => {
                controller.make(call)?;
            }
        }
    }
    Ok(met)
}

fn store(controller: &mut Controller, call: Call, met: &mut Met) -> Result<(), String> {
    while controller.make(call)?.number == ROOM {
        met.refused += 1;
        met.late_scans += controller.make_room()?;
    }
    met.entries = met.entries.max(controller.entries_at_once());
    Ok(())
}

#[cfg(test)]
mod tests {
    use super::*;

    fn met_by(scans: usize, epochs: Range<u64>) -> Vec<Met> {
        let mut all = Vec::new();
        work_through(scans, epochs, |_, met| all.push(met)).unwrap();
        all
    }

    #[test]
    fn hours_begin_busy_and_noon_for_longest() {
        let busy: Vec<u64> = (0..EPOCHS_OF_A_DAY).filter(|&epoch| is_busy(epoch)).collect();
        assert_eq!(busy.len() as u64, 22 * BUSY_EPOCHS + BUSY_EPOCHS_AT_NOON);
        assert_eq!(busy[..2], [HOUR, 2 * HOUR]);
        assert!((NOON * HOUR..NOON * HOUR + BUSY_EPOCHS_AT_NOON).all(is_busy));
        assert!(!is_busy(NOON * HOUR + BUSY_EPOCHS_AT_NOON));
    }

    /// Worked by hand: each epoch is one scan call short, so that two wait from epoch 2 on, and one more every 65 epochs. Ten epochs of
    /// 400 entries and 95 of the running one fill the log: in the 65 epochs from 2 + 8 * 65 on, when ten wait. From then on each
    /// epoch has one store refused, and the scan call that it lacks behind it.
    #[test]
    fn one_scan_call_too_few_ends_in_a_full_log() {
        let mets = met_by(SLOTS, 0..1_000);
        let first = mets.iter().position(|met| met.refused > 0).unwrap();
        assert!((2 + 8 * 65..2 + 9 * 65).contains(&first));
        for met in &mets[first..] {
            assert_eq!((met.waiting, met.entries), (10, ENTRIES));
            assert_eq!((met.refused, met.late_scans), (1, 1));
        }
    }

    /// The noon pause by itself: at the least rate what it adds stays, at twice that it goes again, one epoch in each.
    #[test]
    fn twice_the_least_rate_alone_catches_up() {
        let noon = NOON * HOUR;
        let about_noon = noon - 5..noon + 40;
        let waiting = |scans| -> Vec<u64> {
            met_by(scans, about_noon.clone())
                .iter()
                .map(|met| met.waiting)
                .collect()
        };
        let pause = BUSY_EPOCHS_AT_NOON;
        let risen: Vec<u64> = (1..=1 + pause).collect();
        let fallen: Vec<u64> = (1..=pause).rev().collect();
        let [least, twice] = [SLOTS + 1, 2 * (SLOTS + 1)].map(waiting);
        assert_eq!(least[5..=5 + pause as usize], risen);
        assert!(least[5 + pause as usize..].iter().all(|&epochs| epochs == 1 + pause));
        assert_eq!(twice[5..=5 + pause as usize], risen);
        assert_eq!(twice[6 + pause as usize..][..pause as usize], fallen);
        assert!(twice[6 + 2 * pause as usize..].iter().all(|&epochs| epochs == 1));
    }
}
