//! How many epochs in a row a controller may be too busy to scan, with a log that has as many entries as a board can have: none of its
//! stores is refused for room then, during these epochs and while it catches up. And what the next epoch without scan calls costs.

use super::controller::{Controller, Figures, Plan, SEED};
use crate::handwritten::layout::{MOST_LINES, MOST_WAITING};
use crate::random::Random;

/// Before such epochs one waits, and two where its pass is not done: with so many more the last commit is accepted.
const LONGEST_PAUSE: u64 = MOST_WAITING - 2;

/// Epochs behind the pause: as many as may wait, and some more.
const EPOCHS_AFTER: u64 = 20;

#[derive(Clone, Copy, Debug)]
pub struct Pause {
    /// How many epochs without scan calls have room, or none where even work with them has not.
    pub epochs: Option<u64>,
    /// With one epoch more, or else in work with all scan calls: stores refused for room, and the most scan calls in one go
    /// behind one.
    pub beyond: Option<Figures>,
}

pub fn longest_pause(plan: Plan) -> Result<Pause, String> {
    for epochs in 0..=LONGEST_PAUSE {
        let figures = work_through_pause(plan, epochs)?;
        if figures.refused_for_room > 0 {
            return Ok(Pause {
                epochs: epochs.checked_sub(1),
                beyond: Some(figures),
            });
        }
    }
    Ok(Pause {
        epochs: Some(LONGEST_PAUSE),
        beyond: None,
    })
}

/// The loom's work, so many epochs of it without scan calls, and more with them.
fn work_through_pause(plan: Plan, pause: u64) -> Result<Figures, String> {
    let random = &mut Random::new(SEED);
    let lines = plan.order.lines(random, MOST_LINES);
    let work = plan.work(&lines);
    let mut controller = Controller::in_midst(plan, work, random)?;
    for _ in 0..pause {
        controller.epoch(&work.without_scans().epoch(random))?;
    }
    for _ in 0..EPOCHS_AFTER {
        controller.epoch(&work.epoch(random))?;
    }
    Ok(controller.figures)
}

#[cfg(test)]
mod tests {
    use super::super::workload::{Order, LINES_OF_A_LOOM};
    use super::*;

    const SLOTS: usize = 64;

    fn evicted_at_twice_the_least_rate(entries: u64) -> Plan {
        Plan {
            order: Order::ByPicksEvicted,
            slots: SLOTS,
            entries,
            scans_per_epoch: 2 * (SLOTS + 1),
        }
    }

    /// Worked by hand: each line makes one entry an epoch, and the first pass behind the pause ends in mid-epoch. So three epochs
    /// without scan calls, the one before them and half of the one behind have to have room.
    #[test]
    fn a_pause_has_room_for_its_entries_and_one_epoch_and_a_half() {
        let lines = LINES_OF_A_LOOM as u64;
        let enough = 3 * lines + lines + lines / 2;
        let just = longest_pause(evicted_at_twice_the_least_rate(enough)).unwrap();
        assert_eq!(just.epochs, Some(3));
        let less = longest_pause(evicted_at_twice_the_least_rate(enough - 1)).unwrap();
        assert_eq!(less.epochs, Some(2));
        assert!(less.beyond.unwrap().most_late_scans <= SLOTS as u64 + 1);
    }

    /// Two epochs have more entries than the log, and one waits whenever the next begins.
    #[test]
    fn a_log_that_is_too_small_for_work_has_room_for_no_pause() {
        let pause = longest_pause(evicted_at_twice_the_least_rate(LINES_OF_A_LOOM as u64)).unwrap();
        assert_eq!(pause.epochs, None);
        assert!(pause.beyond.unwrap().refused_for_room > 0);
    }
}
