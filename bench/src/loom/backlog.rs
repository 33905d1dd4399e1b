//! As many epochs of the loom's work as may wait and the log has room for, persisted one by one, each by a pass of its own, and all of
//! them in one pass: what either takes, from the same state.

use super::controller::{Controller, Figures, Plan, SEED};
use crate::call::Call;
use crate::handwritten::layout::{MOST_LINES, MOST_WAITING};
use crate::interface::OK;
use crate::random::Random;

/// What it took to persist them: scan calls, and board stores of each kind.
#[derive(Clone, Copy, Debug)]
pub struct Cost {
    pub scans: u64,
    pub figures: Figures,
}

#[derive(Clone, Copy, Debug)]
pub struct Costs {
    /// How many epochs have waited.
    pub epochs: u64,
    pub one_by_one: Cost,
    pub in_one_pass: Cost,
}

/// Persists the epochs that wait both ways. An error is a call that is refused, or two boards that restart with other
/// lines or epochs.
pub fn persist_both_ways(plan: Plan) -> Result<Costs, String> {
    let waiting = with_backlog(plan)?;
    let epochs = waiting.waiting();
    let newest = waiting.registers().epoch - 1;

    let mut step_by_step = waiting.clone();
    let mut one_by_one = Vec::new();
    for _ in 0..epochs {
        one_by_one.push(step_by_step.persist()?);
    }

    let mut at_once = waiting;
    begin(&mut at_once, newest)?;
    let in_one_pass = at_once.persist()?;

    let costs = Costs {
        epochs,
        one_by_one: Cost {
            scans: one_by_one.iter().sum(),
            figures: step_by_step.figures,
        },
        in_one_pass: Cost {
            scans: in_one_pass,
            figures: at_once.figures,
        },
    };
    hold_to_each_other(step_by_step, at_once, newest)?;
    Ok(costs)
}

/// A controller that has worked with scan calls, and then without any, as many epochs as may wait and the log has room for. The running
/// one is empty.
fn with_backlog(plan: Plan) -> Result<Controller, String> {
    let random = &mut Random::new(SEED);
    let lines = plan.order.lines(random, MOST_LINES);
    let work = plan.work(&lines);
    let mut controller = Controller::in_midst(plan, work, random)?;
    while controller.waiting() < MOST_WAITING {
        let mut with_one_more = controller.clone();
        with_one_more.epoch(&work.without_scans().epoch(random))?;
        if with_one_more.figures.refused_for_room > 0 {
            break;
        }
        controller = with_one_more;
    }
    controller.figures = Figures::default();
    Ok(controller)
}

fn begin(controller: &mut Controller, target: u64) -> Result<(), String> {
    match controller.make(Call::Begin { target })?.number {
        OK => Ok(()),
        number => Err(format!("begin answered {number}")),
    }
}

/// Both have to have persisted the newest epoch that waited, and to restart with the same lines.
fn hold_to_each_other(mut one: Controller, mut other: Controller, newest: u64) -> Result<(), String> {
    for controller in [&mut one, &mut other] {
        controller.make(Call::POWER_UP)?;
        if controller.control().persisted != newest {
            return Err(format!(
                "epoch {} is persisted instead of {newest}",
                controller.control().persisted
            ));
        }
    }
    let lines = |controller: &Controller| {
        let board = controller.board();
        board[board.len() - MOST_LINES as usize..].to_vec()
    };
    match lines(&one) == lines(&other) {
        true => Ok(()),
        false => Err("the lines that are persisted differ".to_string()),
    }
}
