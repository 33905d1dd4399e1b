//! What the loom's work asks of a board: undo entries, waiting epochs, board stores and the filter's false hits, counted by
//! replaying it on the library, and the log's size that follows, tried out. Each plan is a line of one table. A second table has how
//! long a controller may be too busy to scan, a third what it takes to persist as many epochs as may wait, one by one and in one pass.
//! By itself: a day of it.

mod backlog;
mod controller;
mod day;
mod pauses;
pub mod workload;

pub use day::print_day;

use backlog::{persist_both_ways, Cost};
use controller::{work_through, Figures, Plan, EPOCHS_COUNTED};
use pauses::longest_pause;
use workload::{Order, LINES_OF_A_LOOM, PAIRS, STORES_PER_EPOCH};

use crate::handwritten::layout::MOST_ENTRIES;

const SLOTS: [usize; 3] = [64, 128, 256];

/// Scan calls an epoch, as multiples of the S + 1 that persist one.
const SCAN_RATES: [usize; 2] = [1, RECOMMENDED_RATE];
const RECOMMENDED_RATE: usize = 2;

/// What each column has, in two lines, and how wide it is; before the first comes the order of the work.
type Column = (&'static str, &'static str, usize);

const COLUMNS: [Column; 12] = [
    ("S", "", 4),
    ("scans", "/epoch", 7),
    ("entries", "/epoch", 9),
    ("waiting", "at once", 9),
    ("log", "needed", 8),
    ("stores", "/epoch", 9),
    ("entry", "words", 8),
    ("control", "words", 8),
    ("line", "words", 8),
    ("write-outs", "with b > 0", 11),
    ("false", "hits", 7),
    ("refused", "below", 9),
];

const PAUSE_COLUMNS: [Column; 5] = [
    ("S", "", 4),
    ("scans", "/epoch", 7),
    ("pause,", "epochs", 9),
    ("one more:", "refused", 11),
    ("scans in", "one go", 10),
];

/// One by one, and in one pass.
const BACKLOG_COLUMNS: [Column; 10] = [
    ("S", "", 4),
    ("epochs", "waiting", 9),
    ("1 by 1:", "scans", 9),
    ("", "stores", 8),
    ("control", "words", 9),
    ("line", "words", 7),
    ("1 pass:", "scans", 10),
    ("", "stores", 8),
    ("control", "words", 9),
    ("line", "words", 7),
];

pub fn print_figures() -> Result<(), String> {
    println!(
        "The loom: {STORES_PER_EPOCH} stores and as many loads an epoch, to {LINES_OF_A_LOOM} lines (jacquard: to {PAIRS} pairs); \
         {EPOCHS_COUNTED} epochs counted.\n\
         log needed: the most entries at once, in log and buffer. refused below: with a log of one less, or of the {MOST_ENTRIES} that a \
         board\ncan have where more are needed, so many stores are refused for room. Each is made again behind scan calls in one go.\n"
    );
    print_header(&COLUMNS);
    for plan in plans() {
        print_row(plan)?;
    }
    print_pauses()?;
    print_backlog_figures()
}

fn plans() -> impl Iterator<Item = Plan> {
    Order::ALL.into_iter().flat_map(|order| {
        SLOTS
            .into_iter()
            .flat_map(move |slots| SCAN_RATES.map(|rate| plan(order, slots, rate)))
    })
}

/// How long a controller may be too busy to scan.
fn print_pauses() -> Result<(), String> {
    println!(
        "\nA log of {MOST_ENTRIES} entries, and so many epochs in a row without scan calls, behind which the scan calls go on: no store is \
         refused for\nroom. With one epoch more so many are, and so many scan calls at most are made in one go before one is made again; \
         -: even without\na pause.\n"
    );
    print_header(&PAUSE_COLUMNS);
    for plan in plans() {
        let pause = longest_pause(plan)?;
        let beyond = pause
            .beyond
            .map(|figures| [figures.refused_for_room, figures.most_late_scans]);
        let cells = [
            plan.slots.to_string(),
            plan.scans_per_epoch.to_string(),
            pause.epochs.map_or("-".to_string(), |epochs| epochs.to_string()),
        ];
        let cells_beyond = beyond.map_or(["", ""].map(String::from), |counts| {
            counts.map(|count| count.to_string())
        });
        print_line(&PAUSE_COLUMNS, plan.order.name(), &[&cells[..], &cells_beyond].concat());
    }
    Ok(())
}

/// What it takes to persist as many epochs as may wait.
fn print_backlog_figures() -> Result<(), String> {
    println!(
        "\nAs many epochs wait as may and as a log of {MOST_ENTRIES} entries has room for, the running one being empty: all of them persisted \
         one by one,\na pass of scan calls for each, and, from the same state, in one pass after a begin call. Both boards wake with the \
         same lines.\n"
    );
    print_header(&BACKLOG_COLUMNS);
    for order in Order::ALL {
        for slots in SLOTS {
            let costs = persist_both_ways(plan(order, slots, RECOMMENDED_RATE))?;
            let cells = [costs.one_by_one, costs.in_one_pass].map(cost_cells).concat();
            let waiting = vec![slots.to_string(), costs.epochs.to_string()];
            print_line(&BACKLOG_COLUMNS, order.name(), &[waiting, cells].concat());
        }
    }
    Ok(())
}

fn cost_cells(cost: Cost) -> Vec<String> {
    let Cost { scans, figures } = cost;
    let counts = [scans, figures.stores(), figures.control_stores, figures.line_stores];
    counts.map(|count| count.to_string()).to_vec()
}

/// The loom's work with as many scan calls an epoch as persist so many, and the largest log.
fn plan(order: Order, slots: usize, rate: usize) -> Plan {
    Plan {
        order,
        slots,
        entries: MOST_ENTRIES,
        scans_per_epoch: rate * (slots + 1),
    }
}

fn print_header(columns: &[Column]) {
    let [headings, below]: [Vec<String>; 2] = [
        columns.iter().map(|(heading, ..)| heading.to_string()).collect(),
        columns.iter().map(|(_, below, _)| below.to_string()).collect(),
    ];
    print_line(columns, "order", &headings);
    print_line(columns, "", &below);
}

fn print_line(columns: &[Column], order: &str, cells: &[String]) {
    let cells = columns
        .iter()
        .zip(cells)
        .map(|(&(.., width), cell)| format!("{cell:>width$}"));
    println!("{}", format!("{order:<15}{}", cells.collect::<String>()).trim_end());
}

fn print_row(plan: Plan) -> Result<(), String> {
    let figures = work_through(plan)?;
    let [entry_words, control_words, line_words] =
        [figures.entry_stores, figures.control_stores, figures.line_stores].map(per_epoch);
    let false_hits = format!("{:.2}", figures.false_hits as f64 / EPOCHS_COUNTED as f64);
    let cells = [
        plan.slots.to_string(),
        plan.scans_per_epoch.to_string(),
        figures.most_entries_in_an_epoch.to_string(),
        figures.most_waiting.to_string(),
        log_needed(figures),
        (entry_words + control_words + line_words).to_string(),
        entry_words.to_string(),
        control_words.to_string(),
        line_words.to_string(),
        per_epoch(figures.write_outs_beside_entries).to_string(),
        false_hits,
        refused_below(plan, figures)?.to_string(),
    ];
    print_line(&COLUMNS, plan.order.name(), &cells);
    Ok(())
}

fn log_needed(figures: Figures) -> String {
    match figures.refused_for_room {
        0 => figures.most_entries_at_once.to_string(),
        _ => format!("> {MOST_ENTRIES}"),
    }
}

/// How many stores are refused for room with the largest log, or else with one entry less than was needed; with just as many as were
/// needed none may be.
fn refused_below(plan: Plan, figures: Figures) -> Result<u64, String> {
    if figures.refused_for_room > 0 {
        return Ok(figures.refused_for_room);
    }
    let enough = figures.most_entries_at_once;
    let refused = |entries| work_through(Plan { entries, ..plan }).map(|figures| figures.refused_for_room);
    match (refused(enough)?, refused(enough - 1)?) {
        (0, below @ 1..) => Ok(below),
        _ => Err("the log's size is not what the replay says".to_string()),
    }
}

fn per_epoch(count: u64) -> u64 {
    count.div_ceil(EPOCHS_COUNTED as u64)
}
