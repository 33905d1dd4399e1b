//! Lines of stored traces, worked by hand from the paper, and what the traces are stored for.

use super::broken::{BROKEN, PARTS};
use super::cases::{cases, named, traces};
use super::histories::{every_kind, records, SMALL};
use super::run::{run, Outcome, Totals};
use crate::call::Call;
use crate::interface::{OK, TRACE};
use std::collections::BTreeSet;

const KIB_64: usize = 65_536;

fn outcome(name: &str) -> Outcome {
    let traces = traces();
    let trace = named(&traces, name);
    run(trace.sizes, Some(&trace.bytes))
}

fn line(name: &str) -> String {
    outcome(name).to_string()
}

/// The line of `every_kind` with further calls behind it.
fn line_with(calls: &[Call]) -> String {
    let trace = records(&[&every_kind(), calls].concat());
    run(SMALL, Some(&trace)).to_string()
}

/// The lines of the table that begin so, without that beginning.
fn table(beginning: &str) -> Vec<String> {
    let traces = traces();
    let lines: Vec<String> = cases(&traces).iter().map(|case| case.to_string()).collect();
    let ends = lines.iter().filter_map(|line| line.strip_prefix(beginning));
    ends.map(str::to_string).collect()
}

#[test]
fn the_listing_stores_at_its_last_scan_alone() {
    assert_eq!(line("listing"), "ok 0 0 0 6");
}

#[test]
fn lines_worked_by_hand() {
    assert_eq!(line("empty"), "ok 0 0 0 0");
    // Line 2 takes the slot of line 0, with four entries (10). Line 1 goes alone (1); lines 3 and 4, then the control word (3). Line 5
    // takes the slot of line 0 with five entries (12), and goes with its own (4); lines 3 and 4 again (2); line 6 goes with three (8).
    assert_eq!(line("every_kind"), format!("ok 10 12 {} {}", 1 + 4 + 8, 3 + 2));
    assert_eq!(line("evictions"), "ok 0 0 11 0");
    // Line 2 with three entries (8); lines 0 and 1 and the control word (3); line 0 with two entries (6).
    assert_eq!(line("refused"), format!("ok 0 0 {} 3", 8 + 6));
    assert_eq!(line("smallest"), "ok 0 0 4 1");
    // The first 64 stores fill the cache and flush twice. Each of the other 960 takes the first slot of its set, and so the place of the
    // 16th before it: a line each, and with the entry of that, from the 17th on, a flush of 16 at each 16th. 16 stay
    // buffered, and go with line 2,047.
    let flushes = 960 / 16 - 1;
    let stores = 2 * 65 + 960 + flushes * 33;
    assert_eq!(line("largest"), format!("ok 1 {stores} {} 63", 33 + 1));
}

#[test]
fn lines_with_false_hits_worked_by_hand() {
    // Each hit makes 4 stores: the entry for 233, the control word, line 0. To come to it, line 1 is evicted with its entry and
    // that of line 0 (6), the first time with those of 2 and 4 as well (10), and from the second time on line 233, whose entry is in
    // the log (1). Line 3, stored to for the second hit, gives way to line 0 with its entry (4). Behind the last hit, the scans
    // store lines 2, 4 and 233 and the control word.
    assert_eq!(
        line("false_hits"),
        format!("ok 4 4 {} {}", 10 + 3 * 6 + 3 + 4 + 4, 4 + 4)
    );
    // Line 4 with two entries, 123 alone, 4 with three, 157 alone; then 123 with the entries for 70 and 157.
    assert_eq!(line("false_hit_of_two"), format!("ok 0 0 {} 0", 6 + 1 + 8 + 1 + 6));
}

#[test]
fn refused_calls_occur_and_end_nothing() {
    assert_eq!(outcome("refused").answered, BTreeSet::from([OK, 5, 8, 9, 11]));
    assert_eq!(outcome("largest").answered, BTreeSet::from([OK, 5, 8]));
    assert_eq!(outcome("smallest").answered, BTreeSet::from([OK, 5, 8, 11]));
}

#[test]
fn a_broken_record_ends_the_run_before_its_call() {
    for (name, ..) in BROKEN {
        assert_eq!(line(name), "trace 10 12 13 5", "{name}");
    }
    assert_eq!(line("first_record_broken"), "trace 0 0 0 0");
}

#[test]
fn a_call_made_for_a_broken_record_or_after_it_would_show() {
    assert_eq!(line_with(&[Call::evict(0)]), "ok 10 12 17 5");
    assert_eq!(line_with(&[Call::load(2)]), "ok 14 12 13 5");
    assert_eq!(line_with(&[Call::SCAN]), "ok 10 12 13 9");
    assert_ne!(line_with(&every_kind()), "ok 10 12 13 5");
}

#[test]
fn a_record_that_ends_early_ends_the_run() {
    for (name, _) in PARTS {
        assert_eq!(line(name), "trace 10 12 13 5", "{name}");
    }
    assert_eq!(line("only_1_byte"), "trace 0 0 0 0");
    assert_eq!(line("only_15_bytes"), "trace 0 0 0 0");
}

#[test]
fn traces_reach_to_64_kib_and_beyond() {
    let traces = traces();
    let bytes = |name| named(&traces, name).bytes.len();
    assert!(bytes("long") > KIB_64 && !bytes("long").is_multiple_of(KIB_64));
    assert_eq!(bytes("first_64_kib"), KIB_64);
    assert_eq!(bytes("part_after_64_kib"), KIB_64 + 7);

    let (first, early) = (outcome("first_64_kib"), outcome("part_after_64_kib"));
    assert_eq!((first.number, early.number), (OK, TRACE));
    assert_eq!(first.totals, early.totals);

    let Outcome {
        number,
        totals,
        answered,
    } = outcome("long");
    let Totals {
        loads,
        stores,
        evictions,
        scans,
    } = totals;
    assert_eq!(number, OK);
    assert!([loads, stores, evictions, scans].iter().all(|&total| total > 0));
    assert_ne!(totals, first.totals);
    assert_eq!(answered, BTreeSet::from([OK, 5, 8, 9, 11]));
}

#[test]
fn each_size_of_a_board_counts() {
    assert_eq!(table("2048 1 4 smallest.trace: "), ["ok 0 0 8 1"]);
    assert_eq!(table("1 1024 4 smallest.trace: "), ["ok 0 0 6 1"]);
    assert_eq!(table("1 1 64 smallest.trace: "), ["ok 0 0 4 0"]);
}

#[test]
fn power_up_comes_before_the_file() {
    for sizes in ["4 8 0 ", "4 8 6 "] {
        assert_eq!(
            table(sizes),
            [
                "listing.trace: work 0 0 0 0",
                "first_record_broken.trace: work 0 0 0 0",
                "absent.trace: work 0 0 0 0"
            ]
        );
    }
    assert_eq!(table("0 8 4 absent.trace: "), ["shape 0 0 0 0"]);
    assert_eq!(table("4 8 4 absent.trace: "), ["trace 0 0 0 0"]);
}

#[test]
fn sizes_outside_the_replays_are_shape() {
    for sizes in [
        "2049 1024 64",
        "2048 1025 64",
        "2048 1024 65",
        "1 1 68",
        "2049 8 0",
        "4 1025 6",
        "18446744073709551615 8 4",
    ] {
        let lines = table(sizes);
        assert!(!lines.is_empty(), "{sizes}");
        assert!(lines.iter().all(|line| line.ends_with(": shape 0 0 0 0")), "{sizes}");
    }
}
