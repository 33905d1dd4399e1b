//! The rows of the benchmark.

use super::region::{Piece, Start};
use super::traces;
use crate::call::{Call, Kind};
use crate::handwritten::layout::MOST_ENTRIES;
use crate::loom::workload::LINES_OF_A_LOOM;

pub struct Row {
    pub name: &'static str,
    pub about: &'static str,
    /// The one kind of call that is measured, where not all of the trace are.
    pub only: Option<Kind>,
    build: Build,
}

/// How a row's memories and trace are made: calls, a whole export of so many records, a file that is read, or one conversion.
enum Build {
    Calls(fn() -> (Start, Vec<Call>)),
    Export(fn() -> (Start, u64)),
    File(fn() -> (Start, Vec<Vec<u8>>)),
    Conversion(fn() -> Start),
}

/// What is played.
enum Trace {
    Calls(Vec<Call>),
    Export(u64),
    File(Vec<Vec<u8>>),
    Conversion,
}

/// A row with its memories and trace.
pub struct Prepared {
    pub start: Start,
    trace: Trace,
    only: Option<Kind>,
}

impl Row {
    pub fn prepare(&self) -> Prepared {
        let (start, trace) = match self.build {
            Build::Calls(build) => {
                let (start, calls) = build();
                (start, Trace::Calls(calls))
            }
            Build::Export(build) => {
                let (start, records) = build();
                (start, Trace::Export(records))
            }
            Build::File(build) => {
                let (start, file) = build();
                (start, Trace::File(file))
            }
            Build::Conversion(build) => (build(), Trace::Conversion),
        };
        Prepared {
            start,
            trace,
            only: self.only,
        }
    }

    pub fn find(name: &str) -> Result<&'static Row, String> {
        ROWS.iter().find(|row| row.name == name).ok_or_else(|| {
            let names: Vec<&str> = ROWS.iter().map(|row| row.name).collect();
            format!("There is no row {name}. The rows: {}", names.join(", "))
        })
    }
}

impl Prepared {
    fn is_measured(&self, call: &Call) -> bool {
        self.only.is_none_or(|kind| kind == call.kind())
    }

    /// How many calls are measured.
    pub fn calls(&self) -> usize {
        match &self.trace {
            Trace::Calls(calls) => calls.iter().filter(|call| self.is_measured(call)).count(),
            Trace::Export(records) => *records as usize,
            Trace::File(file) => file.len(),
            Trace::Conversion => 1,
        }
    }

    /// Gives the trace in order, whole or, where one kind of call is measured, call by call; and whether each piece is
    /// measured.
    pub fn for_each_piece(&self, mut play: impl FnMut(Piece, bool)) {
        match &self.trace {
            Trace::Export(records) => play(Piece::Records(0..*records), true),
            Trace::File(file) => play(Piece::File(file), true),
            Trace::Conversion => play(Piece::Conversion, true),
            Trace::Calls(calls) if self.only.is_none() => play(Piece::Calls(calls), true),
            Trace::Calls(calls) => {
                for call in calls {
                    play(Piece::Calls(std::slice::from_ref(call)), self.is_measured(call));
                }
            }
        }
    }
}

const fn row(name: &'static str, about: &'static str, only: Option<Kind>, build: fn() -> (Start, Vec<Call>)) -> Row {
    Row {
        name,
        about,
        only,
        build: Build::Calls(build),
    }
}

pub static ROWS: [Row; 27] = [
    row(
        "loom-64",
        "a loom's epoch, scattered, S = 64: 2,600 stores, 2,600 loads, 65 scans, 1 commit",
        None,
        || traces::loom(64),
    ),
    row("loom-64-load", "the loads of it", Some(Kind::Load), || traces::loom(64)),
    row("loom-64-store", "the stores of it", Some(Kind::Store), || {
        traces::loom(64)
    }),
    row("loom-64-scan", "the scans of it", Some(Kind::Scan), || traces::loom(64)),
    row(
        "loom-256",
        "a loom's epoch, scattered, S = 256: 2,600 stores, 2,600 loads, 257 scans, 1 commit",
        None,
        || traces::loom(256),
    ),
    row("loom-256-load", "the loads of it", Some(Kind::Load), || {
        traces::loom(256)
    }),
    row("loom-256-store", "the stores of it", Some(Kind::Store), || {
        traces::loom(256)
    }),
    row("loom-256-scan", "the scans of it", Some(Kind::Scan), || {
        traces::loom(256)
    }),
    row(
        "loom-64-picks",
        "a loom's epoch by picks, S = 64: 2,600 stores, 2,600 loads, 65 scans, 1 commit",
        None,
        || traces::loom_by_picks(64),
    ),
    row(
        "loom-256-picks",
        "a loom's epoch by picks, S = 256: 2,600 stores, 2,600 loads, 257 scans, 1 commit",
        None,
        || traces::loom_by_picks(256),
    ),
    row(
        "conflict",
        "stores to 16 lines of one set that is dirty: each empties its first slot and flushes",
        None,
        || traces::conflict(64),
    ),
    row(
        "jacquard",
        "an epoch on pairs of lines that shared a slot, S = 64: 2,600 stores, 2,600 loads, 65 scans, 1 commit",
        None,
        || traces::jacquard(64),
    ),
    row(
        "last-slots",
        "loads of the 64 lines in the last slots of their sets, S = 256: no board store",
        None,
        || traces::loads_of_last_slots(256),
    ),
    row(
        "evict",
        "evictions in the place of loads in a loom's epoch, S = 256",
        Some(Kind::Evict),
        || traces::loom_with_evictions(256),
    ),
    row(
        "write-out-31",
        "evictions of 224 dirty lines, 31 entries of other lines buffered, S = 256: no flush",
        None,
        || traces::write_outs(256),
    ),
    row("commit", "15 commits in a row, 16 entries buffered", None, || {
        traces::commits(256)
    }),
    row(
        "begin",
        "15 begin calls, one for each pass, 16 entries buffered",
        Some(Kind::Begin),
        || traces::begins(256),
    ),
    row(
        "pass-15",
        "15 epochs in one pass, S = 256: 1 begin, 257 scans, 255 lines written out, 17 of each epoch",
        None,
        || traces::pass_over_most(256),
    ),
    row(
        "last-step",
        "the last scan of a pass over the epoch of a loom, S = 256: it drops 400 entries",
        None,
        || traces::last_step(256, LINES_OF_A_LOOM as u64),
    ),
    row(
        "last-step-most",
        "the last scan of a pass over the largest epoch, S = 256: it drops 4,095 entries",
        None,
        || traces::last_step(256, MOST_ENTRIES),
    ),
    Row {
        name: "hex-out",
        about: "a whole export of 65,536 lines: 32,777 records",
        only: None,
        build: Build::Export(traces::export),
    },
    Row {
        name: "hex-in",
        about: "the 32,777 records of that export, read into another board",
        only: None,
        build: Build::File(traces::file),
    },
    row("tally-64", "S = 64", None, || traces::tallies(64)),
    row("tally-256", "S = 256", None, || traces::tallies(256)),
    row(
        "power-up",
        "a full log of 4,095 entries, three in four cover P",
        None,
        traces::power_up,
    ),
    row("format", "65,536 lines, 4,095 entries", None, traces::format),
    Row {
        name: "convert",
        about: "an old board of 65,536 lines and a full log of 4,095 entries, three in four cover P",
        only: None,
        build: Build::Conversion(traces::conversion),
    },
];
