//! The stored traces, and what they are run with.

use super::broken::{at_the_start, ends_early, in_the_midst, part, BROKEN, PARTS};
use super::histories::{self, records, LONG_SIZES, SMALL};
use super::run::run;
use crate::sizes::Sizes;
use std::fmt;

pub const EXTENSION: &str = "trace";

pub struct Trace {
    pub name: &'static str,
    /// What it is made for.
    pub sizes: Sizes,
    pub bytes: Vec<u8>,
}

impl Trace {
    fn new(name: &'static str, (sizes, bytes): (Sizes, Vec<u8>)) -> Self {
        Trace { name, sizes, bytes }
    }

    pub fn file(&self) -> String {
        file(self.name)
    }
}

fn file(name: &str) -> String {
    format!("{name}.{EXTENSION}")
}

pub fn traces() -> Vec<Trace> {
    let mut traces = good();
    traces.extend(early_ends());
    traces.extend(BROKEN.map(|(name, first, value)| Trace::new(name, (SMALL, in_the_midst(first, value)))));
    let (_, first, value) = BROKEN[0];
    traces.push(Trace::new(FIRST_RECORD_BROKEN, (SMALL, at_the_start(first, value))));
    traces
}

fn good() -> Vec<Trace> {
    vec![
        Trace::new(LISTING, histories::listing()),
        Trace::new("empty", (SMALL, Vec::new())),
        Trace::new("every_kind", (SMALL, records(&histories::every_kind()))),
        Trace::new("evictions", histories::evictions()),
        Trace::new("false_hits", histories::false_hits()),
        Trace::new("false_hit_of_two", histories::false_hit_of_two()),
        Trace::new("refused", histories::refused()),
        Trace::new(SMALLEST, histories::smallest()),
        Trace::new(LARGEST, histories::largest()),
        Trace::new("long", (LONG_SIZES, histories::long())),
        Trace::new("first_64_kib", (LONG_SIZES, histories::first_64_kib())),
    ]
}

fn early_ends() -> Vec<Trace> {
    let behind_good_records = PARTS.map(|(name, bytes)| Trace::new(name, (SMALL, ends_early(bytes))));
    let others = [
        Trace::new("only_1_byte", (SMALL, part(1))),
        Trace::new("only_15_bytes", (SMALL, part(15))),
        Trace::new("part_after_64_kib", (LONG_SIZES, histories::part_after_64_kib())),
    ];
    behind_good_records.into_iter().chain(others).collect()
}

const LISTING: &str = "listing";
const SMALLEST: &str = "smallest";
const LARGEST: &str = "largest";
const FIRST_RECORD_BROKEN: &str = "first_record_broken";

/// Stored traces with other sizes than those that they are made for: N, L, S.
const OTHER_SIZES: [([u64; 3], &str); 29] = [
    ([2_048, 1, 4], SMALLEST),
    ([1, 1_024, 4], SMALLEST),
    ([1, 1, 64], SMALLEST),
    ([2_049, 1, 4], SMALLEST),
    ([1, 1_025, 4], SMALLEST),
    ([1, 1, 65], SMALLEST),
    ([1, 1, 68], SMALLEST),
    ([2_049, 1_024, 64], LARGEST),
    ([2_048, 1_025, 64], LARGEST),
    ([2_048, 1_024, 65], LARGEST),
    // Those of the listing once they are cut to 32 bits.
    ([(1 << 32) + 4, 8, 4], LISTING),
    ([4, (1 << 32) + 8, 4], LISTING),
    ([4, 8, (1 << 32) + 4], LISTING),
    ([u64::MAX, 8, 4], LISTING),
    ([4, u64::MAX, 4], LISTING),
    ([4, 8, u64::MAX], LISTING),
    ([0, 8, 4], LISTING),
    ([4, 0, 4], LISTING),
    // Slots that are no whole sets.
    ([4, 8, 0], LISTING),
    ([4, 8, 2], LISTING),
    ([4, 8, 6], LISTING),
    ([4, 8, 63], LISTING),
    // Format refuses before power-up does.
    ([0, 8, 0], LISTING),
    ([4, 0, 0], LISTING),
    ([4, 0, 6], LISTING),
    // Sizes outside the replay's are refused before power-up.
    ([2_049, 8, 0], LISTING),
    ([4, 1_025, 6], LISTING),
    // The board is powered up before the first record is read.
    ([4, 8, 0], FIRST_RECORD_BROKEN),
    ([4, 8, 6], FIRST_RECORD_BROKEN),
];

/// Names under which there is no file to open: none at all, and a folder.
const ABSENT: &str = "absent.trace";
const FOLDER: &str = ".";

/// The board is powered up before the file is opened.
const NOT_OPENED: [([u64; 3], &str); 6] = [
    ([4, 8, 4], ABSENT),
    ([4, 8, 0], ABSENT),
    ([4, 8, 6], ABSENT),
    ([0, 8, 4], ABSENT),
    ([2_049, 8, 4], ABSENT),
    ([4, 8, 4], FOLDER),
];

/// A run: its arguments and the file's bytes, None where the file does not open. It shows as a line of the table.
pub struct Case<'a> {
    pub sizes: Sizes,
    pub file: String,
    pub bytes: Option<&'a [u8]>,
}

impl fmt::Display for Case<'_> {
    fn fmt(&self, out: &mut fmt::Formatter) -> fmt::Result {
        let Sizes { lines, entries, slots } = self.sizes;
        let outcome = run(self.sizes, self.bytes);
        write!(out, "{lines} {entries} {slots} {}: {outcome}", self.file)
    }
}

/// Every stored trace as it is made to be run, some of them with other sizes, and files that do not open.
pub fn cases(traces: &[Trace]) -> Vec<Case<'_>> {
    let as_made = traces.iter().map(|trace| Case {
        sizes: trace.sizes,
        file: trace.file(),
        bytes: Some(&trace.bytes),
    });
    let otherwise = OTHER_SIZES.map(|(sizes, name)| Case {
        sizes: of(sizes),
        file: file(name),
        bytes: Some(&named(traces, name).bytes),
    });
    let not_opened = NOT_OPENED.map(|(sizes, file)| Case {
        sizes: of(sizes),
        file: file.to_string(),
        bytes: None,
    });
    as_made.chain(otherwise).chain(not_opened).collect()
}

pub fn named<'a>(traces: &'a [Trace], name: &str) -> &'a Trace {
    let trace = traces.iter().find(|trace| trace.name == name);
    trace.expect("a name of a stored trace")
}

fn of([lines, entries, slots]: [u64; 3]) -> Sizes {
    Sizes { lines, entries, slots }
}
