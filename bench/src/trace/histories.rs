//! Traces whose records all keep the layout.

use super::file::trace_of;
use crate::call::Call;
use crate::handwritten::layout::MOST_AHEAD;
use crate::interface::RECORD_BYTES;
use crate::random::Random;
use crate::sizes::{Sizes, MOST_OF_THE_REPLAY};

/// The sizes of the paper's listing.
const LISTED: Sizes = sizes(4, 8, 4);

/// Those of the traces that need no others: more lines than slots.
pub const SMALL: Sizes = sizes(8, 16, 4);

const fn sizes(lines: u64, entries: u64, slots: u64) -> Sizes {
    Sizes { lines, entries, slots }
}

/// The trace of calls that all have a record.
pub fn records(calls: &[Call]) -> Vec<u8> {
    trace_of(calls).expect("each call of a stored trace has a record")
}

/// The calls of the paper's listing, but for its power-ups.
pub fn listing() -> (Sizes, Vec<u8>) {
    let calls = [
        Call::store(0, 7),
        Call::COMMIT,
        Call::store(0, 9),
        Call::COMMIT,
        Call::SCAN,
        Call::SCAN,
        Call::SCAN,
        Call::SCAN,
        Call::SCAN,
        Call::load(0),
    ];
    (LISTED, records(&calls))
}

/// Loads, stores, evictions and scans make 10, 12, 13 and 5 board stores. At the end the four slots are dirty in the running
/// epoch, line 0 in the first of them, its undo entry is buffered, and the next scan call ends a pass: an eviction of 0, a load
/// of 2 and a scan would make 4 each.
pub fn every_kind() -> Vec<Call> {
    let parts: [&[Call]; 5] = [
        &[
            Call::store(0, 7),
            Call::store(1, 5),
            Call::store(3, 6),
            Call::store(4, 1),
        ],
        &[Call::load(2), Call::evict(1), Call::COMMIT],
        &[Call::SCAN; 5],
        &second_epoch_of_every_kind(),
        &[Call::SCAN; 4],
    ];
    let end = [
        Call::store(3, 1),
        Call::store(4, 1),
        Call::store(6, 1),
        Call::evict(6),
        Call::store(0, 3),
    ];
    [parts.concat(), end.to_vec()].concat()
}

/// Line 0 is of epoch 2 and in the first slot, so that line 5 takes its place in epoch 3.
fn second_epoch_of_every_kind() -> [Call; 8] {
    [
        Call::store(1, 2),
        Call::store(0, 9),
        Call::store(3, 4),
        Call::store(4, 4),
        Call::COMMIT,
        Call::store(1, 3),
        Call::store(5, 8),
        Call::evict(5),
    ]
}

/// Evictions of a dirty line with its entry buffered, of one not held, of a clean one, of one whose entry is flushed already,
/// and of one whose set holds another.
pub fn evictions() -> (Sizes, Vec<u8>) {
    let calls = [
        Call::store(1, 7),
        Call::evict(1),
        Call::evict(1),
        Call::load(1),
        Call::evict(1),
        Call::store(1, 5),
        Call::store(2, 6),
        Call::evict(2),
        Call::evict(5),
        Call::evict(1),
    ];
    (sizes(8, 8, 4), records(&calls))
}

/// A write-out of line 0, whose entry is in the log, beside a buffered entry for 233, in a load, a store, an eviction and a scan.
/// Line 0 has bit 0 of the filter alone, and 233 * 40503 mod 65,536 = 15, so 233 has it too: each flushes.
pub fn false_hits() -> (Sizes, Vec<u8>) {
    // With lines 2 and 4 the four slots are full before each hit, line 0 being in the first.
    let at_first = [Call::store(0, 7), Call::store(2, 7), Call::store(4, 7)];
    // Line 0 dirty and its entry in the log, and an entry for 233 buffered, whether lines 3 and 233 are held or not.
    let before_a_hit = [
        Call::evict(3),
        Call::store(0, 7),
        Call::evict(233),
        Call::store(1, 7),
        Call::evict(1),
        Call::store(233, 7),
    ];
    let hits: [&[Call]; 4] = [
        &[Call::load(3)],
        &[Call::store(3, 7)],
        &[Call::evict(0)],
        &[Call::COMMIT, Call::SCAN, Call::SCAN, Call::SCAN, Call::SCAN, Call::SCAN],
    ];
    let with_hits = hits.iter().flat_map(|hit| before_a_hit.iter().chain(*hit));
    let calls: Vec<Call> = at_first.iter().chain(with_hits).copied().collect();
    (sizes(234, 16, 4), records(&calls))
}

/// Evictions of line 123, whose entry is in the log. It has the bits 123 and 70 of the filter; 157 has 157 and 123, 70 has 70 and
/// 1,072. So an entry for 157 alone does not have it flush, and one for 70 beside it does.
pub fn false_hit_of_two() -> (Sizes, Vec<u8>) {
    let calls = [
        Call::store(123, 7),
        Call::store(4, 7),
        Call::evict(4),
        Call::store(157, 7),
        Call::evict(123),
        Call::store(123, 8),
        Call::store(4, 8),
        Call::evict(4),
        Call::store(70, 8),
        Call::evict(157),
        Call::store(157, 8),
        Call::evict(123),
    ];
    (sizes(158, 8, 8), records(&calls))
}

/// Calls that are refused as address, room, waiting and none, and accepted ones after them.
pub fn refused() -> (Sizes, Vec<u8>) {
    let mut calls = vec![
        Call::SCAN,
        Call::load(4),
        Call::store(65_535, 1),
        Call::evict(4),
        Call::store(0, 7),
        Call::store(1, 8),
        Call::store(2, 9),
        Call::store(3, 1),
    ];
    calls.extend([Call::COMMIT; MOST_AHEAD as usize]);
    calls.extend([
        Call::evict(2),
        Call::SCAN,
        Call::SCAN,
        Call::SCAN,
        Call::SCAN,
        Call::SCAN,
        Call::COMMIT,
        Call::COMMIT,
        Call::store(2, 9),
        Call::load(0),
        Call::load(65_535),
        Call::store(0, 2),
        Call::evict(0),
    ]);
    (sizes(4, 3, 4), records(&calls))
}

/// For a board of one line, one entry and one set. With more of any of them it has other totals.
pub fn smallest() -> (Sizes, Vec<u8>) {
    let calls = [
        Call::store(0, 7),
        Call::store(0, 8),
        Call::COMMIT,
        Call::store(0, 9),
        Call::load(1),
        Call::evict(0),
        Call::SCAN,
        Call::SCAN,
        Call::SCAN,
        Call::SCAN,
        Call::SCAN,
        Call::SCAN,
        Call::store(1, 9),
        Call::evict(1),
        Call::store(0, 9),
        Call::load(0),
    ];
    (sizes(1, 1, 4), records(&calls))
}

/// Each entry, slot and last address of the largest board is used.
pub fn largest() -> (Sizes, Vec<u8>) {
    let Sizes { lines, entries, slots } = MOST_OF_THE_REPLAY;
    let mut calls: Vec<Call> = (lines - entries..lines)
        .map(|address| Call::store(address, address))
        .collect();
    calls.extend([
        Call::store(0, 1),
        Call::load(lines),
        Call::load(lines - 1),
        Call::evict(lines - 1),
        Call::load(0),
        Call::COMMIT,
    ]);
    calls.extend(vec![Call::SCAN; slots as usize + 1]);
    calls.push(Call::store(0, 5));
    (MOST_OF_THE_REPLAY, records(&calls))
}

/// 64 KiB, behind which a reader that counts in 16 bits begins anew.
const LONG_BYTES: usize = 1 << 16;
pub const LONG_SIZES: Sizes = sizes(40, 60, 8);
const LONG_CALLS: usize = 5_000;
const LONG_SEED: u64 = 1_013;

/// A mixed history of more than 64 KiB.
pub fn long() -> Vec<u8> {
    let random = &mut Random::new(LONG_SEED);
    let calls: Vec<Call> = (0..LONG_CALLS).map(|_| any_call(random)).collect();
    records(&calls)
}

/// A third of the calls are stores, and an epoch has about as many scan calls as persist one.
fn any_call(random: &mut Random) -> Call {
    // Now and then one that the board does not have.
    let address = random.below(LONG_SIZES.lines + 1);
    match random.below(100) {
        0..34 => Call::store(address, random.any_width()),
        34..58 => Call::load(address),
        58..68 => Call::evict(address),
        68..97 => Call::SCAN,
        _ => Call::COMMIT,
    }
}

/// The first 64 KiB of the long history.
pub fn first_64_kib() -> Vec<u8> {
    long()[..LONG_BYTES].to_vec()
}

/// The first 64 KiB of the long history, and less than a record more.
pub fn part_after_64_kib() -> Vec<u8> {
    const PART: usize = 7;
    const { assert!(PART < RECORD_BYTES) };
    long()[..LONG_BYTES + PART].to_vec()
}
