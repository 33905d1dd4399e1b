//! The states and traces that the rows measure.

use super::region::{Memories, Piece, Start};
use crate::call::Call;
use crate::export;
use crate::handwritten::layout::{
    entry_place, Control, Range, BUFFER_ENTRIES, CONTROL_PLACE, ENTRY_WORDS, MOST_AHEAD, MOST_ENTRIES, MOST_LINES,
    MOST_WAITING, WAYS,
};
use crate::handwritten::old::old_board;
use crate::handwritten::HandWritten;
use crate::interface::{Answer, CacheLog, NO_REGISTERS, OK};
use crate::library::Library;
use crate::loom::workload::{Order, Work, STORES_PER_EPOCH};
use crate::random::Random;
use crate::sizes::Sizes;

const SEED: u64 = 2_600_400;

/// A board of the largest size and a cache, formatted and powered up.
fn fresh_board(slots: usize) -> Start {
    let sizes = Sizes {
        lines: MOST_LINES,
        entries: MOST_ENTRIES,
        slots: slots as u64,
    };
    let start = Start {
        board: vec![0; sizes.board_words()],
        work: vec![0; sizes.work_words()],
        registers: NO_REGISTERS,
        old_board: Vec::new(),
    };
    after(start, &[sizes.format(), Call::POWER_UP])
}

/// The state after calls that all have to be accepted.
fn after(start: Start, calls: &[Call]) -> Start {
    let mut memories = Memories::<HandWritten>::new(&start);
    for &call in calls {
        let answer = memories.make(call);
        assert_eq!(answer.number, 0, "{call}");
    }
    memories.into_start()
}

/// An epoch in the midst of work: one epoch waits before it, which its scan calls persist.
fn epoch_in_midst(order: Order, slots: usize, access: fn(u64) -> Call) -> (Start, Vec<Call>) {
    let random = &mut Random::new(SEED);
    let lines = order.lines(random, MOST_LINES);
    // A pass takes the first half of an epoch. Were it spread over the whole, 64 slots would need a longer log than there is.
    let before = Work {
        order,
        lines: &lines,
        access: Call::load,
        scans_per_epoch: 2 * (slots + 1),
    };
    let mut calls = before.without_scans().epoch(random);
    for _ in 0..2 {
        calls.extend(with_one_pass(before.epoch(random), slots));
    }
    let start = after(fresh_board(slots), &calls);
    let epoch = Work { access, ..before }.epoch(random);
    (start, with_one_pass(epoch, slots))
}

/// The calls but for the scans behind those that persist an epoch.
fn with_one_pass(calls: Vec<Call>, slots: usize) -> Vec<Call> {
    let mut scans = 0..=slots;
    let is_made = |call: &Call| *call != Call::SCAN || scans.next().is_some();
    calls.into_iter().filter(is_made).collect()
}

pub fn loom(slots: usize) -> (Start, Vec<Call>) {
    epoch_in_midst(Order::Scattered, slots, Call::load)
}

pub fn loom_by_picks(slots: usize) -> (Start, Vec<Call>) {
    epoch_in_midst(Order::ByPicks, slots, Call::load)
}

pub fn loom_with_evictions(slots: usize) -> (Start, Vec<Call>) {
    epoch_in_midst(Order::Scattered, slots, Call::evict)
}

pub fn jacquard(slots: usize) -> (Start, Vec<Call>) {
    epoch_in_midst(Order::Jacquard, slots, Call::load)
}

/// Stores by turns to lines of one set, all of whose slots are dirty in the running epoch: three stale lines keep theirs, and
/// each store empties the first slot of a line whose undo entry is buffered.
pub fn conflict(slots: usize) -> (Start, Vec<Call>) {
    const FIGHTING: usize = 16;
    let random = &mut Random::new(SEED);
    let mut store = |place: usize| Call::store((5 + place * slots) as u64, random.word());
    // A line in the first slot, the stale ones in the others, and a second line, which flushes what they have buffered.
    let stale = FIGHTING..FIGHTING + WAYS - 1;
    let before: Vec<Call> = [0].into_iter().chain(stale).chain([1]).map(&mut store).collect();
    let turns = (0..FIGHTING).cycle().skip(2).take(STORES_PER_EPOCH);
    let stores: Vec<Call> = turns.map(store).collect();
    let start = after(fresh_board(slots), &before);
    let mut memories = Memories::<HandWritten>::new(&start);
    for &call in &stores {
        let Answer { number, stores, .. } = memories.make(call);
        // An entry, the control word and the line.
        assert_eq!((number, stores), (OK, 4), "{call}");
    }
    (start, stores)
}

/// Loads of the lines in the last slot of each set, all slots being dirty.
pub fn loads_of_last_slots(slots: usize) -> (Start, Vec<Call>) {
    let stores: Vec<Call> = (0..slots as u64).map(|line| Call::store(line, line)).collect();
    let start = after(fresh_board(slots), &stores);
    let last_slots = (slots - slots / WAYS) as u64..slots as u64;
    (start, last_slots.map(Call::load).collect())
}

/// Evictions of dirty lines whose entries are in the log, with 31 entries of other lines buffered: each makes one board store,
/// and none flushes.
pub fn write_outs(slots: usize) -> (Start, Vec<Call>) {
    // Not line 0, which beside an entry for 233 is a false hit.
    let first = slots as u64;
    // A line for each slot but one: the 32nd entry of each 32 has flushed them, and the newest 31 stay buffered.
    let lines: Vec<u64> = (first..).take(slots - 1).collect();
    let stores: Vec<Call> = lines.iter().map(|&line| Call::store(line, line)).collect();
    let start = after(fresh_board(slots), &stores);
    let logged = &lines[..slots - BUFFER_ENTRIES];
    let evictions: Vec<Call> = logged.iter().copied().map(Call::evict).collect();
    let mut memories = Memories::<HandWritten>::new(&start);
    for &call in &evictions {
        let Answer { number, value, stores } = memories.make(call);
        assert_eq!((number, value, stores), (OK, 1, 1), "{call}");
    }
    (start, evictions)
}

/// The entries of a half full buffer.
const HALF_BUFFERED: u64 = BUFFER_ENTRIES as u64 / 2;

/// As many commits as may wait, with a half full buffer.
pub fn commits(slots: usize) -> (Start, Vec<Call>) {
    let stores: Vec<Call> = (0..HALF_BUFFERED)
        .map(|address| Call::store(address, address))
        .collect();
    let start = after(fresh_board(slots), &stores);
    (start, vec![Call::COMMIT; MOST_WAITING as usize])
}

/// As many passes as epochs may wait, each for one of them and begun with a half full buffer: between two passes the running epoch
/// stores to lines that it has not stored to before. No visit writes one out, so the entries stay until the last step.
pub fn begins(slots: usize) -> (Start, Vec<Call>) {
    let start = after(fresh_board(slots), &vec![Call::COMMIT; MOST_WAITING as usize]);
    let pass = |target: u64| {
        let lines = HALF_BUFFERED * target..HALF_BUFFERED * (target + 1);
        let stores = lines.map(|line| Call::store(line, line));
        let scans = vec![Call::SCAN; slots + 1];
        stores.chain([Call::Begin { target }]).chain(scans)
    };
    let calls: Vec<Call> = (1..=MOST_WAITING).flat_map(pass).collect();
    assert_eq!(
        stores_of(&start, &calls),
        MOST_WAITING * (flush_stores(HALF_BUFFERED) + 1)
    );
    (start, calls)
}

/// One pass over as many epochs as may wait. Each has stored to as many lines; the entries of the latest are buffered, and flushed
/// before the first of their lines. Every line is written out, and then the control word is stored.
pub fn pass_over_most(slots: usize) -> (Start, Vec<Call>) {
    let lines_of_epoch = slots as u64 / MOST_WAITING;
    let epoch = |number: u64| {
        let lines = lines_of_epoch * number..lines_of_epoch * (number + 1);
        let stores = lines.map(|line| Call::store(line, line));
        stores.chain([Call::COMMIT])
    };
    let before: Vec<Call> = (0..MOST_WAITING).flat_map(epoch).collect();
    let start = after(fresh_board(slots), &before);
    let begin = Call::Begin { target: MOST_WAITING };
    let calls = [vec![begin], vec![Call::SCAN; slots + 1]].concat();
    let lines = lines_of_epoch * MOST_WAITING;
    let buffered = lines % BUFFER_ENTRIES as u64;
    assert_eq!(stores_of(&start, &calls), lines + flush_stores(buffered) + 1);
    (start, calls)
}

/// The last step of a pass that persists one epoch, which has stored once to each of so many lines. They are on the board by then, and
/// the step drops as many entries, with one store of the control word.
pub fn last_step(slots: usize, entries: u64) -> (Start, Vec<Call>) {
    let stores = (0..entries).map(|line| Call::store(line, line));
    let before: Vec<Call> = stores.chain([Call::COMMIT]).chain(vec![Call::SCAN; slots]).collect();
    let start = after(fresh_board(slots), &before);
    let last = vec![Call::SCAN];
    assert_eq!(stores_of(&start, &last), 1);
    (start, last)
}

/// The board stores of calls that all have to be accepted.
fn stores_of(start: &Start, calls: &[Call]) -> u64 {
    let mut memories = Memories::<HandWritten>::new(start);
    let stores = |&call: &Call| {
        let Answer { number, stores, .. } = memories.make(call);
        assert_eq!(number, OK, "{call}");
        stores
    };
    calls.iter().map(stores).sum()
}

/// The board stores of a flush: the entries and the control word.
fn flush_stores(buffered: u64) -> u64 {
    ENTRY_WORDS as u64 * buffered + 1
}

pub fn tallies(slots: usize) -> (Start, Vec<Call>) {
    (loom(slots).0, vec![Call::Tally; 1_000])
}

/// All records of the largest board, with lines of any words. Both sides have to export the same.
pub fn export() -> (Start, u64) {
    let (start, records) = exported();
    (start, records.len() as u64)
}

/// The board, and the records of it.
fn exported() -> (Start, Vec<Vec<u8>>) {
    let mut start = fresh_board(256);
    let lines = Random::new(SEED).words(MOST_LINES as usize);
    let first = start.board.len() - lines.len();
    start.board[first..].copy_from_slice(&lines);
    let records = export::records::<HandWritten>(&start.board);
    assert!(
        records == export::records::<Library>(&start.board),
        "the sides export differently"
    );
    (start, records)
}

/// The same records, to be read into a fresh board. Both sides have to rebuild the lines.
pub fn file() -> (Start, Vec<Vec<u8>>) {
    let (exported, file) = exported();
    let start = fresh_board(256);
    for board_with in [board_with::<Library>, board_with::<HandWritten>] {
        assert!(
            board_with(&start, &file) == exported.board,
            "a side does not rebuild the lines"
        );
    }
    (start, file)
}

/// What a board becomes once a side has read the file.
fn board_with<C: CacheLog>(start: &Start, file: &[Vec<u8>]) -> Vec<u64> {
    let mut memories = Memories::<C>::new(start);
    memories.play_unmeasured(Piece::File(file));
    memories.into_start().board
}

pub fn format() -> (Start, Vec<Call>) {
    let mut start = fresh_board(256);
    start.board = Random::new(SEED).words(start.board.len());
    let format = Call::Format {
        lines: MOST_LINES,
        entries: MOST_ENTRIES,
    };
    (start, vec![format])
}

/// A power-up with a full log that starts in the middle of the ring; three entries in four cover the persisted epoch.
pub fn power_up() -> (Start, Vec<Call>) {
    const PERSISTED: u64 = 1_000;
    const RING_START: u64 = 1_234;
    let random = &mut Random::new(SEED);
    let mut start = fresh_board(256);
    let control = Control {
        persisted: PERSISTED,
        start: RING_START as usize,
        length: MOST_ENTRIES as usize,
    };
    start.board[CONTROL_PLACE] = control.pack();
    for age in 0..MOST_ENTRIES {
        let place = entry_place(((RING_START + age) % MOST_ENTRIES) as usize);
        let covers = !random.one_in(4);
        let valid_till = PERSISTED + 2 + age * (MOST_AHEAD - 2) / MOST_ENTRIES;
        let range = Range {
            address: random.below(MOST_LINES),
            valid_till,
            span: valid_till - (PERSISTED + 1 - u64::from(covers)),
        };
        start.board[place] = range.pack();
        start.board[place + 1] = random.word();
    }
    (start, vec![Call::POWER_UP])
}

/// A conversion of the board that the power-up is of, as it was in the old layout, into a memory of any words.
pub fn conversion() -> Start {
    let (start, _) = power_up();
    let second_memory = Random::new(SEED).words(start.board.len());
    Start {
        old_board: old_board(&start.board),
        board: second_memory,
        ..start
    }
}
