//! Whether the machine code stores to the board as the paper has it: one word at a time, in the order due.
//!
//! The library's proof speaks of the order in which its code makes the stores of a call. Its compiler knows the board as
//! ordinary memory, and would be free to join or to exchange stores. So a tool that records every store of a run to memory
//! (valgrind's lackey) watches the library play a history, and what it recorded is held to the stores that are due: those
//! that the same call makes under the allowances 0, 1, 2 and so on.

use crate::call::{Call, NO_CUT};
use crate::handwritten::Registers;
use crate::interface::{Answer, RegisterWords, NO_REGISTERS};
use crate::library::Library;
use crate::random::Random;
use crate::sizes::Sizes;
use std::fs::File;
use std::io::{BufRead, BufReader};
use std::sync::atomic::{AtomicU64, Ordering};

const SIZES: Sizes = Sizes {
    lines: 48,
    entries: 64,
    slots: 8,
};
const CALLS: usize = 4_000;
const SEED: u64 = 64;
const WORD_BYTES: u64 = 8;

/// Stored to before and after each call, so that the record shows where it begins and ends.
static MARK: AtomicU64 = AtomicU64::new(0);

#[derive(Clone)]
struct State {
    board: Vec<u64>,
    work: Vec<u64>,
    registers: RegisterWords,
}

impl State {
    fn running() -> Self {
        let mut state = State {
            board: vec![0; SIZES.board_words()],
            work: vec![0; SIZES.work_words()],
            registers: NO_REGISTERS,
        };
        state.make(SIZES.format());
        state.make(Call::PowerUp { allowance: NO_CUT });
        state
    }

    fn make(&mut self, call: Call) -> Answer {
        call.make::<Library>(&mut self.board, &mut self.work, &mut self.registers)
    }
}

/// Any call but format, which is not protected against a cut, and those that store nothing and change nothing: tally and the status
/// question. Outside a pass every second scan call gives way to a begin call for all epochs that wait.
fn any_call(random: &mut Random, state: &State, allowance: u32) -> Call {
    let address = random.below(SIZES.lines);
    let Registers { epoch, target, .. } = state.registers.into();
    match random.below(40) {
        0..=19 => Call::Store {
            address,
            data: random.word(),
            allowance,
        },
        20..=23 => Call::Load { address, allowance },
        24..=26 => Call::Evict { address, allowance },
        27..=28 => Call::Commit { allowance },
        29..=38 if target == 0 && random.one_in(2) => Call::Begin { target: epoch - 1 },
        29..=38 => Call::Scan { allowance },
        _ => Call::PowerUp { allowance },
    }
}

/// The places of the stores that are due, in order; none where a store leaves the word as it was.
fn due(state: &State, call: Call) -> Vec<Option<usize>> {
    let stores = state.clone().make(call).stores as u32;
    let board_after = |allowance| {
        let mut copy = state.clone();
        copy.make(call.under(allowance));
        copy.board
    };
    (0..stores)
        .map(|made| {
            let (before, after) = (board_after(made), board_after(made + 1));
            (0..before.len()).find(|&place| before[place] != after[place])
        })
        .collect()
}

/// Plays the history, to be watched. Prints where board and mark are.
pub fn play() {
    let mut state = State::running();
    let random = &mut Random::new(SEED);
    println!("{} {}", state.board.as_ptr() as u64, MARK.as_ptr() as u64);
    for _ in 0..CALLS {
        let call = any_call(random, &state, NO_CUT);
        MARK.store(1, Ordering::SeqCst);
        state.make(call);
        MARK.store(0, Ordering::SeqCst);
    }
}

/// Holds the record of a played history to the stores that were due.
pub fn check(places: &str, record: &str) -> Result<(), String> {
    let recorded = read_record(places, record)?;
    if recorded.len() != CALLS {
        return Err(format!("{} calls recorded of {CALLS}", recorded.len()));
    }
    let mut state = State::running();
    let random = &mut Random::new(SEED);
    let mut stores = 0;
    for (index, made) in recorded.iter().enumerate() {
        let call = any_call(random, &state, NO_CUT);
        let due = due(&state, call);
        let same = due.len() == made.len()
            && due
                .iter()
                .zip(made)
                .all(|(due, made)| due.is_none_or(|due| due == *made));
        if !same {
            return Err(format!(
                "call {index}, {call}: words {due:?} are due in this order, the machine stored {made:?}"
            ));
        }
        stores += made.len();
        state.make(call);
    }
    println!("{CALLS} calls, {stores} board stores: each of one word, all in the order due");
    Ok(())
}

/// The places on the board that each call stored to, in the order in which the machine did.
fn read_record(places: &str, record: &str) -> Result<Vec<Vec<usize>>, String> {
    let open = |name: &str| File::open(name).map_err(|error| format!("{name}: {error}"));
    let mut line = String::new();
    BufReader::new(open(places)?)
        .read_line(&mut line)
        .map_err(|error| error.to_string())?;
    let addresses: Vec<u64> = line.split_whitespace().filter_map(|word| word.parse().ok()).collect();
    let [board, mark] = addresses[..] else {
        return Err(format!("{places} does not say where board and mark are"));
    };
    let words = SIZES.board_words() as u64;
    let mut calls: Vec<Vec<usize>> = Vec::new();
    let mut marks = 0;
    for line in BufReader::new(open(record)?).lines() {
        let line = line.map_err(|error| error.to_string())?;
        let Some((address, size)) = stored(&line) else {
            continue;
        };
        if address == mark {
            marks += 1;
            if marks % 2 == 1 {
                calls.push(Vec::new());
            }
        } else if marks % 2 == 1 && (board..board + words * WORD_BYTES).contains(&address) {
            if size != WORD_BYTES || (address - board) % WORD_BYTES != 0 {
                return Err(format!(
                    "call {}: a store of {size} bytes to the board",
                    calls.len() - 1
                ));
            }
            let place = ((address - board) / WORD_BYTES) as usize;
            calls.last_mut().ok_or("a store before the first mark")?.push(place);
        }
    }
    Ok(calls)
}

/// Address and size of a store in lackey's record: ` S 1ffeffe7e8,8`, or ` M ..` for one that loads too.
fn stored(line: &str) -> Option<(u64, u64)> {
    let text = line.strip_prefix(" S ").or_else(|| line.strip_prefix(" M "))?;
    let (address, size) = text.split_once(',')?;
    Some((u64::from_str_radix(address, 16).ok()?, size.trim().parse().ok()?))
}
