//! What occurred: which function answered which number how often, and which rare turns were taken.

use super::asked::{Asked, Function};
use super::sides::Lent;
use super::turn_lists::Counts;
use super::{
    convert_turns, count_turns, filter_turns, hex_in_turns, hex_turns, layout_turns, name_turns, pass_turns,
    power_up_turns, record_turns, set_turns,
};
use crate::call::{Call, Kind};
use crate::handwritten::layout::Control;
use crate::handwritten::names::{called, NAMELESS, NAMES};
use crate::interface::{FILTER, LOG_HELD, OK, OUTSIDE, PAST, RECORD, SHORT, TARGET};
use crate::library::TOO_SHORT;
use crate::record::Record;

/// The column behind those of the paper's numbers: arrays that have too few words or bytes.
const TOO_FEW: (u64, &str) = (TOO_SHORT, "few");
const COLUMNS: usize = NAMES.len() + NAMELESS.len() + 1;

/// The numbers in the order of the columns, with their names.
fn columns() -> impl Iterator<Item = (u64, &'static str)> {
    NAMES.into_iter().chain(NAMELESS).chain([TOO_FEW])
}

pub fn number_name(number: u64) -> &'static str {
    match called(number) {
        "" if number == TOO_SHORT => TOO_FEW.1,
        "" => "(no such number)",
        name => name,
    }
}

/// The numbers that the paper lets a function answer. A commit makes no store, so it is never cut.
fn possible(function: Function) -> &'static [u64] {
    match function {
        Function::Call(Kind::Format) => &[0, 1, TOO_SHORT],
        Function::Call(Kind::PowerUp) => &[0, 1, 2, 3, 12, TOO_SHORT],
        Function::Call(Kind::Load | Kind::Evict) => &[0, 1, 2, 4, 5, 6, 7, 12, FILTER, TOO_SHORT],
        Function::Call(Kind::Store) => &[0, 1, 2, 4, 5, 6, 7, 8, 12, FILTER, TOO_SHORT],
        Function::Call(Kind::Commit) => &[0, 1, 2, 4, 7, 9, 10, FILTER, TOO_SHORT],
        Function::Call(Kind::Begin) => &[0, 1, 2, 4, 7, FILTER, TARGET, TOO_SHORT],
        Function::Call(Kind::Scan) => &[0, 1, 2, 4, 6, 7, 11, 12, FILTER, TOO_SHORT],
        Function::Call(Kind::Tally) => &[0, 1, 2, 4, TOO_SHORT],
        Function::Call(Kind::FilterBits) => &[0, 2, TOO_SHORT],
        Function::HexOut => &[0, 1, SHORT, PAST, LOG_HELD, TOO_SHORT],
        Function::HexIn => &[0, 1, LOG_HELD, RECORD, OUTSIDE, TOO_SHORT],
        Function::Convert => &[0, 1, 3, TOO_SHORT],
        Function::TraceWrite => &[0, 13, TOO_SHORT],
        Function::Name => &[0, TOO_SHORT],
    }
}

/// Rare turns that a run has to take, as the memories before and after a call show them.
const TURNS: [(&str, Turn); 10] = [
    ("the 32nd entry flushes the buffer", |seen| {
        seen.kind == Kind::Store && seen.stores == 65
    }),
    ("a store makes 66 board stores", |seen| {
        seen.kind == Kind::Store && seen.stores == 66
    }),
    ("a load's write-out flushes first", |seen| {
        seen.kind == Kind::Load && seen.stores >= 4
    }),
    ("a store's write-out flushes first", |seen| {
        seen.kind == Kind::Store && (4..65).contains(&seen.stores)
    }),
    ("an eviction's write-out flushes first", |seen| {
        seen.kind == Kind::Evict && seen.stores >= 4
    }),
    ("a scan's write-out flushes first", |seen| {
        seen.kind == Kind::Scan && seen.stores >= 4 && seen.value == 0
    }),
    ("the log goes over the ring's end", |seen| {
        seen.before.start + seen.before.length <= seen.entries && seen.after.start + seen.after.length > seen.entries
    }),
    ("the log's start goes over the ring's end", |seen| {
        seen.kind == Kind::Scan && seen.after.start < seen.before.start
    }),
    ("a scan drops all entries of a log", |seen| {
        seen.kind == Kind::Scan && seen.before.length > 0 && seen.after.length == 0
    }),
    ("a power-up restores lines", |seen| {
        seen.kind == Kind::PowerUp && seen.stores > 1
    }),
];

type Turn = fn(&Seen) -> bool;

/// What an accepted call shows.
struct Seen {
    kind: Kind,
    value: u64,
    stores: u64,
    before: Control,
    after: Control,
    entries: usize,
}

#[derive(Clone)]
pub struct Occurrences {
    numbers: [[u64; COLUMNS]; Function::COUNT],
    turns: [u64; TURNS.len()],
    power_up_turns: [u64; power_up_turns::TURNS.len()],
    filter_turns: [u64; filter_turns::TURNS.len()],
    count_turns: Counts<count_turns::Seen>,
    set_turns: Counts<set_turns::Seen>,
    pass_turns: Counts<pass_turns::Seen>,
    layout_turns: Counts<layout_turns::Seen>,
    convert_turns: convert_turns::Counts,
    hex_turns: hex_turns::Counts,
    hex_in_turns: hex_in_turns::Counts,
    record_turns: [u64; record_turns::TURNS.len()],
    name_turns: name_turns::Counts,
    pub calls_on_converted: u64,
}

/// So many calls have to be made on converted boards.
const FEWEST_ON_CONVERTED: u64 = 100_000;

impl Default for Occurrences {
    fn default() -> Self {
        Occurrences {
            numbers: [[0; COLUMNS]; Function::COUNT],
            turns: [0; TURNS.len()],
            power_up_turns: [0; power_up_turns::TURNS.len()],
            filter_turns: [0; filter_turns::TURNS.len()],
            count_turns: Counts::new(&count_turns::ALL),
            set_turns: Counts::new(&set_turns::ALL),
            pass_turns: Counts::new(&pass_turns::ALL),
            layout_turns: Counts::new(&layout_turns::ALL),
            convert_turns: convert_turns::Counts::default(),
            hex_turns: hex_turns::Counts::default(),
            hex_in_turns: hex_in_turns::Counts::default(),
            record_turns: [0; record_turns::TURNS.len()],
            name_turns: name_turns::Counts::default(),
            calls_on_converted: 0,
        }
    }
}

impl Occurrences {
    pub fn count(&mut self, asked: Asked, number: u64, before: &Lent, after: &Lent) {
        let column = columns()
            .position(|(known, _)| known == number)
            .expect("the hand-written side answers no other number");
        self.numbers[asked.function().place()][column] += 1;
        match asked {
            Asked::Call(call) => self.count_call_turns(call, number, before, after),
            Asked::HexOut { record } => self.hex_turns.count(&hex_turns::Seen {
                record,
                before,
                after,
                number,
            }),
            Asked::HexIn => self.hex_in_turns.count(&hex_in_turns::Seen::new(before, after, number)),
            Asked::Convert => self.convert_turns.count(&convert_turns::Seen { before, after, number }),
            Asked::TraceWrite(record) => self.count_record_turns(record, number, before),
            Asked::Name { number: asked } => self.count_name_turns(asked, number, before),
        }
    }

    fn count_call_turns(&mut self, call: Call, number: u64, before: &Lent, after: &Lent) {
        let kind = call.kind();
        if number == OK
            && !matches!(
                kind,
                Kind::Format | Kind::Commit | Kind::Begin | Kind::Tally | Kind::FilterBits
            )
        {
            self.count_accepted_turns(kind, before, after);
        }
        if kind == Kind::PowerUp {
            let seen = power_up_turns::Seen { before, after, number };
            let taken = power_up_turns::TURNS.map(|(_, turn)| turn(&seen));
            count_taken(&mut self.power_up_turns, taken);
        }
        if let Some(seen) = filter_turns::Seen::new(call, number, before, after) {
            let taken = filter_turns::TURNS.map(|(_, turn)| turn(&seen));
            count_taken(&mut self.filter_turns, taken);
        }
        if let Some(seen) = count_turns::Seen::new(call, number, before, after) {
            self.count_turns.count(kind, &seen);
        }
        if let Some(seen) = set_turns::Seen::new(call, number, before, after) {
            self.set_turns.count(kind, &seen);
        }
        if let Some(seen) = pass_turns::Seen::new(call, number, before, after) {
            self.pass_turns.count(kind, &seen);
        }
        if let Some(seen) = layout_turns::Seen::new(call, number, before, after) {
            self.layout_turns.count(kind, &seen);
        }
    }

    fn count_accepted_turns(&mut self, kind: Kind, before: &Lent, after: &Lent) {
        let seen = Seen {
            kind,
            value: after.answer[0],
            stores: after.answer[1],
            before: before.control(),
            after: after.control(),
            entries: after.shape().entries as usize,
        };
        let taken = TURNS.map(|(_, turn)| turn(&seen));
        count_taken(&mut self.turns, taken);
    }

    fn count_record_turns(&mut self, record: Record, number: u64, before: &Lent) {
        let seen = record_turns::Seen {
            record,
            bytes: before.bytes_place.len(),
            answer_words: before.answer.len(),
            number,
        };
        let taken = record_turns::TURNS.map(|(_, turn)| turn(&seen));
        count_taken(&mut self.record_turns, taken);
    }

    fn count_name_turns(&mut self, asked: u64, number: u64, before: &Lent) {
        self.name_turns.count(&name_turns::Seen {
            asked,
            text_bytes: before.bytes_place.len(),
            answer_words: before.answer.len(),
            number,
        });
    }

    pub fn add(&mut self, other: &Occurrences) {
        let more = other.numbers.iter().flatten();
        let more = more.chain(&other.turns).chain(&other.power_up_turns);
        let more = more.chain(&other.filter_turns).chain(&other.record_turns);
        let more = more.chain(other.count_turns.iter()).chain(other.set_turns.iter());
        let more = more.chain(other.pass_turns.iter()).chain(other.layout_turns.iter());
        let more = more
            .chain(other.convert_turns.iter())
            .chain([&other.calls_on_converted]);
        let more = more.chain(other.hex_turns.iter()).chain(other.hex_in_turns.iter());
        let more = more.chain(other.name_turns.iter());
        let counts = self.numbers.iter_mut().flatten();
        let counts = counts.chain(&mut self.turns).chain(&mut self.power_up_turns);
        let counts = counts.chain(&mut self.filter_turns).chain(&mut self.record_turns);
        let counts = counts
            .chain(self.count_turns.iter_mut())
            .chain(self.set_turns.iter_mut())
            .chain(self.pass_turns.iter_mut())
            .chain(self.layout_turns.iter_mut());
        let counts = counts
            .chain(self.convert_turns.iter_mut())
            .chain([&mut self.calls_on_converted]);
        let counts = counts
            .chain(self.hex_turns.iter_mut())
            .chain(self.hex_in_turns.iter_mut())
            .chain(self.name_turns.iter_mut());
        for (count, more) in counts.zip(more) {
            *count += more;
        }
    }

    /// Each rare turn, and how often it was taken.
    fn turns(&self) -> impl Iterator<Item = (String, u64)> + '_ {
        let of_calls = named(TURNS, self.turns);
        let of_power_ups = named(power_up_turns::TURNS, self.power_up_turns);
        let of_filters = named(filter_turns::TURNS, self.filter_turns);
        let of_records = named(record_turns::TURNS, self.record_turns);
        let of_memories = of_calls.chain(of_power_ups).chain(of_filters);
        let of_slots = self.count_turns.named().chain(self.set_turns.named());
        of_memories
            .chain(of_slots)
            .chain(self.pass_turns.named())
            .chain(self.layout_turns.named())
            .chain(self.convert_turns.named())
            .chain(self.hex_turns.named())
            .chain(self.hex_in_turns.named())
            .chain(of_records)
            .chain(self.name_turns.named())
    }

    pub fn calls(&self) -> u64 {
        self.numbers.iter().flatten().sum()
    }

    pub fn header() -> String {
        let columns = columns().map(|(number, name)| format!("{:>11}", format!("{number} {name}")));
        format!("{:<16}{:>10}{}", "", "calls", columns.collect::<String>())
    }

    /// One line for all functions together.
    pub fn line(&self, name: &str) -> String {
        let columns: [u64; COLUMNS] = std::array::from_fn(|column| self.numbers.iter().map(|row| row[column]).sum());
        count_line(name, &columns)
    }

    pub fn lines_by_function(&self) -> Vec<String> {
        let line = |function: Function| count_line(function.name(), &self.numbers[function.place()]);
        Function::all().map(line).collect()
    }

    pub fn lines_of_turns(&self) -> Vec<String> {
        let on_converted = ("calls on converted boards".to_string(), self.calls_on_converted);
        self.turns()
            .chain([on_converted])
            .map(|(name, count)| format!("{count:>10}  {name}"))
            .collect()
    }

    /// What should have occurred and has not.
    pub fn missing(&self) -> Vec<String> {
        let mut missing = Vec::new();
        for function in Function::all() {
            for (column, (number, name)) in columns().enumerate() {
                if possible(function).contains(&number) && self.numbers[function.place()][column] == 0 {
                    missing.push(format!("{} answered {number} {name}", function.name()));
                }
            }
        }
        let untaken = self.turns().filter(|&(_, count)| count == 0);
        missing.extend(untaken.map(|(name, _)| name));
        if self.calls_on_converted < FEWEST_ON_CONVERTED {
            missing.push(format!("{FEWEST_ON_CONVERTED} calls on converted boards"));
        }
        missing
    }
}

/// Counts those turns of a list that were taken.
fn count_taken<const COUNT: usize>(counts: &mut [u64; COUNT], taken: [bool; COUNT]) {
    for (count, taken) in counts.iter_mut().zip(taken) {
        *count += u64::from(taken);
    }
}

/// The names of the turns of a list, with their counts.
fn named<T, const COUNT: usize>(
    turns: [(&'static str, T); COUNT],
    counts: [u64; COUNT],
) -> impl Iterator<Item = (String, u64)> {
    turns.map(|(name, _)| name.to_string()).into_iter().zip(counts)
}

fn count_line(name: &str, columns: &[u64]) -> String {
    let counts: Vec<String> = columns.iter().map(|count| format!("{count:>11}")).collect();
    format!("{name:<16}{:>10}{}", columns.iter().sum::<u64>(), counts.concat())
}
