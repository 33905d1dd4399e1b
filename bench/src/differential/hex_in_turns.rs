//! Rare turns of the reader of Intel HEX: each kind of record taken, records at the edges of banks and boards, each refusal for one
//! reason alone, and which comes first where several hold.

mod lists;

use super::faults::{self, FAULTS};
use super::hex_text::{Fields, BANK_BYTES, END_KIND};
use super::sides::Lent;
use crate::handwritten::hex::{BANK_LINES, DATA, LINE_BYTES, UPPER_ADDRESS};
use crate::handwritten::hex_in::{hex_in, Reader};
use crate::interface::{ANSWER_WORDS, LOG_HELD, OK, OUTSIDE, READER_WORDS, RECORD, SHAPE};
use crate::library::TOO_SHORT;
use lists::{Turn, ACCEPTED, IN_EACH_CASE, KINDS, NO_RECORD, ORDER, REFUSED};

/// What was lent and left, the number answered, and what the text says.
pub struct Seen<'a> {
    pub before: &'a Lent,
    pub after: &'a Lent,
    pub number: u64,
    said: Option<Fields>,
}

impl<'a> Seen<'a> {
    pub fn new(before: &'a Lent, after: &'a Lent, number: u64) -> Self {
        let said = Fields::of(text_of(before));
        Seen {
            before,
            after,
            number,
            said,
        }
    }

    fn text(&self) -> &[u8] {
        text_of(self.before)
    }

    fn upper(&self) -> u64 {
        self.before.reader.first().copied().unwrap_or(0)
    }

    /// The word that says whether the end was seen.
    fn ended(&self) -> u64 {
        self.before.reader.get(1).copied().unwrap_or(0)
    }

    fn lines(&self) -> u64 {
        self.before.shape().lines
    }

    fn is_held(&self) -> bool {
        self.before.has_head() && self.before.control().length > 0
    }

    /// A record that is read, though perhaps behind the end or outside.
    fn read(&self) -> Option<&Fields> {
        self.said.as_ref().filter(|said| said.are_read())
    }

    fn is_kind(&self, kind: u8) -> bool {
        self.read().is_some_and(|said| said.kind == kind)
    }

    fn takes(&self, kind: u8) -> bool {
        self.number == OK && self.is_kind(kind)
    }

    /// Whether data are taken whose line in the bank, and number of lines, are such.
    fn takes_data(&self, are_they: fn(&Seen, u64, u64) -> bool) -> bool {
        let lines_of = |said: &Fields| (u64::from(said.address), said.data.len() as u64);
        let line_bytes = LINE_BYTES as u64;
        self.takes(DATA)
            && self
                .read()
                .map(lines_of)
                .is_some_and(|(address, bytes)| are_they(self, address / line_bytes, bytes / line_bytes))
    }

    /// The board's line that a line in the bank is.
    fn line(&self, in_bank: u64) -> u64 {
        self.upper() * BANK_LINES + in_bank
    }

    /// Refused as no record, on a right board and not for the end, where the text is such.
    fn is_no_record(&self, is_it: fn(&[u8]) -> bool) -> bool {
        self.number == RECORD && self.ended() == 0 && is_it(self.text())
    }

    /// The same of what the text says.
    fn says_no_record(&self, does_it: fn(&Fields) -> bool) -> bool {
        self.number == RECORD && self.ended() == 0 && self.said.as_ref().is_some_and(does_it)
    }

    /// Refused as outside, for being past the last line alone, with such an upper address, and a first and a last line there.
    fn is_past(&self, is_it: fn(upper: u64, first: u128, last: u128, lines: u128) -> bool) -> bool {
        let Some(said) = self.read().filter(|_| self.number == OUTSIDE) else {
            return false;
        };
        let address = u128::from(self.upper()) * u128::from(BANK_BYTES) + u128::from(said.address);
        let first = address / LINE_BYTES as u128;
        let last = first + (said.data.len() / LINE_BYTES) as u128 - 1;
        let lines = u128::from(self.lines());
        !is_unaligned(said) && !runs_over(said) && is_it(self.upper(), first, last, lines)
    }

    /// Refused as outside for that reason alone.
    fn is_outside(&self, is_it: fn(&Fields) -> bool, is_other: fn(&Fields) -> bool) -> bool {
        let is_on_board = |said: &Fields| {
            let first = u64::from(said.address) / LINE_BYTES as u64;
            let behind = (u64::from(said.address) + said.data.len() as u64).div_ceil(LINE_BYTES as u64);
            self.upper() < self.lines().div_ceil(BANK_LINES) && self.line(first.max(behind - 1)) < self.lines()
        };
        let is_alone = |said: &Fields| is_it(said) && !is_other(said) && is_on_board(said);
        self.number == OUTSIDE && self.read().is_some_and(is_alone)
    }

    /// Too few words of the reader or of the answer, where the call would answer such a number with enough.
    fn lacks_words_before(&self, number: u64) -> bool {
        if self.number != TOO_SHORT {
            return false;
        }
        let mut reader = Reader::from([self.upper(), self.ended()]);
        hex_in(&mut self.before.board.clone(), &mut reader, self.text()).number == number
    }

    fn has_reader(&self) -> bool {
        self.before.reader.len() >= READER_WORDS
    }

    fn has_answer(&self) -> bool {
        self.before.answer.len() >= ANSWER_WORDS
    }
}

fn text_of(lent: &Lent) -> &[u8] {
    &lent.bytes[lent.bytes_place.clone()]
}

fn is_unaligned(said: &Fields) -> bool {
    said.kind == DATA && !usize::from(said.address).is_multiple_of(LINE_BYTES)
}

fn runs_over(said: &Fields) -> bool {
    said.kind == DATA && u64::from(said.address) + said.data.len() as u64 > BANK_BYTES
}

/// How often each turn was taken.
#[derive(Clone)]
pub struct Counts {
    counts: Vec<u64>,
}

impl Default for Counts {
    fn default() -> Self {
        Counts {
            counts: vec![0; names().count()],
        }
    }
}

/// Whether each turn was taken.
fn taken<'a>(seen: &'a Seen) -> impl Iterator<Item = bool> + 'a {
    let in_cases = move |(_, is_it): (_, Turn)| {
        let is_taken = seen.number == OK && is_it(seen);
        IN_EACH_CASE.map(|(_, turn)| is_taken && turn(seen))
    };
    let faults = FAULTS
        .iter()
        .map(|&(_, fault)| seen.number == SHAPE && faults::is_alone(fault, seen.before));
    let others = others().map(|(_, turn)| turn(seen));
    KINDS.into_iter().flat_map(in_cases).chain(faults).chain(others)
}

/// What each turn is.
fn names() -> impl Iterator<Item = String> {
    let in_cases = KINDS
        .iter()
        .flat_map(|(kind, _)| IN_EACH_CASE.map(|(what, _)| format!("{kind} {what}")));
    let faults = FAULTS.iter().map(|(what, _)| format!("shape for {what}, alone"));
    let others = others().map(|(what, _)| what.to_string());
    let names = in_cases.chain(faults).chain(others);
    names.map(|name| format!("hex-in: {name}"))
}

/// All turns but those of kinds and faults.
fn others() -> impl Iterator<Item = &'static (&'static str, Turn)> {
    ACCEPTED.iter().chain(&NO_RECORD).chain(&REFUSED).chain(&ORDER)
}

impl Counts {
    pub fn count(&mut self, seen: &Seen) {
        for (count, taken) in self.counts.iter_mut().zip(taken(seen)) {
            *count += u64::from(taken);
        }
    }

    pub fn iter(&self) -> impl Iterator<Item = &u64> {
        self.counts.iter()
    }

    pub fn iter_mut(&mut self) -> impl Iterator<Item = &mut u64> {
        self.counts.iter_mut()
    }

    /// What each turn is, and its count.
    pub fn named(&self) -> impl Iterator<Item = (String, u64)> + '_ {
        names().zip(self.counts.iter().copied())
    }
}
