//! Rare turns of the export: each kind of record put into a text and refused, records at the edges of banks and boards, each
//! refusal for one reason alone, and which comes first where several hold.

mod lists;

use super::faults::{self, FAULTS};
use super::sides::Lent;
use crate::handwritten::hex::{end_record, hex_out, BANK_LINES, BANK_RECORDS, RECORD_LINES, TEXT_BYTES};
use crate::handwritten::layout::MOST_LINES;
use crate::interface::{LOG_HELD, OK, PAST, SHAPE, SHORT};
use crate::library::TOO_SHORT;
use lists::{KINDS, OF_EACH_KIND, ORDER, PUT, REFUSED};

/// The record that was asked for, what was lent and left, and the number answered.
pub struct Seen<'a> {
    pub record: u64,
    pub before: &'a Lent,
    pub after: &'a Lent,
    pub number: u64,
}

/// What a record is of, with its bank, or its first line and whether that is an odd last one.
#[derive(Clone, Copy)]
enum What {
    Opener { bank: u64 },
    Lines { first: u64, is_odd: bool },
    End,
}

impl Seen<'_> {
    fn text_bytes(&self) -> usize {
        self.before.bytes_place.len()
    }

    fn answer_words(&self) -> usize {
        self.before.answer.len()
    }

    fn is_short(&self) -> bool {
        self.text_bytes() < TEXT_BYTES
    }

    fn is_held(&self) -> bool {
        self.before.has_head() && self.before.control().length > 0
    }

    /// No board has a record of that number.
    fn is_past_all(&self) -> bool {
        self.record > end_record(MOST_LINES)
    }

    /// What the number is the record of on a board of a right shape, where that has one.
    fn what(&self) -> Option<What> {
        let lines = self.before.shape().lines;
        let end = end_record(lines);
        let (bank, place) = (self.record / BANK_RECORDS, self.record % BANK_RECORDS);
        match self.record {
            record if record > end => None,
            record if record == end => Some(What::End),
            _ if place == 0 => Some(What::Opener { bank }),
            _ => {
                let first = bank * BANK_LINES + RECORD_LINES * (place - 1);
                let is_odd = first + 1 == lines;
                Some(What::Lines { first, is_odd })
            }
        }
    }

    /// The same, going by the number answered where the board is of a right shape.
    fn what_if_right(&self) -> Option<What> {
        let has_right_shape = [OK, SHORT, PAST, LOG_HELD].contains(&self.number);
        has_right_shape.then(|| self.what()).flatten()
    }

    /// What was put.
    fn put(&self) -> Option<What> {
        (self.number == OK).then(|| self.what()).flatten()
    }

    fn puts_opener(&self, is_it: fn(u64) -> bool) -> bool {
        matches!(self.put(), Some(What::Opener { bank }) if is_it(bank))
    }

    /// Whether the first line, and the number of lines, are such.
    fn puts_lines(&self, odd: bool, are_they: fn(u64, u64) -> bool) -> bool {
        let lines = || self.before.shape().lines;
        matches!(self.put(), Some(What::Lines { first, is_odd }) if is_odd == odd && are_they(first, lines()))
    }

    fn puts_any_lines(&self) -> bool {
        matches!(self.put(), Some(What::Lines { .. }))
    }

    fn puts_end(&self, are_they: fn(u64) -> bool) -> bool {
        matches!(self.put(), Some(What::End)) && are_they(self.before.shape().lines)
    }

    /// Whether these are the last digits of the record that was put.
    fn has_check(&self, digits: &[u8; 2]) -> bool {
        let text = &self.after.bytes[self.after.bytes_place.clone()];
        let is_put = self.number == OK && !self.after.answer.is_empty();
        is_put && text[..self.after.answer[0] as usize].ends_with(&[digits[0], digits[1], b'\n'])
    }

    fn is_held_by(&self, is_it: fn(u64, u64) -> bool) -> bool {
        let control = || self.before.control();
        self.number == LOG_HELD && is_it(control().length as u64, self.before.shape().entries)
    }

    fn is_past(&self, is_it: fn(u64, u64) -> bool) -> bool {
        self.number == PAST && !self.is_held() && is_it(self.record, end_record(self.before.shape().lines))
    }

    /// Too few answer words, where the call would answer such a number with enough.
    fn lacks_answer_before(&self, number: u64) -> bool {
        let mut text = vec![0; self.text_bytes()];
        self.number == TOO_SHORT && hex_out(&self.before.board, &mut text, self.record).number == number
    }
}

/// How often each turn was taken.
#[derive(Clone, Default)]
pub struct Counts {
    of_each_kind: [[u64; OF_EACH_KIND.len()]; KINDS.len()],
    of_faults: [u64; FAULTS.len()],
    put: [u64; PUT.len()],
    refused: [u64; REFUSED.len()],
    order: [u64; ORDER.len()],
}

impl Counts {
    pub fn count(&mut self, seen: &Seen) {
        let what = seen.what_if_right();
        for (counts, (_, is_it)) in self.of_each_kind.iter_mut().zip(KINDS) {
            for (count, (_, turn)) in counts.iter_mut().zip(OF_EACH_KIND) {
                *count += u64::from(what.is_some_and(is_it) && turn(seen));
            }
        }
        for (count, (_, fault)) in self.of_faults.iter_mut().zip(FAULTS) {
            *count += u64::from(seen.number == SHAPE && faults::is_alone(fault, seen.before));
        }
        let counts = self.put.iter_mut().chain(&mut self.refused).chain(&mut self.order);
        let turns = PUT.into_iter().chain(REFUSED).chain(ORDER);
        for (count, (_, turn)) in counts.zip(turns) {
            *count += u64::from(turn(seen));
        }
    }

    pub fn iter(&self) -> impl Iterator<Item = &u64> {
        let of_boards = self.of_each_kind.iter().flatten().chain(&self.of_faults);
        of_boards.chain(&self.put).chain(&self.refused).chain(&self.order)
    }

    pub fn iter_mut(&mut self) -> impl Iterator<Item = &mut u64> {
        let of_boards = self.of_each_kind.iter_mut().flatten().chain(&mut self.of_faults);
        let of_boards = of_boards.chain(&mut self.put);
        of_boards.chain(&mut self.refused).chain(&mut self.order)
    }

    /// What each turn is, and its count.
    pub fn named(&self) -> impl Iterator<Item = (String, u64)> + '_ {
        let of_each_kind = KINDS
            .iter()
            .flat_map(|(kind, _)| OF_EACH_KIND.map(|(what, _)| format!("{kind} {what}")));
        let of_faults = FAULTS.iter().map(|(what, _)| format!("shape for {what}, alone"));
        let others = PUT.into_iter().chain(REFUSED).chain(ORDER);
        let others = others.map(|(what, _)| what.to_string());
        let names = of_each_kind.chain(of_faults).chain(others);
        names.map(|name| format!("hex-out: {name}")).zip(self.iter().copied())
    }
}
