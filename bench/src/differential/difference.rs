//! A call on which the two sides differ, told in full.

use super::asked::Asked;
use super::occurrences::number_name;
use super::sides::{is_read_back, Lent};
use crate::handwritten::layout::slot_count;
use crate::handwritten::old;
use crate::interface::{ANSWER_WORDS, REGISTER_NAMES};
use std::fmt;

/// How many differing words of one memory are listed.
const LISTED_WORDS: usize = 8;

pub struct Difference {
    pub asked: Asked,
    /// The call's place in its history, the first counted 0.
    pub place: u64,
    pub before: Lent,
    pub library_number: u64,
    pub library: Lent,
    pub handwritten_number: u64,
    pub handwritten: Lent,
    /// The count of dirty slots is true, or need not be.
    pub is_counted: bool,
}

impl fmt::Display for Difference {
    fn fmt(&self, out: &mut fmt::Formatter) -> fmt::Result {
        writeln!(out, "  call         {}", self.asked)?;
        match self.asked {
            Asked::Call(_) => self.write_state(out)?,
            Asked::HexOut { .. } => {
                self.write_state(out)?;
                self.write_lengths(out)?;
            }
            Asked::HexIn => {
                self.write_state(out)?;
                self.write_text(out)?;
            }
            Asked::Convert => self.write_old_board(out)?,
            Asked::TraceWrite(_) | Asked::Name { .. } => self.write_lengths(out)?,
        }
        self.write_number(out)?;
        self.write_answer(out, "value", 0)?;
        self.write_answer(out, "stores", 1)?;
        self.write_words(out, "registers", |lent| &lent.registers)?;
        self.write_words(out, "board", |lent| &lent.board)?;
        self.write_words(out, "work", |lent| &lent.work)?;
        self.write_words(out, "old board", |lent| &lent.old_board)?;
        self.write_words(out, "reader", |lent| &lent.reader)?;
        self.write_words(out, "bytes", |lent| &lent.bytes)?;
        self.write_words(out, "answer behind", |lent| {
            lent.answer.get(ANSWER_WORDS..).unwrap_or(&[])
        })?;
        self.write_count(out)?;
        self.write_read_back(out)
    }
}

impl Difference {
    /// What a call was lent.
    fn write_state(&self, out: &mut fmt::Formatter) -> fmt::Result {
        let before = &self.before;
        write!(out, "  sizes        board {} words", before.board.len())?;
        if before.has_head() {
            let shape = before.shape();
            write!(out, " (its shape word says N {}, L {})", shape.lines, shape.entries)?;
        }
        write!(out, ", work {} words", before.work.len())?;
        if let Some(slots) = slot_count(before.work.len()) {
            write!(out, " (S {slots})")?;
        }
        writeln!(
            out,
            ", registers {} words, answer {} words",
            before.registers.len(),
            before.answer.len()
        )?;
        writeln!(out, "  registers    before {}", register_text(&before.registers))
    }

    /// What a conversion was lent.
    fn write_old_board(&self, out: &mut fmt::Formatter) -> fmt::Result {
        let before = &self.before;
        write!(out, "  sizes        old board {} words", before.old_board.len())?;
        if let Some((control, shape)) = old::head_of(&before.old_board) {
            write!(out, " (its first words say {control:?}, {shape:?})")?;
        }
        writeln!(
            out,
            ", second memory {} words, answer {} words",
            before.board.len(),
            before.answer.len()
        )
    }

    /// What an export, a record or a name was lent.
    fn write_lengths(&self, out: &mut fmt::Formatter) -> fmt::Result {
        let before = &self.before;
        writeln!(
            out,
            "  bytes        {} bytes, those at {:?}, answer {} words",
            before.bytes_place.len(),
            before.bytes_place,
            before.answer.len()
        )
    }

    /// What was read, and by which reader.
    fn write_text(&self, out: &mut fmt::Formatter) -> fmt::Result {
        let before = &self.before;
        let text = &before.bytes[before.bytes_place.clone()];
        writeln!(out, "  reader       {:x?}", before.reader)?;
        writeln!(out, "  text         \"{}\", {} bytes", text.escape_ascii(), text.len())
    }

    fn write_number(&self, out: &mut fmt::Formatter) -> fmt::Result {
        writeln!(
            out,
            "{} number       library {} {}, hand-written {} {}",
            mark(self.library_number != self.handwritten_number),
            self.library_number,
            number_name(self.library_number),
            self.handwritten_number,
            number_name(self.handwritten_number)
        )
    }

    fn write_answer(&self, out: &mut fmt::Formatter, name: &str, place: usize) -> fmt::Result {
        let (library, handwritten) = (self.library.answer.get(place), self.handwritten.answer.get(place));
        if let (Some(library), Some(handwritten)) = (library, handwritten) {
            let mark = mark(library != handwritten);
            writeln!(out, "{mark} {name:<12} library {library}, hand-written {handwritten}")?;
        }
        Ok(())
    }

    fn write_words<W>(&self, out: &mut fmt::Formatter, name: &str, part: fn(&Lent) -> &[W]) -> fmt::Result
    where
        W: Eq + fmt::LowerHex,
    {
        let width = 2 + 2 * size_of::<W>();
        let (before, library, handwritten) = (part(&self.before), part(&self.library), part(&self.handwritten));
        let differing: Vec<usize> = (0..before.len())
            .filter(|&place| library[place] != handwritten[place])
            .collect();
        for &place in differing.iter().take(LISTED_WORDS) {
            writeln!(
                out,
                "* {:<12} before {:#0width$x}, library {:#0width$x}, hand-written {:#0width$x}",
                format!("{name}[{place}]"),
                before[place],
                library[place],
                handwritten[place]
            )?;
        }
        if differing.len() > LISTED_WORDS {
            let more = differing.len() - LISTED_WORDS;
            writeln!(out, "* {name:<12} and {more} more differ")?;
        }
        Ok(())
    }

    fn write_count(&self, out: &mut fmt::Formatter) -> fmt::Result {
        if self.is_counted {
            return Ok(());
        }
        let after = &self.handwritten;
        writeln!(
            out,
            "* count        dirty slots {}, registers after {}",
            after.dirty_slots(),
            register_text(&after.registers)
        )
    }

    fn write_read_back(&self, out: &mut fmt::Formatter) -> fmt::Result {
        if is_read_back(self.asked, self.library_number, &self.library) {
            return Ok(());
        }
        match self.library.read_record() {
            Ok(call) => writeln!(out, "* read back    {call}"),
            Err(number) => writeln!(out, "* read back    {number} {}", number_name(number)),
        }
    }
}

fn mark(differs: bool) -> char {
    if differs {
        '*'
    } else {
        ' '
    }
}

fn register_text(words: &[u64]) -> String {
    let named = REGISTER_NAMES.iter().zip(words);
    let texts: Vec<String> = named.map(|(name, word)| format!("{name} {word}")).collect();
    texts.join(", ")
}
