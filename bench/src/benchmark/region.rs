//! The measured part: a loop that makes the calls of a trace, or all records of an export, or reads a file of them, or one
//! conversion, the same for both sides.

use super::aligned::Aligned;
use crate::call::Call;
use crate::handwritten::hex::TEXT_BYTES;
use crate::handwritten::HandWritten;
use crate::interface::{Answer, CacheLog, RegisterWords, FIRST_READER};
use crate::library::Library;
use std::ops::Range;

/// The memories and registers that a trace starts from.
#[derive(PartialEq, Eq)]
pub struct Start {
    pub board: Vec<u64>,
    pub work: Vec<u64>,
    pub registers: RegisterWords,
    /// What is converted; the board is the second memory then. Other rows have none.
    pub old_board: Vec<u64>,
}

/// What is played in one go: calls, the records of these numbers, a file that is read, by its records, or a conversion.
#[derive(Clone)]
pub enum Piece<'a> {
    Calls(&'a [Call]),
    Records(Range<u64>),
    File(&'a [Vec<u8>]),
    Conversion,
}

/// One side's own copy of them, and a text for records.
pub struct Memories<C: CacheLog> {
    board: Aligned,
    work: Aligned,
    registers: C::Registers,
    old_board: Aligned,
    text: [u8; TEXT_BYTES],
}

impl<C: CacheLog> Memories<C> {
    pub fn new(start: &Start) -> Self {
        Memories {
            board: Aligned::new(&start.board),
            work: Aligned::new(&start.work),
            registers: start.registers.into(),
            old_board: Aligned::new(&start.old_board),
            text: [0; TEXT_BYTES],
        }
    }

    pub fn restore(&mut self, start: &Start) {
        self.board.words_mut().copy_from_slice(&start.board);
        self.work.words_mut().copy_from_slice(&start.work);
        self.registers = start.registers.into();
    }

    pub fn into_start(self) -> Start {
        Start {
            board: self.board.words().to_vec(),
            work: self.work.words().to_vec(),
            registers: self.registers.into(),
            old_board: self.old_board.words().to_vec(),
        }
    }

    pub fn make(&mut self, call: Call) -> Answer {
        call.make::<C>(self.board.words_mut(), self.work.words_mut(), &mut self.registers)
    }

    /// Makes all calls of the trace and gives the sum of all answers, by which the two sides are compared.
    #[inline(always)]
    fn play(&mut self, trace: &[Call]) -> u64 {
        let board = self.board.words_mut();
        let work = self.work.words_mut();
        let mut sum: u64 = 0;
        for &call in trace {
            let answer = call.make::<C>(board, work, &mut self.registers);
            sum = with_answer(sum, answer);
        }
        sum
    }

    /// Exports the records, each into the same text, and gives the sum of all answers.
    #[inline(always)]
    fn export(&mut self, records: Range<u64>) -> u64 {
        let board = self.board.words();
        let mut sum: u64 = 0;
        for record in records {
            let answer = C::hex_out(board, &mut self.text, record);
            sum = with_answer(sum, answer);
        }
        sum
    }

    /// Reads a file from its first record on and gives the sum of all answers.
    #[inline(always)]
    fn read(&mut self, file: &[Vec<u8>]) -> u64 {
        let board = self.board.words_mut();
        let mut reader = C::Reader::from(FIRST_READER);
        let mut sum: u64 = 0;
        for text in file {
            let answer = C::hex_in(board, &mut reader, text);
            sum = with_answer(sum, answer);
        }
        sum
    }

    /// Converts the old board and gives the sum of the answer.
    #[inline(always)]
    fn convert(&mut self) -> u64 {
        let answer = C::convert(self.old_board.words(), self.board.words_mut());
        with_answer(0, answer)
    }

    /// Plays what is not measured.
    #[inline(never)]
    pub fn play_unmeasured(&mut self, piece: Piece) -> u64 {
        match piece {
            Piece::Calls(trace) => self.play(trace),
            Piece::Records(records) => self.export(records),
            Piece::File(file) => self.read(file),
            Piece::Conversion => self.convert(),
        }
    }
}

#[inline(always)]
fn with_answer(sum: u64, answer: Answer) -> u64 {
    sum.wrapping_add(answer.number)
        .wrapping_add(answer.value)
        .wrapping_add(answer.stores)
}

/// A side with functions of its own for what is measured, which callgrind knows by their names.
pub trait Measured: CacheLog + Sized {
    fn play_measured(memories: &mut Memories<Self>, piece: Piece) -> u64;
}

impl Measured for Library {
    fn play_measured(memories: &mut Memories<Self>, piece: Piece) -> u64 {
        match piece {
            Piece::Calls(trace) => counted_region_library(memories, trace),
            Piece::Records(records) => counted_region_library_export(memories, records),
            Piece::File(file) => counted_region_library_reading(memories, file),
            Piece::Conversion => counted_region_library_conversion(memories),
        }
    }
}

impl Measured for HandWritten {
    fn play_measured(memories: &mut Memories<Self>, piece: Piece) -> u64 {
        match piece {
            Piece::Calls(trace) => counted_region_handwritten(memories, trace),
            Piece::Records(records) => counted_region_handwritten_export(memories, records),
            Piece::File(file) => counted_region_handwritten_reading(memories, file),
            Piece::Conversion => counted_region_handwritten_conversion(memories),
        }
    }
}

#[no_mangle]
#[inline(never)]
fn counted_region_library(memories: &mut Memories<Library>, trace: &[Call]) -> u64 {
    memories.play(trace)
}

#[no_mangle]
#[inline(never)]
fn counted_region_handwritten(memories: &mut Memories<HandWritten>, trace: &[Call]) -> u64 {
    memories.play(trace)
}

#[no_mangle]
#[inline(never)]
fn counted_region_library_export(memories: &mut Memories<Library>, records: Range<u64>) -> u64 {
    memories.export(records)
}

#[no_mangle]
#[inline(never)]
fn counted_region_handwritten_export(memories: &mut Memories<HandWritten>, records: Range<u64>) -> u64 {
    memories.export(records)
}

#[no_mangle]
#[inline(never)]
fn counted_region_library_reading(memories: &mut Memories<Library>, file: &[Vec<u8>]) -> u64 {
    memories.read(file)
}

#[no_mangle]
#[inline(never)]
fn counted_region_handwritten_reading(memories: &mut Memories<HandWritten>, file: &[Vec<u8>]) -> u64 {
    memories.read(file)
}

#[no_mangle]
#[inline(never)]
fn counted_region_library_conversion(memories: &mut Memories<Library>) -> u64 {
    memories.convert()
}

#[no_mangle]
#[inline(never)]
fn counted_region_handwritten_conversion(memories: &mut Memories<HandWritten>) -> u64 {
    memories.convert()
}
