//! The library as one of the two sides.

use super::TOO_SHORT;
use crate::interface::{Answer, AnswerWords, CacheLog, ReaderWords, RecordBytes, RegisterWords, ANSWER_WORDS};
use std::ptr;

pub struct Library;

/// Makes a call that fills an answer array, and gives what it answered.
#[inline(always)]
fn answered(call: impl FnOnce(&mut AnswerWords) -> u64) -> Answer {
    let mut words = [0; ANSWER_WORDS];
    let number = call(&mut words);
    let [value, stores] = words.each_ref().map(read_by_itself);
    Answer { number, value, stores }
}

/// A word of an answer, read by itself, as it was written. To add two of them up the compiler would read both by one load, which
/// cannot take them from the two stores that are still under way: with it a tally took twice the time.
#[inline(always)]
fn read_by_itself(word: &u64) -> u64 {
    unsafe { ptr::from_ref(word).read_volatile() }
}

impl CacheLog for Library {
    type Registers = RegisterWords;
    type Reader = ReaderWords;

    #[inline]
    fn format(board: &mut [u64], lines: u64, entries: u64) -> Answer {
        answered(|answer| super::format(board, lines, entries, answer))
    }

    #[inline]
    fn power_up(board: &mut [u64], work: &mut [u64], registers: &mut RegisterWords, allowance: u32) -> Answer {
        answered(|answer| super::power_up(board, work, registers, allowance, answer))
    }

    #[inline]
    fn load(
        board: &mut [u64],
        work: &mut [u64],
        registers: &mut RegisterWords,
        address: u64,
        allowance: u32,
    ) -> Answer {
        answered(|answer| super::load(board, work, registers, address, allowance, answer))
    }

    #[inline]
    fn store(
        board: &mut [u64],
        work: &mut [u64],
        registers: &mut RegisterWords,
        address: u64,
        data: u64,
        allowance: u32,
    ) -> Answer {
        answered(|answer| super::store(board, work, registers, address, data, allowance, answer))
    }

    #[inline]
    fn evict(
        board: &mut [u64],
        work: &mut [u64],
        registers: &mut RegisterWords,
        address: u64,
        allowance: u32,
    ) -> Answer {
        answered(|answer| super::evict(board, work, registers, address, allowance, answer))
    }

    #[inline]
    fn commit(board: &[u64], work: &[u64], registers: &mut RegisterWords, allowance: u32) -> Answer {
        answered(|answer| super::commit(board, work, registers, allowance, answer))
    }

    #[inline]
    fn begin(board: &[u64], work: &[u64], registers: &mut RegisterWords, target: u64) -> Answer {
        answered(|answer| super::begin(board, work, registers, target, answer))
    }

    #[inline]
    fn scan(board: &mut [u64], work: &mut [u64], registers: &mut RegisterWords, allowance: u32) -> Answer {
        answered(|answer| super::scan(board, work, registers, allowance, answer))
    }

    #[inline]
    fn tally(board: &[u64], work: &[u64], registers: &RegisterWords) -> Answer {
        answered(|answer| super::tally(board, work, registers, answer))
    }

    #[inline]
    fn filter_bits(work: &[u64]) -> Answer {
        answered(|answer| super::filter_bits(work, answer))
    }

    #[inline]
    fn hex_out(board: &[u64], text: &mut [u8], record: u64) -> Answer {
        answered(|answer| super::hex_out(board, text, record, answer))
    }

    #[inline]
    fn hex_in(board: &mut [u64], reader: &mut ReaderWords, text: &[u8]) -> Answer {
        answered(|answer| super::hex_in(board, reader, text, answer))
    }

    #[inline]
    fn convert(old_board: &[u64], board: &mut [u64]) -> Answer {
        answered(|answer| super::convert(old_board, board, answer))
    }

    #[inline]
    fn trace_write(bytes: &mut RecordBytes, kind: u64, address: u64, value: u64) -> Answer {
        answered(|answer| super::trace_write(bytes, kind, address, value, answer))
    }

    #[inline]
    fn name(text: &mut [u8], number: u64) -> Option<Answer> {
        let answer = answered(|answer| super::name(text, number, answer));
        (answer.number != TOO_SHORT).then_some(answer)
    }
}
