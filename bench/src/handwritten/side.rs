//! The hand-written calls as one of the two sides.

use super::hex_in::{self, Reader};
use super::{convert, hex, names, record, Registers};
use crate::interface::{Answer, CacheLog, RecordBytes};

pub struct HandWritten;

impl CacheLog for HandWritten {
    type Registers = Registers;
    type Reader = Reader;

    #[inline]
    fn format(board: &mut [u64], lines: u64, entries: u64) -> Answer {
        super::format(board, lines, entries)
    }

    #[inline]
    fn power_up(board: &mut [u64], work: &mut [u64], registers: &mut Registers, allowance: u32) -> Answer {
        super::power_up(board, work, registers, allowance)
    }

    #[inline]
    fn load(board: &mut [u64], work: &mut [u64], registers: &mut Registers, address: u64, allowance: u32) -> Answer {
        super::load(board, work, registers, address, allowance)
    }

    #[inline]
    fn store(
        board: &mut [u64],
        work: &mut [u64],
        registers: &mut Registers,
        address: u64,
        data: u64,
        allowance: u32,
    ) -> Answer {
        super::store(board, work, registers, address, data, allowance)
    }

    #[inline]
    fn evict(board: &mut [u64], work: &mut [u64], registers: &mut Registers, address: u64, allowance: u32) -> Answer {
        super::evict(board, work, registers, address, allowance)
    }

    #[inline]
    fn commit(board: &[u64], work: &[u64], registers: &mut Registers, allowance: u32) -> Answer {
        super::commit(board, work, registers, allowance)
    }

    #[inline]
    fn begin(board: &[u64], work: &[u64], registers: &mut Registers, target: u64) -> Answer {
        super::begin(board, work, registers, target)
    }

    #[inline]
    fn scan(board: &mut [u64], work: &mut [u64], registers: &mut Registers, allowance: u32) -> Answer {
        super::scan(board, work, registers, allowance)
    }

    #[inline]
    fn tally(board: &[u64], work: &[u64], registers: &Registers) -> Answer {
        super::tally(board, work, registers)
    }

    #[inline]
    fn filter_bits(work: &[u64]) -> Answer {
        super::filter_bits(work)
    }

    #[inline]
    fn hex_out(board: &[u64], text: &mut [u8], record: u64) -> Answer {
        hex::hex_out(board, text, record)
    }

    #[inline]
    fn hex_in(board: &mut [u64], reader: &mut Reader, text: &[u8]) -> Answer {
        hex_in::hex_in(board, reader, text)
    }

    #[inline]
    fn convert(old_board: &[u64], board: &mut [u64]) -> Answer {
        convert::convert(old_board, board)
    }

    #[inline]
    fn trace_write(bytes: &mut RecordBytes, kind: u64, address: u64, value: u64) -> Answer {
        record::trace_write(bytes, kind, address, value)
    }

    #[inline]
    fn name(text: &mut [u8], number: u64) -> Option<Answer> {
        names::name(text, number)
    }
}
