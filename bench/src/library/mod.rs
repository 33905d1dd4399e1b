//! The static library: its functions as include/picl.h declares them, and safe calls of them.
//!
//! A slice is what the header asks of its caller: aligned, not null, as long as it says, and overlapping nothing that
//! is lent with it. So nothing is left to test here, and nothing is tested.

mod side;

pub use side::Library;

mod c {
    unsafe extern "C" {
        pub fn picl_format(
            board: *mut u64,
            board_words: usize,
            lines: u64,
            entries: u64,
            answer: *mut u64,
            answer_words: usize,
        ) -> u64;
        pub fn picl_power_up(
            board: *mut u64,
            board_words: usize,
            work: *mut u64,
            work_words: usize,
            registers: *mut u64,
            register_words: usize,
            allowance: u32,
            answer: *mut u64,
            answer_words: usize,
        ) -> u64;
        pub fn picl_load(
            board: *mut u64,
            board_words: usize,
            work: *mut u64,
            work_words: usize,
            registers: *mut u64,
            register_words: usize,
            address: u64,
            allowance: u32,
            answer: *mut u64,
            answer_words: usize,
        ) -> u64;
        pub fn picl_store(
            board: *mut u64,
            board_words: usize,
            work: *mut u64,
            work_words: usize,
            registers: *mut u64,
            register_words: usize,
            address: u64,
            data: u64,
            allowance: u32,
            answer: *mut u64,
            answer_words: usize,
        ) -> u64;
        pub fn picl_evict(
            board: *mut u64,
            board_words: usize,
            work: *mut u64,
            work_words: usize,
            registers: *mut u64,
            register_words: usize,
            address: u64,
            allowance: u32,
            answer: *mut u64,
            answer_words: usize,
        ) -> u64;
        pub fn picl_commit(
            board: *const u64,
            board_words: usize,
            work: *const u64,
            work_words: usize,
            registers: *mut u64,
            register_words: usize,
            allowance: u32,
            answer: *mut u64,
            answer_words: usize,
        ) -> u64;
        pub fn picl_begin(
            board: *const u64,
            board_words: usize,
            work: *const u64,
            work_words: usize,
            registers: *mut u64,
            register_words: usize,
            target: u64,
            answer: *mut u64,
            answer_words: usize,
        ) -> u64;
        pub fn picl_scan(
            board: *mut u64,
            board_words: usize,
            work: *mut u64,
            work_words: usize,
            registers: *mut u64,
            register_words: usize,
            allowance: u32,
            answer: *mut u64,
            answer_words: usize,
        ) -> u64;
        pub fn picl_tally(
            board: *const u64,
            board_words: usize,
            work: *const u64,
            work_words: usize,
            registers: *const u64,
            register_words: usize,
            answer: *mut u64,
            answer_words: usize,
        ) -> u64;
        pub fn picl_filter_bits(work: *const u64, work_words: usize, answer: *mut u64, answer_words: usize) -> u64;
        pub fn picl_hex_out(
            board: *const u64,
            board_words: usize,
            text: *mut u8,
            text_bytes: usize,
            record: u64,
            answer: *mut u64,
            answer_words: usize,
        ) -> u64;
        pub fn picl_hex_in(
            board: *mut u64,
            board_words: usize,
            reader: *mut u64,
            reader_words: usize,
            text: *const u8,
            text_bytes: usize,
            answer: *mut u64,
            answer_words: usize,
        ) -> u64;
        pub fn picl_convert(
            old_board: *const u64,
            old_words: usize,
            board: *mut u64,
            board_words: usize,
            answer: *mut u64,
            answer_words: usize,
        ) -> u64;
        pub fn picl_trace_write(
            bytes: *mut u8,
            byte_count: usize,
            kind: u64,
            address: u64,
            value: u64,
            answer: *mut u64,
            answer_words: usize,
        ) -> u64;
        pub fn picl_name(text: *mut u8, text_bytes: usize, number: u64, answer: *mut u64, answer_words: usize) -> u64;
    }
}

/// What the library answers when the registers, the reader or the answer have too few words, or a record or a text too few bytes.
pub const TOO_SHORT: u64 = 255;

#[inline]
pub fn format(board: &mut [u64], lines: u64, entries: u64, answer: &mut [u64]) -> u64 {
    unsafe {
        c::picl_format(
            board.as_mut_ptr(),
            board.len(),
            lines,
            entries,
            answer.as_mut_ptr(),
            answer.len(),
        )
    }
}

#[inline]
pub fn power_up(board: &mut [u64], work: &mut [u64], registers: &mut [u64], allowance: u32, answer: &mut [u64]) -> u64 {
    unsafe {
        c::picl_power_up(
            board.as_mut_ptr(),
            board.len(),
            work.as_mut_ptr(),
            work.len(),
            registers.as_mut_ptr(),
            registers.len(),
            allowance,
            answer.as_mut_ptr(),
            answer.len(),
        )
    }
}

#[inline]
pub fn load(
    board: &mut [u64],
    work: &mut [u64],
    registers: &mut [u64],
    address: u64,
    allowance: u32,
    answer: &mut [u64],
) -> u64 {
    unsafe {
        c::picl_load(
            board.as_mut_ptr(),
            board.len(),
            work.as_mut_ptr(),
            work.len(),
            registers.as_mut_ptr(),
            registers.len(),
            address,
            allowance,
            answer.as_mut_ptr(),
            answer.len(),
        )
    }
}

#[inline]
pub fn store(
    board: &mut [u64],
    work: &mut [u64],
    registers: &mut [u64],
    address: u64,
    data: u64,
    allowance: u32,
    answer: &mut [u64],
) -> u64 {
    unsafe {
        c::picl_store(
            board.as_mut_ptr(),
            board.len(),
            work.as_mut_ptr(),
            work.len(),
            registers.as_mut_ptr(),
            registers.len(),
            address,
            data,
            allowance,
            answer.as_mut_ptr(),
            answer.len(),
        )
    }
}

#[inline]
pub fn evict(
    board: &mut [u64],
    work: &mut [u64],
    registers: &mut [u64],
    address: u64,
    allowance: u32,
    answer: &mut [u64],
) -> u64 {
    unsafe {
        c::picl_evict(
            board.as_mut_ptr(),
            board.len(),
            work.as_mut_ptr(),
            work.len(),
            registers.as_mut_ptr(),
            registers.len(),
            address,
            allowance,
            answer.as_mut_ptr(),
            answer.len(),
        )
    }
}

#[inline]
pub fn commit(board: &[u64], work: &[u64], registers: &mut [u64], allowance: u32, answer: &mut [u64]) -> u64 {
    unsafe {
        c::picl_commit(
            board.as_ptr(),
            board.len(),
            work.as_ptr(),
            work.len(),
            registers.as_mut_ptr(),
            registers.len(),
            allowance,
            answer.as_mut_ptr(),
            answer.len(),
        )
    }
}

#[inline]
pub fn begin(board: &[u64], work: &[u64], registers: &mut [u64], target: u64, answer: &mut [u64]) -> u64 {
    unsafe {
        c::picl_begin(
            board.as_ptr(),
            board.len(),
            work.as_ptr(),
            work.len(),
            registers.as_mut_ptr(),
            registers.len(),
            target,
            answer.as_mut_ptr(),
            answer.len(),
        )
    }
}

#[inline]
pub fn scan(board: &mut [u64], work: &mut [u64], registers: &mut [u64], allowance: u32, answer: &mut [u64]) -> u64 {
    unsafe {
        c::picl_scan(
            board.as_mut_ptr(),
            board.len(),
            work.as_mut_ptr(),
            work.len(),
            registers.as_mut_ptr(),
            registers.len(),
            allowance,
            answer.as_mut_ptr(),
            answer.len(),
        )
    }
}

#[inline]
pub fn tally(board: &[u64], work: &[u64], registers: &[u64], answer: &mut [u64]) -> u64 {
    unsafe {
        c::picl_tally(
            board.as_ptr(),
            board.len(),
            work.as_ptr(),
            work.len(),
            registers.as_ptr(),
            registers.len(),
            answer.as_mut_ptr(),
            answer.len(),
        )
    }
}

#[inline]
pub fn filter_bits(work: &[u64], answer: &mut [u64]) -> u64 {
    unsafe { c::picl_filter_bits(work.as_ptr(), work.len(), answer.as_mut_ptr(), answer.len()) }
}

#[inline]
pub fn hex_out(board: &[u64], text: &mut [u8], record: u64, answer: &mut [u64]) -> u64 {
    unsafe {
        c::picl_hex_out(
            board.as_ptr(),
            board.len(),
            text.as_mut_ptr(),
            text.len(),
            record,
            answer.as_mut_ptr(),
            answer.len(),
        )
    }
}

#[inline]
pub fn hex_in(board: &mut [u64], reader: &mut [u64], text: &[u8], answer: &mut [u64]) -> u64 {
    unsafe {
        c::picl_hex_in(
            board.as_mut_ptr(),
            board.len(),
            reader.as_mut_ptr(),
            reader.len(),
            text.as_ptr(),
            text.len(),
            answer.as_mut_ptr(),
            answer.len(),
        )
    }
}

#[inline]
pub fn convert(old_board: &[u64], board: &mut [u64], answer: &mut [u64]) -> u64 {
    unsafe {
        c::picl_convert(
            old_board.as_ptr(),
            old_board.len(),
            board.as_mut_ptr(),
            board.len(),
            answer.as_mut_ptr(),
            answer.len(),
        )
    }
}

#[inline]
pub fn trace_write(bytes: &mut [u8], kind: u64, address: u64, value: u64, answer: &mut [u64]) -> u64 {
    unsafe {
        c::picl_trace_write(
            bytes.as_mut_ptr(),
            bytes.len(),
            kind,
            address,
            value,
            answer.as_mut_ptr(),
            answer.len(),
        )
    }
}

#[inline]
pub fn name(text: &mut [u8], number: u64, answer: &mut [u64]) -> u64 {
    unsafe { c::picl_name(text.as_mut_ptr(), text.len(), number, answer.as_mut_ptr(), answer.len()) }
}
