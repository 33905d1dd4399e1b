//! What both sides have in common: the ten calls, the export, its reader, the converter, the writer of records and the names, as
//! one loop can have them on either side.

/// What a call answers: the paper's number, the value and the board stores made.
#[derive(Clone, Copy, Debug, PartialEq, Eq)]
pub struct Answer {
    pub number: u64,
    pub value: u64,
    pub stores: u64,
}

// Some of the paper's numbers; handwritten/names.rs has the names of all.
pub const OK: u64 = 0;
pub const SHAPE: u64 = 1;
pub const WORK: u64 = 2;
/// A log entry is not proper; the value is its place, the oldest counted 0.
pub const ENTRY: u64 = 3;
pub const REGS: u64 = 4;
pub const ADDRESS: u64 = 5;
pub const SLOT: u64 = 6;
pub const BUFFER: u64 = 7;
pub const ROOM: u64 = 8;
pub const WAITING: u64 = 9;
pub const LAST: u64 = 10;
/// No epoch waits to be persisted.
pub const NONE: u64 = 11;
pub const CUT: u64 = 12;
/// A record of a trace that breaks its layout or ends early, or what has no place in one.
pub const TRACE: u64 = 13;
/// A buffered entry has a bit in the filter that is not set.
pub const FILTER: u64 = 14;
/// A pass is begun inside another, or with a target that is no epoch that waits.
pub const TARGET: u64 = 15;
/// A text has too few bytes for a record of the export.
pub const SHORT: u64 = 16;
/// The export has no record of that number.
pub const PAST: u64 = 17;
/// The log is not empty.
pub const LOG_HELD: u64 = 18;
/// A text is no record of Intel HEX that is read, or stands behind the end record.
pub const RECORD: u64 = 19;
/// The data of a record have no place on the board.
pub const OUTSIDE: u64 = 20;

/// The words of the registers as they stand in an array, and their names.
pub type RegisterWords = [u64; REGISTER_WORDS];
pub const REGISTER_WORDS: usize = REGISTER_NAMES.len();
pub const REGISTER_NAMES: [&str; 5] = ["s", "b", "c", "d", "target"];
pub const NO_REGISTERS: RegisterWords = [0; REGISTER_WORDS];

/// The words of a reader of Intel HEX as they stand in an array: the upper address, and not 0 once the end was seen.
pub type ReaderWords = [u64; READER_WORDS];
pub const READER_WORDS: usize = 2;
pub const FIRST_READER: ReaderWords = [0; READER_WORDS];

/// The words of an answer as they stand in an array: value, stores.
pub type AnswerWords = [u64; ANSWER_WORDS];
pub const ANSWER_WORDS: usize = 2;

/// The bytes of a record: two words, most significant byte first.
pub type RecordBytes = [u8; RECORD_BYTES];
pub const RECORD_BYTES: usize = size_of::<u128>();

/// One implementation of the ten calls, of the export and its reader, of the converter, of the writer of records and of the names.
///
/// Registers and reader have a type for each side, so that each is called as it wants to be: the library with an array of
/// words, the hand-written Rust with a struct.
pub trait CacheLog {
    type Registers: Copy + From<RegisterWords> + Into<RegisterWords>;
    type Reader: Copy + From<ReaderWords>;

    fn format(board: &mut [u64], lines: u64, entries: u64) -> Answer;

    fn power_up(board: &mut [u64], work: &mut [u64], registers: &mut Self::Registers, allowance: u32) -> Answer;

    fn load(
        board: &mut [u64],
        work: &mut [u64],
        registers: &mut Self::Registers,
        address: u64,
        allowance: u32,
    ) -> Answer;

    fn store(
        board: &mut [u64],
        work: &mut [u64],
        registers: &mut Self::Registers,
        address: u64,
        data: u64,
        allowance: u32,
    ) -> Answer;

    fn evict(
        board: &mut [u64],
        work: &mut [u64],
        registers: &mut Self::Registers,
        address: u64,
        allowance: u32,
    ) -> Answer;

    fn commit(board: &[u64], work: &[u64], registers: &mut Self::Registers, allowance: u32) -> Answer;

    /// Begins a pass that persists all epochs up to a target.
    fn begin(board: &[u64], work: &[u64], registers: &mut Self::Registers, target: u64) -> Answer;

    fn scan(board: &mut [u64], work: &mut [u64], registers: &mut Self::Registers, allowance: u32) -> Answer;

    fn tally(board: &[u64], work: &[u64], registers: &Self::Registers) -> Answer;

    fn filter_bits(work: &[u64]) -> Answer;

    /// One record of the board's lines as Intel HEX, at the start of a text; the value is its bytes.
    fn hex_out(board: &[u64], text: &mut [u8], record: u64) -> Answer;

    /// Puts the data of one record of Intel HEX into the board's lines, or has the reader note its upper address or the end.
    fn hex_in(board: &mut [u64], reader: &mut Self::Reader, text: &[u8]) -> Answer;

    /// Fills a second memory with a board in the old layout, recovered and in the new one.
    fn convert(old_board: &[u64], board: &mut [u64]) -> Answer;

    fn trace_write(bytes: &mut RecordBytes, kind: u64, address: u64, value: u64) -> Answer;

    /// None where the text has too few bytes for the name.
    fn name(text: &mut [u8], number: u64) -> Option<Answer>;
}
