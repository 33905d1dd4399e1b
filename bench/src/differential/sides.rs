//! One call on each side, over arrays of any length.

use super::asked::Asked;
use crate::call::Call;
use crate::handwritten::hex_in::Reader;
use crate::handwritten::{HandWritten, Registers};
use crate::interface::{Answer, AnswerWords, CacheLog, ReaderWords, ANSWER_WORDS, CUT, OK, READER_WORDS};
use crate::library;
use crate::record::Record;
use std::ops::Range;

/// All that a call is lent.
#[derive(Clone, Debug, Default, PartialEq, Eq)]
pub struct Lent {
    pub board: Vec<u64>,
    pub work: Vec<u64>,
    pub registers: Vec<u64>,
    /// The board in the old layout that is converted; the second memory is `board`.
    pub old_board: Vec<u64>,
    /// What a reader of Intel HEX carries.
    pub reader: Vec<u64>,
    /// The bytes for an export, a record or a name, or the text that is read, at their place among others that are not lent.
    pub bytes: Vec<u8>,
    pub bytes_place: Range<usize>,
    pub answer: Vec<u64>,
}

impl Lent {
    /// Becomes a copy of `other`, in the memory that it has.
    pub fn copy_from(&mut self, other: &Lent) {
        self.board.clone_from(&other.board);
        self.work.clone_from(&other.work);
        self.registers.clone_from(&other.registers);
        self.old_board.clone_from(&other.old_board);
        self.reader.clone_from(&other.reader);
        self.bytes.clone_from(&other.bytes);
        self.bytes_place.clone_from(&other.bytes_place);
        self.answer.clone_from(&other.answer);
    }
}

/// Asks the library and gives the number.
pub fn on_library(asked: Asked, lent: &mut Lent) -> u64 {
    match asked {
        Asked::Call(call) => make_on_library(call, lent),
        Asked::HexOut { record } => export_on_library(record, lent),
        Asked::HexIn => read_on_library(lent),
        Asked::Convert => library::convert(&lent.old_board, &mut lent.board, &mut lent.answer),
        Asked::TraceWrite(record) => write_on_library(record, lent),
        Asked::Name { number } => name_on_library(number, lent),
    }
}

fn make_on_library(call: Call, lent: &mut Lent) -> u64 {
    let Lent {
        board,
        work,
        registers,
        answer,
        ..
    } = lent;
    match call {
        Call::Format { lines, entries } => library::format(board, lines, entries, answer),
        Call::PowerUp { allowance } => library::power_up(board, work, registers, allowance, answer),
        Call::Load { address, allowance } => library::load(board, work, registers, address, allowance, answer),
        Call::Store {
            address,
            data,
            allowance,
        } => library::store(board, work, registers, address, data, allowance, answer),
        Call::Evict { address, allowance } => library::evict(board, work, registers, address, allowance, answer),
        Call::Commit { allowance } => library::commit(board, work, registers, allowance, answer),
        Call::Begin { target } => library::begin(board, work, registers, target, answer),
        Call::Scan { allowance } => library::scan(board, work, registers, allowance, answer),
        Call::Tally => library::tally(board, work, registers, answer),
        Call::FilterBits => library::filter_bits(work, answer),
    }
}

fn export_on_library(record: u64, lent: &mut Lent) -> u64 {
    let text = &mut lent.bytes[lent.bytes_place.clone()];
    library::hex_out(&lent.board, text, record, &mut lent.answer)
}

fn read_on_library(lent: &mut Lent) -> u64 {
    let text = &lent.bytes[lent.bytes_place.clone()];
    library::hex_in(&mut lent.board, &mut lent.reader, text, &mut lent.answer)
}

fn write_on_library(record: Record, lent: &mut Lent) -> u64 {
    let Record { kind, address, value } = record;
    let bytes = &mut lent.bytes[lent.bytes_place.clone()];
    library::trace_write(bytes, kind, address, value, &mut lent.answer)
}

fn name_on_library(number: u64, lent: &mut Lent) -> u64 {
    let text = &mut lent.bytes[lent.bytes_place.clone()];
    library::name(text, number, &mut lent.answer)
}

/// Asks the hand-written Rust and gives the number. It knows nothing of arrays: what the library has to do with them is
/// said here.
pub fn on_handwritten(asked: Asked, lent: &mut Lent) -> u64 {
    if lent.answer.len() < ANSWER_WORDS {
        return library::TOO_SHORT;
    }
    let answer = match asked {
        Asked::Call(call) => make_on_handwritten(call, lent),
        Asked::HexOut { record } => Some(export_on_handwritten(record, lent)),
        Asked::HexIn => read_on_handwritten(lent),
        Asked::Convert => Some(HandWritten::convert(&lent.old_board, &mut lent.board)),
        Asked::TraceWrite(record) => write_on_handwritten(record, lent),
        Asked::Name { number } => HandWritten::name(&mut lent.bytes[lent.bytes_place.clone()], number),
    };
    let Some(answer) = answer else {
        return library::TOO_SHORT;
    };
    let words: AnswerWords = [answer.value, answer.stores];
    lent.answer[..ANSWER_WORDS].copy_from_slice(&words);
    answer.number
}

/// None where the call takes registers and there are too few words.
fn make_on_handwritten(call: Call, lent: &mut Lent) -> Option<Answer> {
    if !call.takes_registers() {
        return Some(call.make::<HandWritten>(&mut lent.board, &mut lent.work, &mut Registers::default()));
    }
    if !lent.has_registers() {
        return None;
    }
    let mut registers = lent.registers();
    let answer = call.make::<HandWritten>(&mut lent.board, &mut lent.work, &mut registers);
    lent.set_registers(registers);
    Some(answer)
}

fn export_on_handwritten(record: u64, lent: &mut Lent) -> Answer {
    let text = &mut lent.bytes[lent.bytes_place.clone()];
    HandWritten::hex_out(&lent.board, text, record)
}

/// None where the reader has too few words. A refusal leaves them as they were: the second may be neither 0 nor 1.
fn read_on_handwritten(lent: &mut Lent) -> Option<Answer> {
    let words: ReaderWords = *lent.reader.first_chunk()?;
    let mut reader = Reader::from(words);
    let answer = HandWritten::hex_in(&mut lent.board, &mut reader, &lent.bytes[lent.bytes_place.clone()]);
    if answer.number == OK {
        lent.reader[..READER_WORDS].copy_from_slice(&ReaderWords::from(reader));
    }
    Some(answer)
}

/// None where there are too few bytes.
fn write_on_handwritten(record: Record, lent: &mut Lent) -> Option<Answer> {
    let bytes = lent.bytes[lent.bytes_place.clone()].first_chunk_mut()?;
    Some(record.write::<HandWritten>(bytes))
}

/// Whether the hand-written reader takes a record that was written for the call that it was written of.
pub fn is_read_back(asked: Asked, number: u64, after: &Lent) -> bool {
    match asked {
        Asked::TraceWrite(record) if number == OK => after.read_record().ok().and_then(Record::of) == Some(record),
        _ => true,
    }
}

/// Whether the registers count the dirty slots, once a call with registers is accepted or cut; and whether a tally does.
pub fn has_true_count(asked: Asked, number: u64, after: &Lent) -> bool {
    let Asked::Call(call) = asked else {
        return true;
    };
    if !call.takes_registers() || ![OK, CUT].contains(&number) {
        return true;
    }
    let dirty = after.dirty_slots();
    let tally_is_true = call != Call::Tally || after.answer[0] == dirty;
    after.registers().dirty == dirty && tally_is_true
}

#[cfg(test)]
mod tests {
    use super::*;
    use crate::handwritten::layout::{work_words, Shape, SlotWord};

    /// The number, all bytes and the answer, once the hand-written Rust was asked for the name of 3 with a text from byte 2 on.
    fn ask_for_entry(text_bytes: usize, answer_words: usize) -> (u64, Vec<u8>, Vec<u64>) {
        let mut lent = Lent {
            bytes: (0xE0..0xEC).collect(),
            bytes_place: 2..2 + text_bytes,
            answer: (100..).take(answer_words).collect(),
            ..Lent::default()
        };
        let number = on_handwritten(Asked::Name { number: 3 }, &mut lent);
        (number, lent.bytes, lent.answer)
    }

    #[test]
    fn a_name_fills_the_first_two_answer_words_and_the_first_bytes_of_its_text() {
        let bytes = b"\xE0\xE1entry\xE7\xE8\xE9\xEA\xEB".to_vec();
        assert_eq!(ask_for_entry(5, 2), (0, bytes.clone(), vec![5, 0]));
        assert_eq!(ask_for_entry(7, 4), (0, bytes, vec![5, 0, 102, 103]));
    }

    #[test]
    fn nothing_is_touched_where_text_or_answer_is_too_short() {
        let bytes: Vec<u8> = (0xE0..0xEC).collect();
        assert_eq!(ask_for_entry(4, 3), (255, bytes.clone(), vec![100, 101, 102]));
        assert_eq!(ask_for_entry(8, 1), (255, bytes.clone(), vec![100]));
        assert_eq!(ask_for_entry(8, 0), (255, bytes.clone(), vec![]));
        assert_eq!(ask_for_entry(0, 0), (255, bytes, vec![]));
    }

    /// The same once the last record of a board of one line was asked for, with a text from byte 1 on.
    fn ask_for_end(log_length: u64, text_bytes: usize, answer_words: usize) -> (u64, Vec<u8>, Vec<u64>) {
        let mut lent = Lent {
            board: vec![log_length, Shape { lines: 1, entries: 1 }.pack(), 0, 0, 7],
            bytes: vec![0xEE; 46],
            bytes_place: 1..1 + text_bytes,
            answer: (100..).take(answer_words).collect(),
            ..Lent::default()
        };
        let number = on_handwritten(Asked::HexOut { record: 2 }, &mut lent);
        (number, lent.bytes, lent.answer)
    }

    #[test]
    fn an_export_fills_the_first_two_answer_words_and_the_first_bytes_of_its_text() {
        let bytes = [b"\xEE:00000001FF\n".to_vec(), vec![0xEE; 33]].concat();
        assert_eq!(ask_for_end(0, 44, 2), (0, bytes.clone(), vec![12, 0]));
        assert_eq!(ask_for_end(0, 45, 4), (0, bytes, vec![12, 0, 102, 103]));
    }

    #[test]
    fn a_refused_export_fills_the_answer_alone_and_one_without_room_for_it_nothing() {
        let bytes = vec![0xEE; 46];
        assert_eq!(ask_for_end(1, 44, 3), (18, bytes.clone(), vec![0, 0, 102]));
        assert_eq!(ask_for_end(0, 43, 2), (16, bytes.clone(), vec![0, 0]));
        assert_eq!(ask_for_end(1, 43, 1), (255, bytes.clone(), vec![100]));
        assert_eq!(ask_for_end(0, 44, 0), (255, bytes, vec![]));
    }

    /// The number, the reader and the answer, once the end record was read.
    fn read_end(reader: &[u64], answer_words: usize) -> (u64, Vec<u64>, Vec<u64>) {
        let mut lent = Lent {
            board: vec![0, Shape { lines: 1, entries: 1 }.pack(), 0, 0, 7],
            reader: reader.to_vec(),
            bytes: b"\xEE:00000001fF\n\xEE".to_vec(),
            bytes_place: 1..13,
            answer: (100..).take(answer_words).collect(),
            ..Lent::default()
        };
        let number = on_handwritten(Asked::HexIn, &mut lent);
        (number, lent.reader, lent.answer)
    }

    #[test]
    fn a_record_that_is_read_changes_the_first_words_of_reader_and_answer() {
        assert_eq!(read_end(&[9, 0], 2), (0, vec![9, 1], vec![0, 0]));
        assert_eq!(read_end(&[9, 0, 5], 3), (0, vec![9, 1, 5], vec![0, 0, 102]));
        // Refused, since the end was seen: whatever says so stays.
        assert_eq!(read_end(&[9, 6], 2), (19, vec![9, 6], vec![0, 0]));
    }

    #[test]
    fn a_record_without_room_for_reader_or_answer_touches_nothing() {
        assert_eq!(read_end(&[9], 2), (255, vec![9], vec![100, 101]));
        assert_eq!(read_end(&[], 3), (255, vec![], vec![100, 101, 102]));
        assert_eq!(read_end(&[9, 0], 1), (255, vec![9, 0], vec![100]));
    }

    /// Whether a count, and a first answer word, are true after such a call where one slot of four is dirty.
    fn is_true(call: Call, number: u64, count: u64, value: u64) -> bool {
        let mut lent = Lent {
            work: vec![0; work_words(4)],
            registers: vec![1, 0, 0, count, 0],
            answer: vec![value, 0],
            ..Lent::default()
        };
        lent.set_slot(1, SlotWord::dirty(4, 1));
        lent.set_slot(2, SlotWord::clean(2));
        has_true_count(Asked::Call(call), number, &lent)
    }

    #[test]
    fn accepted_and_cut_calls_have_to_leave_a_true_count() {
        for call in [
            Call::load(4),
            Call::store(4, 7),
            Call::evict(3),
            Call::COMMIT,
            Call::SCAN,
            Call::POWER_UP,
        ] {
            for number in [0, 12] {
                assert!(is_true(call, number, 1, 9), "{call}");
                assert!(!is_true(call, number, 0, 9), "{call}");
                assert!(!is_true(call, number, 2, 9), "{call}");
            }
            assert!(is_true(call, 4, 0, 0), "{call}");
        }
        assert!(is_true(Call::FilterBits, 0, 0, 0));
    }

    #[test]
    fn a_tally_has_to_be_true() {
        assert!(is_true(Call::Tally, 0, 1, 1));
        assert!(!is_true(Call::Tally, 0, 1, 2));
        assert!(!is_true(Call::Tally, 0, 2, 2));
        assert!(is_true(Call::Tally, 4, 2, 0));
    }
}
