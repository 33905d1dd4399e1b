//! A record of a trace: one call as two words, most significant byte first. The second word is the value.

use super::layout::{ones, ADDRESS_BITS, LAST_ADDRESS};
use crate::call::Call;
use crate::interface::{Answer, RecordBytes, OK, TRACE};
use crate::record::{COMMIT, EVICT, LOAD, SCAN, STORE};

/// The first word of a record: kind 3, address 16, zero 45.
#[derive(Clone, Copy, Debug, PartialEq, Eq)]
struct RecordHead {
    kind: u64,
    address: u64,
}

impl RecordHead {
    const ZERO_BITS: u32 = 45;
    const KIND_SHIFT: u32 = Self::ZERO_BITS + ADDRESS_BITS;

    #[inline]
    fn pack(self) -> u64 {
        self.kind << Self::KIND_SHIFT | self.address << Self::ZERO_BITS
    }

    /// None where a bit that has to be zero is not.
    #[inline]
    fn unpack(word: u64) -> Option<Self> {
        let head = RecordHead {
            kind: word >> Self::KIND_SHIFT,
            address: word >> Self::ZERO_BITS & LAST_ADDRESS,
        };
        (word & ones(Self::ZERO_BITS) == 0).then_some(head)
    }
}

/// The record of a kind, an address and a value in the place of these bytes, or 13 and no byte touched.
#[inline(never)]
pub fn trace_write(bytes: &mut RecordBytes, kind: u64, address: u64, value: u64) -> Answer {
    let number = match write(kind, address, value) {
        Ok(record) => {
            *bytes = record;
            OK
        }
        Err(number) => number,
    };
    Answer {
        number,
        value: 0,
        stores: 0,
    }
}

/// The record of a kind, an address and a value, or 13 where one of them has no place in it.
#[inline]
pub fn write(kind: u64, address: u64, value: u64) -> Result<RecordBytes, u64> {
    let (last_address, last_value) = match kind {
        LOAD | EVICT => (LAST_ADDRESS, 0),
        STORE => (LAST_ADDRESS, u64::MAX),
        COMMIT | SCAN => (0, 0),
        _ => return Err(TRACE),
    };
    if address > last_address || value > last_value {
        return Err(TRACE);
    }
    Ok(bytes_of(RecordHead { kind, address }.pack(), value))
}

/// The call that a record stands for, with no cut, or 13 where it breaks the layout.
#[inline]
pub fn read(bytes: RecordBytes) -> Result<Call, u64> {
    let (head, value) = words_of(bytes);
    let RecordHead { kind, address } = RecordHead::unpack(head).ok_or(TRACE)?;
    match (kind, address, value) {
        (LOAD, _, 0) => Ok(Call::load(address)),
        (STORE, _, _) => Ok(Call::store(address, value)),
        (COMMIT, 0, 0) => Ok(Call::COMMIT),
        (SCAN, 0, 0) => Ok(Call::SCAN),
        (EVICT, _, 0) => Ok(Call::evict(address)),
        _ => Err(TRACE),
    }
}

/// Two words, most significant byte first.
#[inline]
pub fn bytes_of(first: u64, second: u64) -> RecordBytes {
    (u128::from(first) << u64::BITS | u128::from(second)).to_be_bytes()
}

#[inline]
fn words_of(bytes: RecordBytes) -> (u64, u64) {
    let both = u128::from_be_bytes(bytes);
    ((both >> u64::BITS) as u64, both as u64)
}

#[cfg(test)]
mod tests {
    use super::*;
    use crate::interface::RECORD_BYTES;
    use crate::random::Random;

    /// Worked by hand from the paper's layout: the first word, in hexadecimal, and the value.
    const WORKED: [(u64, u64, u64, u64); 12] = [
        (LOAD, 0, 0, 0x0000_0000_0000_0000),
        (LOAD, 1, 0, 0x0000_2000_0000_0000),
        (LOAD, 65_535, 0, 0x1FFF_E000_0000_0000),
        (STORE, 0, 0, 0x2000_0000_0000_0000),
        (STORE, 5, 9, 0x2000_A000_0000_0000),
        (STORE, 0x1234, 0x0102_0304_0506_0708, 0x2246_8000_0000_0000),
        (STORE, 32_768, u64::MAX, 0x3000_0000_0000_0000),
        (STORE, 65_535, 1 << 63, 0x3FFF_E000_0000_0000),
        (COMMIT, 0, 0, 0x4000_0000_0000_0000),
        (SCAN, 0, 0, 0x6000_0000_0000_0000),
        (EVICT, 3, 0, 0x8000_6000_0000_0000),
        (EVICT, 65_535, 0, 0x9FFF_E000_0000_0000),
    ];

    fn call(kind: u64, address: u64, value: u64) -> Call {
        match kind {
            LOAD => Call::load(address),
            STORE => Call::store(address, value),
            COMMIT => Call::COMMIT,
            SCAN => Call::SCAN,
            _ => Call::evict(address),
        }
    }

    #[test]
    fn records_worked_by_hand() {
        for (kind, address, value, first) in WORKED {
            let bytes = [first.to_be_bytes(), value.to_be_bytes()].concat();
            assert_eq!(write(kind, address, value).unwrap()[..], bytes, "{first:#018x}");
            assert_eq!(read(bytes.try_into().unwrap()), Ok(call(kind, address, value)));
        }
    }

    #[test]
    fn the_most_significant_byte_is_the_first() {
        let bytes = [0x22, 0x46, 0x80, 0, 0, 0, 0, 0, 1, 2, 3, 4, 5, 6, 7, 8];
        assert_eq!(write(STORE, 0x1234, 0x0102_0304_0506_0708), Ok(bytes));
        assert_eq!(read(bytes), Ok(Call::store(0x1234, 0x0102_0304_0506_0708)));
    }

    #[test]
    fn a_refused_record_touches_no_byte() {
        let mut bytes = [0xA5; RECORD_BYTES];
        let answer = |number| Answer {
            number,
            value: 0,
            stores: 0,
        };
        assert_eq!(trace_write(&mut bytes, SCAN, 0, 1), answer(13));
        assert_eq!(bytes, [0xA5; RECORD_BYTES]);
        assert_eq!(trace_write(&mut bytes, STORE, 0x1234, 1), answer(0));
        assert_eq!(bytes, [0x22, 0x46, 0x80, 0, 0, 0, 0, 0, 0, 0, 0, 0, 0, 0, 0, 1]);
    }

    #[test]
    fn the_writer_refuses_what_has_no_place() {
        let kinds = [5, 6, 7, 8, 1 << 32, u64::MAX].map(|kind| (kind, 0, 0));
        let addresses = [LOAD, STORE, EVICT].map(|kind| (kind, 65_536, 0));
        let larger_addresses = [LOAD, STORE, EVICT].map(|kind| (kind, u64::MAX, 0));
        let addresses_without_place = [COMMIT, SCAN].map(|kind| (kind, 1, 0));
        let values_without_place = [LOAD, COMMIT, SCAN, EVICT].map(|kind| (kind, 0, 1));
        let larger_values = [LOAD, COMMIT, SCAN, EVICT].map(|kind| (kind, 0, 1 << 63));
        let refused = [
            &kinds[..],
            &addresses,
            &larger_addresses,
            &addresses_without_place,
            &values_without_place,
            &larger_values,
        ];
        for (kind, address, value) in refused.concat() {
            assert_eq!(write(kind, address, value), Err(13), "{kind} {address} {value}");
        }
    }

    fn reads(first: u64, value: u64) -> Result<Call, u64> {
        read(bytes_of(first, value))
    }

    #[test]
    fn the_reader_refuses_kinds_5_to_7() {
        for first in [0xA000_0000_0000_0000, 0xC000_0000_0000_0000, 0xE000_0000_0000_0000] {
            assert_eq!(reads(first, 0), Err(13));
        }
    }

    #[test]
    fn the_reader_refuses_each_of_the_45_bits_in_each_kind() {
        for (_, _, value, first) in WORKED {
            for bit in 0..45 {
                assert_eq!(reads(first | 1 << bit, value), Err(13), "{first:#018x}, bit {bit}");
            }
        }
    }

    #[test]
    fn the_reader_refuses_each_bit_of_an_address_or_value_without_place() {
        for first in [0x4000_0000_0000_0000, 0x6000_0000_0000_0000] {
            for bit in 45..61 {
                assert_eq!(reads(first | 1 << bit, 0), Err(13), "{first:#018x}, bit {bit}");
            }
        }
        let without_value = WORKED.iter().filter(|&&(kind, ..)| kind != STORE);
        for &(_, _, _, first) in without_value {
            for bit in 0..64 {
                assert_eq!(reads(first, 1 << bit), Err(13), "{first:#018x}, value bit {bit}");
            }
        }
    }

    #[test]
    fn what_is_written_is_read_back() {
        let random = &mut Random::new(13);
        let mut written = 0;
        for _ in 0..100_000 {
            let kind = random.below(6);
            let address = random.any_width() * random.below(2);
            let value = random.any_width() * random.below(2);
            if let Ok(bytes) = write(kind, address, value) {
                assert_eq!(read(bytes), Ok(call(kind, address, value)));
                written += 1;
            }
        }
        assert!(written > 10_000);
    }

    #[test]
    fn what_is_read_is_written_again() {
        let random = &mut Random::new(45);
        let mut taken = 0;
        for _ in 0..100_000 {
            let first = random.any_width() << random.pick(&[0, 45, 61]);
            let value = random.any_width() * random.below(2);
            let bytes = bytes_of(first, value);
            if read(bytes).is_ok() {
                assert_eq!(write(first >> 61, first >> 45 & 0xFFFF, value), Ok(bytes));
                taken += 1;
            }
        }
        assert!(taken > 10_000);
    }
}
