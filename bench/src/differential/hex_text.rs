//! A record of Intel HEX by its bytes, of any kind and length: how one is drawn for a reader, and what a text is seen to say.

use crate::handwritten::hex::{DATA, LINE_BYTES, RECORD_LINES, UPPER_ADDRESS};

/// The bytes of data that two lines have, and the byte addresses of a bank.
pub const PAIR_BYTES: usize = RECORD_LINES as usize * LINE_BYTES;
pub const BANK_BYTES: u64 = 1 << 16;

pub const END_KIND: u8 = 1;
pub const UPPER_BYTES: usize = 2;

#[derive(Clone)]
pub struct Fields {
    /// The number of data bytes that it says.
    pub count: u8,
    pub address: u16,
    pub kind: u8,
    pub data: Vec<u8>,
    /// What all its bytes add up to, modulo 256.
    pub sum: u8,
}

impl Fields {
    /// Fields that agree with each other.
    pub fn new(kind: u8, address: u16, data: Vec<u8>) -> Self {
        Fields {
            count: data.len() as u8,
            address,
            kind,
            data,
            sum: 0,
        }
    }

    /// The record, in upper case digits, with its line feed.
    pub fn text(&self) -> Vec<u8> {
        let [high, low] = self.address.to_be_bytes();
        let mut bytes = vec![self.count, high, low, self.kind];
        bytes.extend_from_slice(&self.data);
        bytes.push(self.sum.wrapping_sub(sum_of(&bytes)));
        let digits: String = bytes.iter().map(|byte| format!("{byte:02X}")).collect();
        format!(":{digits}\n").into_bytes()
    }

    /// What a text of whole bytes says, five at least, between a colon and a line feed.
    pub fn of(text: &[u8]) -> Option<Self> {
        let digits = text.strip_prefix(b":")?.strip_suffix(b"\n")?;
        let value = |&digit: &u8| char::from(digit).to_digit(16);
        let digits: Vec<u32> = digits.iter().map(value).collect::<Option<_>>()?;
        let (pairs, rest) = digits.as_chunks();
        let bytes: Vec<u8> = pairs.iter().map(|[high, low]| (16 * high + low) as u8).collect();
        let [count, high, low, kind, data @ .., _] = &bytes[..] else {
            return None;
        };
        rest.is_empty().then(|| Fields {
            count: *count,
            address: u16::from_be_bytes([*high, *low]),
            kind: *kind,
            data: data.to_vec(),
            sum: sum_of(&bytes),
        })
    }

    /// A record that is read, its data standing anywhere.
    pub fn are_read(&self) -> bool {
        let is_read = match (self.kind, self.data.len()) {
            (DATA, LINE_BYTES | PAIR_BYTES) => true,
            (END_KIND, 0) | (UPPER_ADDRESS, UPPER_BYTES) => self.address == 0,
            _ => false,
        };
        is_read && self.agree() && self.sum == 0
    }

    /// It has as many data bytes as it says.
    pub fn agree(&self) -> bool {
        usize::from(self.count) == self.data.len()
    }
}

fn sum_of(bytes: &[u8]) -> u8 {
    bytes.iter().fold(0, |sum, &byte| sum.wrapping_add(byte))
}
