//! Traces with a record that breaks the layout, or that ends early.

use super::histories::{every_kind, records};
use crate::call::Call;
use crate::handwritten::record::bytes_of;

/// Records that break the layout, each by one rule: the first word, worked by hand, and the value. Taken without that rule,
/// the load, the scans and the evictions would make board stores where they stand.
pub const BROKEN: [(&str, u64, u64); 12] = [
    ("kind_5", 0xA000_0000_0000_0000, 0),
    ("kind_6", 0xC000_0000_0000_0000, 0),
    ("kind_7", 0xE000_0000_0000_0000, 0),
    ("evict_with_lowest_zero_bit", 0x8000_0000_0000_0001, 0),
    ("evict_with_middle_zero_bit", 0x8000_0000_0040_0000, 0),
    ("evict_with_highest_zero_bit", 0x8000_1000_0000_0000, 0),
    ("commit_with_address", 0x4000_2000_0000_0000, 0),
    ("scan_with_address", 0x7000_0000_0000_0000, 0),
    ("load_with_value", 0x0000_4000_0000_0000, 1),
    ("commit_with_value", 0x4000_0000_0000_0000, 1 << 63),
    ("scan_with_value", 0x6000_0000_0000_0000, 1 << 32),
    ("evict_with_value", 0x8000_0000_0000_0000, u64::MAX),
];

/// The broken record with good ones before and after it, of which those after it would make board stores too.
pub fn in_the_midst(first: u64, value: u64) -> Vec<u8> {
    let good = records(&every_kind());
    [&good[..], &bytes_of(first, value), &good].concat()
}

/// The broken record with good ones after it.
pub fn at_the_start(first: u64, value: u64) -> Vec<u8> {
    [&bytes_of(first, value)[..], &records(&every_kind())].concat()
}

/// Lengths at which a record ends early: within the first word, between the words, within the second.
pub const PARTS: [(&str, usize); 3] = [
    ("ends_after_1_byte", 1),
    ("ends_after_8_bytes", 8),
    ("ends_after_15_bytes", 15),
];

/// Good records, and so many bytes of an eviction that would make board stores.
pub fn ends_early(bytes: usize) -> Vec<u8> {
    [&records(&every_kind())[..], &part(bytes)].concat()
}

/// So many bytes of an eviction.
pub fn part(bytes: usize) -> Vec<u8> {
    records(&[Call::evict(0)])[..bytes].to_vec()
}
