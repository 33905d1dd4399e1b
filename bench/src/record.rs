//! A record as its writer is given it, on either side.

use crate::call::Call;
use crate::interface::{Answer, CacheLog, RecordBytes};
use std::fmt;

/// The kinds of calls that have a record.
pub const LOAD: u64 = 0;
pub const STORE: u64 = 1;
pub const COMMIT: u64 = 2;
pub const SCAN: u64 = 3;
pub const EVICT: u64 = 4;

/// Any words. A writer refuses those that have no place in a record.
#[derive(Clone, Copy, Debug, PartialEq, Eq)]
pub struct Record {
    pub kind: u64,
    pub address: u64,
    pub value: u64,
}

impl Record {
    /// What is written for a call, where it has a record.
    pub fn of(call: Call) -> Option<Self> {
        let (kind, address, value) = match call {
            Call::Load { address, .. } => (LOAD, address, 0),
            Call::Store { address, data, .. } => (STORE, address, data),
            Call::Commit { .. } => (COMMIT, 0, 0),
            Call::Scan { .. } => (SCAN, 0, 0),
            Call::Evict { address, .. } => (EVICT, address, 0),
            Call::Format { .. } | Call::PowerUp { .. } | Call::Begin { .. } | Call::Tally | Call::FilterBits => {
                return None
            }
        };
        Some(Record { kind, address, value })
    }

    #[inline(always)]
    pub fn write<C: CacheLog>(self, bytes: &mut RecordBytes) -> Answer {
        C::trace_write(bytes, self.kind, self.address, self.value)
    }
}

impl fmt::Display for Record {
    fn fmt(&self, out: &mut fmt::Formatter) -> fmt::Result {
        let Record { kind, address, value } = self;
        write!(out, "kind {kind}, address {address}, value {value:#018x}")
    }
}
