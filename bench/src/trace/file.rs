//! A trace: the records of calls, one behind the other.

use crate::call::Call;
use crate::handwritten::record::{read, write};
use crate::interface::{RecordBytes, RECORD_BYTES, TRACE};
use crate::record::Record;

/// The record of a call, or 13 where there is none for it.
pub fn record_of(call: Call) -> Result<RecordBytes, u64> {
    let Record { kind, address, value } = Record::of(call).ok_or(TRACE)?;
    write(kind, address, value)
}

/// The trace of calls that all have a record.
pub fn trace_of(calls: &[Call]) -> Result<Vec<u8>, String> {
    let mut bytes = Vec::with_capacity(calls.len() * RECORD_BYTES);
    for &call in calls {
        let record = record_of(call).map_err(|number| format!("{call}: no record ({number})"))?;
        bytes.extend(record);
    }
    Ok(bytes)
}

/// The calls of a trace, in order. A record that breaks the layout or ends early is 13.
pub fn calls_of(trace: &[u8]) -> impl Iterator<Item = Result<Call, u64>> + '_ {
    trace.chunks(RECORD_BYTES).map(|bytes| {
        let whole = RecordBytes::try_from(bytes).map_err(|_| TRACE)?;
        read(whole)
    })
}
