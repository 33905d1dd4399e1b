//! What both sides are asked: a call; or an export, a record of one that is read, a conversion, a record of a trace or a name, which
//! are no `Call` since they are lent bytes, or another board.

use crate::call::{Call, Kind};
use crate::record::Record;
use std::fmt;

#[derive(Clone, Copy)]
pub enum Asked {
    Call(Call),
    HexOut { record: u64 },
    HexIn,
    Convert,
    TraceWrite(Record),
    Name { number: u64 },
}

/// The function of the library that is asked.
#[derive(Clone, Copy, PartialEq, Eq)]
pub enum Function {
    Call(Kind),
    HexOut,
    HexIn,
    Convert,
    TraceWrite,
    Name,
}

impl Function {
    const NO_CALLS: [Function; 5] = [
        Function::HexOut,
        Function::HexIn,
        Function::Convert,
        Function::TraceWrite,
        Function::Name,
    ];
    pub const COUNT: usize = Kind::ALL.len() + Self::NO_CALLS.len();

    pub fn all() -> impl Iterator<Item = Function> {
        let calls = Kind::ALL.into_iter().map(Function::Call);
        calls.chain(Self::NO_CALLS)
    }

    /// Its place among all of them.
    pub fn place(self) -> usize {
        match self {
            Function::Call(kind) => kind as usize,
            Function::HexOut => Kind::ALL.len(),
            Function::HexIn => Kind::ALL.len() + 1,
            Function::Convert => Kind::ALL.len() + 2,
            Function::TraceWrite => Kind::ALL.len() + 3,
            Function::Name => Kind::ALL.len() + 4,
        }
    }

    pub fn name(self) -> &'static str {
        match self {
            Function::Call(kind) => kind.name(),
            Function::HexOut => "hex-out",
            Function::HexIn => "hex-in",
            Function::Convert => "convert",
            Function::TraceWrite => "trace-write",
            Function::Name => "name",
        }
    }
}

impl Asked {
    pub fn function(self) -> Function {
        match self {
            Asked::Call(call) => Function::Call(call.kind()),
            Asked::HexOut { .. } => Function::HexOut,
            Asked::HexIn => Function::HexIn,
            Asked::Convert => Function::Convert,
            Asked::TraceWrite(_) => Function::TraceWrite,
            Asked::Name { .. } => Function::Name,
        }
    }
}

impl From<Call> for Asked {
    fn from(call: Call) -> Self {
        Asked::Call(call)
    }
}

impl From<Record> for Asked {
    fn from(record: Record) -> Self {
        Asked::TraceWrite(record)
    }
}

impl fmt::Display for Asked {
    fn fmt(&self, out: &mut fmt::Formatter) -> fmt::Result {
        match self {
            Asked::Call(call) => write!(out, "{call}"),
            Asked::HexOut { record } => write!(out, "{}, record {record}", self.function().name()),
            Asked::HexIn | Asked::Convert => write!(out, "{}", self.function().name()),
            Asked::TraceWrite(record) => write!(out, "{}, {record}", self.function().name()),
            Asked::Name { number } => write!(out, "{}, number {number}", self.function().name()),
        }
    }
}
