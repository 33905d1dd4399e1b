//! A call with its arguments, made on either side.

use crate::interface::{Answer, CacheLog};
use std::fmt;

/// The allowance of a call that is not to be cut.
pub const NO_CUT: u32 = u32::MAX;

#[derive(Clone, Copy, Debug, PartialEq, Eq)]
pub enum Call {
    Format { lines: u64, entries: u64 },
    PowerUp { allowance: u32 },
    Load { address: u64, allowance: u32 },
    Store { address: u64, data: u64, allowance: u32 },
    Evict { address: u64, allowance: u32 },
    Commit { allowance: u32 },
    Begin { target: u64 },
    Scan { allowance: u32 },
    Tally,
    FilterBits,
}

#[derive(Clone, Copy, Debug, PartialEq, Eq)]
pub enum Kind {
    Format,
    PowerUp,
    Load,
    Store,
    Evict,
    Commit,
    Begin,
    Scan,
    Tally,
    FilterBits,
}

impl Kind {
    pub const ALL: [Kind; 10] = [
        Kind::Format,
        Kind::PowerUp,
        Kind::Load,
        Kind::Store,
        Kind::Evict,
        Kind::Commit,
        Kind::Begin,
        Kind::Scan,
        Kind::Tally,
        Kind::FilterBits,
    ];

    pub fn name(self) -> &'static str {
        match self {
            Kind::Format => "format",
            Kind::PowerUp => "power-up",
            Kind::Load => "load",
            Kind::Store => "store",
            Kind::Evict => "evict",
            Kind::Commit => "commit",
            Kind::Begin => "begin",
            Kind::Scan => "scan",
            Kind::Tally => "tally",
            Kind::FilterBits => "filter-bits",
        }
    }
}

/// Calls that are not to be cut.
impl Call {
    pub const POWER_UP: Call = Call::PowerUp { allowance: NO_CUT };
    pub const COMMIT: Call = Call::Commit { allowance: NO_CUT };
    pub const SCAN: Call = Call::Scan { allowance: NO_CUT };

    pub const fn load(address: u64) -> Self {
        Call::Load {
            address,
            allowance: NO_CUT,
        }
    }

    pub const fn store(address: u64, data: u64) -> Self {
        Call::Store {
            address,
            data,
            allowance: NO_CUT,
        }
    }

    pub const fn evict(address: u64) -> Self {
        Call::Evict {
            address,
            allowance: NO_CUT,
        }
    }
}

impl Call {
    pub fn kind(self) -> Kind {
        match self {
            Call::Format { .. } => Kind::Format,
            Call::PowerUp { .. } => Kind::PowerUp,
            Call::Load { .. } => Kind::Load,
            Call::Store { .. } => Kind::Store,
            Call::Evict { .. } => Kind::Evict,
            Call::Commit { .. } => Kind::Commit,
            Call::Begin { .. } => Kind::Begin,
            Call::Scan { .. } => Kind::Scan,
            Call::Tally => Kind::Tally,
            Call::FilterBits => Kind::FilterBits,
        }
    }

    /// The call with another allowance, where it takes one.
    pub fn under(self, allowance: u32) -> Self {
        match self {
            Call::PowerUp { .. } => Call::PowerUp { allowance },
            Call::Load { address, .. } => Call::Load { address, allowance },
            Call::Store { address, data, .. } => Call::Store {
                address,
                data,
                allowance,
            },
            Call::Evict { address, .. } => Call::Evict { address, allowance },
            Call::Commit { .. } => Call::Commit { allowance },
            Call::Scan { .. } => Call::Scan { allowance },
            Call::Format { .. } | Call::Begin { .. } | Call::Tally | Call::FilterBits => self,
        }
    }

    /// Format and the status question alone do not.
    pub fn takes_registers(self) -> bool {
        !matches!(self, Call::Format { .. } | Call::FilterBits)
    }

    #[inline(always)]
    pub fn make<C: CacheLog>(self, board: &mut [u64], work: &mut [u64], registers: &mut C::Registers) -> Answer {
        match self {
            Call::Format { lines, entries } => C::format(board, lines, entries),
            Call::PowerUp { allowance } => C::power_up(board, work, registers, allowance),
            Call::Load { address, allowance } => C::load(board, work, registers, address, allowance),
            Call::Store {
                address,
                data,
                allowance,
            } => C::store(board, work, registers, address, data, allowance),
            Call::Evict { address, allowance } => C::evict(board, work, registers, address, allowance),
            Call::Commit { allowance } => C::commit(board, work, registers, allowance),
            Call::Begin { target } => C::begin(board, work, registers, target),
            Call::Scan { allowance } => C::scan(board, work, registers, allowance),
            Call::Tally => C::tally(board, work, registers),
            Call::FilterBits => C::filter_bits(work),
        }
    }
}

impl fmt::Display for Call {
    fn fmt(&self, out: &mut fmt::Formatter) -> fmt::Result {
        write!(out, "{}", self.kind().name())?;
        match *self {
            Call::Format { lines, entries } => write!(out, ", N {lines}, L {entries}"),
            Call::PowerUp { allowance } | Call::Commit { allowance } | Call::Scan { allowance } => {
                write!(out, ", allowance {allowance}")
            }
            Call::Load { address, allowance } | Call::Evict { address, allowance } => {
                write!(out, ", address {address}, allowance {allowance}")
            }
            Call::Store {
                address,
                data,
                allowance,
            } => write!(out, ", address {address}, data {data:#018x}, allowance {allowance}"),
            Call::Begin { target } => write!(out, ", target {target}"),
            Call::Tally | Call::FilterBits => Ok(()),
        }
    }
}
