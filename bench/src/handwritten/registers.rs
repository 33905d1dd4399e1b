//! The registers, and the words that they are made of and listed as.

use crate::interface::RegisterWords;

#[derive(Clone, Copy, Debug, Default, PartialEq, Eq)]
pub struct Registers {
    /// The running epoch, s.
    pub epoch: u64,
    /// Undo entries in the buffer, b.
    pub buffered: u64,
    /// The scan's cursor, c.
    pub cursor: u64,
    /// Dirty slots, d.
    pub dirty: u64,
    /// The epoch up to which a pass persists; 0 outside a pass.
    pub target: u64,
}

impl From<RegisterWords> for Registers {
    #[inline]
    fn from([epoch, buffered, cursor, dirty, target]: RegisterWords) -> Self {
        Registers {
            epoch,
            buffered,
            cursor,
            dirty,
            target,
        }
    }
}

impl From<Registers> for RegisterWords {
    #[inline]
    fn from(registers: Registers) -> Self {
        let Registers {
            epoch,
            buffered,
            cursor,
            dirty,
            target,
        } = registers;
        [epoch, buffered, cursor, dirty, target]
    }
}
