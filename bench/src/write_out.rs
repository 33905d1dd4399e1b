//! The write-out of a call, as the memories before the call show it, and whether the filter alone had it flush.

use crate::call::Call;
use crate::handwritten::layout::{
    buffer_and_filter_of, head_of, slot_count, slots_of, Control, Range, SlotWord, ENTRY_WORDS,
};
use crate::handwritten::Registers;
use crate::placement::Placement;

/// What a call writes out, if it is accepted.
#[derive(Clone, Copy, Debug, PartialEq, Eq)]
pub struct WriteOut {
    /// The line.
    pub address: u64,
    /// The entries buffered before the call, b.
    pub buffered: u64,
    /// One of them has the line's address.
    pub has_entry: bool,
}

/// The target of the pass that a scan call is a step of: the one that it is inside of, or the one that it begins.
pub fn scan_target(control: Control, registers: Registers) -> u64 {
    match registers.target {
        0 => control.persisted + 1,
        target => target,
    }
}

impl WriteOut {
    /// The write-out of a call that passes its tests, where it has one.
    pub fn of(call: Call, board: &[u64], work: &[u64], registers: Registers) -> Option<Self> {
        let slots = slot_count(work.len())?;
        let (control, _) = head_of(board)?;
        let word_of = |place: u64| slots_of(work, slots).get(place as usize).map(|slot| SlotWord(slot[0]));
        let word_for = |address, is_held| {
            let placement = Placement::of(work, address)?;
            (placement.is_held == is_held).then_some(placement.word)
        };
        let word = match call {
            Call::Load { address, .. } | Call::Store { address, .. } => word_for(address, false),
            Call::Evict { address, .. } => word_for(address, true),
            Call::Scan { .. } => word_of(registers.cursor).filter(|word| word.tag() <= scan_target(control, registers)),
            _ => None,
        }?;
        if !word.is_dirty() {
            return None;
        }
        let (buffer, _) = buffer_and_filter_of(work, slots)?;
        let buffered = buffer.get(..registers.buffered as usize)?;
        let address = word.address();
        Some(WriteOut {
            address,
            buffered: registers.buffered,
            has_entry: buffered
                .iter()
                .any(|&[packed, _]| Range::unpack(packed).address == address),
        })
    }

    /// Whether the buffer was flushed before the line, going by the board stores that the call has made: those of the flush
    /// and the line's. A store with a 32nd entry to flush behind the line makes more.
    pub fn flushed(self, stores: u64) -> bool {
        self.buffered > 0 && stores == ENTRY_WORDS as u64 * self.buffered + 2
    }

    /// A flush although no buffered entry has the line's address.
    pub fn is_false_hit(self, stores: u64) -> bool {
        self.flushed(stores) && !self.has_entry
    }
}

#[cfg(test)]
mod tests {
    use super::*;
    use crate::memories::Loom;
    use crate::sizes::Sizes;

    /// Line 0 has bit 0 alone, which is the second of 233.
    #[test]
    fn false_hits_are_told_from_others() {
        let sizes = Sizes {
            lines: 234,
            entries: 8,
            slots: 4,
        };
        let (mut loom, _) = Loom::start(sizes);
        let mut seen = |call| {
            let write_out = loom.write_out(call);
            let stores = loom.make(call).stores;
            write_out.map(|out| (out.address, out.flushed(stores), out.is_false_hit(stores)))
        };
        for address in 0..4 {
            assert_eq!(seen(Call::store(address, 7)), None);
        }
        assert_eq!(seen(Call::load(1)), None);
        assert_eq!(seen(Call::evict(4)), None);
        // Line 0 is in the first slot of equals.
        assert_eq!(seen(Call::load(4)), Some((0, true, false)));
        assert_eq!(seen(Call::store(0, 7)), None);
        assert_eq!(seen(Call::evict(1)), Some((1, false, false)));
        assert_eq!(seen(Call::store(233, 7)), None);
        assert_eq!(seen(Call::evict(233)), Some((233, true, false)));
        assert_eq!(seen(Call::store(233, 7)), None);
        assert_eq!(seen(Call::COMMIT), None);
        assert_eq!(seen(Call::SCAN), Some((0, true, true)));
        assert_eq!(seen(Call::SCAN), Some((233, false, false)));
        assert_eq!(seen(Call::SCAN), Some((2, false, false)));
        assert_eq!(seen(Call::SCAN), Some((3, false, false)));
        assert_eq!(seen(Call::SCAN), None);
    }
}
