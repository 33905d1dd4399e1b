//! Board and work memory of a call once shape, work and registers are tested, and the steps that calls are made of.

use super::checks::{self, Refusal, SlotTest};
use super::layout::{
    board_parts_mut, is_marked, mark, work_parts_mut, Control, Entry, Filter, Range, Set, Slot, SlotWord,
    BUFFER_ENTRIES, WAYS,
};
use super::sets::{self, Sets};
use super::Registers;

/// Why a call ends early.
#[derive(Clone, Copy, Debug)]
pub enum Stop {
    Refused(Refusal),
    /// Power-up's log entry that is not proper, the oldest counted 0.
    Entry(usize),
    Cut,
}

impl From<Refusal> for Stop {
    #[inline]
    fn from(refusal: Refusal) -> Self {
        Stop::Refused(refusal)
    }
}

/// The mains: every board store of a call with an allowance is made here.
pub struct Mains {
    allowance: u32,
    left: u32,
}

impl Mains {
    #[inline]
    pub fn new(allowance: u32) -> Self {
        Mains {
            allowance,
            left: allowance,
        }
    }

    #[inline]
    pub fn stores(&self) -> u64 {
        u64::from(self.allowance - self.left)
    }

    #[inline]
    pub fn store(&mut self, cell: &mut u64, word: u64) -> Result<(), Stop> {
        self.left = self.left.checked_sub(1).ok_or(Stop::Cut)?;
        *cell = word;
        Ok(())
    }
}

/// The slot that a call works on, once all that it visits is tested.
#[derive(Clone, Copy)]
pub struct Visited {
    pub place: usize,
    pub word: SlotWord,
    /// It holds the line that the call is for; to a scan, any line.
    pub is_held: bool,
    /// The other slots that are dirty, going by the registers.
    pub dirty_besides: u64,
}

/// Each step is inlined into each call that makes it, so that these parts stay in the processor's registers.
pub struct Machine<'a> {
    pub control: Control,
    pub control_word: &'a mut u64,
    pub log: &'a mut [Entry],
    pub lines: &'a mut [u64],
    pub slots: &'a mut [Slot],
    pub buffer: &'a mut [Entry],
    pub filter: &'a mut Filter,
    pub registers: &'a mut Registers,
    pub mains: &'a mut Mains,
}

impl<'a> Machine<'a> {
    /// Tests shape, work and registers, in this order.
    #[inline]
    pub fn open(
        board: &'a mut [u64],
        work: &'a mut [u64],
        registers: &'a mut Registers,
        mains: &'a mut Mains,
    ) -> Result<Self, Refusal> {
        let (control, shape, slot_count) = checks::opening(board, work, registers)?;
        let (control_word, log, lines) = board_parts_mut(board, shape).ok_or(Refusal::Shape)?;
        let (slots, buffer, filter) = work_parts_mut(work, slot_count).ok_or(Refusal::Work)?;
        Ok(Machine {
            control,
            control_word,
            log,
            lines,
            slots,
            buffer,
            filter,
            registers,
            mains,
        })
    }

    #[inline(always)]
    fn slot_test(&self) -> SlotTest {
        SlotTest::new(self.lines.len(), self.control.persisted, self.registers.epoch)
    }

    /// The set in which an address belongs, and its number, once the address is tested.
    #[inline(always)]
    fn set_of(&self, address: u64, sets: Sets) -> Result<(&Set, usize), Refusal> {
        if address >= self.lines.len() as u64 {
            return Err(Refusal::Address);
        }
        let number = sets.set_of(address);
        Ok((&self.slots.as_chunks().0[number], number))
    }

    /// The slot in which the line at an address is held, if it is. Tests the address, the whole set, and then the count of
    /// dirty slots.
    #[inline(always)]
    pub fn slot_with(&self, address: u64) -> Result<Option<usize>, Refusal> {
        let sets = Sets::of(self.slots.len());
        let (set, number) = self.set_of(address, sets)?;
        let way = sets::way_with(set, number, sets, &self.slot_test(), address).ok_or(Refusal::Slot)?;
        sets::check_count(set, self.registers.dirty, self.slots.len())?;
        Ok(way.map(|way| WAYS * number + way))
    }

    /// The slot in which the line at an address is held, or that it takes. The tests are the same.
    #[inline(always)]
    pub fn slot_for(&self, address: u64) -> Result<Visited, Refusal> {
        let sets = Sets::of(self.slots.len());
        let (set, number) = self.set_of(address, sets)?;
        let way = sets::way_for(set, number, sets, &self.slot_test(), address).ok_or(Refusal::Slot)?;
        sets::check_count(set, self.registers.dirty, self.slots.len())?;
        Ok(self.visited(WAYS * number + way.number, way.is_held))
    }

    #[inline(always)]
    pub fn visited(&self, place: usize, is_held: bool) -> Visited {
        let word = SlotWord(self.slots[place][0]);
        Visited {
            place,
            word,
            is_held,
            dirty_besides: self.registers.dirty.wrapping_sub(u64::from(word.is_dirty())),
        }
    }

    /// Tests the slot at the scan's cursor, and then the count of dirty slots.
    #[inline(always)]
    pub fn visit(&self, place: usize) -> Result<Visited, Refusal> {
        let word = SlotWord(self.slots[place][0]);
        let belongs = |address| Sets::of(self.slots.len()).set_of(address) == place / WAYS;
        if word != SlotWord::EMPTY && !(self.slot_test().accepts(word) && belongs(word.address())) {
            return Err(Refusal::Slot);
        }
        let dirty_besides = checks::other_dirty_slots(self.registers.dirty, word, self.slots.len())?;
        Ok(Visited {
            place,
            word,
            is_held: true,
            dirty_besides,
        })
    }

    /// Tests the buffered entries, and then the filter.
    #[inline]
    pub fn check_buffer(&self) -> Result<(), Refusal> {
        let buffered = &self.buffer[..self.registers.buffered as usize];
        checks::buffer(buffered, self.filter, self.lines.len() as u64, self.registers.epoch)
    }

    /// Stores the buffered entries at the ring's end, then the control word that counts them. Buffer and filter are empty
    /// then.
    #[inline(always)]
    pub fn flush(&mut self) -> Result<(), Stop> {
        let buffered = self.registers.buffered as usize;
        if buffered == 0 {
            return Ok(());
        }
        let mut place = self.control.start + self.control.length;
        if place >= self.log.len() {
            place -= self.log.len();
        }
        for &[packed, data] in &self.buffer[..buffered] {
            let entry = &mut self.log[place];
            self.mains.store(&mut entry[0], packed)?;
            self.mains.store(&mut entry[1], data)?;
            place += 1;
            if place == self.log.len() {
                place = 0;
            }
        }
        self.control.length += buffered;
        self.mains.store(self.control_word, self.control.pack())?;
        self.registers.buffered = 0;
        self.buffer.fill([0, 0]);
        self.filter.fill(0);
        Ok(())
    }

    /// Stores a dirty slot's line to the board, after the buffer if that may have an entry of the line. The filter alone says
    /// so, and a flush of an empty buffer does nothing. The slot counts as dirty no more, and its word has to follow.
    #[inline(always)]
    pub fn write_out(&mut self, visited: Visited) -> Result<(), Stop> {
        let address = visited.word.address();
        if is_marked(self.filter, address) {
            self.flush()?;
        }
        let line = &mut self.lines[address as usize];
        self.mains.store(line, self.slots[visited.place][1])?;
        self.registers.dirty = visited.dirty_besides;
        Ok(())
    }

    #[inline(always)]
    pub fn write_out_if_dirty(&mut self, visited: Visited) -> Result<(), Stop> {
        if visited.word.is_dirty() {
            self.write_out(visited)?;
        }
        Ok(())
    }

    /// Holds the line at `address` in the slot that it has or, clean, in the one that it takes.
    #[inline(always)]
    pub fn hold(&mut self, visited: Visited, address: u64) -> Result<(), Stop> {
        if !visited.is_held {
            self.write_out_if_dirty(visited)?;
            self.slots[visited.place] = [SlotWord::clean(address).0, self.lines[address as usize]];
        }
        Ok(())
    }

    /// Puts an undo entry at the buffer's end and its address in the filter, and flushes a full buffer.
    #[inline(always)]
    pub fn record(&mut self, range: Range, old_data: u64) -> Result<(), Stop> {
        let buffered = self.registers.buffered as usize;
        self.buffer[buffered] = [range.pack(), old_data];
        mark(self.filter, range.address);
        self.registers.buffered += 1;
        if buffered + 1 == BUFFER_ENTRIES {
            self.flush()?;
        }
        Ok(())
    }

    /// How many of the log's oldest entries no epoch from `target` on needs.
    #[inline]
    pub fn droppable(&self, target: u64) -> usize {
        checks::oldest_to_newest(self.log, self.control)
            .position(|&[packed, _]| Range::ends_behind(packed, target))
            .unwrap_or(self.control.length)
    }
}
