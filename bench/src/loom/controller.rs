//! A controller that works through the loom's epochs on the library, and what that took.

use super::workload::{Order, Work};
use crate::call::{Call, Kind};
use crate::handwritten::layout::{Control, CONTROL_PLACE, ENTRY_WORDS, MOST_LINES};
use crate::handwritten::Registers;
use crate::interface::{Answer, RegisterWords, NONE, NO_REGISTERS, OK, ROOM};
use crate::library::Library;
use crate::random::Random;
use crate::sizes::Sizes;
use crate::write_out::WriteOut;

pub const SEED: u64 = 2_600_400;

/// Epochs before anything is counted, so that cache and log are as in the midst of work.
const EPOCHS_BEFORE: usize = 5;
pub const EPOCHS_COUNTED: usize = 100;

#[derive(Clone, Copy, Debug)]
pub struct Plan {
    pub order: Order,
    pub slots: usize,
    /// The log's size, L.
    pub entries: u64,
    pub scans_per_epoch: usize,
}

impl Plan {
    /// The epochs of it, on these lines of the loom.
    pub fn work(self, lines: &[u64]) -> Work<'_> {
        Work {
            order: self.order,
            lines,
            access: Call::load,
            scans_per_epoch: self.scans_per_epoch,
        }
    }
}

/// What the counted epochs took.
#[derive(Clone, Copy, Debug, Default)]
pub struct Figures {
    pub most_entries_in_an_epoch: u64,
    pub most_waiting: u64,
    /// Entries in log and buffer together.
    pub most_entries_at_once: u64,
    pub entry_stores: u64,
    pub control_stores: u64,
    pub line_stores: u64,
    /// Flushes that the filter alone has asked for: no buffered entry was of the line to be written out.
    pub false_hits: u64,
    /// Write-outs with entries buffered.
    pub write_outs_beside_entries: u64,
    pub refused_for_room: u64,
    /// The most scan calls that were made in one go before a store that was refused for room was made again.
    pub most_late_scans: u64,
}

impl Figures {
    pub fn stores(&self) -> u64 {
        self.entry_stores + self.control_stores + self.line_stores
    }
}

#[derive(Clone)]
pub struct Controller {
    board: Vec<u64>,
    work: Vec<u64>,
    registers: RegisterWords,
    slots: usize,
    /// The log's size, L.
    entries: u64,
    pub figures: Figures,
    entries_in_epoch: u64,
}

/// Works through the plan. Any refusal but that for room is a fault of the plan, and ends it.
pub fn work_through(plan: Plan) -> Result<Figures, String> {
    let random = &mut Random::new(SEED);
    let lines = plan.order.lines(random, MOST_LINES);
    let work = plan.work(&lines);
    let mut controller = Controller::in_midst(plan, work, random)?;
    for _ in 0..EPOCHS_COUNTED {
        controller.epoch(&work.epoch(random))?;
    }
    Ok(controller.figures)
}

impl Controller {
    pub fn start(plan: Plan) -> Result<Self, String> {
        let sizes = Sizes {
            lines: MOST_LINES,
            entries: plan.entries,
            slots: plan.slots as u64,
        };
        let mut controller = Controller {
            board: vec![0; sizes.board_words()],
            work: vec![0; sizes.work_words()],
            registers: NO_REGISTERS,
            slots: plan.slots,
            entries: plan.entries,
            figures: Figures::default(),
            entries_in_epoch: 0,
        };
        controller.make(sizes.format())?;
        controller.counted(Call::POWER_UP)?;
        Ok(controller)
    }

    /// In the midst of the plan's work, with nothing counted yet.
    pub fn in_midst(plan: Plan, work: Work, random: &mut Random) -> Result<Self, String> {
        let mut controller = Controller::start(plan)?;
        for _ in 0..EPOCHS_BEFORE {
            controller.epoch(&work.epoch(random))?;
        }
        controller.figures = Figures::default();
        Ok(controller)
    }

    pub fn epoch(&mut self, calls: &[Call]) -> Result<(), String> {
        self.entries_in_epoch = 0;
        for &call in calls {
            match call.kind() {
                Kind::Store => self.store(call)?,
                Kind::Scan => {
                    self.scan(call)?;
                }
                _ => {
                    self.counted(call)?;
                }
            }
        }
        self.note_state();
        Ok(())
    }

    fn store(&mut self, call: Call) -> Result<(), String> {
        let mut before = self.entries_at_once();
        while self.counted(call)?.number == ROOM {
            self.make_room()?;
            before = self.entries_at_once();
        }
        self.entries_in_epoch += self.entries_at_once() - before;
        self.note_state();
        Ok(())
    }

    /// What `include/picl.h` asks for where a store is refused for room, before it is made again: scan calls in one go until an epoch
    /// is persisted. Gives how many they were.
    pub fn make_room(&mut self) -> Result<u64, String> {
        let scans = self.persist()?;
        self.figures.most_late_scans = self.figures.most_late_scans.max(scans);
        Ok(scans)
    }

    /// Makes scan calls until one has persisted something, S + 1 at most, and gives how many they were.
    pub fn persist(&mut self) -> Result<u64, String> {
        for scans in 1..=self.slots as u64 + 1 {
            if self.scan(Call::SCAN)? != 0 {
                return Ok(scans);
            }
        }
        Err(format!("{} scan calls have persisted nothing", self.slots + 1))
    }

    /// Makes a scan call and gives the epoch that it has persisted, or 0.
    pub fn scan(&mut self, call: Call) -> Result<u64, String> {
        let persisted = self.counted(call)?.value;
        if persisted != 0 {
            // The control word with the new persisted epoch; one for a flush before it is counted as that of any flush.
            self.figures.control_stores += 1;
            self.figures.line_stores -= 1;
        }
        Ok(persisted)
    }

    /// Makes a call and counts its board stores: two words for each entry that left the buffer and a control word for
    /// each flush, and the others to lines.
    fn counted(&mut self, call: Call) -> Result<Answer, String> {
        let end_before = self.ring_end();
        let write_out = WriteOut::of(call, &self.board, &self.work, self.registers());
        let answer = self.make(call)?;
        if answer.number != OK {
            return Ok(answer);
        }
        if let Some(write_out) = write_out {
            self.figures.false_hits += u64::from(write_out.is_false_hit(answer.stores));
            self.figures.write_outs_beside_entries += u64::from(write_out.buffered > 0);
        }
        let flushed = (self.ring_end() + self.entries - end_before) % self.entries;
        let (entry_stores, control_stores) = (ENTRY_WORDS as u64 * flushed, u64::from(flushed > 0));
        self.figures.entry_stores += entry_stores;
        self.figures.control_stores += control_stores;
        self.figures.line_stores += answer.stores - entry_stores - control_stores;
        Ok(answer)
    }

    /// Makes a call. A refusal that the plan may meet is an answer like any other.
    pub fn make(&mut self, call: Call) -> Result<Answer, String> {
        let answer = self.answer(call);
        match answer.number {
            OK | NONE => {}
            ROOM => self.figures.refused_for_room += 1,
            number => return Err(format!("{} answered {number}", call.kind().name())),
        }
        Ok(answer)
    }

    /// Makes a call, and leaves it to the caller what its number means.
    pub fn answer(&mut self, call: Call) -> Answer {
        call.make::<Library>(&mut self.board, &mut self.work, &mut self.registers)
    }

    pub fn board(&self) -> &[u64] {
        &self.board
    }

    pub fn control(&self) -> Control {
        Control::unpack(self.board[CONTROL_PLACE])
    }

    pub fn registers(&self) -> Registers {
        self.registers.into()
    }

    /// Where the log's next entry goes: only a flush moves it.
    fn ring_end(&self) -> u64 {
        let control = self.control();
        (control.start + control.length) as u64 % self.entries
    }

    fn note_state(&mut self) {
        let waiting = self.waiting();
        let at_once = self.entries_at_once();
        let figures = &mut self.figures;
        figures.most_waiting = figures.most_waiting.max(waiting);
        figures.most_entries_at_once = figures.most_entries_at_once.max(at_once);
        figures.most_entries_in_an_epoch = figures.most_entries_in_an_epoch.max(self.entries_in_epoch);
    }

    /// The committed epochs that are not persisted.
    pub fn waiting(&self) -> u64 {
        self.registers().epoch - self.control().persisted - 1
    }

    pub fn entries_at_once(&self) -> u64 {
        self.control().length as u64 + self.registers().buffered
    }
}
