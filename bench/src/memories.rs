//! Both memories and the registers of a loom on the bench, and the hand-written calls on them.

use crate::call::{Call, Kind};
use crate::handwritten::layout::{Control, CONTROL_PLACE};
use crate::handwritten::{HandWritten, Registers};
use crate::interface::{Answer, OK};
use crate::sizes::Sizes;

/// What volatile memory holds once it is lost: any words.
const LOST: u64 = u64::MAX;

#[derive(Clone)]
pub struct Loom {
    board: Vec<u64>,
    work: Vec<u64>,
    registers: Registers,
}

impl Loom {
    /// Format and power-up. The answer is power-up's, or format's where that refuses.
    pub fn start(sizes: Sizes) -> (Self, Answer) {
        let mut loom = Loom {
            board: vec![0; sizes.board_words()],
            work: vec![LOST; sizes.work_words()],
            registers: Registers::default(),
        };
        let mut answer = loom.make(sizes.format());
        if answer.number == OK {
            answer = loom.make(Call::POWER_UP);
        }
        (loom, answer)
    }

    /// The same on a board whose persisted epoch is this.
    pub fn start_behind(sizes: Sizes, persisted: u64) -> Self {
        let (mut loom, _) = Loom::start(sizes);
        let control = Control {
            persisted,
            ..loom.control()
        };
        loom.board[CONTROL_PLACE] = control.pack();
        loom.make(Call::POWER_UP);
        loom
    }

    /// Makes a call; before a power-up volatile memory is lost.
    pub fn make(&mut self, call: Call) -> Answer {
        if call.kind() == Kind::PowerUp {
            self.work.fill(LOST);
            self.registers = Registers::default();
        }
        call.make::<HandWritten>(&mut self.board, &mut self.work, &mut self.registers)
    }

    /// What a call writes out, if it is accepted.
    #[cfg(test)]
    pub fn write_out(&self, call: Call) -> Option<crate::write_out::WriteOut> {
        crate::write_out::WriteOut::of(call, &self.board, &self.work, self.registers)
    }

    pub fn board(&self) -> &[u64] {
        &self.board
    }

    pub fn registers(&self) -> Registers {
        self.registers
    }

    pub fn control(&self) -> Control {
        Control::unpack(self.board[CONTROL_PLACE])
    }
}
