//! The replay program: what each line of a script does, and what it prints.

use super::line::{self, Command};
use crate::call::NO_CUT;
use crate::handwritten::layout::Control;
use crate::handwritten::names::name_of;
use crate::handwritten::Registers;
use crate::interface::{Answer, OK};
use crate::memories::Loom;
use crate::sizes::Sizes;

struct Program {
    /// None before the first line.
    loom: Option<Loom>,
    /// The next call's.
    allowance: u32,
    output: String,
}

enum Then {
    GoOn,
    End,
}

/// Ends a script in a file, where another begins behind it.
const BAR: u8 = b'|';

/// What the scripts of a file print, one after the other, each on a bench of its own.
pub fn output_of(scripts: &[u8]) -> Vec<u8> {
    scripts.split(|&byte| byte == BAR).flat_map(replayed).collect()
}

/// What the replay of a script prints.
fn replayed(script: &[u8]) -> Vec<u8> {
    let mut program = Program {
        loom: None,
        allowance: NO_CUT,
        output: String::new(),
    };
    for (place, line) in line::lines_of(script).enumerate() {
        match program.obey(line) {
            Some(Then::GoOn) => {}
            Some(Then::End) => break,
            None => {
                program.output += &format!("? {}\n", place + 1);
                break;
            }
        }
    }
    program.output.into_bytes()
}

impl Program {
    /// Does what a line says. None where it says nothing that may stand there.
    fn obey(&mut self, line: &[u8]) -> Option<Then> {
        match (line::read(line, self.allowance)?, &mut self.loom) {
            (Command::Start(sizes), None) => Some(self.start(sizes)),
            (Command::Allow(count), Some(_)) => {
                self.allowance = count;
                Some(Then::GoOn)
            }
            (Command::Make(call), Some(loom)) => {
                self.allowance = NO_CUT;
                let answer = loom.make(call);
                self.output += &output_line(char::from(line[0]), answer, loom);
                Some(Then::GoOn)
            }
            _ => None,
        }
    }

    /// Format and power-up: the line is power-up's, or format's where that refuses. A refusal is the end.
    fn start(&mut self, sizes: Sizes) -> Then {
        let (loom, answer) = Loom::start(sizes);
        self.output += &output_line('n', answer, &loom);
        self.loom = Some(loom);
        match answer.number {
            OK => Then::GoOn,
            _ => Then::End,
        }
    }
}

/// Letter, name, value, stores, s, P, log length, b.
fn output_line(letter: char, answer: Answer, loom: &Loom) -> String {
    let Answer { number, value, stores } = answer;
    let Registers { epoch, buffered, .. } = loom.registers();
    let Control { persisted, length, .. } = loom.control();
    let name = name_of(number);
    format!("{letter} {name} {value} {stores} {epoch} {persisted} {length} {buffered}\n")
}
