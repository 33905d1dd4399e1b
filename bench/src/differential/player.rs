//! Makes each call of a history on both sides and compares what they leave.

use super::asked::Asked;
use super::difference::Difference;
use super::occurrences::Occurrences;
use super::sides::{has_true_count, is_read_back, on_handwritten, on_library, Lent};
use crate::interface::{ANSWER_WORDS, NO_REGISTERS};
use crate::random::Random;

/// What a history ends with: nothing, or the first difference.
pub type Outcome = Result<(), Box<Difference>>;

pub struct Player {
    pub random: Random,
    /// What the next call is lent. A history may change it as it likes.
    pub state: Lent,
    /// What the last call of the history answered.
    pub last_number: u64,
    /// Since its board was formatted and powered up, the history has damaged nothing: the registers have to count the
    /// dirty slots.
    pub is_undamaged: bool,
    /// The board was converted, and not formatted.
    pub is_converted: bool,
    pub occurrences: Occurrences,
    calls_in_history: u64,
    library: Lent,
    handwritten: Lent,
}

impl Player {
    pub fn new() -> Self {
        Player {
            random: Random::new(0),
            state: Lent::default(),
            last_number: 0,
            is_undamaged: false,
            is_converted: false,
            occurrences: Occurrences::default(),
            calls_in_history: 0,
            library: Lent::default(),
            handwritten: Lent::default(),
        }
    }

    pub fn start_history(&mut self, random: Random) {
        self.random = random;
        self.state = Lent {
            registers: NO_REGISTERS.to_vec(),
            answer: vec![0; ANSWER_WORDS],
            ..Lent::default()
        };
        self.last_number = 0;
        self.is_undamaged = false;
        self.is_converted = false;
        self.calls_in_history = 0;
    }

    /// Makes the call on two copies of the state, compares all of them, and goes on from there.
    pub fn make(&mut self, asked: impl Into<Asked>) -> Outcome {
        let asked = asked.into();
        for word in &mut self.state.answer {
            *word = self.random.word();
        }
        self.library.copy_from(&self.state);
        self.handwritten.copy_from(&self.state);
        let library_number = on_library(asked, &mut self.library);
        let handwritten_number = on_handwritten(asked, &mut self.handwritten);
        let is_same = library_number == handwritten_number && self.library == self.handwritten;
        let is_counted = !self.is_undamaged || has_true_count(asked, handwritten_number, &self.handwritten);
        if !is_same || !is_counted || !is_read_back(asked, library_number, &self.library) {
            return Err(Box::new(Difference {
                asked,
                place: self.calls_in_history,
                before: self.state.clone(),
                library_number,
                library: self.library.clone(),
                handwritten_number,
                handwritten: self.handwritten.clone(),
                is_counted,
            }));
        }
        self.calls_in_history += 1;
        self.occurrences
            .count(asked, library_number, &self.state, &self.library);
        self.occurrences.calls_on_converted += u64::from(self.is_converted);
        std::mem::swap(&mut self.state, &mut self.library);
        self.last_number = library_number;
        Ok(())
    }
}
