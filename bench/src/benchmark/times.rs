//! Times of both sides, taken by turns.

use super::region::{Measured, Memories};
use super::rows::Prepared;
use crate::handwritten::HandWritten;
use crate::library::Library;
use std::time::{Duration, Instant};

/// Odd, so that the median is one of them.
pub const REPETITIONS: usize = 1_001;
/// Repetitions before the first that counts.
const WARMING: usize = 5;

/// The median time of a measured call on each side, in nanoseconds.
pub struct Times {
    pub library: f64,
    pub handwritten: f64,
}

impl Times {
    pub fn ratio(&self) -> f64 {
        self.library / self.handwritten
    }
}

pub fn take_times(row: &Prepared) -> Times {
    let clock_cost = clock_cost();
    let mut library = Memories::<Library>::new(&row.start);
    let mut handwritten = Memories::<HandWritten>::new(&row.start);
    let mut library_times = Vec::new();
    let mut handwritten_times = Vec::new();
    for repetition in 0..WARMING + REPETITIONS {
        let mut time_library = || time_once(row, &mut library, clock_cost);
        let mut time_handwritten = || time_once(row, &mut handwritten, clock_cost);
        // Each side goes first every other time.
        let (of_library, of_handwritten) = if repetition % 2 == 0 {
            let of_library = time_library();
            (of_library, time_handwritten())
        } else {
            let of_handwritten = time_handwritten();
            (time_library(), of_handwritten)
        };
        assert_eq!(of_library.sum, of_handwritten.sum, "the sides answer differently");
        if repetition >= WARMING {
            library_times.push(of_library.time);
            handwritten_times.push(of_handwritten.time);
        }
    }
    assert!(
        library.into_start() == handwritten.into_start(),
        "the sides leave different memories"
    );
    Times {
        library: median(library_times) / row.calls() as f64,
        handwritten: median(handwritten_times) / row.calls() as f64,
    }
}

struct Played {
    /// Of all measured calls together, in nanoseconds.
    time: f64,
    /// Of all answers.
    sum: u64,
}

fn time_once<C: Measured>(row: &Prepared, memories: &mut Memories<C>, clock_cost: f64) -> Played {
    memories.restore(&row.start);
    let mut sum: u64 = 0;
    let mut time = Duration::ZERO;
    let mut pieces = 0.0;
    row.for_each_piece(|piece, is_measured| {
        if is_measured {
            let begin = Instant::now();
            let piece_sum = C::play_measured(memories, piece);
            time += begin.elapsed();
            sum = sum.wrapping_add(piece_sum);
            pieces += 1.0;
        } else {
            sum = sum.wrapping_add(memories.play_unmeasured(piece));
        }
    });
    Played {
        time: time.as_nanos() as f64 - pieces * clock_cost,
        sum,
    }
}

/// What it costs to read the clock twice, in nanoseconds: it is taken off the time of each piece. It is the median of means, since a
/// clock may go by steps that are as long as a short call.
fn clock_cost() -> f64 {
    const MEANS: usize = 101;
    const READINGS: u32 = 1_000;
    let mean = |_| {
        let sum: Duration = (0..READINGS).map(|_| Instant::now().elapsed()).sum();
        sum.as_nanos() as f64 / f64::from(READINGS)
    };
    median((0..MEANS).map(mean).collect())
}

fn median(mut times: Vec<f64>) -> f64 {
    times.sort_by(f64::total_cmp);
    times[times.len() / 2]
}
