//! Images that are converted: boards of every cut of lists, of many sizes.

use super::Image;
use crate::handwritten::old;
use crate::old_boards::List;
use crate::random::Random;
use crate::sizes::{Sizes, MOST_OF_THE_REPLAY};

const SEED: u64 = 40;

/// Small boards, on each of which a list is cut at every store: lines, entries, the epoch persisted before it.
const SMALL: [(u64, u64, u64); 6] = [
    (1, 1, 0),
    (2, 3, 5),
    (4, 8, 0),
    (9, 5, 1_000),
    (12, 40, 65_530),
    (8, 6, old::LAST_EPOCH - 9),
];
const CALLS_ON_SMALL: u64 = 150;
const FEWEST_SLOTS: u64 = 4;

/// Larger boards: one cut in so many of a long list.
const LARGE: [(u64, u64, u64); 6] = [
    (300, 200, 3),
    (2_048, 1, 0),
    (1, 1_024, 70),
    (2_047, 1_023, 9_000),
    (2_048, 1_024, 16),
    (2_048, 1_024, old::LAST_EPOCH - 40),
];
const CALLS_ON_LARGE: u64 = 3_000;
const ONE_CUT_IN: usize = 61;

pub fn images() -> Vec<Image> {
    let small = SMALL.map(|board| (list(board, FEWEST_SLOTS, CALLS_ON_SMALL), 1));
    let large = LARGE.map(|board| (list(board, MOST_OF_THE_REPLAY.slots, CALLS_ON_LARGE), ONE_CUT_IN));
    let mut images = Vec::new();
    for (list, one_in) in small.into_iter().chain(large) {
        images.extend(images_of(list, one_in));
    }
    images
}

fn list((lines, entries, persisted): (u64, u64, u64), slots: u64, calls: u64) -> List {
    List {
        sizes: Sizes { lines, entries, slots },
        persisted,
        calls,
    }
}

fn images_of(list: List, one_in: usize) -> Vec<Image> {
    let Sizes { lines, entries, .. } = list.sizes;
    let random = &mut Random::for_place(&[SEED, lines, entries, list.persisted]);
    let mut images = Vec::new();
    let mut place = 0;
    list.for_each_cut(random, |board| {
        place += 1;
        if place % one_in == 0 {
            let name = format!("{lines}-{entries}-{}-{place}", list.persisted);
            images.push(Image::of_board(name, &board));
        }
    });
    images
}
