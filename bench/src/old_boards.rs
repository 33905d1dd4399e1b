//! Boards in the old layout, as controllers have left them: after each call of a list, and after every cut of it.

use crate::call::Call;
use crate::handwritten::old::{self, old_board};
use crate::handwritten::Registers;
use crate::interface::CUT;
use crate::memories::Loom;
use crate::random::Random;
use crate::sizes::Sizes;

/// A list of so many calls on a board of these sizes; the first epoch is the one behind `persisted`.
#[derive(Clone, Copy)]
pub struct List {
    pub sizes: Sizes,
    pub persisted: u64,
    pub calls: u64,
}

impl List {
    /// Draws the calls, makes each under the allowances 0, 1, 2 and so on until it is not cut, and gives every board that is then
    /// another.
    pub fn for_each_cut(self, random: &mut Random, mut give: impl FnMut(Vec<u64>)) {
        let mut loom = Loom::start_behind(self.sizes, self.persisted);
        give(old_board(loom.board()));
        for _ in 0..self.calls {
            let call = draw_call(random, self.sizes, loom.registers());
            loom = after_every_cut(&loom, call, &mut give);
        }
    }
}

/// The state once the call is not cut.
fn after_every_cut(loom: &Loom, call: Call, give: &mut impl FnMut(Vec<u64>)) -> Loom {
    let mut before = loom.clone();
    for allowance in 0.. {
        let mut made = loom.clone();
        let number = made.make(call.under(allowance)).number;
        if made.board() != before.board() {
            give(old_board(made.board()));
        }
        before = made;
        if number != CUT {
            break;
        }
    }
    before
}

/// A call of a controller, of any kind. In the last old epoch there is no commit.
fn draw_call(random: &mut Random, sizes: Sizes, registers: Registers) -> Call {
    let address = random.below(sizes.lines);
    let Registers { epoch, target, .. } = registers;
    match random.below(40) {
        0 => Call::POWER_UP,
        1..3 => Call::load(address),
        3..6 => Call::evict(address),
        6..11 if epoch < old::LAST_EPOCH => Call::COMMIT,
        11..13 if target == 0 => Call::Begin { target: epoch - 1 },
        13..22 => Call::SCAN,
        _ => Call::store(address, random.word()),
    }
}

#[cfg(test)]
mod tests {
    use super::*;
    use crate::handwritten::layout::Control;

    /// A store of a line, its eviction cut at each of its four stores, and not cut: the entry's two words, the control word, the line.
    #[test]
    fn a_list_has_a_board_for_each_store() {
        let sizes = Sizes {
            lines: 2,
            entries: 1,
            slots: 4,
        };
        let mut loom = Loom::start_behind(sizes, 5);
        loom.make(Call::store(1, 7));
        let mut boards = vec![old_board(loom.board())];
        let loom = after_every_cut(&loom, Call::evict(1), &mut |board| boards.push(board));
        let (empty, full) = (0x0000_0500_0000_0000, 0x0000_0500_0000_0001);
        let (shape, entry) = (0x0000_0000_0020_0001, 0x0001_0000_0500_0006);
        let expected = [
            vec![empty, shape, 0, 0, 0, 0],
            vec![empty, shape, entry, 0, 0, 0],
            vec![full, shape, entry, 0, 0, 0],
            vec![full, shape, entry, 0, 0, 7],
        ];
        // The old data is 0, as the log's word was: its store leaves the same board.
        assert_eq!(boards, expected);
        assert_eq!(loom.control(), Control::unpack(0x0000_0000_0500_0001));
    }

    #[test]
    fn lists_end_in_the_last_old_epoch() {
        let sizes = Sizes {
            lines: 4,
            entries: 8,
            slots: 4,
        };
        let list = List {
            sizes,
            persisted: old::LAST_EPOCH - 3,
            calls: 400,
        };
        let mut last = 0;
        list.for_each_cut(&mut Random::new(9), |board| {
            last = last.max(old::unpack_control(board[0]).persisted);
        });
        assert_eq!(last, old::LAST_EPOCH - 1);
    }
}
