//! The packed words, worked by hand from the paper: W1 to W4, and each field at its ends.

use super::range;
use crate::handwritten::layout::{Control, Range, Shape, SlotWord};
use crate::handwritten::old;

const fn control(persisted: u64, start: usize, length: usize) -> Control {
    Control {
        persisted,
        start,
        length,
    }
}

const fn spanning(address: u64, valid_till: u64, span: u64) -> Range {
    Range {
        address,
        valid_till,
        span,
    }
}

const LAST: u64 = 1_099_511_627_775;

#[test]
fn w1_to_w4() {
    assert_eq!(range(5, 1, 2).pack(), 0x0005000000000201);
    assert_eq!(control(1, 1, 1).pack(), 0x0000000001001001);
    assert_eq!(Shape { lines: 4, entries: 8 }.pack(), 0x0000010000400008);
    assert_eq!(SlotWord::dirty(3, 2).0, 0xC000C00000000080);
}

#[test]
fn entries() {
    let worked = [
        (range(5, 1, 2), 0x0005_0000_0000_0201),
        (spanning(0, 0, 0), 0x0000_0000_0000_0000),
        (spanning(65_535, 0, 0), 0xFFFF_0000_0000_0000),
        (spanning(0, LAST, 0), 0x0000_FFFF_FFFF_FF00),
        (spanning(0, 0, 255), 0x0000_0000_0000_00FF),
        (spanning(0, 1, 0), 0x0000_0000_0000_0100),
        (range(0, 16_777_200, 16_777_216), 0x0000_0001_0000_0010),
        (range(1, 4_294_967_295, 4_294_967_296), 0x0001_0100_0000_0001),
        (range(32_768, LAST - 16, LAST), 0x8000_FFFF_FFFF_FF10),
        (spanning(0x1234, 0x56_789A_BCDE, 0xF0), 0x1234_5678_9ABC_DEF0),
    ];
    for (range, word) in worked {
        assert_eq!(range.pack(), word, "{range:?}");
        assert_eq!(Range::unpack(word), range, "{word:#018x}");
    }
}

#[test]
fn a_packed_entry_ends_behind_the_epochs_before_its_till() {
    for till in [1, 2, 255, 256, 16_777_216, 4_294_967_296, LAST] {
        for (address, span) in [(0, 0), (0, 255), (65_535, 0), (65_535, 255)] {
            let word = spanning(address, till, span).pack();
            assert!(Range::ends_behind(word, till - 1), "{word:#018x}");
            assert!(till == LAST || !Range::ends_behind(word, till), "{word:#018x}");
        }
    }
}

#[test]
fn control_words() {
    let worked = [
        (control(1, 1, 1), 0x0000_0000_0100_1001),
        (control(0, 0, 0), 0x0000_0000_0000_0000),
        (control(LAST, 0, 0), 0xFFFF_FFFF_FF00_0000),
        (control(0, 4_095, 0), 0x0000_0000_00FF_F000),
        (control(0, 0, 4_095), 0x0000_0000_0000_0FFF),
        (control(16_777_216, 4_094, 4_095), 0x0001_0000_00FF_EFFF),
        (control(0x12_3456_789A, 0xBCD, 0xEF0), 0x1234_5678_9ABC_DEF0),
    ];
    for (control, word) in worked {
        assert_eq!(control.pack(), word, "{control:?}");
        assert_eq!(Control::unpack(word), control, "{word:#018x}");
    }
}

#[test]
fn shape_words() {
    let worked = [
        (4, 8, 0x0000_0100_0040_0008),
        (1, 1, 0x0000_0100_0010_0001),
        (65_536, 4_095, 0x0000_0110_0000_0FFF),
        (0xABCDE, 0x12345, 0x0000_01AB_CDE1_2345),
    ];
    for (lines, entries, word) in worked {
        let shape = Shape { lines, entries };
        assert_eq!(shape.pack(), word, "{shape:?}");
        assert_eq!(Shape::unpack(word), shape, "{word:#018x}");
    }
}

#[test]
fn a_shape_of_another_version_has_too_many_lines() {
    for version in [0, 2, 3, 1 << 23, (1 << 24) - 1] {
        let word = version << 40 | 4 << 20 | 8;
        let shape = Shape::unpack(word);
        assert!(shape.lines > 65_536, "{version}");
        assert_eq!(shape.pack(), word);
    }
}

#[test]
fn slot_words() {
    let worked = [
        (SlotWord::clean(0), 0x8000_0000_0000_0000),
        (SlotWord::clean(65_535), 0xBFFF_C000_0000_0000),
        (SlotWord::dirty(3, 2), 0xC000_C000_0000_0080),
        (SlotWord::dirty(0, LAST), 0xC000_3FFF_FFFF_FFC0),
        (SlotWord::dirty(65_535, 1), 0xFFFF_C000_0000_0040),
        (SlotWord::dirty(1, 16_777_216), 0xC000_4000_4000_0000),
    ];
    for (slot, word) in worked {
        assert_eq!(slot.0, word);
    }
    assert_eq!(SlotWord(0xC000_C000_0000_0080).address(), 3);
    assert_eq!(SlotWord(0xC000_C000_0000_0080).tag(), 2);
    assert_eq!(SlotWord(0xFFFF_FFFF_FFFF_FFC0).address(), 65_535);
    assert_eq!(SlotWord(0xFFFF_FFFF_FFFF_FFC0).tag(), LAST);
    assert_eq!(SlotWord(0x3F).tag(), 0);
}

/// W1 to W3 as they were, and the ends of the old fields.
#[test]
fn old_words() {
    let entries = [
        (range(5, 1, 2), 0x0005_0000_0100_0002),
        (range(65_535, 0, 16_777_215), 0xFFFF_0000_00FF_FFFF),
        (range(1, 16_777_214, 16_777_215), 0x0001_FFFF_FEFF_FFFF),
    ];
    for (range, word) in entries {
        assert_eq!(old::pack_range(range), word, "{range:?}");
        assert_eq!(old::unpack_range(word), range, "{word:#018x}");
    }
    let controls = [
        (control(1, 1, 1), 0x0000_0100_0010_0001),
        (control(16_777_215, 0, 0), 0xFFFF_FF00_0000_0000),
        (control(0, 65_535, 65_536), 0x0000_000F_FFF1_0000),
    ];
    for (control, word) in controls {
        assert_eq!(old::pack_control(control), word, "{control:?}");
        assert_eq!(old::unpack_control(word), control, "{word:#018x}");
    }
    let shape = Shape { lines: 4, entries: 8 };
    assert_eq!(old::pack_shape(shape), 0x0000_0000_0040_0008);
    assert_eq!(old::unpack_shape(0x0000_0000_0040_0008), shape);
    assert!(old::unpack_shape(0x0000_0100_0040_0008).lines > 65_536);
}

/// ValidFrom as late as ValidTill, or later, is no span up to ValidTill.
#[test]
fn old_entries_from_their_end_on() {
    for (word, span) in [(0x0005_0000_0200_0002, 0), (0x0005_0000_0300_0002, u64::MAX)] {
        let range = old::unpack_range(word);
        assert_eq!((range.valid_till, range.span), (2, span));
        assert!(!range.has_proper_span(u64::MAX));
        assert_eq!(old::pack_range(range), word);
    }
}
