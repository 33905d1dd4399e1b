//! The ten calls, the export, its reader and the converter in ordinary Rust, written from the paper alone: the yardstick for what the
//! library answers and for how fast it does so.

mod checks;
pub mod convert;
pub mod hex;
pub mod hex_in;
pub mod layout;
mod machine;
pub mod names;
pub mod old;
pub mod record;
mod registers;
mod sets;
mod side;
#[cfg(test)]
mod tests;

use crate::interface::{Answer, CUT, OK};
use checks::Refusal;
use layout::{
    board_parts_mut, buffer_and_filter_of, Control, Range, Shape, SlotWord, LAST_EPOCH, MOST_AHEAD, MOST_ENTRIES,
    SHAPE_PLACE,
};
use machine::{Machine, Mains, Stop, Visited};
pub use registers::Registers;
pub use side::HandWritten;

#[inline(never)]
pub fn format(board: &mut [u64], lines: u64, entries: u64) -> Answer {
    let shape = Shape { lines, entries };
    if !shape.is_in_range(MOST_ENTRIES) || board.len() != shape.board_words() {
        return refused(Refusal::Shape, 0);
    }
    board.fill(0);
    board[SHAPE_PLACE] = shape.pack();
    accepted(0, 0)
}

#[inline(never)]
pub fn power_up(board: &mut [u64], work: &mut [u64], registers: &mut Registers, allowance: u32) -> Answer {
    *registers = Registers::default();
    let mut mains = Mains::new(allowance);
    match recover(board, work, &mut mains) {
        Ok(persisted) => {
            work.fill(0);
            registers.epoch = persisted + 1;
            accepted(0, mains.stores())
        }
        Err(stop) => stopped(stop, &mains, work, registers),
    }
}

/// Brings the lines back as of the persisted epoch, which it gives, and empties the log.
#[inline]
fn recover(board: &mut [u64], work: &[u64], mains: &mut Mains) -> Result<u64, Stop> {
    let (control, shape) = checks::head(board)?;
    checks::slot_count(work.len())?;
    let (control_word, log, lines) = board_parts_mut(board, shape).ok_or(Refusal::Shape)?;
    let ranges = checks::oldest_to_newest(log, control).map(|&[packed, _]| Range::unpack(packed));
    if let Some(place) = checks::first_improper(ranges, control.persisted, shape.lines, MOST_AHEAD) {
        return Err(Stop::Entry(place));
    }
    checks::oldest_to_newest(log, control)
        .rev()
        .try_for_each(|&[packed, data]| {
            let range = Range::unpack(packed);
            if range.covers(control.persisted) {
                mains.store(&mut lines[range.address as usize], data)?;
            }
            Ok::<(), Stop>(())
        })?;
    let empty_log = Control {
        start: 0,
        length: 0,
        ..control
    };
    mains.store(control_word, empty_log.pack())?;
    Ok(control.persisted)
}

#[inline(never)]
pub fn load(board: &mut [u64], work: &mut [u64], registers: &mut Registers, address: u64, allowance: u32) -> Answer {
    with_machine(board, work, registers, allowance, |machine| {
        let visited = machine.slot_for(address)?;
        machine.check_buffer()?;
        machine.hold(visited, address)?;
        Ok(machine.slots[visited.place][1])
    })
}

#[inline(never)]
pub fn store(
    board: &mut [u64],
    work: &mut [u64],
    registers: &mut Registers,
    address: u64,
    data: u64,
    allowance: u32,
) -> Answer {
    with_machine(board, work, registers, allowance, |machine| {
        let visited = machine.slot_for(address)?;
        machine.check_buffer()?;
        let epoch = machine.registers.epoch;
        let Visited { place, word, .. } = visited;
        let stored = SlotWord::dirty(address, epoch);
        if word == stored {
            machine.slots[place][1] = data;
            return Ok(0);
        }
        let entries = machine.control.length + machine.registers.buffered as usize;
        if entries == machine.log.len() {
            return Err(Stop::Refused(Refusal::Room));
        }
        machine.hold(visited, address)?;
        let valid_from = if visited.is_held && word.is_dirty() {
            word.tag()
        } else {
            machine.control.persisted
        };
        let old_data = machine.slots[place][1];
        machine.slots[place] = [stored.0, data];
        machine.registers.dirty = visited.dirty_besides + 1;
        let range = Range {
            address,
            valid_till: epoch,
            span: epoch - valid_from,
        };
        machine.record(range, old_data).map(|()| 0)
    })
}

#[inline(never)]
pub fn evict(board: &mut [u64], work: &mut [u64], registers: &mut Registers, address: u64, allowance: u32) -> Answer {
    with_machine(board, work, registers, allowance, |machine| {
        let held = machine.slot_with(address)?;
        machine.check_buffer()?;
        let Some(held) = held else {
            return Ok(0);
        };
        let held = machine.visited(held, true);
        machine.write_out_if_dirty(held)?;
        machine.slots[held.place] = [SlotWord::EMPTY.0, 0];
        Ok(1)
    })
}

/// The allowance does not matter: a commit makes no store.
#[inline(never)]
pub fn commit(board: &[u64], work: &[u64], registers: &mut Registers, _allowance: u32) -> Answer {
    match next_epoch(board, work, registers) {
        Ok(epoch) => {
            registers.epoch = epoch;
            accepted(0, 0)
        }
        Err(refusal) => refused(refusal, 0),
    }
}

#[inline]
fn next_epoch(board: &[u64], work: &[u64], registers: &Registers) -> Result<u64, Refusal> {
    let persisted = persisted_epoch(board, work, registers)?;
    if registers.epoch - persisted == MOST_AHEAD {
        return Err(Refusal::Waiting);
    }
    if registers.epoch == LAST_EPOCH {
        return Err(Refusal::Last);
    }
    Ok(registers.epoch + 1)
}

/// The persisted epoch, once all is tested that commit and begin have in common: they visit no slot.
#[inline(always)]
fn persisted_epoch(board: &[u64], work: &[u64], registers: &Registers) -> Result<u64, Refusal> {
    let (control, shape, slot_count) = checks::opening(board, work, registers)?;
    let (buffer, filter) = buffer_and_filter_of(work, slot_count).ok_or(Refusal::Work)?;
    let buffered = &buffer[..registers.buffered as usize];
    checks::buffer(buffered, filter, shape.lines, registers.epoch)?;
    Ok(control.persisted)
}

/// Begins a pass. Its first slot is visited by the first scan call of it.
#[inline(never)]
pub fn begin(board: &[u64], work: &[u64], registers: &mut Registers, target: u64) -> Answer {
    match check_target(board, work, registers, target) {
        Ok(()) => {
            registers.target = target;
            accepted(0, 0)
        }
        Err(refusal) => refused(refusal, 0),
    }
}

#[inline]
fn check_target(board: &[u64], work: &[u64], registers: &Registers, target: u64) -> Result<(), Refusal> {
    let persisted = persisted_epoch(board, work, registers)?;
    if registers.target == 0 && checks::may_be_persisted(target, persisted, registers.epoch) {
        Ok(())
    } else {
        Err(Refusal::Target)
    }
}

/// One step of a pass. Outside one it begins the pass that persists one epoch.
#[inline(never)]
pub fn scan(board: &mut [u64], work: &mut [u64], registers: &mut Registers, allowance: u32) -> Answer {
    with_machine(board, work, registers, allowance, |machine| {
        let target = match machine.registers.target {
            0 => machine.control.persisted + 1,
            target => target,
        };
        let place = machine.registers.cursor as usize;
        let at_end = place == machine.slots.len();
        let visited = if at_end { None } else { Some(machine.visit(place)?) };
        machine.check_buffer()?;
        // A pass has a target below the running epoch.
        if machine.registers.epoch == target {
            return Err(Stop::Refused(Refusal::None));
        }
        let Some(visited) = visited else {
            persist(machine, target)?;
            return Ok(target);
        };
        let word = visited.word;
        if word.is_dirty() && word.tag() <= target {
            machine.write_out(visited)?;
            machine.slots[place][0] = SlotWord::clean(word.address()).0;
        }
        machine.registers.target = target;
        machine.registers.cursor += 1;
        Ok(0)
    })
}

/// The last step of a pass: makes `target` the persisted epoch and drops the entries that are needed no longer, in one store.
#[inline]
fn persist(machine: &mut Machine, target: u64) -> Result<(), Stop> {
    machine.flush()?;
    let dropped = machine.droppable(target);
    let mut start = machine.control.start + dropped;
    if start >= machine.log.len() {
        start -= machine.log.len();
    }
    let control = Control {
        persisted: target,
        start,
        length: machine.control.length - dropped,
    };
    machine.mains.store(machine.control_word, control.pack())?;
    machine.registers.cursor = 0;
    machine.registers.target = 0;
    Ok(())
}

/// How many slots are dirty, as the registers say.
#[inline(never)]
pub fn tally(board: &[u64], work: &[u64], registers: &Registers) -> Answer {
    match checks::opening(board, work, registers) {
        Ok(_) => accepted(registers.dirty, 0),
        Err(refusal) => refused(refusal, 0),
    }
}

/// The status question: how many bits of the filter are set.
#[inline(never)]
pub fn filter_bits(work: &[u64]) -> Answer {
    match count_filter_bits(work) {
        Ok(bits) => accepted(bits, 0),
        Err(refusal) => refused(refusal, 0),
    }
}

#[inline]
fn count_filter_bits(work: &[u64]) -> Result<u64, Refusal> {
    let slots = checks::slot_count(work.len())?;
    let (_, filter) = buffer_and_filter_of(work, slots).ok_or(Refusal::Work)?;
    Ok(filter.iter().map(|word| u64::from(word.count_ones())).sum())
}

/// Makes a call on memories and registers once they are tested.
#[inline(always)]
fn with_machine(
    board: &mut [u64],
    work: &mut [u64],
    registers: &mut Registers,
    allowance: u32,
    call: impl FnOnce(&mut Machine) -> Result<u64, Stop>,
) -> Answer {
    let mut mains = Mains::new(allowance);
    let outcome = Machine::open(board, work, registers, &mut mains)
        .map_err(Stop::Refused)
        .and_then(|mut machine| call(&mut machine));
    match outcome {
        Ok(value) => accepted(value, mains.stores()),
        Err(stop) => stopped(stop, &mains, work, registers),
    }
}

#[inline]
fn accepted(value: u64, stores: u64) -> Answer {
    Answer {
        number: OK,
        value,
        stores,
    }
}

#[inline]
fn refused(refusal: Refusal, value: u64) -> Answer {
    Answer {
        number: refusal as u64,
        value,
        stores: 0,
    }
}

/// A refusal leaves all as it was; a cut leaves what the board has got and nothing else.
#[cold]
fn stopped(stop: Stop, mains: &Mains, work: &mut [u64], registers: &mut Registers) -> Answer {
    match stop {
        Stop::Refused(refusal) => refused(refusal, 0),
        Stop::Entry(place) => refused(Refusal::Entry, place as u64),
        Stop::Cut => {
            work.fill(0);
            *registers = Registers::default();
            Answer {
                number: CUT,
                value: 0,
                stores: mains.stores(),
            }
        }
    }
}
