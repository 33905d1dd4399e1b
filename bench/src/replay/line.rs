//! What a line of a script says.

use crate::call::Call;
use crate::sizes::Sizes;

#[derive(Clone, Copy, Debug, PartialEq, Eq)]
pub enum Command {
    /// `n N L S`: format and power-up.
    Start(Sizes),
    /// `k count`: the allowance of the next call.
    Allow(u32),
    Make(Call),
}

/// The lines of a script, without their line feeds. What stands behind the last line feed is a line if it has a byte.
pub fn lines_of(script: &[u8]) -> impl Iterator<Item = &[u8]> {
    script
        .split_inclusive(|&byte| byte == b'\n')
        .map(|line| line.strip_suffix(b"\n").unwrap_or(line))
}

/// Reads a line; a call that it makes has the allowance given. None where the line is no command.
pub fn read(line: &[u8], allowance: u32) -> Option<Command> {
    let words: Vec<&[u8]> = line.split(|&byte| byte == b' ').collect();
    let (letter, numbers) = words.split_first()?;
    let numbers: Vec<u64> = numbers.iter().map(|word| number(word)).collect::<Option<_>>()?;
    let call = match (*letter, &numbers[..]) {
        (b"n", &[lines, entries, slots]) => return start(Sizes { lines, entries, slots }),
        (b"k", &[count]) => return u32::try_from(count).ok().map(Command::Allow),
        (b"s", &[address, data]) => Call::Store {
            address,
            data,
            allowance,
        },
        (b"l", &[address]) => Call::Load { address, allowance },
        (b"e", &[address]) => Call::Evict { address, allowance },
        (b"c", []) => Call::Commit { allowance },
        (b"a", []) => Call::Scan { allowance },
        (b"p", []) => Call::PowerUp { allowance },
        _ => return None,
    };
    Some(Command::Make(call))
}

/// The line that makes a call, where there is one for it.
pub fn line_of(call: Call) -> Option<String> {
    match call {
        Call::Store { address, data, .. } => Some(format!("s {address} {data}")),
        Call::Load { address, .. } => Some(format!("l {address}")),
        Call::Evict { address, .. } => Some(format!("e {address}")),
        Call::Commit { .. } => Some("c".to_string()),
        Call::Scan { .. } => Some("a".to_string()),
        Call::PowerUp { .. } => Some("p".to_string()),
        Call::Format { .. } | Call::Begin { .. } | Call::Tally | Call::FilterBits => None,
    }
}

/// One decimal digit or more, of any number, with a value below 2^64.
fn number(word: &[u8]) -> Option<u64> {
    if word.is_empty() {
        return None;
    }
    word.iter().try_fold(0u64, |value, byte| {
        let digit = char::from(*byte).to_digit(10)?;
        value.checked_mul(10)?.checked_add(u64::from(digit))
    })
}

fn start(sizes: Sizes) -> Option<Command> {
    sizes.fit_the_replay().then_some(Command::Start(sizes))
}

#[cfg(test)]
mod tests {
    use super::*;
    use crate::call::NO_CUT;
    use crate::sizes::MOST_OF_THE_REPLAY;

    fn lines(script: &[u8]) -> Vec<&[u8]> {
        lines_of(script).collect()
    }

    #[test]
    fn a_last_line_needs_a_line_feed_or_a_byte() {
        assert_eq!(lines(b""), [b""; 0]);
        assert_eq!(lines(b"\n"), [b""]);
        assert_eq!(lines(b"c\na"), [b"c", b"a"]);
        assert_eq!(lines(b"c\na\n"), [b"c", b"a"]);
    }

    #[test]
    fn a_number_is_bounded_by_its_value_alone() {
        let zeros_and_seven = [vec![b'0'; 1000], vec![b'7']].concat();
        assert_eq!(number(&zeros_and_seven), Some(7));
        assert_eq!(number(&[b'9'; 1000]), None);
        assert_eq!(number(b"18446744073709551615"), Some(u64::MAX));
        assert_eq!(number(b"18446744073709551616"), None);
    }

    #[test]
    fn other_lines_are_no_commands() {
        let others: [&[u8]; 13] = [
            b"",
            b" ",
            b"c ",
            b" c",
            b"s 1  2",
            b"s 1",
            b"s 1 2 3",
            b"l +1",
            b"l 0x1",
            b"l 1\r",
            b"l\t1",
            b"C",
            b"k 4294967296",
        ];
        for line in others {
            assert_eq!(read(line, 0), None, "{}", line.escape_ascii());
        }
    }

    #[test]
    fn sizes_end_at_what_the_replay_has_memories_for() {
        assert_eq!(read(b"n 2048 1024 64", 0), Some(Command::Start(MOST_OF_THE_REPLAY)));
        for line in [&b"n 2049 1 1"[..], b"n 1 1025 1", b"n 1 1 65"] {
            assert_eq!(read(line, 0), None);
        }
    }

    #[test]
    fn the_line_of_a_call_makes_that_call() {
        let calls = [
            Call::store(3, u64::MAX),
            Call::load(3),
            Call::evict(3),
            Call::COMMIT,
            Call::SCAN,
            Call::POWER_UP,
        ];
        for call in calls {
            let line = line_of(call).unwrap();
            assert_eq!(read(line.as_bytes(), NO_CUT), Some(Command::Make(call)), "{line}");
        }
    }
}
