//! Images of boards in the old layout as files have them, and what loomconvert must write for each.

mod faulty;
mod right;

use crate::handwritten::convert::convert;
use crate::handwritten::names::name_of;
use crate::handwritten::old::head_of;
use crate::interface::{OK, SHAPE};
use crate::repository::write;
use crate::sizes::MOST_OF_THE_REPLAY;
use std::path::Path;

pub struct Image {
    pub name: String,
    pub bytes: Vec<u8>,
}

impl Image {
    fn of_board(name: impl Into<String>, board: &[u64]) -> Self {
        Image {
            name: name.into(),
            bytes: bytes_of(board),
        }
    }
}

/// Most significant byte first.
fn bytes_of(words: &[u64]) -> Vec<u8> {
    words.iter().flat_map(|word| word.to_be_bytes()).collect()
}

/// The words of a file of whole words.
fn words_of(bytes: &[u8]) -> Option<Vec<u64>> {
    let (words, rest) = bytes.as_chunks();
    rest.is_empty()
        .then(|| words.iter().map(|&word| u64::from_be_bytes(word)).collect())
}

/// What is written for an image: the board in the new layout, or the name of what refuses it and a line feed.
fn output(image: &[u8]) -> Vec<u8> {
    match converted(image) {
        Ok(board) => bytes_of(&board),
        Err(number) => format!("{}\n", name_of(number)).into_bytes(),
    }
}

fn converted(image: &[u8]) -> Result<Vec<u64>, u64> {
    let old_board = words_of(image).ok_or(SHAPE)?;
    let (_, shape) = head_of(&old_board).ok_or(SHAPE)?;
    if shape.lines > MOST_OF_THE_REPLAY.lines || shape.entries > MOST_OF_THE_REPLAY.entries {
        return Err(SHAPE);
    }
    let mut board = vec![u64::MAX; old_board.len()];
    match convert(&old_board, &mut board).number {
        OK => Ok(board),
        number => Err(number),
    }
}

/// Writes into a folder every image and what must be written for it. Prints the names, which both files have with an extension of
/// their own.
pub fn write_images(folder: &str) -> Result<(), String> {
    let folder = Path::new(folder);
    for Image { name, bytes } in right::images().into_iter().chain(faulty::images()) {
        write(&folder.join(format!("{name}.image")), &bytes)?;
        write(&folder.join(format!("{name}.expected")), &output(&bytes))?;
        println!("{name}");
    }
    Ok(())
}

#[cfg(test)]
mod tests {
    use super::*;

    /// One line and one entry: P = 1, the entry 0, 2 with data 9 for line 0, which is 7.
    const OLD: &[u8; 40] = b"\
        \x00\x00\x01\x00\x00\x00\x00\x01\
        \x00\x00\x00\x00\x00\x10\x00\x01\
        \x00\x00\x00\x00\x00\x00\x00\x02\
        \x00\x00\x00\x00\x00\x00\x00\x09\
        \x00\x00\x00\x00\x00\x00\x00\x07";

    #[test]
    fn an_image_worked_by_hand() {
        let new = b"\
            \x00\x00\x00\x00\x01\x00\x00\x00\
            \x00\x00\x01\x00\x00\x10\x00\x01\
            \x00\x00\x00\x00\x00\x00\x00\x00\
            \x00\x00\x00\x00\x00\x00\x00\x00\
            \x00\x00\x00\x00\x00\x00\x00\x09";
        assert_eq!(output(OLD), new);
        assert_eq!(output(new), b"shape\n");
    }

    #[test]
    fn anything_else_is_shape() {
        for bytes in 0..OLD.len() {
            assert_eq!(output(&OLD[..bytes]), b"shape\n", "{bytes} bytes");
        }
        assert_eq!(output(&[OLD, &b"\n"[..]].concat()), b"shape\n");
        assert_eq!(output(&[&OLD[..], &[0; 8]].concat()), b"shape\n");
    }

    #[test]
    fn an_improper_entry_is_entry() {
        // ValidFrom 2, address 1.
        for (place, byte) in [(20, 2), (17, 1)] {
            let mut image = *OLD;
            image[place] = byte;
            assert_eq!(output(&image), b"entry\n", "byte {place}");
        }
    }

    #[test]
    fn sizes_up_to_the_replays() {
        for (lines, entries, is_taken) in [
            (2_048, 1_024, true),
            (2_049, 1_024, false),
            (2_048, 1_025, false),
            (65_536, 1, false),
            (1, 4_095, false),
        ] {
            let mut board = vec![0; 2 + 2 * entries as usize + lines as usize];
            board[1] = lines << 20 | entries;
            let expected = if is_taken { 8 * 4_098 } else { "shape\n".len() };
            assert_eq!(output(&bytes_of(&board)).len(), expected, "{lines}, {entries}");
        }
    }

    #[test]
    fn every_output_occurs_and_no_name_twice() {
        let images: Vec<Image> = right::images().into_iter().chain(faulty::images()).collect();
        let mut names: Vec<&str> = images.iter().map(|image| image.name.as_str()).collect();
        let count = names.len();
        names.sort_unstable();
        names.dedup();
        assert_eq!(names.len(), count);
        for image in right::images() {
            assert_eq!(output(&image.bytes).len(), image.bytes.len(), "{}", image.name);
        }
        for image in faulty::images() {
            let expected = image.name.split('-').next();
            let output = String::from_utf8(output(&image.bytes)).unwrap();
            assert_eq!(output.strip_suffix('\n'), expected, "{}", image.name);
        }
    }
}
