//! The repository's files.

use std::collections::BTreeSet;
use std::fs;
use std::path::{Path, PathBuf};

/// The repository's root folder is above this package's.
const ROOT: &str = concat!(env!("CARGO_MANIFEST_DIR"), "/..");

pub fn path_of(name: &str) -> PathBuf {
    Path::new(ROOT).join(name)
}

/// The names of a folder's files with that extension, without it.
pub fn names_with(folder: &str, extension: &str) -> Result<BTreeSet<String>, String> {
    let told = |error: std::io::Error| format!("{folder}: {error}");
    let mut names = BTreeSet::new();
    for file in fs::read_dir(path_of(folder)).map_err(told)? {
        let path = file.map_err(told)?.path();
        if path.extension().is_some_and(|its| its == extension) {
            let name = path.file_stem().unwrap_or_default();
            names.insert(name.to_string_lossy().into_owned());
        }
    }
    Ok(names)
}

pub fn read(file: &Path) -> Result<Vec<u8>, String> {
    fs::read(file).map_err(|error| format!("{}: {error}", file.display()))
}

pub fn write(file: &Path, bytes: &[u8]) -> Result<(), String> {
    fs::write(file, bytes).map_err(|error| format!("{}: {error}", file.display()))
}

/// The lines of a text, with their line feeds.
fn lines(text: &[u8]) -> impl Iterator<Item = &[u8]> {
    text.split_inclusive(|&byte| byte == b'\n')
}

/// The first line in which a text differs from what it should be.
pub fn first_difference(text: &[u8], expected: &[u8]) -> String {
    let same = lines(text).zip(lines(expected)).take_while(|(a, b)| a == b).count();
    let line_of = |text| match lines(text).nth(same) {
        Some(line) => format!("`{}`", line.escape_ascii()),
        None => "nothing".to_string(),
    };
    format!(
        "line {} is expected to be {}, and is {}",
        same + 1,
        line_of(expected),
        line_of(text)
    )
}
