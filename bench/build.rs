//! Links the static library that `firmware/build x86_64` writes.

use std::path::Path;

const LIBRARY_FOLDER: &str = "../target/firmware/x86_64";
const LIBRARY_FILE: &str = "libpicl.a";

fn main() {
    let folder = Path::new(env!("CARGO_MANIFEST_DIR")).join(LIBRARY_FOLDER);
    let file = folder.join(LIBRARY_FILE);
    println!("cargo::rerun-if-changed={}", file.display());
    if !file.is_file() {
        println!(
            "cargo::error={} is not there. `firmware/build x86_64` writes it; bench/run does that first.",
            file.display()
        );
        return;
    }
    println!("cargo::rustc-link-search=native={}", folder.display());
    println!("cargo::rustc-link-lib=static=picl");
}
