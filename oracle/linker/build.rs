//! Checks that the original files are byte for byte those whose digests are stored.

use std::fs;
use std::path::Path;

#[path = "build/sha256.rs"]
mod sha256;

const ORIGINAL: &str = "../original";

fn main() {
    println!("cargo::rerun-if-changed={ORIGINAL}");
    let sums = fs::read_to_string(Path::new(ORIGINAL).join("SHA256SUMS")).expect("original/SHA256SUMS is there");
    for line in sums.lines() {
        let (stored, name) = line.split_once("  ").expect("a line is a digest, two blanks, a file name");
        let bytes = fs::read(Path::new(ORIGINAL).join(name)).unwrap_or_else(|error| panic!("{name}: {error}"));
        let found = sha256::hex_digest(&bytes);
        assert_eq!(found, stored, "{name} is not the original file");
    }
}
