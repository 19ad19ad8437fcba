//! Links the compiled Rattle library: liblgt_linker.a in the folder that LGT_LINKER_FOLDER names,
//! else in target/staticlib, where `tools/library` puts it.

use std::env;
use std::path::{Path, PathBuf};

fn main() {
    let here = env::var("CARGO_MANIFEST_DIR").expect("cargo sets it");
    let folder = env::var("LGT_LINKER_FOLDER").map_or_else(|_| Path::new(&here).join("../../target/staticlib"), PathBuf::from);
    let archive = folder.join("liblgt_linker.a");
    println!("cargo:rerun-if-env-changed=LGT_LINKER_FOLDER");
    println!("cargo:rerun-if-changed={}", archive.display());
    if !archive.is_file() {
        eprintln!("{} is missing: run `tools/library` at the repository's top first", archive.display());
        std::process::exit(1);
    }
    println!("cargo:rustc-link-search=native={}", folder.display());
    println!("cargo:rustc-link-lib=static=lgt_linker");
}
