//! Links the archive that `tools/library` makes, or the file that `LGT_LINKER_ARCHIVE` names, whatever it is called.
//! Where there is none it warns: documentation, `cargo check` and clippy do without; only what is linked fails.

use std::path::{Path, PathBuf};
use std::{env, fs};

fn main() {
    println!("cargo:rerun-if-env-changed=LGT_LINKER_ARCHIVE");
    let target = ["CARGO_CFG_TARGET_ARCH", "CARGO_CFG_TARGET_OS"].map(|name| env::var(name).unwrap_or_default());
    if target != ["x86_64", "linux"] {
        eprintln!("lgt-linker: the archive is compiled for x86-64 Linux, and this target is {} {}", target[0], target[1]);
        eprintln!("lgt-linker: there is no archive for it; build for x86_64-unknown-linux-gnu or x86_64-unknown-linux-musl");
        std::process::exit(1);
    }
    let archive = match env::var_os("LGT_LINKER_ARCHIVE") {
        Some(path) => PathBuf::from(path),
        None => Path::new(env!("CARGO_MANIFEST_DIR")).join("../../target/staticlib/liblgt_linker.a"),
    };
    println!("cargo:rerun-if-changed={}", archive.display());
    let out = PathBuf::from(env::var_os("OUT_DIR").expect("cargo sets it"));
    let copy = out.join("liblgt_linker.a");
    if let Err(error) = fs::copy(&archive, &copy) {
        // No older copy is linked in its place.
        let _ = fs::remove_file(&copy);
        println!("cargo:warning=no archive at {}: {error}", archive.display());
        println!("cargo:warning=`tools/library` at the top of the repository proves and makes it (it takes rt), or name one:");
        println!("cargo:warning=LGT_LINKER_ARCHIVE=/path/to/liblgt_linker.a; without it nothing can be linked");
    }
    println!("cargo:rustc-link-search=native={}", out.display());
    println!("cargo:rustc-link-lib=static=lgt_linker");
}
