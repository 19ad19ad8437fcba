//! The original linker files, unchanged, under the module paths that they expect.
//! Everything declared in this crate itself is a stand-in for the rest of the emulator.

#![allow(dead_code, clippy::arc_with_non_send_sync)]

extern crate alloc;

pub mod runtime;
