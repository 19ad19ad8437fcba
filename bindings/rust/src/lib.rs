//! The proved class linker of Dautzeki, for Rust programs.
//!
//! Two ways to use it. Lend memory yourself: [`read_class_sheet`], [`read_abi_sheet`], [`write_class_sheet`], [`read_unordered_sheet`],
//! [`renumber_classes`], [`widen_class_sheet`], [`narrow_class_sheet`], [`number_signatures`], [`link`], [`missing_slots`],
//! [`interface_dispatch_table`], [`argument_words`], [`compare_names`], [`reference_count`], [`read_class_file`] and
//! [`class_file_head`] take slices and allocate nothing; [`layout`] names
//! their words. Or let [`ClassSet`], [`AbiSheet`], [`Area`] and [`ClassFile`] own it, read from sheets and class files or made of Rust
//! values by [`SetBuilder`] and [`AbiBuilder`]:
//!
//! ```
//! use lgt_linker::{AbiBuilder, Area, ClassBuilder, SetBuilder};
//!
//! # fn main() -> Result<(), Box<dyn std::error::Error>> {
//! let mut set = SetBuilder::new()
//!     .class(ClassBuilder::new("Card").method("open", "()V", 4096).method("close", "()V", 4112))
//!     .class(ClassBuilder::new("VipCard").extends("Card").method("close", "()V", 8192).method("mark", "()V", 8208))
//!     .build()?;
//! let abi = AbiBuilder::new().build()?;
//! let mut area = Area::fresh(4096);
//! let stubs = [0xF000_0000; 1024];
//!
//! let card = set.link(&abi, 1, &mut area, &stubs)?;
//! let vip = set.link(&abi, 2, &mut area, &stubs)?;
//! assert_eq!(area.slots(card), [4096, 4112]);
//! assert_eq!(area.slots(vip), [4096, 8192, 8208]);
//! assert_eq!(set.virtual_method_index(&abi, &area, 2, "close", "()V"), Some(1));
//! assert_eq!(set.missing_slots(&abi, 2)?, 0); // every slot holds a real method
//! # Ok(())
//! # }
//! ```
//!
//! Every call is total: whatever the slices hold, it ends, touches nothing outside them and either is accepted or gives a [`Refusal`]; a
//! refused call leaves all lent memory as it was. What an accepted call answers and leaves is proved equal to a definition
//! (`docs/PROOFS.md`). The accessors, the builders and this crate's own `unsafe` are not proved: tests hold them to the library.
//!
//! # Needs
//!
//! - x86-64 Linux, and the archive `liblgt_linker.a` (see the README); `core` and `alloc`, not `std`.
//! - Stack: a call takes at most 126,360 bytes as measured (`docs/PERFORMANCE.md`); let 128 KiB be free beside the frames of the thread that calls.
//!   Threads of `std` have 2 MiB; one of musl's default size has 128 KiB in all, of which its own frames may take what the measured call leaves.

#![no_std]
#![deny(missing_docs)]

extern crate alloc;

mod build;
mod calls;
mod file;
mod forms;
pub mod layout;
mod numbers;
mod refusal;
mod set;
mod sys;
mod view;

pub use build::{AbiBuilder, AbiClassBuilder, BuildError, ClassBuilder, SetBuilder};
pub use calls::{
    ABI_WORDS, Asked, CLASS_BYTES, CLASS_WORDS, Compared, FileHead, Linked, MISSING_WORDS, NUMBERS, argument_words, class_file_head,
    compare_names, interface_dispatch_table, link, missing_slots, narrow_class_sheet, number_signatures, read_abi_sheet, read_class_file,
    read_class_sheet, read_unordered_sheet, reference_count, reference_words, renumber_classes, widen_class_sheet, write_class_sheet,
};
pub use file::{ClassFile, FileField, FileMethod};
pub use forms::{narrow, widen};
pub use refusal::Refusal;
pub use set::{AbiSheet, Area, ClassSet};
pub use view::{AbiClass, AbiRow, Class, Field, Kind, Method, Slot};

/// The version of this crate and of the library that it was made with.
///
/// ```
/// assert_eq!(lgt_linker::VERSION, std::fs::read_to_string("../../VERSION").unwrap().trim());
/// ```
pub const VERSION: &str = env!("CARGO_PKG_VERSION");

/// The README's program is run with the examples of the documentation.
#[cfg(doctest)]
#[doc = include_str!("../README.md")]
struct Readme;
