//! A plain model of the specification on the flat word forms, written from the paper and the
//! chosen readings of its open points, not from the Rust. Rows are refused in the order of
//! the paper's table; the comments quote the paper. A refusal says what it is about (`why`).

mod ask;
pub mod class_file;
mod descriptors;
mod fields;
mod forms;
mod link;
mod missing;
mod names;
mod numbers;
mod order;
mod packages;
mod reading;
mod references;
mod rules;
mod sheets;
pub mod side;
mod tables;
pub mod why;
mod writing;

use crate::class_file::FileRefused;
use crate::side::{Answer, FileAnswer, Linker, Sheets, SheetsMut};
use crate::why::{Refused, Why};

pub use ask::ask;
pub use class_file::{class_file_head, read_class_file};
pub use descriptors::argument_words;
pub use forms::{narrow_class_sheet, widen_class_sheet};
pub use link::{declares, link, link_before, link_clashes, moved};
pub use missing::missing_slots;
pub use names::compare_names;
pub use numbers::number_signatures;
pub use order::{read_unordered_sheet, renumber_classes};
pub use reading::{read_abi_sheet, read_class_sheet};
pub use references::{reference_count, reference_words};
pub use writing::write_class_sheet;

/// The parts that other modules look at to tell which branches a case reaches.
pub mod parts {
    pub use super::fields::{BuiltFields, built_fields, generated_fields, runtime_words, width};
    pub use super::link::table_of;
    pub use super::missing::is_counted;
    pub use super::packages::{introducing, overridden, package};
    pub use super::sheets::{AbiClass, AbiRecord, AbiSheet, ClassSheet, Member, Method, text_of_abi_words, text_of_class_words};
    pub use super::tables::{EMPTY, Entry, eligible, entry_of, fixed_index, minimum_size, native_view, reading, relaid};
}

/// The model as a side of the comparison.
#[derive(Default)]
pub struct Model;

impl Linker for Model {
    fn read_class_sheet(&mut self, bytes: &[u8], words: &mut [u32]) -> Answer {
        answer(read_class_sheet(bytes, words).map(|words| (words, 0)))
    }

    fn read_abi_sheet(&mut self, bytes: &[u8], words: &mut [u32]) -> Answer {
        answer(read_abi_sheet(bytes, words).map(|words| (words, 0)))
    }

    fn write_class_sheet(&mut self, set: &[u32], bytes: &mut [u8]) -> Answer {
        answer(write_class_sheet(set, bytes).map(|blocks| (blocks, 0)))
    }

    fn widen_class_sheet(&mut self, bytes: &[u8], out: &mut [u8]) -> Answer {
        answer(widen_class_sheet(bytes, out).map(|blocks| (blocks, 0)))
    }

    fn narrow_class_sheet(&mut self, bytes: &[u8], out: &mut [u8]) -> Answer {
        answer(narrow_class_sheet(bytes, out).map(|blocks| (blocks, 0)))
    }

    fn read_unordered_sheet(&mut self, bytes: &[u8], words: &mut [u32]) -> Answer {
        answer(read_unordered_sheet(bytes, words).map(|words| (words, 0)))
    }

    fn renumber_classes(&mut self, set: &mut [u32], order: &mut [u32]) -> Answer {
        answer(renumber_classes(set, order).map(|classes| (classes, 0)))
    }

    fn number_signatures(&mut self, set: &[u32], abi: &[u32], numbers: &mut [u32]) -> Answer {
        answer(number_signatures(set, abi, numbers).map(|()| (0, 0)))
    }

    fn link(&mut self, sheets: SheetsMut, class: u32, area: &mut [u32], stubs: &[u32], missing: &mut [u32]) -> Answer {
        answer(link(sheets, class, area, stubs, missing))
    }

    fn missing_slots(&mut self, set: &[u32], abi: &[u32], missing: &[u32], class: u32) -> Answer {
        answer(missing_slots(set, abi, missing, class).map(|count| (count, 0)))
    }

    fn ask(&mut self, sheets: Sheets, class: u32, interface: u32, area: &mut [u32], stubs: &[u32]) -> Answer {
        answer(ask(sheets, class, interface, area, stubs))
    }

    fn argument_words(&mut self, descriptor: &[u8], flags: u32) -> Answer {
        answer(argument_words(descriptor, flags).map(|words| (words, 0)).map_err(Refused::from))
    }

    fn reference_words(&mut self, bitmap: &[u8], words: u32, list: &mut [u32]) -> Answer {
        answer(reference_words(bitmap, words, list).map(|count| (count, 0)))
    }

    fn reference_count(&mut self, bitmap: &[u8], words: u32) -> Answer {
        answer(reference_count(bitmap, words).map(|count| (count, 0)))
    }

    fn compare_names(&mut self, a: &[u8], b: &[u8]) -> Answer {
        answer(Ok(compare_names(a, b)))
    }

    fn read_class_file(&mut self, bytes: &[u8], targets: &[u32], fields: &mut [u32], methods: &mut [u32], text: &mut [u32]) -> FileAnswer {
        file_answer(read_class_file(bytes, targets, fields, methods, text))
    }

    fn class_file_head(&mut self, bytes: &[u8]) -> FileAnswer {
        file_answer(class_file_head(bytes))
    }
}

fn file_answer(result: Result<[u32; 6], FileRefused>) -> FileAnswer {
    result.map_or_else(|refused| FileAnswer::refused(refused.row), FileAnswer::accepted)
}

/// "An accepted call gives 0 and its result; a refused one gives its number, zero in every
/// other answer word"
fn answer(result: Result<(u32, u32), Refused>) -> Answer {
    match result {
        Ok((first, second)) => Answer::accepted(first, second),
        Err(refused) => Answer::refused(refused.row),
    }
}

/// Refuses by `row` if `condition` holds.
fn refuse(row: u32, condition: bool) -> Result<(), Refused> {
    if condition { Err(Refused::from(row)) } else { Ok(()) }
}

/// Says of a refusal what it is about.
trait Because {
    fn because(self, why: impl FnOnce() -> Why) -> Self;
}

impl<T> Because for Result<T, Refused> {
    fn because(self, why: impl FnOnce() -> Why) -> Self {
        self.map_err(|refused| Refused { why: why(), ..refused })
    }
}
