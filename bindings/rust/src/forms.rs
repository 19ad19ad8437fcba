//! Class sheets of one form made ones of the other, in memory of their own.

use alloc::vec;
use alloc::vec::Vec;

use crate::calls::{CLASS_BYTES, narrow_class_sheet, widen_class_sheet};
use crate::layout::BLOCK_BYTES;
use crate::refusal::Refusal;

/// The blocks of a class sheet of the old form in the new one, by [`widen_class_sheet`].
///
/// # Errors
///
/// Refusals 1 to 5.
///
/// ```
/// # use lgt_linker::*;
/// let old = std::fs::read("../../examples/card/old.bin").unwrap();
/// let new = widen(&old)?;
/// assert_eq!(ClassSet::read(&new)?.class(1).unwrap().name(), "Card");
/// assert_eq!(narrow(&new)?, old);
/// # Ok::<(), Refusal>(())
/// ```
pub fn widen(bytes: &[u8]) -> Result<Vec<u8>, Refusal> {
    converted(bytes, widen_class_sheet)
}

/// The blocks of a class sheet of the new form in the old one, by [`narrow_class_sheet`].
///
/// # Errors
///
/// Refusals 1 to 5 and 23.
///
/// ```
/// # use lgt_linker::*;
/// let set = SetBuilder::new().class(ClassBuilder::new("A").kind(Kind::Generated).static_words(1).field_with("x", "J", layout::flags::STATIC, 0));
/// assert_eq!(narrow(&set.sheet().unwrap()), Err(Refusal::LostStatics)); // its static fields take 2 words
/// ```
pub fn narrow(bytes: &[u8]) -> Result<Vec<u8>, Refusal> {
    converted(bytes, narrow_class_sheet)
}

/// What a conversion makes, in as much memory as every sheet takes.
fn converted(bytes: &[u8], convert: fn(&[u8], &mut [u8]) -> Result<u32, Refusal>) -> Result<Vec<u8>, Refusal> {
    let mut out = vec![0; CLASS_BYTES];
    let blocks = convert(bytes, &mut out)?;
    out.truncate(blocks as usize * BLOCK_BYTES);
    Ok(out)
}
