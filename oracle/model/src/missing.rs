//! How many slots are missing: the lent list, "33 words a class, class 1 first", and asking.

use super::rules::{row_3, rows_4_and_5};
use super::sheets::{AbiSheet, ClassSheet, text_of_abi_words, text_of_class_words};
use super::tables::Entry;
use super::why::{Refused, Why};
use super::{Because, refuse};

/// "33 words a class"
const CLASS_WORDS: usize = 33;

/// "class 1 first: the count, then a bit for each slot"
fn words_at(class: u32) -> usize {
    CLASS_WORDS * (class as usize - 1)
}

/// Whether a class's count includes its slot: "a bit for each slot, set if counted, lowest first". A list that is too short has no bit.
pub fn is_counted(missing: &[u32], class: u32, slot: usize) -> bool {
    missing.get(words_at(class) + 1 + slot / 32).is_some_and(|word| word >> (slot % 32) & 1 == 1)
}

/// Row 15: "row 15 also takes a shorter list".
pub fn row_15_of_list(classes: u32, missing: &[u32]) -> Result<(), Refused> {
    let words = CLASS_WORDS * classes as usize;
    refuse(15, missing.len() < words).because(|| Why::FewMissingWords { words, lent: missing.len() })
}

/// "the number of slots that took a stub when written or were copied from parent entries that the parent's count included"
pub fn counted(table: &[Entry]) -> Vec<bool> {
    table.iter().map(|entry| entry.target == 0 || entry.copies_counted).collect()
}

/// "the count, then a bit for each slot, set if counted, lowest first, the rest 0"
pub fn write_counted(missing: &mut [u32], class: u32, counted: &[bool]) {
    let words = &mut missing[words_at(class)..][..CLASS_WORDS];
    words.fill(0);
    for (slot, _) in counted.iter().enumerate().filter(|(_, is_counted)| **is_counted) {
        words[0] += 1;
        words[1 + slot / 32] |= 1 << (slot % 32);
    }
}

/// "Asking reads that one number": rows 3 to 5 as for a link, 6 for no linked class, 15.
pub fn missing_slots(set: &[u32], abi: &[u32], missing: &[u32], class: u32) -> Result<u32, Refused> {
    row_3(set, abi)?;
    let (text, abi_text) = (text_of_class_words(set), text_of_abi_words(abi));
    let sheet = ClassSheet::unnumbered(set, &text);
    rows_4_and_5(&sheet, &AbiSheet::unnumbered(abi, &abi_text))?;
    let no_class = || Why::NoClass { number: class, count: sheet.class_count() };
    refuse(6, class == 0 || class > sheet.class_count()).because(no_class)?;
    refuse(6, !sheet.is_linked(class)).because(|| Why::Uncounted)?;
    row_15_of_list(sheet.class_count(), missing)?;
    Ok(missing[words_at(class)])
}
