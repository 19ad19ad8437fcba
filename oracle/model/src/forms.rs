//! Class sheets of 17 words a record made ones of 18, and back, from blocks to blocks.

use super::fields::width;
use super::reading::{blocks, row_3, unlinked};
use super::refuse;
use super::rules::{class_descriptors_hold, class_records_keep_the_rules};
use super::sheets::{CLASS_WORDS, ClassSheet, GENERATED, class_content, content_by, record, text_of_class_words};
use super::why::Refused;
use super::writing::put_blocks;

/// The words of a class record "made before the eighteenth word".
const OLD_CLASS_WORDS: usize = 17;

/// "Add a converter to the new record": answers the blocks.
pub fn widen_class_sheet(bytes: &[u8], out: &mut [u8]) -> Result<u32, Refused> {
    // "Turned away: rows 1 to 5 of the input's form"; no words are lent
    let read = blocks(bytes, 92, usize::MAX)?;
    let end = content_by(OLD_CLASS_WORDS, &read);
    row_3(&read, end, |content| content - read[5].div_ceil(4) as usize, read[5])?;
    let mut words = with_static_words(&read[..end.expect("row 3 holds")]);
    let text = text_of_class_words(&words);
    let sheet = ClassSheet::unnumbered(&words, &text);
    unlinked(&sheet)?;
    rows_4_and_5(&sheet)?;
    // "Going forward, a generated class gets the sum of its static field widths."
    let sums: Vec<(u32, u32)> = generated(&sheet).map(|class| (class, static_sum(&sheet, class))).collect();
    for (class, sum) in sums {
        words[ClassSheet::class_at(class) + record::STATIC_WORDS] = sum;
    }
    put_blocks(&words, out)
}

/// "and one back": answers the blocks.
pub fn narrow_class_sheet(bytes: &[u8], out: &mut [u8]) -> Result<u32, Refused> {
    let read = blocks(bytes, 92, usize::MAX)?;
    row_3(&read, class_content(&read), |content| content - read[5].div_ceil(4) as usize, read[5])?;
    let text = text_of_class_words(&read);
    let sheet = ClassSheet::unnumbered(&read, &text);
    unlinked(&sheet)?;
    rows_4_and_5(&sheet)?;
    // "23, after them, if going back drops a generated class's word that is not that sum"
    refuse(23, generated(&sheet).any(|class| sheet.class(class).static_words != static_sum(&sheet, class)))?;
    let (records, rest) = read[6..class_content(&read).expect("row 3 holds")].split_at(CLASS_WORDS * read[0] as usize);
    let records = records.chunks_exact(CLASS_WORDS).flat_map(|record| &record[..OLD_CLASS_WORDS]);
    let old: Vec<u32> = read[..6].iter().chain(records).chain(rest).copied().collect();
    put_blocks(&old, out)
}

/// The content of the old form in the new one, every class with static words 0.
fn with_static_words(old: &[u32]) -> Vec<u32> {
    let (counts, rest) = old.split_at(6);
    let (records, rest) = rest.split_at(OLD_CLASS_WORDS * counts[0] as usize);
    let records = records.chunks_exact(OLD_CLASS_WORDS).flat_map(|record| record.iter().chain([&0]));
    counts.iter().chain(records).chain(rest).copied().collect()
}

fn rows_4_and_5(sheet: &ClassSheet) -> Result<(), Refused> {
    refuse(4, !class_records_keep_the_rules(sheet))?;
    refuse(5, !class_descriptors_hold(sheet))
}

/// The generated classes of a sheet.
fn generated(sheet: &ClassSheet) -> impl Iterator<Item = u32> {
    (1..=sheet.class_count()).filter(|&class| sheet.class(class).kind == GENERATED)
}

/// "the sum of its static field widths"
fn static_sum(sheet: &ClassSheet, class: u32) -> u32 {
    sheet.fields_of(class).filter(|field| field.is_static()).map(|field| width(field.descriptor) as u32).sum()
}
