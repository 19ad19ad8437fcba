//! Field words: "Field words (`new`, `patch_declared_instance_field_word_indices`)".

use super::sheets::{AbiRecord, AbiSheet, ClassSheet, Field};
use super::why::{Index, Refused, Why};
use super::{Because, refuse};

/// "Descriptors J and D take 2 words, all others 1."
pub fn width(descriptor: &[u8]) -> u64 {
    if descriptor == b"J" || descriptor == b"D" { 2 } else { 1 }
}

/// What a built class's fields come to.
pub struct BuiltFields<'a> {
    /// The new word index of each declared field.
    pub indices: Vec<u32>,
    /// "ABI fields that no declared instance field matches are added after the declared ones"
    pub added: Vec<AbiRecord<'a>>,
    /// "Instance words are the ABI's if given, else that word."
    pub instance_words: u64,
    /// The runtime words of the chain with this class.
    pub runtime_words: u64,
    /// "the sum of the static field widths": where the static indices have counted to.
    pub static_words: u64,
}

/// The fields of a built class, numbered "in this order: its fixed ABI index; if the ABI
/// class gives instance words, the negative index that wraps below zero, minus (runtime
/// words + 1), then runtime words grow; else the running word".
pub fn built_fields<'a>(sheet: &ClassSheet, abi: &AbiSheet<'a>, class: u32) -> BuiltFields<'a> {
    let parent = sheet.class(class).parent;
    let abi_class = abi.class_named(sheet.name(class));
    let abi_words = abi_class.and_then(|class| class.instance_words());
    let abi_fields: Vec<AbiRecord> = abi_class.into_iter().flat_map(|class| abi.fields_of(class)).collect();

    // "the running word: the parent's instance words (0 without one), raised to each end so
    // far of a nonnegative index"
    let mut running = if parent == 0 { 0 } else { u64::from(sheet.class(parent).instance_words) };
    let mut runtime = runtime_words(sheet, parent);
    let mut static_words = 0;
    let mut indices = Vec::new();
    for field in sheet.fields_of(class) {
        let width = width(field.descriptor);
        let fixed = abi_fields.iter().find(|fixed| fixed.name == field.name && fixed.descriptor == field.descriptor);
        indices.push(if field.is_static() {
            // "Static fields (0x0008) of a built class count from 0."
            static_words += width;
            (static_words - width) as u32
        } else if let Some(fixed) = fixed {
            running = running.max(u64::from(fixed.index) + width);
            fixed.index
        } else if abi_words.is_some() {
            runtime += width;
            0u32.wrapping_sub((runtime - width) as u32 + 1)
        } else {
            running += width;
            (running - width) as u32
        });
    }

    let matched = |fixed: &AbiRecord| {
        sheet.fields_of(class).any(|field| !field.is_static() && field.name == fixed.name && field.descriptor == fixed.descriptor)
    };
    let added: Vec<AbiRecord> = abi_fields.into_iter().filter(|fixed| !matched(fixed)).collect();
    for fixed in &added {
        // "... and raise the running word."
        running = running.max(u64::from(fixed.index) + width(fixed.descriptor));
    }
    BuiltFields { indices, added, instance_words: abi_words.map_or(running, u64::from), runtime_words: runtime, static_words }
}

/// "The runtime count starts as the largest, over the parent chain's instance fields with
/// negative index, of the index's magnitude minus 1 plus the field's width (0 if there are
/// none)." The chain is that of `class`; 0 has none.
pub fn runtime_words(sheet: &ClassSheet, class: u32) -> u64 {
    sheet
        .chain(class)
        .into_iter()
        .flat_map(|class| sheet.fields_of(class))
        .filter(|field| !field.is_static() && (field.index as i32) < 0)
        .map(|field| u64::from((field.index as i32).unsigned_abs()) - 1 + width(field.descriptor))
        .max()
        .unwrap_or(0)
}

/// "Generated: base = total minus own words. All absolute: nothing written. All relative:
/// base added." Answers the new index of each declared field if any is written. Rows 8 and 9.
pub fn generated_fields(sheet: &ClassSheet, class: u32) -> Result<Option<Vec<u32>>, Refused> {
    let total = u64::from(sheet.class(class).instance_words);
    let instance_fields = || sheet.fields_of(class).filter(|field| !field.is_static());
    let own: u64 = instance_fields().map(|field| width(field.descriptor)).sum();
    refuse(8, own > total).because(|| Why::OwnWords { own, total })?;
    let base = total - own;

    // The first field, if any, whose index is not the relative one, and not the absolute one.
    let (mut not_absolute, mut not_relative) = (None, None);
    let mut relative = 0;
    for field in instance_fields() {
        not_absolute = not_absolute.or_else(|| otherwise(&field, base + relative));
        not_relative = not_relative.or_else(|| otherwise(&field, relative));
        relative += width(field.descriptor);
    }
    let (all_absolute, all_relative) = (not_absolute.is_none(), not_relative.is_none());
    if all_absolute {
        return Ok(None);
    }
    if let (Some(relative), Some(absolute)) = (not_relative, not_absolute) {
        refuse(9, !all_relative).because(|| Why::Indices { relative, absolute })?;
    }
    let moved = sheet.fields_of(class).map(|field| if field.is_static() { field.index } else { base as u32 + field.index });
    Ok(Some(moved.collect()))
}

/// The field, if its index is not the expected one.
fn otherwise(field: &Field, expected: u64) -> Option<Box<Index>> {
    (u64::from(field.index) != expected).then(|| Box::new(Index { field: field.into(), found: field.index, expected }))
}
