//! Rows 3 to 5 as a link or an ask applies them, and the rules that reading shares.

use super::descriptors::{is_field_descriptor, is_method_descriptor};
use super::numbers::row_3_of_list;
use super::refuse;
use super::sheets::{AbiSheet, ClassSheet, PACKAGED, abi_content, class_content, text_of_abi_words, text_of_class_words};
use super::side::Sheets;
use super::why::Refused;

/// "Link and ask take words already read: of rows 1 to 3 only the count limits and the
/// content's fit in the lent slice apply, as 3."
pub fn fits(content: Option<usize>, words: &[u32]) -> bool {
    content.is_some_and(|content| content <= words.len())
}

/// Row 3 of a link or an ask, over both sheets.
pub fn row_3(set: &[u32], abi: &[u32]) -> Result<(), Refused> {
    refuse(3, !fits(class_content(set), set) || !fits(abi_content(abi), abi))
}

/// Rows 4 and 5, "down this table": row by row over both sheets.
pub fn rows_4_and_5(set: &ClassSheet, abi: &AbiSheet) -> Result<(), Refused> {
    refuse(4, !class_records_keep_the_rules(set) || !abi_records_keep_the_rules(abi))?;
    refuse(5, !class_descriptors_hold(set) || !abi_descriptors_hold(abi))
}

/// Rows 3 to 5 of a link or an ask, row 3's clause on the list of numbers among them; then what follows, of the sheets with their texts.
pub fn after_row_5<T>(sheets: Sheets, then: impl FnOnce(&ClassSheet, &AbiSheet) -> Result<T, Refused>) -> Result<T, Refused> {
    row_3(sheets.set, sheets.abi)?;
    row_3_of_list(sheets.numbers)?;
    let (text, abi_text) = (text_of_class_words(sheets.set), text_of_abi_words(sheets.abi));
    let abi = AbiSheet { words: sheets.abi, text: &abi_text, numbers: sheets.numbers };
    let sheet = ClassSheet { words: sheets.set, text: &text, numbers: sheets.numbers };
    rows_4_and_5(&sheet, &abi)?;
    then(&sheet, &abi)
}

/// Row 4 of a class sheet: "every list and text part lies inside its section; ...".
pub fn class_records_keep_the_rules(sheet: &ClassSheet) -> bool {
    let [classes, methods, fields, interface_words, compiler_words, _] = *sheet.words.first_chunk().unwrap();
    let text = sheet.text;
    sheet.classes().zip(1..).all(|(class, number)| {
        is_name(text, class.name_start, class.name_length)
            && class.parent < number
            && class.flags <= 65535
            && class.kind <= PACKAGED
            && inside(class.first_method, class.method_count, methods)
            && inside(class.first_field, class.field_count, fields)
            && inside(class.first_interface, class.interface_count, interface_words)
            && class.link_state <= 65535
            && class.instance_words <= 65535
            && match class.compiler_table {
                0 => class.compiler_slots == 0,
                table => class.compiler_slots <= 1024 && inside(table - 1, class.compiler_slots, compiler_words),
            }
            && (class.place == 0 || class.slots <= 1024)
    }) && sheet.methods().all(|method| {
        is_name(text, method.name_start, method.name_length)
            && is_name(text, method.descriptor_start, method.descriptor_length)
            && method.flags & !0x1DFF == 0
    }) && sheet.fields().all(|field| {
        is_name(text, field.name_start, field.name_length)
            && is_name(text, field.descriptor_start, field.descriptor_length)
            && field.flags <= 65535
    }) && sheet.interface_words().iter().all(|&number| number != 0 && number <= classes)
        && no_two_classes_share_a_name(sheet)
        && apart(sheet.classes().map(|class| (class.first_method, class.method_count)))
        && apart(sheet.classes().map(|class| (class.first_field, class.field_count)))
}

/// Row 4 of an ABI sheet.
pub fn abi_records_keep_the_rules(sheet: &AbiSheet) -> bool {
    let [_, slots, fields, _] = *sheet.words.first_chunk().unwrap();
    let keeps = |at: usize, limit: u32| {
        let [name_start, name_length, descriptor_start, descriptor_length, index] = sheet.words[at..at + 5].try_into().unwrap();
        is_name(sheet.text, name_start, name_length) && is_name(sheet.text, descriptor_start, descriptor_length) && index <= limit
    };
    sheet.classes().all(|class| {
        is_name(sheet.text, class.name_start, class.name_length)
            && class.size_plus_1 <= 1024 + 1
            && class.instance_words_plus_1 <= 4096 + 1
            && inside(class.first_slot, class.slot_count, slots)
            && inside(class.first_field, class.field_count, fields)
    }) && (0..slots).all(|slot| keeps(sheet.slot_at(slot), 1023))
        && (0..fields).all(|field| keeps(sheet.field_at(field), 4095))
}

/// Row 5 of a class sheet: "a descriptor breaks JVMS 4.3.2 (field) or 4.3.3 (method)". Each method goes by its own flags.
pub fn class_descriptors_hold(sheet: &ClassSheet) -> bool {
    sheet.methods().all(|method| is_method_descriptor(sheet.part(method.descriptor_start, method.descriptor_length), method.flags))
        && sheet.fields().all(|field| is_field_descriptor(sheet.part(field.descriptor_start, field.descriptor_length)))
}

/// Row 5 of an ABI sheet: "ABI slots count as instance methods".
pub fn abi_descriptors_hold(sheet: &AbiSheet) -> bool {
    let descriptor = |at: usize| sheet.part(sheet.words[at + 2], sheet.words[at + 3]);
    (0..sheet.words[1]).all(|slot| is_method_descriptor(descriptor(sheet.slot_at(slot)), 0))
        && (0..sheet.words[2]).all(|field| is_field_descriptor(descriptor(sheet.field_at(field))))
}

/// A list or part of `count` from `first` on lies inside a section of `size`.
fn inside(first: u32, count: u32, size: u32) -> bool {
    u64::from(first) + u64::from(count) <= u64::from(size)
}

/// "names and descriptors have 1 to 255 bytes, each 0x21 to 0x7E"
fn is_name(text: &[u8], start: u32, length: u32) -> bool {
    inside(start, length, text.len() as u32)
        && (1..=255).contains(&length)
        && text[start as usize..][..length as usize].iter().all(|byte| (0x21..=0x7E).contains(byte))
}

/// "no two class-sheet classes share a name"
fn no_two_classes_share_a_name(sheet: &ClassSheet) -> bool {
    (1..=sheet.class_count()).all(|class| (1..class).all(|other| sheet.name(other) != sheet.name(class)))
}

/// "neither method nor field lists overlap": no record lies in two lists.
fn apart(lists: impl Iterator<Item = (u32, u32)>) -> bool {
    let mut lists: Vec<(u32, u32)> = lists.filter(|&(_, count)| count != 0).collect();
    lists.sort_unstable();
    lists.windows(2).all(|pair| pair[0].0 + pair[0].1 <= pair[1].0)
}
