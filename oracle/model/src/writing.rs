//! Writing a class sheet's blocks: rows 3 to 5 as for a link, 17 and 18.

use super::reading::{BLOCK_BYTES, BLOCK_CONTENT, is_linked_or_counted};
use super::refuse;
use super::rules::{class_descriptors_hold, class_records_keep_the_rules, fits};
use super::sheets::{ClassSheet, class_content, text_of_class_words};
use super::why::Refused;

/// "from an unlinked set it makes the blocks of a class sheet and answers their number"
pub fn write_class_sheet(set: &[u32], bytes: &mut [u8]) -> Result<u32, Refused> {
    // "Turned away: 3 to 5 as for a link"
    refuse(3, !fits(class_content(set), set))?;
    let text = text_of_class_words(set);
    let sheet = ClassSheet::unnumbered(set, &text);
    refuse(4, !class_records_keep_the_rules(&sheet))?;
    refuse(5, !class_descriptors_hold(&sheet))?;
    let content = &set[..class_content(set).expect("row 3 holds")];
    // "17, after them, if any class has a nonzero table place or slot count or a nonzero byte follows the text in its last word";
    // static words, "a nonzero value in an unlinked built or array class", too
    let is_linked = sheet.classes().any(|class| is_linked_or_counted(&class));
    let after_the_text = if text.len().is_multiple_of(4) { 0 } else { content[content.len() - 1] >> (8 * (text.len() % 4)) };
    refuse(17, is_linked || after_the_text != 0)?;
    put_blocks(content, bytes)
}

/// "18, last, if the lent bytes are too few"; else the blocks of these words, as few as hold them, and every byte after them as it was.
pub fn put_blocks(content: &[u32], bytes: &mut [u8]) -> Result<u32, Refused> {
    let count = content.len().div_ceil(BLOCK_CONTENT);
    refuse(18, bytes.len() < BLOCK_BYTES * count)?;
    for (block, number) in bytes.chunks_exact_mut(BLOCK_BYTES).take(count).zip(0..) {
        write_block(content, number, block);
    }
    Ok(count as u32)
}

/// "the last word is the sum of the other 127 and the block's number from 1, modulo 2^32"; "zeros fill the last block"
fn write_block(content: &[u32], number: usize, block: &mut [u8]) {
    let mut check = number as u32 + 1;
    for (place, bytes) in block.chunks_exact_mut(4).enumerate() {
        let word = match place {
            BLOCK_CONTENT => check,
            _ => content.get(BLOCK_CONTENT * number + place).copied().unwrap_or(0),
        };
        check = check.wrapping_add(word);
        bytes.copy_from_slice(&word.to_le_bytes());
    }
}
