//! Reading a sheet from its blocks: rows 1 to 5.

use super::refuse;
use super::rules::{abi_descriptors_hold, abi_records_keep_the_rules, class_descriptors_hold, class_records_keep_the_rules};
use super::sheets::{
    ARRAY, AbiSheet, BUILT, Class, ClassSheet, PACKAGED, abi_content, class_content, text_of_abi_words, text_of_class_words,
};
use super::why::Refused;

/// "blocks of 512 bytes, 128 little-endian u32 words"
pub const BLOCK_BYTES: usize = 512;
/// "The 127s run on as one word list."
pub const BLOCK_CONTENT: usize = 127;

/// Reads a class sheet into `words`; answers the words filled, 127 a block.
pub fn read_class_sheet(bytes: &[u8], words: &mut [u32]) -> Result<u32, Refused> {
    let read = blocks(bytes, 92, words.len())?;
    row_3(&read, class_content(&read), |content| content - read[5].div_ceil(4) as usize, read[5])?;
    let text = text_of_class_words(&read);
    let sheet = ClassSheet::unnumbered(&read, &text);
    unlinked(&sheet)?;
    refuse(4, !class_records_keep_the_rules(&sheet))?;
    refuse(5, !class_descriptors_hold(&sheet))?;
    Ok(fill(&read, words))
}

/// Row 3: "a nonzero table place or slot count", and static words, "a nonzero value in an
/// unlinked built or array class".
pub fn unlinked(sheet: &ClassSheet) -> Result<(), Refused> {
    refuse(3, sheet.classes().any(|class| is_linked_or_counted(&class)))
}

/// What a set does not hold before its first link. A class of another kind brings its static words.
pub fn is_linked_or_counted(class: &Class) -> bool {
    let is_counted = matches!(class.kind, BUILT | ARRAY | PACKAGED) && class.static_words != 0;
    class.place != 0 || class.slots != 0 || is_counted
}

/// Reads an ABI sheet into `words`; answers the words filled, 127 a block.
pub fn read_abi_sheet(bytes: &[u8], words: &mut [u32]) -> Result<u32, Refused> {
    let read = blocks(bytes, 51, words.len())?;
    row_3(&read, abi_content(&read), |content| content - read[3].div_ceil(4) as usize, read[3])?;
    let text = text_of_abi_words(&read);
    let sheet = AbiSheet::unnumbered(&read, &text);
    refuse(4, !abi_records_keep_the_rules(&sheet))?;
    refuse(5, !abi_descriptors_hold(&sheet))?;
    Ok(fill(&read, words))
}

/// Rows 1 and 2. Row 1: "bytes 0, not a multiple of 512, above 92 blocks (class sheet) or 51
/// (ABI sheet), or the lent word slice holds fewer than 127 words a block". Row 2: "a
/// block's check differs", where "the last word is the sum of the other 127 and the block's
/// number from 1, modulo 2^32".
pub fn blocks(bytes: &[u8], most: usize, lent: usize) -> Result<Vec<u32>, Refused> {
    let count = bytes.len() / BLOCK_BYTES;
    refuse(1, bytes.is_empty() || !bytes.len().is_multiple_of(BLOCK_BYTES) || count > most || lent < BLOCK_CONTENT * count)?;
    let mut read = Vec::with_capacity(BLOCK_CONTENT * count);
    for (block, number) in bytes.chunks_exact(BLOCK_BYTES).zip(1u32..) {
        let words: Vec<u32> = block.chunks_exact(4).map(|word| u32::from_le_bytes(word.try_into().unwrap())).collect();
        let sum = words[..BLOCK_CONTENT].iter().fold(number, |sum, word| sum.wrapping_add(*word));
        refuse(2, sum != words[BLOCK_CONTENT])?;
        read.extend_from_slice(&words[..BLOCK_CONTENT]);
    }
    Ok(read)
}

/// Row 3, but for table places: "a count above its limit, a block count not the least that
/// fits, a nonzero word or byte after the content".
pub fn row_3(read: &[u32], content: Option<usize>, text_at: impl Fn(usize) -> usize, text_bytes: u32) -> Result<(), Refused> {
    let content = content.ok_or(3u32)?;
    refuse(3, content.div_ceil(BLOCK_CONTENT) * BLOCK_CONTENT != read.len())?;
    let mut after_the_text = read[text_at(content)..].iter().flat_map(|word| word.to_le_bytes()).skip(text_bytes as usize);
    refuse(3, after_the_text.any(|byte| byte != 0))
}

pub fn fill(read: &[u32], words: &mut [u32]) -> u32 {
    words[..read.len()].copy_from_slice(read);
    read.len() as u32
}
