//! The instance reference bitmap: which of an object's words hold references.

use super::refuse;
use super::why::Refused;

/// "word i is marked if byte i / 8 has the bit 0x80 shifted right by i modulo 8"
fn is_marked(bitmap: &[u8], word: u32) -> bool {
    bitmap[word as usize / 8] & (0x80 >> (word % 8)) != 0
}

/// "24, if the bitmap has too few bytes": a byte for each 8 words or part of them.
fn row_24(bitmap: &[u8], words: u32) -> Result<(), Refused> {
    refuse(24, bitmap.len() < words.div_ceil(8) as usize)
}

/// "It gives the marked word numbers in rising order and their count."
pub fn reference_words(bitmap: &[u8], words: u32, list: &mut [u32]) -> Result<u32, Refused> {
    row_24(bitmap, words)?;
    let marked: Vec<u32> = (0..words).filter(|&word| is_marked(bitmap, word)).collect();
    // "25, after it, if the lent list is shorter than the count"
    refuse(25, list.len() < marked.len())?;
    list[..marked.len()].copy_from_slice(&marked);
    Ok(marked.len() as u32)
}

/// "The count is also to be had without the list, byte by byte": the ones of whole bytes, then of those bits of the next that are words.
pub fn reference_count(bitmap: &[u8], words: u32) -> Result<u32, Refused> {
    row_24(bitmap, words)?;
    let (whole, rest) = bitmap.split_at(words as usize / 8);
    let last = rest.first().map_or(0, |byte| (u16::from(*byte) << (words % 8) >> 8).count_ones());
    Ok(whole.iter().map(|byte| byte.count_ones()).sum::<u32>() + last)
}
