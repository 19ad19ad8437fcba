//! Reference bitmaps: the library against marks that are taken bit by bit, by shifting.

use lgt_linker::{Refusal, reference_count, reference_words};

/// The marked ones of the first `words` bits, the highest of each byte first.
fn shifted(bitmap: &[u8], words: u32) -> Vec<u32> {
    let bits = bitmap.iter().flat_map(|&byte| (0..8).map(move |shift| byte << shift & 0x80 != 0));
    (0..words).zip(bits).filter_map(|(word, marked)| marked.then_some(word)).collect()
}

fn assert_listed(bitmap: &[u8], words: u32) {
    let list = shifted(bitmap, words);
    assert_eq!(reference_count(bitmap, words), Ok(list.len() as u32));
    assert_eq!(reference_words(bitmap, words), Ok(list), "{bitmap:02x?} with {words} words");
}

/// 0 words need no byte, 1 to 8 one byte, 9 two.
#[test]
fn every_byte_with_few_words() {
    for byte in 0..=255 {
        for words in 0..=9 {
            assert_listed(&[byte, !byte], words);
            assert_eq!(reference_count(&[byte], words).is_err(), words == 9);
        }
    }
}

#[test]
fn too_few_bytes() {
    for (length, words) in [(0, 1), (1, 9), (1, u32::MAX), (8191, 65_535), (1 << 20, (1 << 23) + 1)] {
        let bitmap = vec![0xFF; length];
        assert_eq!(reference_count(&bitmap, words), Err(Refusal::BitmapBytes));
        assert_eq!(reference_words(&bitmap, words), Err(Refusal::BitmapBytes));
    }
    assert_eq!(reference_words(&[], 0), Ok(vec![]));
    assert_eq!(reference_count(&[0xFF; 8192], 65_535), Ok(65_535));
}

/// Bitmaps of up to 65,535 words, some with bytes to spare, bits beyond the words set at random like the others (xorshift).
#[test]
fn random_bitmaps() {
    let mut state = 0x9E37_79B9_7F4A_7C15u64;
    let mut number = move |bound: u64| {
        state ^= state << 13;
        state ^= state >> 7;
        state ^= state << 17;
        state % bound
    };
    for round in 0..400 {
        let words = number(if round % 4 == 0 { 65_536 } else { 300 }) as u32;
        let bytes = words.div_ceil(8) + number(3) as u32;
        let bitmap: Vec<u8> = (0..bytes).map(|_| number(256) as u8).collect();
        assert_listed(&bitmap, words);
    }
}
