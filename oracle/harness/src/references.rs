//! Comparison of reference bitmaps: the original's list of `JavaReferenceField`s against the other side's list and count.

use crate::oracle::Oracle;
use crate::random::Random;
use crate::readings::ReadingCounts;
use crate::side::{Answer, Linker};

/// A call: a bitmap, the number of instance words and of list words lent.
pub struct Bitmap {
    pub bytes: Vec<u8>,
    pub words: u32,
    pub lent: usize,
}

/// What the list words hold before a call.
const UNWRITTEN: u32 = 0x5A5A_5A5A;

/// Every byte with 0 to 9 words, the ninth from a second byte, with as many list words as are needed.
pub fn every_byte(oracle: &mut Oracle, other: &mut dyn Linker, counts: &mut ReadingCounts) -> Result<(), String> {
    for first in 0..=u8::MAX {
        for words in 0..=9 {
            for second in [0x00, 0x80, 0x7F, 0xFF] {
                let bytes = if words == 9 { vec![first, second] } else { vec![first] };
                let lent = oracle.reference_count(&bytes, words).first as usize;
                compare(oracle, other, &Bitmap { bytes, words, lent }, counts)?;
            }
        }
    }
    Ok(())
}

/// A random bitmap, mostly small, sometimes of as many words as a class can have; bits and bytes beyond are set at random.
pub fn random(random: &mut Random) -> Bitmap {
    let most = random.pick(&[0, 8, 9, 40, 40, 300]);
    let words = if random.below(500) == 0 { random.between(8_192, 65_535) } else { random.below(most + 1) };
    let ones = random.pick(&[0, 20, 50, 50, 90, 100]);
    let needed = words.div_ceil(8);
    let length = match random.below(10) {
        0 => random.below(needed + 1),
        1..4 => needed + random.below(5),
        _ => needed,
    };
    let bytes: Vec<u8> = (0..length).map(|_| (0..8).fold(0, |byte, _| byte << 1 | u8::from(random.chance(ones)))).collect();
    let count = (0..words.min(8 * length)).filter(|&word| bytes[word as usize / 8] << (word % 8) >= 0x80).count();
    let lent = match random.below(8) {
        0 => count.saturating_sub(1),
        1 => random.below(count as u32 + 1) as usize,
        2..5 => count,
        _ => count + random.below(20) as usize,
    };
    Bitmap { bytes, words, lent }
}

/// Lists and counts on both sides. Answers the first disagreement.
pub fn compare(oracle: &mut Oracle, other: &mut dyn Linker, bitmap: &Bitmap, counts: &mut ReadingCounts) -> Result<(), String> {
    observe(bitmap, judge(oracle, other, bitmap)?, counts);
    Ok(())
}

/// Counts what a bitmap that was listed so is about.
pub fn observe(bitmap: &Bitmap, listed: Answer, counts: &mut ReadingCounts) {
    let Bitmap { bytes, words, lent } = bitmap;
    counts.hit(match listed.refusal {
        0 => "reference words listed",
        24 => "reference words refused by row 24",
        _ => "reference words refused by row 25",
    });
    if listed.refusal == 0 {
        let beyond = bytes.get(*words as usize / 8).is_some_and(|&byte| *words % 8 != 0 && byte << (words % 8) != 0);
        for (bucket, reached) in [
            ("bitmap: none marked", *words > 0 && listed.first == 0),
            ("bitmap: all marked", *words > 0 && listed.first == *words),
            ("bitmap: bits beyond the words", beyond),
            ("bitmap: bytes beyond the words", bytes.len() > words.div_ceil(8) as usize),
            ("bitmap: more than 8,192 words", *words > 8_192),
            ("bitmap: list words after the count", *lent > listed.first as usize),
        ] {
            if reached {
                counts.hit(bucket);
            }
        }
    }
}

/// The list's answer on which both sides agree, as they do on the list and on the count.
pub fn judge(oracle: &mut Oracle, other: &mut dyn Linker, bitmap: &Bitmap) -> Result<Answer, String> {
    let Bitmap { bytes, words, lent } = bitmap;
    let (mut expected, mut found) = (vec![UNWRITTEN; *lent], vec![UNWRITTEN; *lent]);
    let listed = [oracle.reference_words(bytes, *words, &mut expected), other.reference_words(bytes, *words, &mut found)];
    let counted = [oracle.reference_count(bytes, *words), other.reference_count(bytes, *words)];
    if listed[0] != listed[1] || counted[0] != counted[1] || expected != found {
        let bytes = &bytes[..bytes.len().min(40)];
        return Err(format!(
            "{words} words, {lent} lent, of bitmap {bytes:02X?}..: oracle lists {:?}, counts {:?}; other lists {:?}, counts {:?}; memory equal: {}",
            listed[0],
            counted[0],
            listed[1],
            counted[1],
            expected == found
        ));
    }
    Ok(listed[0])
}
