//! Comparison of class sheets made ones of the other form, which no original file judges: the harness's own rows against the other side. What
//! is made is made back, and gives the first sheet's bytes; a reading accepts what is made of an old sheet.

use crate::case::Case;
use crate::oracle::Oracle;
use crate::random::Random;
use crate::readings::{ReadingCounts, UNDAMAGED, damaged, unlinked};
use crate::sheet::{Set, class_word};
use crate::side::{Answer, Linker};

/// A sheet to convert, of the old form or of the new, and the number of bytes lent.
pub struct Conversion {
    pub is_old: bool,
    pub bytes: Vec<u8>,
    pub lent: usize,
}

/// What the bytes lent hold before a call.
const UNWRITTEN: u8 = 7;

/// The bytes that hold every class sheet.
const MOST_BYTES: usize = 47_104;

/// The case's set as a sheet of one of the forms, sometimes damaged, often with static words that are not the sum.
pub fn random(random: &mut Random, case: &Case) -> Conversion {
    let is_old = random.chance(50);
    let content = match unlinked(&case.set).and_then(|words| Set::decode(&words)) {
        Some(set) if is_old => set.encode_old(),
        Some(set) => counted(random, set).encode(),
        None => case.set.clone(),
    };
    let damage = if random.chance(70) { UNDAMAGED } else { random.below(UNDAMAGED + 1) };
    let (bytes, ..) = damaged(random, content, true, damage);
    let lent = match random.below(10) {
        0 => bytes.len().saturating_sub(random.pick(&[1, 2, 511, 512])),
        1 => random.below(bytes.len() as u32 + 1) as usize,
        2..5 => bytes.len(),
        5 => bytes.len() + 511,
        _ => bytes.len() + random.pick(&[512, 513, 1500]),
    };
    Conversion { is_old, bytes, lent }
}

/// The set with the static words that its generated classes have going forward, or one of them changed.
fn counted(random: &mut Random, mut set: Set) -> Set {
    set.bring_static_words();
    let generated: Vec<usize> = (0..set.classes.len()).filter(|&class| set.classes[class].get(class_word::KIND) == 1).collect();
    if !generated.is_empty() && random.chance(40) {
        let word = &mut set.classes[random.pick(&generated)].0[class_word::STATIC_WORDS];
        *word = random.pick(&[0, word.wrapping_sub(1), word.wrapping_add(1), u32::MAX]);
    }
    set
}

/// Converts on both sides, and back. Answers the first disagreement.
pub fn compare(oracle: &mut Oracle, other: &mut dyn Linker, conversion: &Conversion, counts: &mut ReadingCounts) -> Result<(), String> {
    let (answer, made) = judge(oracle, other, conversion)?;
    observe(conversion, answer, &made, counts);
    Ok(())
}

/// What a conversion is about, by its answer and the blocks that it made.
pub fn observe(conversion: &Conversion, answer: Answer, made: &[u8], counts: &mut ReadingCounts) {
    let verb = if conversion.is_old { "widened" } else { "narrowed" };
    counts.hit(&match answer.refusal {
        0 => format!("class sheet {verb}"),
        row => format!("class sheet not {verb}, by row {row}"),
    });
    if !matches!(answer.refusal, 0 | 23) {
        return;
    }
    let set = Set::decode(&content(if conversion.is_old { made } else { &conversion.bytes })).expect("row 3 holds");
    if answer.refusal == 23 {
        if conversion.lent < 512 * set.encode_old().len().div_ceil(127) {
            counts.hit("converting: 23 where the bytes are too few, too");
        }
        return;
    }
    let has = |kind: u32, is: &dyn Fn(u32) -> bool| {
        (1u32..).zip(&set.classes).any(|(number, class)| {
            let is_static = set.fields_of(number).iter().any(|field| field.flags & 8 != 0);
            class.get(class_word::KIND) == kind && is_static && is(class.get(class_word::STATIC_WORDS))
        })
    };
    for (bucket, reached) in [
        ("converting: a generated class with static fields", has(1, &|words| words > 0)),
        ("converting: a built class with static fields", has(0, &|words| words == 0)),
        ("converting: a block more", made.len() > conversion.bytes.len()),
        ("converting: a block fewer", made.len() < conversion.bytes.len()),
        ("converting: bytes after the blocks", conversion.lent > made.len()),
    ] {
        if reached {
            counts.hit(bucket);
        }
    }
}

/// The words of whole blocks, less their checks.
fn content(bytes: &[u8]) -> Vec<u32> {
    let words = bytes.chunks_exact(4).map(|word| u32::from_le_bytes(word.try_into().unwrap()));
    words.enumerate().filter(|(place, _)| place % 128 != 127).map(|(_, word)| word).collect()
}

/// The answer on which both sides agree, as they do on the bytes, and the blocks made; made back they are the first sheet's.
pub fn judge(oracle: &mut Oracle, other: &mut dyn Linker, conversion: &Conversion) -> Result<(Answer, Vec<u8>), String> {
    let Conversion { is_old, bytes, lent } = conversion;
    let (mut expected, mut found) = (vec![UNWRITTEN; *lent], vec![UNWRITTEN; *lent]);
    let answers = [convert(oracle, *is_old, bytes, &mut expected), convert(other, *is_old, bytes, &mut found)];
    if answers[0] != answers[1] || expected != found || (answers[0].refusal != 0 && found.iter().any(|&byte| byte != UNWRITTEN)) {
        return Err(format!(
            "converting, old form {is_old}, into {lent} bytes: oracle {:?}, other {:?}, memory equal: {}\nbytes {bytes:?}",
            answers[0],
            answers[1],
            expected == found
        ));
    }
    if answers[0].refusal != 0 {
        return Ok((answers[0], Vec::new()));
    }
    found.truncate(512 * answers[0].first as usize);
    let mut back = vec![UNWRITTEN; MOST_BYTES];
    let answer = convert(other, !is_old, &found, &mut back);
    let (first, rest) = back.split_at(bytes.len());
    if answer != Answer::accepted(bytes.len() as u32 / 512, 0) || first != bytes || rest.iter().any(|&byte| byte != UNWRITTEN) {
        return Err(format!("converting back, old form {is_old}: {answer:?}\nbytes {bytes:?}"));
    }
    let read = if *is_old { other.read_class_sheet(&found, &mut vec![0; 127 * found.len() / 512]) } else { answer };
    if read.refusal != 0 {
        return Err(format!("what was made of an old sheet is read as {read:?}\nbytes {bytes:?}"));
    }
    Ok((answers[0], found))
}

/// Converts a sheet on one side.
pub fn convert(side: &mut dyn Linker, is_old: bool, bytes: &[u8], out: &mut [u8]) -> Answer {
    if is_old { side.widen_class_sheet(bytes, out) } else { side.narrow_class_sheet(bytes, out) }
}
