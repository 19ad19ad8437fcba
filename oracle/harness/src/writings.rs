//! Comparison of written class sheets, which no original file judges: the harness's own rows against the other side, and what is
//! written is read again.

use crate::case::Case;
use crate::oracle::Oracle;
use crate::random::Random;
use crate::readings::{ReadingCounts, unlinked};
use crate::sheet::{ClassRecord, Set, class_word, class_word_at};
use crate::side::{Answer, Linker};

/// Class words to write, and the number of bytes lent.
pub struct Writing {
    pub set: Vec<u32>,
    pub lent: usize,
}

/// The bytes that the blocks of `words` content words take.
fn room(words: usize) -> usize {
    512 * words.div_ceil(127)
}

/// What the bytes lent hold before a call.
const UNWRITTEN: u8 = 7;

/// The case's set, mostly as if no class were linked, often with one thing that a sheet cannot say.
pub fn random(random: &mut Random, case: &Case) -> Writing {
    let mut set = if random.chance(85) { unlinked(&case.set) } else { None }.unwrap_or_else(|| case.set.clone());
    let content = Set::decode(&set).map_or(set.len(), |set| set.content());
    let classes = set.first().map_or(0, |&classes| classes.min(64));
    match random.below(10) {
        word @ 0..2 if classes > 0 && set.len() >= class_word_at(classes + 1, 0) => {
            let word = if word == 0 { class_word::PLACE } else { random.pick(&[class_word::SLOTS, class_word::STATIC_WORDS]) };
            set[class_word_at(random.between(1, classes), word)] = random.pick(&[1, 7, 1024, u32::MAX]);
        }
        2 if content > 6 && set.len() >= content && set[5] % 4 != 0 => set[content - 1] |= 1 << random.between(8 * (set[5] % 4), 31),
        3 | 4 => set.extend((0..random.between(1, 300)).map(|word| word ^ 0x5A)),
        _ => {}
    }
    let needed = room(content.min(11_684));
    let lent = match random.below(10) {
        0 => needed - random.pick(&[1, 2, 512, needed]).min(needed),
        1 => random.below(needed as u32) as usize,
        2..5 => needed,
        _ => needed + random.pick(&[1, 511, 512, 513, 1500]),
    };
    Writing { set, lent }
}

/// Writes on both sides, and reads what is written. Answers the first disagreement.
pub fn compare(oracle: &mut Oracle, other: &mut dyn Linker, writing: &Writing, counts: &mut ReadingCounts) -> Result<(), String> {
    observe(writing, judge(oracle, other, writing)?, counts);
    Ok(())
}

/// Counts what a writing that was answered so is about.
pub fn observe(writing: &Writing, answer: Answer, counts: &mut ReadingCounts) {
    counts.hit(&match answer.refusal {
        0 => "class set written".to_owned(),
        row => format!("class set not written, by row {row}"),
    });
    let Some(set) = Set::decode(&writing.set) else { return };
    let has = |word: usize| set.classes.iter().any(|class| class.get(word) != 0);
    let is_counted = set.classes.iter().any(|class| class.span(class_word::PLACE) == (0, 0) && !class.is_untouched());
    let (has_place, has_slots) = (has(class_word::PLACE), has(class_word::SLOTS));
    let unstorable = |alone: bool| answer.refusal == 17 && alone;
    for (bucket, reached) in [
        ("writing: a table place alone", unstorable(has_place && !has_slots && !is_counted)),
        ("writing: a slot count alone", unstorable(has_slots && !has_place && !is_counted)),
        ("writing: static words alone", unstorable(is_counted && !has_place && !has_slots)),
        ("writing: a nonzero byte after the text", unstorable(set.classes.iter().all(ClassRecord::is_untouched))),
        ("writing: a generated class's static words", answer.refusal == 0 && has(class_word::STATIC_WORDS)),
        ("writing: words after the content", answer.refusal == 0 && writing.set[set.content()..].iter().any(|&word| word != 0)),
        ("writing: bytes after the blocks", answer.refusal == 0 && writing.lent > 512 * answer.first as usize),
    ] {
        if reached {
            counts.hit(bucket);
        }
    }
}

/// The answer on which both sides agree, as they do on the bytes; reading the blocks gives the content words and zeros after them.
pub fn judge(oracle: &mut Oracle, other: &mut dyn Linker, writing: &Writing) -> Result<Answer, String> {
    let Writing { set, lent } = writing;
    let (mut expected, mut found) = (vec![UNWRITTEN; *lent], vec![UNWRITTEN; *lent]);
    let answers = [oracle.write_class_sheet(set, &mut expected), other.write_class_sheet(set, &mut found)];
    if answers[0] != answers[1] || expected != found {
        return Err(format!(
            "writing into {lent} bytes: oracle {:?}, other {:?}, memory equal: {}\nclass words {set:?}",
            answers[0],
            answers[1],
            expected == found
        ));
    }
    if answers[0].refusal == 0 {
        let (blocks, content) = (answers[0].first as usize, Set::decode(set).expect("row 3 holds").content());
        let mut read = vec![UNWRITTEN.into(); 127 * blocks];
        let answer = other.read_class_sheet(&found[..512 * blocks], &mut read);
        if answer != Answer::accepted(127 * blocks as u32, 0)
            || read[..content] != set[..content]
            || read[content..].iter().any(|&word| word != 0)
        {
            return Err(format!("what was written is read as {answer:?}\nclass words {set:?}"));
        }
    }
    Ok(answers[0])
}
