//! Comparison of what the Rust cannot judge: reading sheets (rows 1 to 5), argument words and
//! names. Here the harness's own rows stand against the other side.

use std::collections::BTreeMap;

use crate::case::Case;
use crate::class_files;
use crate::forms;
use crate::names;
use crate::oracle::Oracle;
use crate::orders;
use crate::random::Random;
use crate::references;
use crate::sheet::{Abi, Set, blocks, class_word, class_word_at};
use crate::side::{Answer, Linker};
use crate::writings;

/// What a reading or a descriptor is about; a run must reach each.
const BUCKETS: &[&str] = &[
    "class sheet read",
    "class sheet refused by row 1",
    "class sheet refused by row 2",
    "class sheet refused by row 3",
    "class sheet refused by row 4",
    "class sheet refused by row 5",
    "ABI sheet read",
    "ABI sheet refused by row 1",
    "ABI sheet refused by row 2",
    "ABI sheet refused by row 3",
    "ABI sheet refused by row 4",
    "ABI sheet refused by row 5",
    "damage: no bytes",
    "damage: not a multiple of 512",
    "damage: a block too many for any sheet",
    "damage: word slice too short",
    "damage: a block's check",
    "damage: an empty block more",
    "damage: a nonzero word after the content",
    "damage: a nonzero byte after the text",
    "damage: a table place",
    "damage: a slot count",
    "damage: static words",
    "damage: none",
    "argument words given",
    "argument words refused by row 5",
    "argument words: 254 given",
    "argument words: 255 given",
    "argument words: 256 refused",
    "class sheet read loosely",
    "class sheet read loosely alone",
    "class sheet refused loosely by row 1",
    "class sheet refused loosely by row 2",
    "class sheet refused loosely by row 3",
    "classes renumbered",
    "classes not renumbered, by row 3",
    "classes not renumbered, by row 4",
    "classes not renumbered, by row 19",
    "classes not renumbered, by row 15",
    "order: static words",
    "order: kept",
    "order: changed",
    "order: list words after the classes",
    "order: words after the content",
    "order: no class set",
    "order: a table place alone",
    "order: a slot count alone",
    "order: a parent above the classes",
    "order: an interface word that names no class",
    "order: a class its own parent",
    "order: several classes that return",
    "order: linked alike",
    "order: a class refused alike",
    "order: a table in another order",
    "class set written",
    "class set not written, by row 3",
    "class set not written, by row 4",
    "class set not written, by row 5",
    "class set not written, by row 17",
    "class set not written, by row 18",
    "writing: a table place alone",
    "writing: a slot count alone",
    "writing: static words alone",
    "writing: a nonzero byte after the text",
    "writing: a generated class's static words",
    "writing: words after the content",
    "writing: bytes after the blocks",
    "class sheet widened",
    "class sheet not widened, by row 1",
    "class sheet not widened, by row 2",
    "class sheet not widened, by row 3",
    "class sheet not widened, by row 4",
    "class sheet not widened, by row 5",
    "class sheet not widened, by row 18",
    "class sheet narrowed",
    "class sheet not narrowed, by row 1",
    "class sheet not narrowed, by row 2",
    "class sheet not narrowed, by row 3",
    "class sheet not narrowed, by row 4",
    "class sheet not narrowed, by row 5",
    "class sheet not narrowed, by row 23",
    "class sheet not narrowed, by row 18",
    "converting: a generated class with static fields",
    "converting: a built class with static fields",
    "converting: a block more",
    "converting: a block fewer",
    "converting: bytes after the blocks",
    "converting: 23 where the bytes are too few, too",
    "reference words listed",
    "reference words refused by row 24",
    "reference words refused by row 25",
    "bitmap: none marked",
    "bitmap: all marked",
    "bitmap: bits beyond the words",
    "bitmap: bytes beyond the words",
    "bitmap: more than 8,192 words",
    "bitmap: list words after the count",
    "names: of unequal lengths",
    "names: one the start of the other",
    "names: both empty",
    "names: the same",
    "names: the first byte alone differs",
    "names: the last byte alone differs",
    "names: several bytes differ",
    "names: of more than 255 bytes",
];

/// These, and those of class files.
fn buckets() -> impl Iterator<Item = &'static str> {
    BUCKETS.iter().copied().chain(class_files::BUCKETS)
}

/// Counts of readings and descriptors.
pub struct ReadingCounts(BTreeMap<&'static str, u64>);

impl Default for ReadingCounts {
    fn default() -> Self {
        Self(buckets().map(|bucket| (bucket, 0)).collect())
    }
}

impl ReadingCounts {
    pub(crate) fn hit(&mut self, bucket: &str) {
        *self.0.get_mut(bucket).expect("every bucket is listed") += 1;
    }

    pub fn add(&mut self, other: &Self) {
        other.0.iter().for_each(|(bucket, more)| *self.0.entry(bucket).or_default() += more);
    }

    /// Every bucket, and whether it was reached.
    pub(crate) fn buckets(&self) -> impl Iterator<Item = (&'static str, bool)> {
        buckets().map(|bucket| (bucket, self.0[bucket] > 0))
    }

    /// The summary, and whether every bucket was reached.
    pub fn summary(&self) -> (String, bool) {
        let lines: Vec<String> = buckets().map(|bucket| format!("{:>10}  {bucket}", self.0[bucket])).collect();
        (lines.join("\n"), self.0.values().all(|&count| count > 0))
    }
}

/// Reads the case's sheets, damaged or not, on both sides, writes its set back, makes a sheet of it one of the other form, renumbers it shuffled, asks for argument words and of a reference
/// bitmap, compares two names, and reads a class file.
/// Answers the first disagreement.
pub fn compare(
    oracle: &mut Oracle,
    other: &mut dyn Linker,
    random: &mut Random,
    case: &Case,
    counts: &mut ReadingCounts,
) -> Result<(), String> {
    let reading = reading(random, case);
    counts.hit(reading.damage);
    let before = lent_words(reading.lent);
    let (mut expected, mut found) = (before.clone(), before.clone());
    let name = if reading.is_class_sheet { "class sheet" } else { "ABI sheet" };
    let (oracle_answer, other_answer) = (read(oracle, &reading, &mut expected), read(other, &reading, &mut found));
    counts.hit(&match oracle_answer.refusal {
        0 => format!("{name} read"),
        row => format!("{name} refused by row {row}"),
    });
    if oracle_answer != other_answer || expected != found || (oracle_answer.refusal != 0 && expected != before) {
        return Err(format!(
            "reading a {name}, {}: oracle {oracle_answer:?}, other {other_answer:?}, memory equal: {}\n{} words lent, bytes {:?}",
            reading.damage,
            expected == found,
            reading.lent,
            reading.bytes
        ));
    }
    if reading.is_class_sheet {
        loosely(oracle, other, &reading, oracle_answer, counts)?;
    }
    let (descriptor, flags) = descriptor(random);
    let (oracle_answer, other_answer) = (oracle.argument_words(&descriptor, flags), other.argument_words(&descriptor, flags));
    counts.hit(if oracle_answer == Answer::refused(5) { "argument words refused by row 5" } else { "argument words given" });
    match (oracle_answer.refusal, oracle_answer.first) {
        (0, 254) => counts.hit("argument words: 254 given"),
        (0, 255) => counts.hit("argument words: 255 given"),
        (5, _) if flags & 0x0008 == 0 && oracle.argument_words(&descriptor, 8) == Answer::accepted(255, 0) => {
            counts.hit("argument words: 256 refused")
        }
        _ => {}
    }
    if oracle_answer != other_answer {
        let text = descriptor.escape_ascii();
        return Err(format!("argument words of {text:?} with flags {flags:#x}: oracle {oracle_answer:?}, other {other_answer:?}"));
    }
    references::compare(oracle, other, &references::random(random), counts)?;
    writings::compare(oracle, other, &writings::random(random, case), counts)?;
    forms::compare(oracle, other, &forms::random(random, case), counts)?;
    orders::compare(oracle, other, random, case, counts)?;
    names::compare(oracle, other, &names::random(random), counts)?;
    class_files::compare(oracle, other, &class_files::random(random), counts)
}

/// Reads a class sheet by rows 1 to 3 alone, on both sides; `strictly` is what a reading by rows 1 to 5 answered.
fn loosely(
    oracle: &mut Oracle,
    other: &mut dyn Linker,
    reading: &Reading,
    strictly: Answer,
    counts: &mut ReadingCounts,
) -> Result<(), String> {
    let before = lent_words(reading.lent);
    let (mut expected, mut found) = (before.clone(), before);
    let answers = [oracle.read_unordered_sheet(&reading.bytes, &mut expected), other.read_unordered_sheet(&reading.bytes, &mut found)];
    observe_loosely(strictly, answers[0], counts);
    if answers[0] != answers[1] || expected != found || (strictly.refusal < 4 && answers[0] != strictly) {
        return Err(format!(
            "reading loosely, {}: oracle {:?}, other {:?}\nbytes {:?}",
            reading.damage, answers[0], answers[1], reading.bytes
        ));
    }
    Ok(())
}

/// Counts a class sheet that was read so by rows 1 to 5, and so by rows 1 to 3 alone.
pub(crate) fn observe_loosely(strictly: Answer, loosely: Answer, counts: &mut ReadingCounts) {
    counts.hit(&match loosely.refusal {
        0 if matches!(strictly.refusal, 4 | 5) => "class sheet read loosely alone".to_owned(),
        0 => "class sheet read loosely".to_owned(),
        row => format!("class sheet refused loosely by row {row}"),
    });
}

/// The content of class words, as if no class were linked.
pub(crate) fn unlinked(words: &[u32]) -> Option<Vec<u32>> {
    let mut set = Set::decode(words)?;
    for class in &mut set.classes {
        class.0[class_word::PLACE] = 0;
        class.0[class_word::SLOTS] = 0;
        if matches!(class.get(class_word::KIND), 0 | 2) {
            class.0[class_word::STATIC_WORDS] = 0;
        }
    }
    Some(set.encode())
}

/// The number of kinds of damage; this one is none.
pub(crate) const UNDAMAGED: u32 = 13;

/// A sheet to read: its bytes, and the number of words lent.
pub struct Reading {
    pub is_class_sheet: bool,
    pub bytes: Vec<u8>,
    pub lent: usize,
    pub damage: &'static str,
}

/// What the words lent to a reading hold before it.
pub fn lent_words(lent: usize) -> Vec<u32> {
    (0..lent as u32).map(|position| position ^ 0x5A5A_5A5A).collect()
}

/// One of the case's sheets, damaged or not.
pub fn reading(random: &mut Random, case: &Case) -> Reading {
    let is_class_sheet = random.chance(60);
    let content = if is_class_sheet { unlinked(&case.set) } else { Abi::decode(&case.abi).map(|abi| abi.encode()) };
    let content = content.unwrap_or_else(|| if is_class_sheet { case.set.clone() } else { case.abi.clone() });
    let damage = if case.spoiled.is_some() && random.chance(70) { UNDAMAGED } else { random.below(UNDAMAGED + 1) };
    let (bytes, lent, damage) = damaged(random, content, is_class_sheet, damage);
    Reading { is_class_sheet, bytes, lent, damage }
}

/// Reads a sheet on one side.
pub fn read(side: &mut dyn Linker, reading: &Reading, words: &mut [u32]) -> Answer {
    if reading.is_class_sheet { side.read_class_sheet(&reading.bytes, words) } else { side.read_abi_sheet(&reading.bytes, words) }
}

/// The sheet's bytes, the words lent, and what was damaged.
pub(crate) fn damaged(random: &mut Random, mut content: Vec<u32>, is_class_sheet: bool, damage: u32) -> (Vec<u8>, usize, &'static str) {
    let most = if is_class_sheet { 92 } else { 51 };
    let text = content.get(if is_class_sheet { 5 } else { 3 }).copied().unwrap_or(0);
    let classes = if is_class_sheet { content.first().copied().unwrap_or(0).min(64) } else { 0 };
    let mut name = match damage {
        6 if text % 4 != 0 && !content.is_empty() => {
            *content.last_mut().expect("there is text") |= 0x0100_0000;
            "damage: a nonzero byte after the text"
        }
        7 | 8 | 12 if classes > 0 && content.len() >= class_word_at(classes + 1, 0) => {
            let class = random.between(1, classes);
            let (word, name) = match damage {
                7 => (class_word::PLACE, "damage: a table place"),
                8 => (class_word::SLOTS, "damage: a slot count"),
                _ => (class_word::STATIC_WORDS, "damage: static words"),
            };
            content[class_word_at(class, word)] = random.pick(&[1, 7, u32::MAX]);
            name
        }
        9 if !content.len().is_multiple_of(127) => {
            let end = content.len().next_multiple_of(127);
            content.resize(end, 0);
            content[end - 1] = random.pick(&[1, 0x0100_0000]);
            "damage: a nonzero word after the content"
        }
        10 => {
            content.resize(content.len().next_multiple_of(127) + 127, 0);
            "damage: an empty block more"
        }
        _ => "damage: none",
    };
    let mut bytes = blocks(&content);
    match damage {
        0 => {
            bytes.clear();
            name = "damage: no bytes";
        }
        1 => {
            bytes.resize(bytes.len() + random.between(1, 511) as usize, 0);
            name = "damage: not a multiple of 512";
        }
        2 => {
            content.resize(127 * (most + 1), 0);
            bytes = blocks(&content);
            name = "damage: a block too many for any sheet";
        }
        3 if !bytes.is_empty() => {
            let at = random.below(bytes.len() as u32) as usize;
            bytes[at] = bytes[at].wrapping_add(random.between(1, 255) as u8);
            name = "damage: a block's check";
        }
        _ => {}
    }
    let needed = bytes.len() / 512 * 127;
    let lent = match damage {
        4 if needed > 0 => {
            name = "damage: word slice too short";
            needed - random.between(1, 3) as usize
        }
        5 => needed,
        _ => needed + random.below(140) as usize,
    };
    (bytes, lent, name)
}

/// A method's descriptor and flags; often with one byte changed, sometimes just bytes.
pub fn descriptor(random: &mut Random) -> (Vec<u8>, u32) {
    let flags = random.pick(&[0, 8, 1, 9, u32::MAX, !8]);
    (descriptor_bytes(random), flags)
}

fn descriptor_bytes(random: &mut Random) -> Vec<u8> {
    const TYPES: [&str; 10] = ["I", "J", "D", "[J", "[[D", "La;", "La/b;", "Z", "L(V)<;", "L\u{e9};"];
    if random.chance(10) {
        let length = random.below(6);
        return (0..length).map(|_| random.pick(b"()VIJL;/[.aD\xFF")).collect();
    }
    let mut descriptor = b"(".to_vec();
    match random.below(100) {
        // at the limit of argument words
        0..5 => {
            let words = random.between(252, 257) as usize;
            let longs = random.below(words as u32 / 2 + 1) as usize;
            descriptor.extend([vec![random.pick(b"JD"); longs], vec![random.pick(b"IZ"); words - 2 * longs]].concat());
        }
        5..8 => (0..random.below(260)).for_each(|_| descriptor.extend_from_slice(random.pick(&TYPES).as_bytes())),
        _ => (0..random.below(6)).for_each(|_| descriptor.extend_from_slice(random.pick(&TYPES).as_bytes())),
    }
    descriptor.push(b')');
    let result = if random.chance(50) { "V" } else { random.pick(&TYPES) };
    descriptor.extend_from_slice(result.as_bytes());
    if random.chance(40) {
        let at = random.below(descriptor.len() as u32) as usize;
        match random.below(3) {
            0 => descriptor[at] = random.pick(b"()VIJL;/[.a"),
            1 => drop(descriptor.remove(at)),
            _ => descriptor.insert(at, random.pick(b"()VIJL;/[.a")),
        }
    }
    descriptor
}
