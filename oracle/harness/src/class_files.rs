//! Comparison of class files, which no original judges: the harness's own reading against the other side's, with every
//! list and the answer without lists. Files are drafted constant by constant, and mostly something is wrong with them.

use crate::oracle::Oracle;
use crate::oracle::class_files::{call, head, read};
use crate::random::Random;
use crate::readings::ReadingCounts;
use crate::side::{FileAnswer, Linker};

/// What a file is about; a run must reach each. The first are the faults, by the names that the harness's reading gives
/// them.
pub const BUCKETS: [&str; 79] = [
    "file: fewer than eight bytes",
    "file: a wrong magic",
    "file: a wrong version",
    "file: cut in the pool's count",
    "file: cut at a tag",
    "file: cut in a constant",
    "file: cut in the class",
    "file: cut in the interfaces",
    "file: cut in the field count",
    "file: cut in a field",
    "file: cut in a field's attributes",
    "file: cut in the method count",
    "file: cut in a method",
    "file: cut in a method's attributes",
    "file: cut in the class's attributes",
    "file: bytes after the last attribute",
    "file: a wrong tag",
    "file: a Long or Double at the last place",
    "file: the class outside the pool",
    "file: the class at a wrong tag",
    "file: the class at a second place",
    "file: the class's name outside the pool",
    "file: the class's name at a wrong tag",
    "file: the class's name at a second place",
    "file: the parent outside the pool",
    "file: the parent at a wrong tag",
    "file: the parent at a second place",
    "file: the parent's name outside the pool",
    "file: the parent's name at a wrong tag",
    "file: the parent's name at a second place",
    "file: a field's name outside the pool",
    "file: a field's name at a wrong tag",
    "file: a field's name at a second place",
    "file: a field's descriptor outside the pool",
    "file: a field's descriptor at a wrong tag",
    "file: a field's descriptor at a second place",
    "file: a method's name outside the pool",
    "file: a method's name at a wrong tag",
    "file: a method's name at a second place",
    "file: a method's descriptor outside the pool",
    "file: a method's descriptor at a wrong tag",
    "file: a method's descriptor at a second place",
    "file: a wrong class name",
    "file: a wrong parent name",
    "file: a wrong field name",
    "file: wrong bytes in a field's descriptor",
    "file: a wrong method name",
    "file: wrong bytes in a method's descriptor",
    "file: wrong method flags",
    "file: a wrong field descriptor",
    "file: a wrong method descriptor",
    "file: more than 512 fields",
    "file: more than 512 methods",
    "file: more than 8,192 text bytes",
    "file: the fields' list too short",
    "file: the methods' list too short",
    "file: the text list too short",
    "file: too few targets",
    "file: too many targets",
    "file: read",
    "file: read without lists alone",
    "file: read, no parent",
    "file: read, no members",
    "file: read, fields and methods",
    "file: read, one string twice",
    "file: read, a Long or Double",
    "file: read, a minor version",
    "file: read, major version 45",
    "file: read, major version 48",
    "file: read, 512 fields",
    "file: read, 512 methods",
    "file: read, 8,192 text bytes",
    "file: read, a string of 255 bytes",
    "file: read, every list full",
    "file: read, words after every list",
    "file: read, a text of 4k bytes",
    "file: read, a text of 4k and 1 bytes",
    "file: read, a text of 4k and 2 bytes",
    "file: read, a text of 4k and 3 bytes",
];

/// A call: the file, the targets, and how many words are lent for fields, methods and text.
pub struct FileCall {
    pub bytes: Vec<u8>,
    pub targets: Vec<u32>,
    pub fields: usize,
    pub methods: usize,
    pub text: usize,
}

/// What the words of a list hold before a call.
fn lent(words: usize, list: u32) -> Vec<u32> {
    (0..words as u32).map(|place| place ^ (0x5A5A_5A5A + list)).collect()
}

/// A file in the making: its constants so far, the index that the next one gets, the second place of the last Long or
/// Double, the strings; the chance in a hundred that a part is spoiled.
struct Draft {
    pool: Vec<u8>,
    next: u16,
    second: u16,
    strings: Vec<(Vec<u8>, u16)>,
    wrong: u32,
}

/// The bodies of the tags that nobody looks up: how many bytes follow each.
const FILLERS: [(u8, usize); 9] = [(3, 4), (4, 4), (5, 8), (6, 8), (8, 2), (9, 4), (10, 4), (11, 4), (12, 4)];

impl Draft {
    fn add(&mut self, constant: &[u8]) -> u16 {
        let index = self.next;
        self.pool.extend_from_slice(constant);
        self.next += 1;
        if matches!(constant[0], 5 | 6) {
            self.second = self.next;
            self.next += 1;
        }
        index
    }

    /// Now and then a constant that nobody looks up; where it is spoiled, of a tag that these versions do not have.
    fn filler(&mut self, random: &mut Random) {
        if random.chance(25) {
            let (mut tag, size) = random.pick(&FILLERS);
            if random.chance(self.wrong / 4) {
                tag = random.pick(&[0, 2, 13, 15, 16, 18, 255]);
            }
            let body: Vec<u8> = (0..size).map(|_| random.word() as u8).collect();
            self.add(&[&[tag][..], &body].concat());
        }
    }

    /// A string's constant: the one that there is, or another.
    fn string(&mut self, random: &mut Random, string: &[u8]) -> u16 {
        self.filler(random);
        if let Some((_, index)) = self.strings.iter().find(|(other, _)| other == string)
            && random.chance(60)
        {
            return *index;
        }
        let index = self.add(&[&[1][..], &(string.len() as u16).to_be_bytes(), string].concat());
        self.strings.push((string.to_vec(), index));
        index
    }

    /// The index, or, where it is spoiled, another: outside, at any constant, at a second place.
    fn reference(&self, random: &mut Random, right: u16) -> [u8; 2] {
        let wrong = match random.below(8) {
            _ if !random.chance(self.wrong) => right,
            0 => 0,
            1 => self.next,
            2 => u16::MAX,
            3 => right.wrapping_sub(1),
            4 => right.wrapping_add(1),
            5 => self.second,
            _ => random.below(u32::from(self.next)) as u16,
        };
        wrong.to_be_bytes()
    }

    fn class(&mut self, random: &mut Random, name: &[u8]) -> u16 {
        let name = self.string(random, name);
        let name = self.reference(random, name);
        self.filler(random);
        self.add(&[7, name[0], name[1]])
    }

    /// A name, or, where it is spoiled, one that row 4 refuses.
    fn name(&self, random: &mut Random) -> Vec<u8> {
        let letters = |random: &mut Random, length| (0..length).map(|_| random.pick(b"abAB/$<>!~")).collect::<Vec<u8>>();
        if random.chance(self.wrong) {
            let length = random.below(4);
            let mut name = letters(random, length);
            match random.below(4) {
                0 => name.clear(),
                1 => name = letters(random, 256),
                _ => name.push(random.pick(&[0, 0x20, 0x7F, 0x80, 0xEB, 0xFF])),
            }
            return name;
        }
        match random.below(50) {
            0 => letters(random, 255),
            1..3 => b"I".to_vec(), // as a descriptor, with which it shares a constant
            _ => {
                let length = random.between(1, 6);
                letters(random, length)
            }
        }
    }

    /// A descriptor, or, where it is spoiled, one that row 4 or 5 refuses.
    fn descriptor(&self, random: &mut Random, is_field: bool) -> Vec<u8> {
        const TYPES: [&str; 8] = ["I", "J", "[D", "La;", "Ljava/lang/String;", "Z", "[[La/b;", "D"];
        let mut descriptor = if is_field { String::new() } else { "(".to_owned() };
        if !is_field && random.chance(3) {
            // near 255 argument words
            descriptor += &"J".repeat(126);
            descriptor += &"I".repeat(random.between(0, 4) as usize);
            descriptor += ")";
        } else if !is_field {
            (0..random.below(4)).for_each(|_| descriptor += random.pick(&TYPES));
            descriptor += ")";
        }
        descriptor += if !is_field && random.chance(50) { "V" } else { random.pick(&TYPES) };
        let mut descriptor = descriptor.into_bytes();
        if random.chance(self.wrong) {
            let at = random.below(descriptor.len() as u32) as usize;
            match random.below(4) {
                0 => drop(descriptor.remove(at)),
                1 => descriptor[at] = random.pick(b"V()L;[.i\x80 "),
                2 => descriptor.insert(at, random.pick(b"V()L;[I")),
                _ => descriptor.clear(),
            }
        }
        descriptor
    }

    /// A few attributes, whose names lead nowhere; where one is spoiled, of another length than it says.
    fn attributes(&self, random: &mut Random) -> Vec<u8> {
        let count = if random.chance(40) { random.between(1, 2) } else { 0 };
        let mut bytes = (count as u16).to_be_bytes().to_vec();
        for _ in 0..count {
            let length = random.below(6);
            let wrong = [length + 1, length + 65_536, 70_000, u32::MAX];
            let told = if random.chance(self.wrong) { random.pick(&wrong) } else { length };
            bytes.extend_from_slice(&(random.word() as u16).to_be_bytes());
            bytes.extend_from_slice(&told.to_be_bytes());
            bytes.extend((0..length).map(|_| random.word() as u8));
        }
        bytes
    }

    /// Flags, name, descriptor, attributes; a method's flags are spoiled by a bit.
    fn member(&mut self, random: &mut Random, is_field: bool) -> Vec<u8> {
        let (name, descriptor) = (self.name(random), self.descriptor(random, is_field));
        let (name, descriptor) = (self.string(random, &name), self.string(random, &descriptor));
        let (name, descriptor) = (self.reference(random, name), self.reference(random, descriptor));
        let flags = match random.chance(self.wrong) {
            false => random.word() as u16 & 0x1DFF,
            true => 1 << random.below(16),
        };
        [&flags.to_be_bytes()[..], &name, &descriptor, &self.attributes(random)].concat()
    }
}

/// A file, and a call of it.
pub fn random(random: &mut Random) -> FileCall {
    let wrong = random.pick(&[0, 0, 0, 4, 8, 20]);
    let mut draft = Draft { pool: Vec::new(), next: 1, second: 0, strings: Vec::new(), wrong };
    if random.below(20) == 0 {
        // a pool of more constants than one looks through at a time
        (0..random.between(60, 600)).for_each(|_| draft.filler(random));
    }
    let body = if random.below(100) == 0 { large_body(random, &mut draft) } else { body(random, &mut draft) };
    let mut bytes = vec![0xCA, 0xFE, 0xBA, 0xBE];
    bytes.extend_from_slice(&random.pick(&[0, 0, 3, 1, u16::MAX]).to_be_bytes());
    let is_wrong = random.chance(wrong / 4);
    let major = if is_wrong { random.pick(&[44, 49, 0x2D00, 0]) } else { random.between(45, 48) as u16 };
    bytes.extend_from_slice(&major.to_be_bytes());
    if random.chance(wrong / 3) {
        // A Long or Double at the last place, its body there or not.
        draft.pool.push(random.pick(&[5, 6]));
        draft.pool.resize(draft.pool.len() + random.pick(&[0, 8]), 0);
        draft.next += 1;
    }
    let other = [0, 1, draft.next - 1, draft.next + 1];
    let count = if random.chance(wrong / 4) { random.pick(&other) } else { draft.next };
    bytes.extend_from_slice(&count.to_be_bytes());
    bytes.extend_from_slice(&draft.pool);
    bytes.extend_from_slice(&body);
    if random.chance(wrong / 2) {
        // cut in the class or right after it
        bytes.truncate(10 + draft.pool.len() + random.below(9) as usize);
    } else if wrong > 0 {
        damage(random, &mut bytes);
    }
    lend(random, bytes)
}

/// What follows the pool.
fn body(random: &mut Random, draft: &mut Draft) -> Vec<u8> {
    let name = draft.name(random);
    let this = draft.class(random, &name);
    let parent_name = if random.chance(10) { name } else { draft.name(random) };
    let parent = if random.chance(20) { 0 } else { draft.class(random, &parent_name) };
    let mut body = (random.word() as u16).to_be_bytes().to_vec();
    let references = [draft.reference(random, this), draft.reference(random, parent)];
    body.extend(references.as_flattened());
    let interfaces = random.pick(&[0, 0, 1, 3]);
    body.extend_from_slice(&(interfaces as u16).to_be_bytes());
    body.extend((0..2 * interfaces).map(|_| random.word() as u8));
    for is_field in [true, false] {
        let count = random.pick(&[0, 1, 1, 2, 4]);
        body.extend_from_slice(&(count as u16).to_be_bytes());
        (0..count).for_each(|_| body.extend(draft.member(random, is_field)));
    }
    body.extend(draft.attributes(random));
    body
}

/// The same near a limit: 511 to 514 members of a kind, or a text of about 8,192 bytes; now and then the last member is
/// wrong.
fn large_body(random: &mut Random, draft: &mut Draft) -> Vec<u8> {
    draft.wrong = 0;
    let this = draft.class(random, b"A");
    let (name, field, method) = (draft.string(random, b"m"), draft.string(random, b"I"), draft.string(random, b"()V"));
    let mut body = [[0, 0x21], this.to_be_bytes(), [0, 0], [0, 0]].concat();
    let member = |name: u16, descriptor: u16| [[0, 1], name.to_be_bytes(), descriptor.to_be_bytes(), [0, 0]].concat();
    let (mut fields, mut methods): (Vec<_>, Vec<_>) = match random.below(3) {
        0 => (vec![member(name, field); random.between(511, 514) as usize], Vec::new()),
        1 => (Vec::new(), vec![member(name, method); random.between(511, 514) as usize]),
        _ => {
            // The class's name, 31 fields of 256 bytes each, and one of 254 to 256.
            let long = draft.string(random, &[b'n'; 255]);
            let rest = vec![b'o'; random.between(253, 255) as usize];
            let rest = draft.string(random, &rest);
            (vec![member(long, field); 31].into_iter().chain([member(rest, field)]).collect(), Vec::new())
        }
    };
    if let (Some(last), true) = (methods.last_mut().or(fields.last_mut()), random.chance(30)) {
        *last = member(name, random.pick(&[name, this, 0]));
    }
    for members in [fields, methods] {
        body.extend_from_slice(&(members.len() as u16).to_be_bytes());
        body.extend(members.concat());
    }
    body.extend([0, 0]);
    body
}

/// Cuts the file, adds to it, or changes a byte, most often near the front.
fn damage(random: &mut Random, bytes: &mut Vec<u8>) {
    let length = bytes.len() as u32;
    match random.below(8) {
        0 => bytes.truncate(random.below(length) as usize),
        1 => bytes.truncate(random.below(length.min(12)) as usize),
        2 => bytes.extend(vec![random.word() as u8; random.between(1, 3) as usize]),
        3 => {
            let near = random.pick(&[8, 40, length]).min(length);
            bytes[random.below(near) as usize] = random.word() as u8;
        }
        _ => {}
    }
}

/// Lists that hold what the file asks for, exactly or with words to spare, or a word short, or of any length; one
/// target for each method or another number.
pub fn lend(random: &mut Random, bytes: Vec<u8>) -> FileCall {
    let needs = read(&bytes).map_or([2, 6, 6, 3], |file| {
        let laid = file.laid(&[]);
        [file.methods.len(), laid.fields.len(), laid.methods.len(), laid.text.len().div_ceil(4)]
    });
    let spare = random.below(4);
    let [targets, fields, methods, text] = needs.map(|needed| match random.below(40) {
        0 => needed.saturating_sub(1),
        1 => random.below(needed as u32 + 1) as usize,
        _ if spare == 0 => needed,
        _ => needed + random.below(3 * spare) as usize,
    });
    let targets = match random.below(30) {
        0 => targets,
        1 => needs[0] + 1,
        2 => needs[0].saturating_sub(1),
        _ => needs[0],
    };
    FileCall { bytes, targets: (0..targets).map(|_| random.word()).collect(), fields, methods, text }
}

/// Reads a file on both sides, with lists and without. Answers the first disagreement.
pub fn compare(oracle: &mut Oracle, other: &mut dyn Linker, file: &FileCall, counts: &mut ReadingCounts) -> Result<(), String> {
    observe(file, judge(oracle, other, file)?, counts);
    Ok(())
}

/// Counts a class file that was answered so.
pub(crate) fn observe(file: &FileCall, answer: FileAnswer, counts: &mut ReadingCounts) {
    let FileCall { bytes, targets, fields, methods, text } = file;
    if let Err((_, bucket)) = call(bytes, targets, &mut lent(*fields, 0), &mut lent(*methods, 1), &mut lent(*text, 2)) {
        counts.hit(bucket);
        if head(bytes).is_ok() {
            counts.hit("file: read without lists alone");
        }
        return;
    }
    let [_, _, _, field_count, method_count, text_bytes] = answer.words;
    let read = read(bytes).expect("it is accepted");
    let members = read.fields.iter().chain(&read.methods);
    let mut strings: Vec<&[u8]> = members.flat_map(|member| [member.1, member.2]).collect();
    let longest = strings.iter().map(|string| string.len()).max();
    let string_count = strings.len();
    strings.sort_unstable();
    strings.dedup();
    let used = [6 * field_count, 6 * method_count, text_bytes.div_ceil(4)].map(|words| words as usize);
    let spare = [*fields - used[0], *methods - used[1], *text - used[2]];
    const BY_LENGTH: [&str; 4] = [
        "file: read, a text of 4k bytes",
        "file: read, a text of 4k and 1 bytes",
        "file: read, a text of 4k and 2 bytes",
        "file: read, a text of 4k and 3 bytes",
    ];
    for (bucket, reached) in [
        ("file: read", true),
        (BY_LENGTH[text_bytes as usize % 4], true),
        ("file: read, no parent", read.parent.is_none()),
        ("file: read, no members", strings.is_empty()),
        ("file: read, fields and methods", field_count > 0 && method_count > 0),
        ("file: read, one string twice", strings.len() < string_count),
        ("file: read, a Long or Double", matches!(bytes[10], 5 | 6)),
        ("file: read, a minor version", bytes[4..6] != [0, 0]),
        ("file: read, major version 45", bytes[7] == 45),
        ("file: read, major version 48", bytes[7] == 48),
        ("file: read, 512 fields", field_count == 512),
        ("file: read, 512 methods", method_count == 512),
        ("file: read, 8,192 text bytes", text_bytes == 8192),
        ("file: read, a string of 255 bytes", longest == Some(255)),
        ("file: read, every list full", spare == [0; 3]),
        ("file: read, words after every list", spare.iter().all(|&words| words > 0)),
    ] {
        if reached {
            counts.hit(bucket);
        }
    }
}

/// The answer with lists on which both sides agree, as they do on the lists and on the answer without them. A refused
/// call leaves the lists.
pub fn judge(oracle: &mut Oracle, other: &mut dyn Linker, file: &FileCall) -> Result<FileAnswer, String> {
    let FileCall { bytes, targets, fields, methods, text } = file;
    let before = [lent(*fields, 0), lent(*methods, 1), lent(*text, 2)];
    let mut sides = [before.clone(), before.clone()];
    let made = |side: &mut dyn Linker, lists: &mut [Vec<u32>; 3]| {
        let [fields, methods, text] = lists;
        [side.read_class_file(bytes, targets, fields, methods, text), side.class_file_head(bytes)]
    };
    let answers = [made(oracle, &mut sides[0]), made(other, &mut sides[1])];
    if answers[0] != answers[1] || sides[0] != sides[1] || (answers[0][0].refusal != 0 && sides[0] != before) {
        return Err(format!(
            "a class file: oracle {:?}, other {:?}; lists equal: {}\n\
             {} targets, lists of {fields}, {methods} and {text} words, bytes {:02X?}",
            answers[0],
            answers[1],
            sides[0] == sides[1],
            targets.len(),
            bytes
        ));
    }
    Ok(answers[0][0])
}
