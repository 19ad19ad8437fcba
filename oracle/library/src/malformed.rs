//! Malformed inputs: sheets, words, areas and lengths of any kind, by the seed.

use harness::case::{Call, Case};
use harness::class_files::{self, FileCall};
use harness::forms::{self, Conversion};
use harness::generate;
use harness::names::{self, Names};
use harness::orders::{self, Order};
use harness::random::Random;
use harness::readings::{self, Reading};
use harness::references::{self, Bitmap};
use harness::sheet::blocks;
use harness::writings::{self, Writing};

/// A word that a record or a count is likely to be tripped by.
fn odd_word(random: &mut Random, length: usize) -> u32 {
    match random.below(8) {
        0 => 0,
        1 => random.below(4),
        2 => random.below(64),
        3 => u32::MAX - random.below(3),
        4 => (length as u32).wrapping_add(random.below(5)).wrapping_sub(2),
        5 => random.pick(&[63, 64, 65, 255, 256, 511, 512, 513, 1023, 1024, 1025, 2048, 8191, 8192, 8193, 65535, 65536]),
        6 => 1 << random.below(32),
        _ => random.word(),
    }
}

/// A slice of small, large and random words behind a few plausible counts.
fn garbage(random: &mut Random, counts: usize, most: u32) -> Vec<u32> {
    let length = random.below(most) as usize;
    (0..length).map(|position| if position < counts && random.chance(90) { random.below(3) } else { odd_word(random, length) }).collect()
}

/// Changes words, often near the front where the counts and records are, or the length.
fn damage(random: &mut Random, words: &mut Vec<u32>, changes: u32) {
    for _ in 0..random.below(changes + 1) {
        let near = random.pick(&[8, 40, 200, u32::MAX]).min(words.len() as u32);
        let length = words.len();
        if let Some(word) = words.get_mut(random.below(near) as usize) {
            *word = odd_word(random, length);
        }
    }
    match random.below(40) {
        0 => words.clear(),
        1 => words.truncate(random.below(words.len() as u32 + 1) as usize),
        2 => words.truncate(words.len().saturating_sub(random.between(1, 4) as usize)),
        3 => words.resize(words.len() + random.below(300) as usize, 0),
        _ => {}
    }
}

fn call(random: &mut Random, lists: usize) -> Call {
    let class = if random.chance(90) { random.below(6) } else { odd_word(random, 64) };
    let interface = if random.chance(90) { random.below(6) } else { odd_word(random, 64) };
    let stubs = random.below(lists as u32) as usize;
    match random.below(12) {
        0..4 => Call::Link { class, stubs },
        4..8 => Call::Ask { class, interface, stubs },
        8..10 => Call::Missing { class },
        _ => Call::Fill,
    }
}

/// A list of numbers of any length with any words, mostly as long as it must be.
fn numbers(random: &mut Random) -> Vec<u32> {
    let length = random.pick(&[0, 1, 1023, 1024, 1024, 1024, 1024, 1025, 1100]);
    (0..length).map(|_| odd_word(random, length)).collect()
}

/// A list of calls on malformed memory.
pub fn case(seed: u64, number: u64) -> Case {
    let mut random = Random::for_case(!seed, number);
    let random = &mut random;
    if number.is_multiple_of(4) {
        let set = garbage(random, 6, 90);
        let abi = if random.chance(60) { vec![0; 4] } else { garbage(random, 4, 50) };
        let (area, stubs) = (garbage(random, 0, 30), vec![garbage(random, 0, 12)]);
        let calls = (0..4).map(|_| call(random, 1)).collect();
        let (numbers, missing) = (numbers(random), garbage(random, 0, 120));
        return Case { set, abi, numbers, area, missing, stubs, calls, rebuilds: true, spoiled: None };
    }
    let mut case = match number % 8 {
        5 => generate::packages(seed, number),
        6 => generate::numbered(seed, number).0,
        _ => generate::case(seed, number),
    };
    case.rebuilds = true;
    let changes = random.pick(&[1, 2, 8]);
    for words in [&mut case.set, &mut case.abi, &mut case.numbers, &mut case.area, &mut case.missing] {
        if random.chance(60) {
            damage(random, words, changes);
        }
    }
    for stubs in &mut case.stubs {
        damage(random, stubs, 1);
    }
    let lists = case.stubs.len();
    for made in &mut case.calls {
        if random.chance(10) {
            *made = call(random, lists);
        }
    }
    case
}

/// A malformed sheet to read: bytes of any kind, or words of any kind in blocks with true checks.
pub fn reading(random: &mut Random, case: &Case) -> Reading {
    let mut reading = readings::reading(random, case);
    damage_bytes(random, &mut reading.bytes, if reading.is_class_sheet { &case.set } else { &case.abi });
    if random.chance(30) {
        reading.lent = random.below(300) as usize;
    }
    reading
}

/// Makes a sheet's bytes malformed, or those of these words.
fn damage_bytes(random: &mut Random, bytes: &mut Vec<u8>, content: &[u32]) {
    match random.below(4) {
        0 => *bytes = (0..random.below(1600)).map(|_| random.word() as u8).collect(),
        1 => {
            let mut content = content.to_vec();
            damage(random, &mut content, 8);
            *bytes = blocks(&content);
        }
        2 => bytes.truncate(random.below(bytes.len() as u32 + 1) as usize),
        _ => {
            for _ in 0..random.below(4) {
                let at = random.below(bytes.len() as u32) as usize;
                if let Some(byte) = bytes.get_mut(at) {
                    *byte = random.word() as u8;
                }
            }
        }
    }
}

/// A sheet of any kind to convert, of either form, into any number of bytes.
pub fn conversion(random: &mut Random, case: &Case) -> Conversion {
    let mut conversion = forms::random(random, case);
    if random.chance(40) {
        damage_bytes(random, &mut conversion.bytes, &case.set);
    }
    match random.below(5) {
        0 => conversion.lent = random.below(1600) as usize,
        1 => conversion.lent = 0,
        _ => {}
    }
    conversion
}

/// Class words of any kind to write, into any number of bytes.
pub fn writing(random: &mut Random, case: &Case) -> Writing {
    let mut writing = writings::random(random, case);
    if random.chance(50) {
        damage(random, &mut writing.set, 4);
    }
    match random.below(5) {
        0 => writing.lent = random.below(1600) as usize,
        1 => writing.lent = 0,
        _ => {}
    }
    writing
}

/// Class words of any kind to renumber, with any number of list words.
pub fn order(random: &mut Random, case: &Case) -> Order {
    let mut order = orders::random(random, case);
    if random.chance(50) {
        damage(random, &mut order.set, 4);
    }
    match random.below(5) {
        0 => order.lent = random.below(70) as usize,
        1 => order.lent = 0,
        _ => {}
    }
    order
}

/// A bitmap of any length with any number of words: too few bytes, exactly those that are needed, more words than a class has.
pub fn bitmap(random: &mut Random) -> Bitmap {
    let mut bitmap = references::random(random);
    match random.below(6) {
        0 => bitmap.words = odd_word(random, 8 * bitmap.bytes.len()),
        1 => bitmap.bytes.clear(),
        2 => bitmap.lent = 0,
        3 if random.chance(3) => {
            bitmap.words = 65_534 + random.below(20);
            bitmap.bytes.resize(bitmap.words.div_ceil(8) as usize, 0xA1);
        }
        _ => {}
    }
    bitmap
}

/// Two names of any length: one or both of no bytes, both longer than a page.
pub fn names(random: &mut Random) -> Names {
    let mut names = names::random(random);
    match random.below(6) {
        0 => names.a.clear(),
        1 => names.b.clear(),
        2 if random.chance(10) => {
            let start = vec![random.word() as u8; random.between(4_000, 9_000) as usize];
            names = Names { a: [&start[..], &names.a].concat(), b: [&start[..], &names.b].concat() };
        }
        _ => {}
    }
    names
}

/// A class file with bytes of any kind, behind the eight that are asked for first or without them, or a drafted one
/// with bytes changed; lists and targets of any number.
pub fn class_file(random: &mut Random) -> FileCall {
    let mut file = class_files::random(random);
    match random.below(6) {
        0 => {
            const VERSION: &[u8] = b"\xCA\xFE\xBA\xBE\0\0\0\x30";
            const POOL_BEGUN: &[u8] = b"\xCA\xFE\xBA\xBE\0\x03\0\x2D\0\x05\x01\0\x01A\x07\0\x01";
            let front = random.pick(&[b"", VERSION, POOL_BEGUN]);
            let length = random.below(120);
            let letters = random.pick(&[3, 13, 256]);
            file.bytes = front.iter().copied().chain((0..length).map(|_| random.below(letters) as u8)).collect();
        }
        1..3 => {
            for _ in 0..random.between(1, 6) {
                let at = random.below(file.bytes.len() as u32) as usize;
                let any = random.word() as u8;
                if let Some(byte) = file.bytes.get_mut(at) {
                    *byte = random.pick(&[0, 1, 5, 6, 7, 0xFF, any]);
                }
            }
        }
        3 => file.bytes.truncate(random.below(file.bytes.len() as u32 + 1) as usize),
        _ => {}
    }
    match random.below(8) {
        0 => file.targets.resize(random.below(40) as usize, 7),
        1 => (file.fields, file.methods, file.text) = (0, 0, 0),
        2 => [file.fields, file.methods, file.text] = [40, 40, 20].map(|most| random.below(most) as usize),
        3 if random.chance(5) => file.targets.resize(random.between(1_000, 70_000) as usize, 7),
        _ => {}
    }
    file
}
