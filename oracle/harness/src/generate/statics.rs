//! The static words of a case's classes: a generated class's own, and words that a link overwrites. They have a generator of their own,
//! so that they move nothing else of a case.

use crate::case::Case;
use crate::random::Random;
use crate::sheet::{Set, class_word, class_word_at};

pub fn fill(random: &mut Random, case: &mut Case) {
    let Some(set) = Set::decode(&case.set) else { return };
    for (number, class) in (1..).zip(&set.classes) {
        let words = if class.get(class_word::KIND) == 1 { brought(random) } else { overwritten(random) };
        case.set[class_word_at(number, class_word::STATIC_WORDS)] = words;
    }
}

/// What a generated class brings: seldom more than the Rust is handed, 4,096.
fn brought(random: &mut Random) -> u32 {
    match random.below(20) {
        0..6 => 0,
        6..17 => random.below(12),
        17 => random.below(4097),
        18 => random.pick(&[4096, 4097, 1 << 30, 4_000_000_000]),
        _ => random.word(),
    }
}

/// What stands in a built or array class, linked or not: mostly 0, as a sheet has it before it is linked.
fn overwritten(random: &mut Random) -> u32 {
    if random.chance(80) { 0 } else { random.pick(&[1, 2, 7, 1024, u32::MAX]) }
}
