//! The list of missing slots of a case, and questions for counts among its calls. They have a generator of their own, so that they move
//! nothing else of a case.

use crate::case::{Call, Case};
use crate::random::Random;

/// The list's words of a class.
const WORDS: u32 = 33;
const MOST_CLASSES: u32 = 64;

pub fn fill(random: &mut Random, case: &mut Case) {
    let classes = case.set.first().copied().unwrap_or_default().min(MOST_CLASSES);
    case.missing = list(random, classes);
    for _ in 0..random.below(4) {
        let at = random.below(case.calls.len() as u32 + 1) as usize;
        let class = match random.below(100) {
            0..2 => 0,
            2..4 => classes + 1,
            4..5 => random.word(),
            _ => random.between(1, classes.max(1)),
        };
        case.calls.insert(at, Call::Missing { class });
    }
}

/// A list with whatever in it, mostly as long as it must be or longer.
fn list(random: &mut Random, classes: u32) -> Vec<u32> {
    let least = WORDS * classes;
    let length = match random.below(100) {
        0..2 => least.saturating_sub(1),
        2..3 => least.saturating_sub(WORDS),
        3..4 => random.below(least + 1),
        4..5 => 0,
        5..12 => least + random.between(1, WORDS),
        12..15 => WORDS * MOST_CLASSES,
        _ => least,
    };
    let kind = random.below(100);
    let first = random.word();
    let word = |place: u32| match kind {
        0..70 => 0,
        70..78 => u32::MAX,
        78..86 => 7,
        86..98 => first.wrapping_mul(place + 1),
        _ => random.word(),
    };
    (0..length).map(word).collect()
}
