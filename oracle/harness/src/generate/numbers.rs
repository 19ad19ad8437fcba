//! The list of the signatures' numbers of a case, and the calls that fill it: one before all others, and now and then another later. They have
//! a generator of their own, so that they move nothing else of a case.

use crate::case::{Call, Case};
use crate::oracle::numbers::{WORDS, filling_of, used_places};
use crate::random::Random;
use crate::sheet::Set;

pub fn fill(random: &mut Random, case: &mut Case) {
    case.numbers = unfilled(random, case);
    if random.chance(15) {
        let at = random.below(case.calls.len() as u32 + 1) as usize;
        case.calls.insert(at, Call::Fill);
    }
    case.calls.insert(0, Call::Fill);
}

/// Gives two methods signatures that differ, though name and descriptor in a row are the same bytes: they lie on each other in the text.
fn join(random: &mut Random, case: &mut Case) {
    const JOINED: &[u8] = b"f()La(B)Lb;";
    let Some(mut set) = Set::decode(&case.set).filter(|set| set.methods.len() > 1 && set.text.len() + JOINED.len() <= 8192) else { return };
    let (start, slack) = (set.text.len() as u32, case.set.split_off(set.content()));
    set.text.extend_from_slice(JOINED);
    for split in [1, 5] {
        let method = random.below(set.methods.len() as u32) as usize;
        (set.methods[method].name, set.methods[method].descriptor) = ((start, split), (start + split, JOINED.len() as u32 - split));
    }
    case.set = [set.encode(), slack].concat();
}

/// A list with whatever in it, mostly a filled one with a few words changed, and mostly as long as it must be.
fn unfilled(random: &mut Random, case: &Case) -> Vec<u32> {
    let kind = random.below(100);
    let mut numbers = match kind {
        0..60 => filling_of(&case.set, &case.abi),
        60..94 => vec![0; WORDS],
        94..97 => vec![7; WORDS],
        _ => (0..WORDS).map(|_| random.word()).collect(),
    };
    for _ in 0..random.below(4) {
        numbers[random.below(WORDS as u32) as usize] = random.pick(&[0, 7, u32::MAX]);
    }
    let length = match random.below(100) {
        0..2 => WORDS - 1,
        2..3 => random.below(WORDS as u32) as usize,
        3..10 => WORDS + random.between(1, 40) as usize,
        _ => WORDS,
    };
    numbers.resize(length, 7);
    numbers
}

/// What a list of any content is.
pub const KINDS: [&str; 7] = [
    "small numbers",
    "small numbers, names with `<` apart",
    "zeros",
    "the places themselves",
    "other sheets' numbers",
    "their sheets' numbers, one changed",
    "any words",
];

/// Gives a case a list of any content, and its kind; no call fills it but now and then one among the others, and where two methods have
/// signatures that are hard to tell apart.
pub fn any(random: &mut Random, case: &mut Case, other: &Case) -> &'static str {
    let kind = random.below(KINDS.len() as u32) as usize;
    let fills = random.chance(10);
    if fills {
        join(random, case);
    }
    let used = used_places(&case.set, &case.abi);
    let below = random.pick(&[1, 2, 3, 6]);
    let mut numbers: Vec<u32> = match kind {
        0 | 1 => (0..WORDS).map(|_| random.below(below)).collect(),
        2 => vec![0; WORDS],
        3 => (0..WORDS as u32).collect(),
        4 => filling_of(&other.set, &other.abi),
        5 => filling_of(&case.set, &case.abi),
        _ => (0..WORDS).map(|_| random.word()).collect(),
    };
    match kind {
        1 => used.iter().filter(|(_, is_angled)| *is_angled).for_each(|&(place, _)| numbers[place] += 100),
        5 if !used.is_empty() => numbers[random.pick(&used).0] = numbers[random.pick(&used).0],
        _ => {}
    }
    numbers.resize(random.pick(&[WORDS, WORDS, WORDS, WORDS, WORDS, WORDS, WORDS, WORDS + 2, WORDS + 2, WORDS - 1]), 7);
    case.numbers = numbers;
    case.calls.retain(|&call| call != Call::Fill);
    if fills {
        let at = random.below(case.calls.len() as u32 + 1) as usize;
        case.calls.insert(at, Call::Fill);
    }
    KINDS[kind]
}
