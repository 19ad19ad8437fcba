//! The seeded generator of cases.

mod clashing;
mod draft;
mod kept;
mod members;
mod memory;
mod missing;
mod numbers;
mod packages;
mod spoil;
mod spoilers;
mod statics;
mod themes;

use crate::case::Case;
use crate::random::Random;

pub use draft::{AbiClassDraft, AbiMemberDraft, ClassDraft, Draft, MemberDraft, Shape};
pub use members::{FIRST_STUB, of_words};
pub use numbers::KINDS as NUMBERS;
pub use spoil::spoil_names;

/// Case `number` of the run with `seed`.
pub fn case(seed: u64, number: u64) -> Case {
    let mut random = Random::for_case(seed, number);
    let mut case = themes::case(&mut random);
    statics::fill(&mut Random::for_case(seed.rotate_left(32), number), &mut case);
    if random.chance(14) {
        spoil::spoil(&mut random, &mut case);
    }
    missing::fill(&mut Random::for_case(seed.rotate_left(8), number), &mut case);
    numbers::fill(&mut Random::for_case(seed.rotate_left(12), number), &mut case);
    case
}

/// Case `number` of the run with `seed` of the lists in which two inherited signatures have one fixed index.
pub fn clashing(seed: u64, number: u64) -> Case {
    clashing::case(&mut Random::for_case(seed.rotate_left(40), number))
}

/// Case `number` of the run with `seed` of the lists for kept interface tables.
pub fn kept(seed: u64, number: u64) -> Case {
    kept::case(&mut Random::for_case(seed.rotate_left(20), number))
}

/// Case `number` of the run with `seed` of those whose list of numbers is any, and what the list is.
pub fn numbered(seed: u64, number: u64) -> (Case, &'static str) {
    let random = &mut Random::for_case(seed.rotate_left(36), number);
    let of = |number: u64| match number % 8 {
        0..4 => case(seed, number),
        4..6 => kept(seed, number),
        6 => clashing(seed, number),
        _ => packages(seed, number),
    };
    let (mut case, other) = (of(number), of(number + 8));
    let kind = numbers::any(random, &mut case, &other);
    (case, kind)
}

/// Case `number` of the run with `seed` of the cases of kind 3, which the Rust does not judge.
pub fn packages(seed: u64, number: u64) -> Case {
    let mut case = packages::case(&mut Random::for_case(seed.rotate_left(16), number));
    statics::fill(&mut Random::for_case(seed.rotate_left(48), number), &mut case);
    missing::fill(&mut Random::for_case(seed.rotate_left(24), number), &mut case);
    numbers::fill(&mut Random::for_case(seed.rotate_left(28), number), &mut case);
    case
}
