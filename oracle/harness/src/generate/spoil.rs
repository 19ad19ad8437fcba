//! Cases with one rule of rows 3 to 5 broken on purpose, or a limit just reached.

use crate::case::Case;
use crate::random::Random;
use crate::sheet::{Abi, Set};

use super::spoilers::SPOILERS;

/// What a spoiler changes; it says false if there is nothing to change.
pub enum Spoiler {
    Set(fn(&mut Random, &mut Set) -> bool),
    Abi(fn(&mut Random, &mut Abi) -> bool),
    SetWords(fn(&mut Random, &mut Vec<u32>) -> bool),
    AbiWords(fn(&mut Random, &mut Vec<u32>) -> bool),
}

use Spoiler::{Abi as OfAbi, AbiWords, Set as OfSet, SetWords};

/// The spoilers' names.
pub fn spoil_names() -> impl Iterator<Item = &'static str> {
    SPOILERS.iter().map(|(name, _)| *name)
}

/// Breaks one rule of the case, if it has something to break.
pub fn spoil(random: &mut Random, case: &mut Case) {
    let (name, spoiler) = &SPOILERS[random.below(SPOILERS.len() as u32) as usize];
    let done = match spoiler {
        SetWords(spoiler) => spoiler(random, &mut case.set),
        AbiWords(spoiler) => spoiler(random, &mut case.abi),
        OfSet(spoiler) => Set::decode(&case.set).is_some_and(|mut set| {
            let slack = case.set.split_off(set.content());
            let done = spoiler(random, &mut set);
            case.set = set.encode();
            case.set.extend(slack);
            done
        }),
        OfAbi(spoiler) => Abi::decode(&case.abi).is_some_and(|mut abi| {
            let done = spoiler(random, &mut abi);
            case.abi = abi.encode();
            done
        }),
    };
    if done {
        case.spoiled = Some(name);
        // A persistent machine could not know classes that a spoiler linked.
        case.rebuilds = true;
        if name.starts_with(['3', '4', '5']) {
            case.calls.truncate(4);
        }
    }
}
