//! Makes a failing case small: whatever can go without the failure going, goes.

use crate::case::{Call, Case};
use crate::oracle::numbers;
use crate::sheet::{Abi, MemberRecord, Set, class_word};

/// The smallest case found for which `fails` still holds.
pub fn shrink(mut case: Case, fails: &mut dyn FnMut(&Case) -> bool) -> Case {
    loop {
        let size = weight(&case);
        for step in [calls, classes, members, abi_records, class_words, stubs, area, numbers, missing, slack] {
            step(&mut case, fails);
        }
        if weight(&case) >= size {
            return case;
        }
    }
}

fn weight(case: &Case) -> usize {
    let stubs: usize = case.stubs.iter().map(Vec::len).sum();
    let nonzero = |words: &[u32]| words.iter().filter(|&&word| word != 0).count();
    let lists = [&case.set, &case.numbers, &case.area, &case.missing];
    let lengths: usize = lists.iter().map(|list| list.len()).sum();
    lengths + case.abi.len() + stubs + 4 * case.calls.len() + lists.iter().map(|list| nonzero(list)).sum::<usize>()
}

type Fails<'a> = &'a mut dyn FnMut(&Case) -> bool;

/// Takes the smaller case, if there is one and it still fails; says whether.
fn keep(case: &mut Case, smaller: impl Into<Option<Case>>, fails: Fails) -> bool {
    let smaller = smaller.into().filter(|smaller| smaller != case && fails(smaller));
    let kept = smaller.is_some();
    if let Some(smaller) = smaller {
        *case = smaller;
    }
    kept
}

fn calls(case: &mut Case, fails: Fails) {
    let mut at = case.calls.len();
    while at > 0 {
        at -= 1;
        let mut smaller = case.clone();
        smaller.calls.remove(at);
        keep(case, smaller, fails);
    }
}

/// The case with its set changed; the words after the content stay.
fn with_set(case: &Case, change: impl FnOnce(&mut Set)) -> Option<Case> {
    let mut set = Set::decode(&case.set)?;
    let mut smaller = case.clone();
    let slack = smaller.set.split_off(set.content());
    change(&mut set);
    smaller.set = set.encode();
    smaller.set.extend(slack);
    Some(smaller)
}

fn with_abi(case: &Case, change: impl FnOnce(&mut Abi)) -> Option<Case> {
    let mut abi = Abi::decode(&case.abi)?;
    change(&mut abi);
    Some(Case { abi: abi.encode(), ..case.clone() })
}

fn classes(case: &mut Case, fails: Fails) {
    let count = Set::decode(&case.set).map_or(0, |set| set.classes.len());
    for number in (1..=count as u32).rev() {
        if let Some(mut smaller) = with_set(case, |set| remove_class(set, number)) {
            smaller.calls = smaller.calls.iter().filter_map(|call| renumber_call(*call, number)).collect();
            keep(case, smaller, fails);
        }
    }
}

/// A class number after class `removed` went; none if it is the one.
fn renumber(number: u32, removed: u32) -> Option<u32> {
    (number != removed).then_some(number - u32::from(number > removed))
}

fn renumber_call(call: Call, removed: u32) -> Option<Call> {
    Some(match call {
        Call::Link { class, stubs } => Call::Link { class: renumber(class, removed)?, stubs },
        Call::Ask { class, interface, stubs } => {
            Call::Ask { class: renumber(class, removed)?, interface: renumber(interface, removed)?, stubs }
        }
        Call::Missing { class } => Call::Missing { class: renumber(class, removed)? },
        Call::Fill => Call::Fill,
    })
}

fn remove_class(set: &mut Set, number: u32) {
    let removed = set.classes.remove(number as usize - 1);
    let heir = removed.get(class_word::PARENT);
    for class in &mut set.classes {
        let parent = &mut class.0[class_word::PARENT];
        *parent = renumber(*parent, number).unwrap_or(heir);
    }
    for word in &mut set.interfaces {
        *word = renumber(*word, number).unwrap_or(1);
    }
}

fn members(case: &mut Case, fails: Fails) {
    member_section(case, fails, class_word::METHODS, |set| &mut set.methods);
    member_section(case, fails, class_word::FIELDS, |set| &mut set.fields);
}

fn member_section(case: &mut Case, fails: Fails, word: usize, section: fn(&mut Set) -> &mut Vec<MemberRecord>) {
    let count = Set::decode(&case.set).map_or(0, |mut set| section(&mut set).len());
    for at in (0..count).rev() {
        let smaller = with_set(case, |set| {
            section(set).remove(at);
            set.classes.iter_mut().for_each(|class| close_gap(&mut class.0, word, at as u32));
        });
        let is_method = word == class_word::METHODS;
        keep(case, smaller.map(|smaller| if is_method { without_number(smaller, at, 512) } else { smaller }), fails);
    }
}

/// The case without the number at a place; those after it, up to an end, move down.
fn without_number(mut case: Case, place: usize, end: usize) -> Case {
    if case.numbers.len() >= end {
        case.numbers[place..end].rotate_left(1);
        case.numbers[end - 1] = 0;
    }
    case
}

/// A list's first and count after record `at` of its section went.
fn close_gap(words: &mut [u32], word: usize, at: u32) {
    let (first, count) = (words[word], words[word + 1]);
    if first > at {
        words[word] -= 1;
    } else if at < first.saturating_add(count) {
        words[word + 1] -= 1;
    }
}

fn abi_records(case: &mut Case, fails: Fails) {
    let counts = Abi::decode(&case.abi).map_or((0, 0, 0), |abi| (abi.classes.len(), abi.slots.len(), abi.fields.len()));
    for at in (0..counts.0).rev() {
        let smaller = with_abi(case, |abi| {
            abi.classes.remove(at);
        });
        keep(case, smaller, fails);
    }
    for at in (0..counts.1).rev() {
        let smaller = with_abi(case, |abi| {
            abi.slots.remove(at);
            abi.classes.iter_mut().for_each(|class| shift(&mut class.slots, at as u32));
        });
        keep(case, smaller.map(|smaller| without_number(smaller, 512 + at, numbers::WORDS)), fails);
    }
    for at in (0..counts.2).rev() {
        let smaller = with_abi(case, |abi| {
            abi.fields.remove(at);
            abi.classes.iter_mut().for_each(|class| shift(&mut class.fields, at as u32));
        });
        keep(case, smaller, fails);
    }
}

fn shift(list: &mut (u32, u32), at: u32) {
    if list.0 > at {
        list.0 -= 1;
    } else if at < list.0.saturating_add(list.1) {
        list.1 -= 1;
    }
}

/// Plainer words in class and member records, and no compiler or interface words.
fn class_words(case: &mut Case, fails: Fails) {
    let count = Set::decode(&case.set).map_or(0, |set| set.classes.len());
    for at in 0..count {
        for word in [class_word::FLAGS, class_word::KIND, class_word::LINK_STATE, class_word::INSTANCE_WORDS, class_word::PARENT] {
            let smaller = with_set(case, |set| set.classes[at].0[word] = 0);
            keep(case, smaller, fails);
        }
        let smaller = with_set(case, |set| set.classes[at].0[class_word::INTERFACES..][..2].fill(0));
        keep(case, smaller, fails);
        let smaller = with_set(case, |set| set.classes[at].0[class_word::COMPILER..][..2].fill(0));
        keep(case, smaller, fails);
        let fewer = with_set(case, |set| {
            let slots = &mut set.classes[at].0[class_word::COMPILER + 1];
            *slots = slots.saturating_sub(1);
        });
        keep(case, fewer, fails);
    }
    let smaller = with_set(case, |set| set.interfaces.clear());
    keep(case, smaller, fails);
    let smaller = with_set(case, |set| set.compiler.clear());
    keep(case, smaller, fails);
    let compact = with_set(case, compact_text);
    keep(case, compact, fails);
}

/// Lays the text out anew with only the parts in use.
fn compact_text(set: &mut Set) {
    let old = std::mem::take(&mut set.text);
    let mut text: Vec<u8> = Vec::new();
    let mut moved = |part: (u32, u32)| -> (u32, u32) {
        let Some(bytes) = old.get(part.0 as usize..).and_then(|tail| tail.get(..part.1 as usize)) else { return part };
        let known = text.windows(bytes.len().max(1)).position(|window| window == bytes);
        let start = known.unwrap_or_else(|| {
            text.extend_from_slice(bytes);
            text.len() - bytes.len()
        });
        (start as u32, part.1)
    };
    for class in &mut set.classes {
        (class.0[0], class.0[1]) = moved((class.0[0], class.0[1]));
    }
    for member in set.methods.iter_mut().chain(&mut set.fields) {
        member.name = moved(member.name);
        member.descriptor = moved(member.descriptor);
    }
    set.text = text;
}

fn stubs(case: &mut Case, fails: Fails) {
    for at in 0..case.stubs.len() {
        for length in [0, 1, 2, 4, 8, 16, 64] {
            let mut smaller = case.clone();
            smaller.stubs[at].truncate(length);
            if keep(case, smaller, fails) {
                break;
            }
        }
    }
}

fn area(case: &mut Case, fails: Fails) {
    for length in [0, 1, 2, 4, 8, 16, 32, 64, 128, 256] {
        let mut smaller = case.clone();
        smaller.area.truncate(length);
        if keep(case, smaller, fails) {
            break;
        }
    }
    let mut zeroed = case.clone();
    zeroed.area.iter_mut().skip(1).for_each(|word| *word = 0);
    keep(case, zeroed, fails);
}

fn numbers(case: &mut Case, fails: Fails) {
    let mut smaller = case.clone();
    smaller.numbers.truncate(numbers::WORDS);
    keep(case, smaller, fails);
    let mut zeroed = case.clone();
    zeroed.numbers.fill(0);
    keep(case, zeroed, fails);
    for at in (0..case.numbers.len()).filter(|&at| case.numbers[at] != 0).collect::<Vec<_>>() {
        let mut zeroed = case.clone();
        zeroed.numbers[at] = 0;
        keep(case, zeroed, fails);
    }
}

fn missing(case: &mut Case, fails: Fails) {
    let classes = Set::decode(&case.set).map_or(0, |set| set.classes.len());
    for length in [0, 33 * classes] {
        let mut smaller = case.clone();
        smaller.missing.truncate(length);
        if keep(case, smaller, fails) {
            break;
        }
    }
    let mut zeroed = case.clone();
    zeroed.missing.fill(0);
    keep(case, zeroed, fails);
}

fn slack(case: &mut Case, fails: Fails) {
    let Some(set) = Set::decode(&case.set) else { return };
    let mut smaller = case.clone();
    smaller.set.truncate(set.content());
    keep(case, smaller, fails);
    let Some(abi) = Abi::decode(&case.abi) else { return };
    let smaller = Case { abi: abi.encode(), ..case.clone() };
    keep(case, smaller, fails);
}
