//! Row 5's limit of 255 argument words: each method by its own flags, an ABI slot as an instance method; methods that a link adds stay within.

use super::assemble::*;
use super::{Lent, Row, lent, link, row};
use crate::generate::{AbiClassDraft, ClassDraft, MemberDraft, of_words};
use crate::sheet::{Set, class_word};

fn long(flags: u32, words: u32, target: u32) -> MemberDraft {
    described(flags, "k", &of_words(words), target)
}

/// The refusal of a link of the one class, or its slots.
fn one(name: &'static str, class: ClassDraft, answer: Result<u32, u32>) -> Row {
    row(name, lent(&[class], &[]), &[link(1)]).answers(&[answer.map_or_else(|refusal| (refusal, 0, 0), |slots| (0, 1, slots))])
}

fn method_of(flags: u32, words: u32) -> ClassDraft {
    built("C", 0, &[long(flags, words, 5)], &[])
}

/// An entry that fixes k, of so many parameter words.
fn fixing_words(class: &str, words: u32, index: u32) -> AbiClassDraft {
    abi(class, &[fixed("k", &of_words(words), index)], &[])
}

/// With the class set changed.
fn changed(lent: Lent, change: impl Fn(&mut Set)) -> Lent {
    let mut set = Set::decode(&lent.set).expect("the class words have their sections");
    change(&mut set);
    Lent { set: set.encode(), ..lent }
}

/// Two methods that share one descriptor part of 255 words, with their flags.
fn shared(first: u32, second: u32) -> Lent {
    let class = built("C", 0, &[long(first, 255, 5), described(second, "j", "()V", 6)], &[]);
    changed(lent(&[class], &[]), |set| set.methods[1].descriptor = set.methods[0].descriptor)
}

pub fn rows() -> Vec<Row> {
    let unowned = |flags| changed(lent(&[method_of(flags, 255)], &[]), |set| set.class_mut(1).0[class_word::METHODS + 1] = 0);
    // k, static, of 255 words, which a slot of P makes known; Q's slot takes its signature
    let made_known = [compiled("P", 0, &[long(9, 255, 5)], &[5]), compiled("Q", 1, &[], &[8]), plain("C", 0)];
    let by_slot = |words| lent(&[compiled("K", 0, &[], &[11]), plain("C", 0)], &[fixing_words("K", words, 0)]).spare(60);
    vec![
        one("static-255-words", method_of(9, 255), Ok(0)),
        one("static-abstract-255-words", method_of(0x0409, 255), Ok(0)),
        one("static-256-words", method_of(9, 256), Err(5)),
        one("instance-254-words", method_of(1, 253), Ok(1)),
        one("instance-255-words", method_of(1, 254), Ok(1)),
        one("instance-256-words", method_of(1, 255), Err(5)),
        one("constructor-256-words", built("C", 0, &[described(1, "<init>", &of_words(255), 5)], &[]), Err(5)),
        // a record in no list is judged by its own flags too
        row("unowned-256-words", unowned(1), &[link(1)]).answers(&[(5, 0, 0)]),
        row("unowned-static-255-words", unowned(9), &[link(1)]).answers(&[(0, 1, 0)]),
        // one descriptor part of two methods, in either order
        row("shared-static-instance", shared(9, 1), &[link(1)]).answers(&[(5, 0, 0)]),
        row("shared-instance-static", shared(1, 9), &[link(1)]).answers(&[(5, 0, 0)]),
        row("shared-static-static", shared(9, 9), &[link(1)]).answers(&[(0, 1, 0)]),
        // an ABI slot's fifth word is its index, not flags
        row("slot-256-words", lent(&[plain("C", 0)], &[fixing_words("D", 255, 0)]), &[link(1)]).answers(&[(5, 0, 0)]),
        row("slot-256-words-at-8", lent(&[plain("C", 0)], &[fixing_words("D", 255, 8)]), &[link(1)]).answers(&[(5, 0, 0)]),
        row("slot-255-words", lent(&[plain("C", 0)], &[fixing_words("D", 254, 8)]), &[link(1)]).answers(&[(0, 1, 0)]),
        // what a link adds stays within: from a view's method it keeps 0x0008, from an ABI slot it is an instance method
        row("added-static-255-words", lent(&made_known, &[]).spare(60), &[link(1), link(2), link(3)])
            .answers(&[(0, 1, 1), (0, 4, 1), (0, 7, 0)])
            .methods(2, &[("k", 9, 8)]),
        row("added-255-words", by_slot(254), &[link(1), link(2)]).answers(&[(0, 1, 1), (0, 4, 0)]).methods(1, &[("k", 1, 11)]),
        row("not-added-256-words", by_slot(255), &[link(1), link(2)]).answers(&[(5, 0, 0), (5, 0, 0)]),
    ]
}
