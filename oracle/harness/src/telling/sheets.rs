//! Rows 3 to 5 at a link, where readings of them differ.

use super::assemble::*;
use super::{Row, lent, link, row};
use crate::generate::ClassDraft;
use crate::sheet::{CLASS_WORDS, class_word};

/// The refusal of a link of the one class, with a word of its record changed.
fn record_word(name: &'static str, word: usize, value: u32, refusal: u32) -> Row {
    let answer = if refusal == 0 { (0, 1, 0) } else { (refusal, 0, 0) };
    row(name, lent(&[plain("C", 0)], &[]).with_word(6 + word, value), &[link(1)]).answers(&[answer])
}

fn one(name: &'static str, class: ClassDraft, refusal: u32, slots: u32) -> Row {
    let answer = if refusal == 0 { (0, 1, slots) } else { (refusal, 0, 0) };
    row(name, lent(&[class], &[]), &[link(1)]).answers(&[answer])
}

pub fn rows() -> Vec<Row> {
    let a_method = || having_method("C", 0, "a", 1);
    let two_lists = || lent(&[built("C", 0, &[method("a", 1), method("b", 2)], &[]), plain("D", 0)], &[]);
    let no_abi = |words: &[u32]| super::Lent { abi: words.to_vec(), ..lent(&[plain("C", 0)], &[]) };
    vec![
        // rows run over both sheets: a bad descriptor (5) in one and an index above its limit (4) in the other
        row("row-4-of-either", lent(&[a_method()], &[fixing("C", "a", 1024)]).with_word(6 + CLASS_WORDS + 3, 2), &[link(1)])
            .answers(&[(4, 0, 0)]),
        row("row-5", lent(&[a_method()], &[fixing("C", "a", 1)]).with_word(6 + CLASS_WORDS + 3, 2), &[link(1)]).answers(&[(5, 0, 0)]),
        // a slice too short for the counts; words after the content may be anything
        row("three-abi-words", no_abi(&[0; 3]), &[link(1)]).answers(&[(3, 0, 0)]),
        row("four-abi-words", no_abi(&[0; 4]), &[link(1)]).answers(&[(0, 1, 0)]),
        row("no-class-words", lent(&[plain("C", 0)], &[]).on_set(0, &[]), &[link(1)]).answers(&[(3, 0, 0)]),
        row("words-after", lent(&[plain("C", 0)], &[]).on_set(25, &[7; 2000]), &[link(1)]).answers(&[(0, 1, 0)]),
        row("text-cut", lent(&[plain("C", 0)], &[]).on_set(24, &[]), &[link(1)]).answers(&[(3, 0, 0)]),
        row("classes-65", lent(&[], &[]).on_set(0, &[65, 0, 0, 0, 0, 0]), &[link(1)]).answers(&[(3, 0, 0)]),
        // sums do not wrap at 2^32; an empty list starts inside its section, or at its end
        record_word("method-list-at-top", class_word::METHODS, u32::MAX, 4),
        record_word("name-at-top", class_word::NAME, u32::MAX, 4),
        record_word("empty-list-past", class_word::METHODS, 1, 4),
        record_word("empty-list-at-end", class_word::METHODS, 0, 0),
        record_word("own-parent", class_word::PARENT, 1, 4),
        record_word("slots-without-place", class_word::SLOTS, 1025, 0),
        // records and interface words in no list are judged too
        row("unowned-record", lent(&[a_method()], &[]).with_word(6 + class_word::METHODS + 1, 0), &[link(1)]).answers(&[(0, 1, 0)]),
        row(
            "bad-unowned-record",
            lent(&[a_method()], &[]).with_word(6 + class_word::METHODS + 1, 0).with_word(6 + CLASS_WORDS + 1, 0),
            &[link(1)],
        )
        .answers(&[(4, 0, 0)]),
        row(
            "loose-interface-word",
            lent(&[plain("C", 0).implementing(&[0])], &[]).with_word(6 + class_word::INTERFACES + 1, 0),
            &[link(1)],
        )
        .answers(&[(4, 0, 0)]),
        // lists may touch, and an empty one may lie inside another's; they may not overlap. ABI lists may
        row("empty-list-within", two_lists().with_word(6 + CLASS_WORDS + class_word::METHODS, 1), &[link(1), link(2)])
            .answers(&[(0, 1, 2), (0, 5, 0)]),
        row(
            "lists-overlap",
            two_lists().with_word(6 + CLASS_WORDS + class_word::METHODS, 1).with_word(6 + CLASS_WORDS + class_word::METHODS + 1, 1),
            &[link(1)],
        )
        .answers(&[(4, 0, 0)]),
        row("lists-touch", lent(&[a_method(), having_method("D", 0, "b", 2)], &[]), &[link(1), link(2)]).answers(&[(0, 1, 1), (0, 4, 1)]),
        row(
            "abi-lists-overlap",
            lent(&[plain("C", 0)], &[fixing("C", "a", 0), empty_entry("D")]).with_abi_word(4 + 8 + 4, 0).with_abi_word(4 + 8 + 5, 1),
            &[link(1)],
        )
        .answers(&[(0, 1, 1)]),
        row("one-name-twice", lent(&[plain("C", 0), plain("C", 0)], &[]), &[link(1)]).answers(&[(4, 0, 0)]),
        // method flags are a mask
        one("flag-0x0200", built("C", 0, &[flagged(0x0200, "a", 1)], &[]), 4, 0),
        one("flags-0x1dff", built("C", 0, &[flagged(0x1DFF, "a", 1)], &[]), 0, 0),
        // sizes are stored plus 1
        row("size-1024", lent(&[plain("C", 0)], &[empty_entry("C").sized(1024)]), &[link(1)]).answers(&[(15, 0, 0)]),
        row("size-1025", lent(&[plain("C", 0)], &[empty_entry("C").sized(1025)]), &[link(1)]).answers(&[(4, 0, 0)]),
        // class names are free
        one("name-of-slashes", plain("a//b", 0), 0, 0),
        one("name-semicolon", plain(";", 0), 0, 0),
    ]
}
