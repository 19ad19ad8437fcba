//! Asks: walks, implementations, rows 15 and 16.

use super::assemble::*;
use super::{Lent, Row, ask, lent, link, row};
use crate::generate::MemberDraft;

/// An interface class linked at 1 with one slot of the word, and class 2 linked at 4 without slots.
fn asking(word: u32, of_interface: &[MemberDraft], of_class: &[MemberDraft]) -> Lent {
    let interface = built("I", 0, of_interface, &[]).linked_at(1, 1);
    lent(&[interface, built("C", 0, of_class, &[]).linked_at(4, 0)], &[]).on_words(&[6, 1, word, 0, 2, 0])
}

/// Class 1's list head is class 2's slot 0.
fn overlapping() -> Lent {
    lent(&[plain("C", 0).linked_at(1, 1), plain("I", 0).linked_at(2, 2)], &[]).on_words(&[6, 9, 50, 0, 60, 0])
}

pub fn rows() -> Vec<Row> {
    vec![
        // the implementation is the first that is neither static nor private, of any name, abstract too
        row(
            "any-name",
            asking(9, &[method("<init>", 9)], &[flagged(9, "<init>", 7), flagged(2, "<init>", 7), flagged(1025, "<init>", 8)]),
            &[ask(2, 1)],
        )
        .area(&[9, 1, 9, 0, 2, 6, 0, 1, 8]),
        // one of target 0 takes the stub
        row("target-0-implementation", asking(9, &[method("a", 9)], &[method("a", 0)]), &[ask(2, 1)]).area(&[9, 1, 9, 0, 2, 6, 0, 1, 901]),
        // an unknown entry keeps the slot's word; a word 0 takes the stub
        row("keeps-word", asking(77, &[method("a", 9)], &[]), &[ask(2, 1)]).area(&[9, 1, 77, 0, 2, 6, 0, 1, 77]),
        row("word-0-entry", asking(0, &[method("a", 9)], &[]), &[ask(2, 1)]).area(&[9, 1, 0, 0, 2, 6, 0, 1, 901]),
        // a known entry without an implementation is refused, before row 15
        row("row-16", asking(9, &[method("a", 9)], &[flagged(9, "a", 7), flagged(2, "a", 8)]).on_stubs(&[]), &[ask(2, 1)])
            .answers(&[(16, 0, 0)]),
        row("no-stubs", asking(9, &[method("a", 9)], &[method("a", 7)]).on_stubs(&[]), &[ask(2, 1)]).answers(&[(15, 0, 0)]),
        // nodes read on a miss are the whole list's, on a hit up to the hit; a new node goes in front
        row(
            "nodes-read",
            lent(&[plain("C", 0).linked_at(1, 0), plain("I", 0).linked_at(3, 0), plain("J", 0).linked_at(5, 0)], &[])
                .on_words(&[7, 1, 0, 2, 0, 3, 0]),
            &[ask(1, 2), ask(1, 3), ask(1, 1), ask(1, 2), ask(1, 3), ask(1, 1)],
        )
        .answers(&[(0, 8, 0), (0, 10, 1), (0, 12, 2), (0, 8, 3), (0, 10, 2), (0, 12, 1)]),
        row(
            "nodes-area",
            lent(&[plain("C", 0).linked_at(1, 0), plain("I", 0).linked_at(3, 0), plain("J", 0).linked_at(5, 0)], &[])
                .on_words(&[7, 1, 0, 2, 0, 3, 0]),
            &[ask(1, 2), ask(1, 3), ask(1, 1)],
        )
        .area(&[13, 1, 11, 2, 0, 3, 0, 0, 2, 7, 3, 9, 1, 0, 0]),
        // a table that is found wants neither stubs nor room nor an implementation
        row("found", asking(9, &[method("a", 9)], &[]).on_area(&[9, 1, 9, 0, 2, 6, 0, 1, 8]).on_stubs(&[]), &[ask(2, 1)])
            .answers(&[(0, 7, 1)])
            .area(&[9, 1, 9, 0, 2, 6, 0, 1, 8]),
        // tables that overlap are plain memory: the entries are read, then the head is written
        row("overlap", overlapping(), &[ask(1, 2)]).answers(&[(0, 7, 0)]).area(&[10, 9, 50, 6, 60, 0, 0, 2, 901, 60]),
        // the class goes before its parent and its list is in order; static and private methods are passed over, so a is the parent's
        row(
            "inherited-implementation",
            lent(
                &[
                    interface("I", &[method("a", 1), method("b", 2)]),
                    having_method("P", 0, "a", 7),
                    built("C", 2, &[flagged(8, "a", 8), flagged(2, "a", 9), method("b", 10), method("b", 11)], &[]),
                ],
                &[],
            ),
            &[link(1), link(2), link(3), ask(3, 1)],
        )
        .answers(&[(0, 1, 2), (0, 5, 1), (0, 8, 2), (0, 13, 0)])
        .area(&[16, 1, 1, 2, 0, 2, 7, 0, 3, 7, 11, 12, 0, 1, 7, 10]),
        // no word is free any more
        row("full-area", asking(9, &[method("a", 9)], &[method("a", 7)]).on_area(&[6, 1, 9, 0, 2, 0, 0, 0]), &[ask(2, 1)])
            .answers(&[(15, 0, 0)]),
    ]
}
