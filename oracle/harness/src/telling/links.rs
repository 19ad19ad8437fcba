//! Row 6, and array classes.

use super::assemble::*;
use super::{Lent, Row, ask, lent, link, minus, row};
use crate::generate::{ClassDraft, MemberDraft};

fn object() -> ClassDraft {
    plain("java/lang/Object", 0)
}

/// An array class with members.
fn array_of(methods: &[MemberDraft], fields: &[MemberDraft]) -> ClassDraft {
    ClassDraft { kind: 2, ..built("[I", 1, methods, fields) }
}

/// An array class's ABI entry does not touch it, but counts for the classes below it; its instance words become 0.
fn below_array_class() -> Lent {
    let object = generated("java/lang/Object", 0, &[method("a", 5)], &[], 4);
    let entry = abi("[I", &[], &[fixed("f", "I", 7)]).sized(3);
    lent(&[object, array("[I", 1).having(0x0201, 0, 9), having_field("C", 2, 7)], &[entry])
}

pub fn rows() -> Vec<Row> {
    vec![
        // the asked class may be any linked class, the class itself too; each number is judged, and both must be linked
        row("own-table", lent(&[having_method("C", 0, "a", 5)], &[]), &[link(1), ask(1, 1), ask(1, 1)]).answers(&[
            (0, 1, 1),
            (0, 5, 0),
            (0, 5, 1),
        ]),
        row(
            "ask-numbers",
            lent(&[plain("C", 0), plain("D", 0)], &[]),
            &[link(1), ask(1, 2), ask(2, 1), ask(0, 1), ask(1, 0), ask(3, 1), ask(1, 3)],
        )
        .answers(&[(0, 1, 0), (6, 0, 0), (6, 0, 0), (6, 0, 0), (6, 0, 0), (6, 0, 0), (6, 0, 0)]),
        row("link-numbers", lent(&[plain("C", 0)], &[]), &[link(0), link(2), link(1), link(1)]).answers(&[
            (6, 0, 0),
            (6, 0, 0),
            (0, 1, 0),
            (6, 0, 0),
        ]),
        // an array class may have interfaces, but neither methods nor fields, and its parent is `java/lang/Object`
        row("array-interfaces", lent(&[object(), array("[I", 1).implementing(&[1])], &[]), &[link(1), link(2)])
            .answers(&[(0, 1, 0), (0, 3, 0)]),
        row("array-alone", lent(&[array("[I", 0)], &[]), &[link(1)]).answers(&[(6, 0, 0)]),
        row("array-elsewhere", lent(&[plain("java/lang/Objects", 0), array("[I", 1)], &[]), &[link(1), link(2)])
            .answers(&[(0, 1, 0), (6, 0, 0)]),
        row("array-method", lent(&[object(), array_of(&[method("a", 5)], &[])], &[]), &[link(1), link(2)]).answers(&[(0, 1, 0), (6, 0, 0)]),
        row("array-field", lent(&[object(), array_of(&[], &[static_field("a", "I", 5)])], &[]), &[link(1), link(2)])
            .answers(&[(0, 1, 0), (6, 0, 0)]),
        // a linked set need not hang together: a linked class under an unlinked one, a table without its class's number, a wild list head
        row(
            "orphan",
            lent(&[having_method("A", 0, "a", 9), plain("P", 1).linked_at(1, 1), having_method("C", 2, "a", 8)], &[]).on_words(&[
                4,
                57005,
                9,
                minus(1),
            ]),
            &[link(3)],
        )
        .table(3, &[8]),
        // a slot count counts only with a place
        row("slots-unlinked", lent(&[plain("C", 0).linked_at(0, 1025)], &[]), &[link(1)]).answers(&[(0, 1, 0)]),
        // a parent must be linked, whatever the class's kind
        row(
            "parent-unlinked",
            lent(&[object(), plain("C", 1), generated("G", 1, &[], &[], 0), array("[I", 1)], &[]),
            &[link(2), link(3), link(4)],
        )
        .answers(&[(6, 0, 0), (6, 0, 0), (6, 0, 0)]),
        row("below-array", below_array_class(), &[link(1), link(2), link(3)]).answers(&[(0, 1, 1), (0, 4, 1), (0, 7, 3)]),
        row("array-of-methods", below_array_class(), &[link(1), link(2)]).table(2, &[5]).words(2, 0),
        row("child-of-array", below_array_class(), &[link(1), link(2), link(3)]).table(3, &[5, 902, 903]).indices(3, &[0]),
        // an array class does not move its parent's entries, so rows 11 and 12 can refuse below it
        row(
            "row-11-below-array",
            lent(
                &[having_method("java/lang/Object", 0, "a", 5), array("[I", 1), having_method("C", 2, "a", 6)],
                &[abi("[I", &[slot("a", 1)], &[])],
            ),
            &[link(1), link(2), link(3)],
        )
        .answers(&[(0, 1, 1), (0, 4, 1), (11, 0, 0)]),
        row(
            "row-12-below-array",
            lent(
                &[having_method("java/lang/Object", 0, "a", 5), array("[I", 1), having_method("C", 2, "b", 6)],
                &[abi("[I", &[slot("b", 0)], &[])],
            ),
            &[link(1), link(2), link(3)],
        )
        .answers(&[(0, 1, 1), (0, 4, 1), (12, 0, 0)]),
    ]
}
