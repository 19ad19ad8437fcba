//! Tables of built classes, rows 11 to 13.

use super::assemble::*;
use super::{Lent, Row, lent, link, row};
use crate::generate::{AbiClassDraft, ClassDraft, MemberDraft};

/// Class 1 linked at 1 by hand with one slot of this word, and class 2.
pub(super) fn over_word(word: u32, first: ClassDraft, second: ClassDraft, entries: &[AbiClassDraft]) -> Lent {
    lent(&[first.linked_at(1, 1), second], entries).spare(16).on_words(&[4, 1, word, 0])
}

/// A class whose table is 1,024 slots before its methods.
fn long(methods: &[MemberDraft]) -> Lent {
    lent(&[built("C", 0, methods, &[])], &[abi("C", &[slot("foo", 0), slot("bar", 0)], &[]).sized(1024)])
}

pub fn rows() -> Vec<Row> {
    vec![
        // a class's own duplicates share a slot, with a fixed index and without
        row("duplicates-fixed", lent(&[built("C", 0, &[method("a", 5), method("a", 6)], &[])], &[fixing("C", "a", 1)]), &[link(1)])
            .table(1, &[901, 6]),
        row("duplicates", lent(&[built("C", 0, &[method("a", 5), method("a", 6)], &[])], &[]), &[link(1)]).table(1, &[6]),
        // eligible: not static, not private, not `<init>`; abstract and protected ones are
        row(
            "eligible",
            lent(
                &[built(
                    "C",
                    0,
                    &[flagged(9, "a", 5), flagged(2, "b", 6), flagged(1, "<init>", 7), flagged(1025, "c", 8), flagged(4, "d", 9)],
                    &[],
                )],
                &[],
            ),
            &[link(1)],
        )
        .table(1, &[8, 9]),
        // a slot with an unknown word holds no signature
        row("unknown-slot", over_word(77, plain("P", 0), having_method("C", 1, "foo", 5), &[fixing("P", "foo", 0)]), &[link(2)])
            .table(2, &[5]),
        // row 12 is met at the second method of the slot, row 11 where the signature has another slot
        row(
            "collision",
            lent(&[built("C", 0, &[method("a", 5), method("b", 6)], &[])], &[abi("C", &[slot("a", 0), slot("b", 0)], &[])]),
            &[link(1)],
        )
        .answers(&[(12, 0, 0)]),
        // a method of target 0 takes its slot's stub; read again, the slot is unknown, and the signature gets a second slot
        row("target-0", lent(&[having_method("P", 0, "a", 0), having_method("C", 1, "a", 6)], &[]), &[link(1), link(2)])
            .table(2, &[901, 6]),
        // but a stub of 0 is read as the method of target 0, and replaced
        row(
            "stub-0",
            lent(&[built("P", 0, &[method("a", 0), method("b", 5)], &[]), having_method("C", 1, "a", 6)], &[]).on_stubs(&[0; 8]),
            &[link(1), link(2)],
        )
        .table(1, &[0, 5])
        .table(2, &[6, 5]),
        // a word 0 in the parent's slot takes this call's stub
        row("word-0", over_word(0, plain("P", 0), plain("C", 1), &[]), &[link(2)]).table(2, &[901]),
        // of an index's rows in one ABI entry the first counts: slot 0 is x's, which P has not, so it is unknown, and goes in a class with an entry
        row(
            "first-row",
            over_word(
                77,
                built("P", 0, &[flagged(9, "y", 5)], &[]),
                plain("C", 1),
                &[abi("P", &[slot("x", 0), slot("y", 0)], &[]), empty_entry("C")],
            ),
            &[link(2)],
        )
        .table(2, &[901]),
        row(
            "second-row",
            over_word(
                77,
                built("P", 0, &[flagged(9, "y", 5)], &[]),
                plain("C", 1),
                &[abi("P", &[slot("y", 0), slot("x", 0)], &[]), empty_entry("C")],
            ),
            &[link(2)],
        )
        .table(2, &[77]),
        row(
            "no-entry",
            over_word(
                77,
                built("P", 0, &[flagged(9, "y", 5)], &[]),
                having_method("C", 1, "y", 6),
                &[abi("P", &[slot("x", 0), slot("y", 0)], &[])],
            ),
            &[link(2)],
        )
        .table(2, &[6]),
        // the target goes before the index: slot 0 is a by its word, though the ABI fixes k there
        row(
            "target-first",
            over_word(9, built("P", 0, &[method("k", 5), method("a", 9)], &[]), plain("C", 1), &[fixing("P", "k", 0), empty_entry("C")]),
            &[link(2)],
        )
        .table(2, &[901, 9]),
        // the rule goes on to the next chain class whose entry fixes the index: Q has no j, its parent P has k
        row(
            "next-class",
            lent(
                &[having_method("P", 0, "k", 5), plain("Q", 1).linked_at(1, 1), plain("R", 2)],
                &[fixing("P", "k", 0), fixing("Q", "j", 0), empty_entry("R")],
            )
            .on_words(&[4, 2, 77, 0]),
            &[link(3)],
        )
        .table(3, &[77]),
        // a private method of the signature makes the slot known too
        row(
            "private-known",
            over_word(77, built("P", 0, &[flagged(2, "k", 5)], &[]), plain("C", 1), &[fixing("P", "k", 0), empty_entry("C")]),
            &[link(2)],
        )
        .table(2, &[77]),
        // the parent's chain reads the parent's table: b is appended, though its target is in slot 0; read as Q's own, both slots are b
        row("parents-reading", lent(&[having_method("P", 0, "a", 5), having_method("Q", 1, "b", 5)], &[]), &[link(1), link(2)])
            .table(2, &[5, 5]),
        row(
            "own-reading",
            lent(
                &[having_method("P", 0, "a", 5), having_method("Q", 1, "b", 5), built("R", 2, &[method("a", 6), method("b", 7)], &[])],
                &[],
            ),
            &[link(1), link(2), link(3)],
        )
        .table(3, &[7, 5, 6]),
        // shadowed rows count for the size, second entries of a name do not
        row("shadowed", lent(&[having_method("C", 0, "a", 9)], &[abi("C", &[slot("a", 0), slot("a", 4)], &[])]), &[link(1)])
            .table(1, &[9, 902, 903, 904, 905]),
        row(
            "second-entry",
            lent(&[having_method("C", 0, "a", 9)], &[empty_entry("C"), abi("C", &[slot("a", 5)], &[fixed("x", "I", 3)]).sized(7)]),
            &[link(1)],
        )
        .table(1, &[9])
        .words(1, 0),
        row(
            "interface-entry",
            lent(&[interface("I", &[]), having_method("C", 0, "a", 9).implementing(&[1])], &[fixing("I", "a", 2).sized(3)]),
            &[link(1), link(2)],
        )
        .table(2, &[9]),
        // an empty ABI entry is one: unknown entries go, known ones without an index follow after the minimum size
        row(
            "empty-own",
            lent(&[having_method("P", 0, "a", 9).linked_at(1, 2), plain("C", 1)], &[empty_entry("C")]).on_words(&[5, 1, 77, 9, 0]),
            &[link(2)],
        )
        .table(2, &[9]),
        row("no-own", lent(&[having_method("P", 0, "a", 9).linked_at(1, 2), plain("C", 1)], &[]).on_words(&[5, 1, 77, 9, 0]), &[link(2)])
            .table(2, &[77, 9]),
        row(
            "relaid",
            lent(
                &[built("P", 0, &[method("a", 5), method("b", 6), method("c", 7)], &[]), having_method("C", 1, "d", 8)],
                &[abi("C", &[slot("c", 0), slot("d", 2)], &[])],
            ),
            &[link(1), link(2)],
        )
        .table(2, &[7, 902, 8, 5, 6]),
        // later entries of one signature overwrite at its fixed index (of two signatures: `one_slot`)
        row(
            "overwritten",
            lent(&[compiled("P", 0, &[method("a", 5), method("a", 6)], &[5, 6]), plain("C", 1)], &[fixing("C", "a", 0)]),
            &[link(1), link(2)],
        )
        .table(2, &[6]),
        // a built interface: a slot for each eligible method, no parent entries, no ABI slots; a generated one goes by `build_methods`
        row(
            "interface-slots",
            lent(&[interface("I", &[method("a", 1), method("a", 2), flagged(9, "b", 3)])], &[fixing("I", "a", 7)]),
            &[link(1)],
        )
        .table(1, &[1, 2]),
        row(
            "interface-child",
            lent(&[having_method("P", 0, "p", 5), having_method("I", 1, "a", 1).having(513, 0, 0)], &[]),
            &[link(1), link(2)],
        )
        .table(2, &[1]),
        row(
            "interface-generated",
            lent(&[generated("I", 0, &[method("a", 1), method("a", 2)], &[], 0).having(513, 3, 0)], &[fixing("I", "a", 2)]),
            &[link(1)],
        )
        .table(1, &[901, 902, 2]),
        // a private method's slot is known by the ABI, and goes to the child's method of the signature
        row(
            "private-named",
            lent(&[built("P", 0, &[flagged(2, "k", 50)], &[]), having_method("C", 1, "k", 6)], &[fixing("P", "k", 0)]),
            &[link(1), link(2)],
        )
        .table(1, &[901])
        .table(2, &[6]),
        // a signature is name and descriptor
        row(
            "two-descriptors",
            lent(&[built("P", 0, &[method("a", 5)], &[]), built("C", 1, &[described(1, "a", "(I)V", 6)], &[])], &[]),
            &[link(1), link(2)],
        )
        .table(2, &[5, 6]),
        // a slot is the first method with its target: both slots are a's, so b gets another
        row(
            "first-of-a-target",
            lent(&[built("P", 0, &[method("a", 5), method("b", 5)], &[]), having_method("C", 1, "b", 7)], &[]),
            &[link(1), link(2)],
        )
        .table(2, &[5, 5, 7]),
        // row 12 of the last method goes before row 13 of a table that was too long before it
        row("row-12-first", long(&[method("n", 1), method("foo", 2), method("bar", 3)]), &[link(1)]).answers(&[(12, 0, 0)]),
        row("row-13", long(&[method("n", 1), method("foo", 2)]), &[link(1)]).answers(&[(13, 0, 0)]),
        // 1,024 slots are not too many; then the stub list is too short
        row("slots-1024", long(&[method("foo", 2)]), &[link(1)]).answers(&[(15, 0, 0)]),
    ]
}
