//! Field words, rows 8 to 10.

use super::assemble::*;
use super::{Lent, Row, lent, link, minus, row};
use crate::generate::{AbiClassDraft, MemberDraft};

/// Class 1 linked at 1, without slots, with a field of this index; class 2 under it.
fn above_runtime(index: u32) -> Lent {
    lent(&[having_field("P", 0, index).linked_at(1, 0), plain("C", 1)], &[]).on_words(&[3, 1, 0])
}

fn wide_parent(entries: &[AbiClassDraft]) -> Lent {
    lent(&[generated("P", 0, &[], &[], 65535), having_field("C", 1, 0)], entries)
}

fn generated_of(total: u32, fields: &[MemberDraft]) -> Lent {
    lent(&[generated("G", 0, &[], fields, total)], &[])
}

fn runtime_parent() -> Lent {
    let parent = generated("A", 0, &[], &[static_field("s", "I", minus(9)), field("x", "J", minus(3))], 0).linked_at(1, 0);
    let child = built("C", 1, &[], &[field("y", "I", 9), field("z", "D", 9), field("w", "I", 9)]);
    lent(&[parent, child], &[empty_entry("C").worded(1)]).on_words(&[3, 1, 0])
}

fn one_field(entries: &[AbiClassDraft]) -> Lent {
    lent(&[having_field("C", 0, 5)], entries).spare(9)
}

pub fn rows() -> Vec<Row> {
    vec![
        // runtime words of the chain are judged also where the class adds none
        row("runtime-above", above_runtime(minus(65536)), &[link(2)]).answers(&[(10, 0, 0)]),
        row("runtime-at", above_runtime(minus(65535)), &[link(2)]).answers(&[(0, 3, 0)]),
        // where the ABI gives the words, the running word may pass 65,535
        row("given", wide_parent(&[abi("C", &[], &[]).worded(3)]), &[link(1), link(2)]).answers(&[(0, 1, 0), (0, 3, 0)]),
        row("not-given", wide_parent(&[]), &[link(1), link(2)]).answers(&[(0, 1, 0), (10, 0, 0)]),
        // static fields of a generated class are skipped; no instance field, nothing written; absolute indices stay; row 8 goes before row 9
        row("skipped", generated_of(3, &[static_field("s", "J", 99), field("x", "I", 0)]), &[link(1)]).indices(1, &[99, 2]),
        row("only-static", generated_of(3, &[static_field("s", "J", 99)]), &[link(1)]).indices(1, &[99]),
        row("absolute", generated_of(7, &[field("a", "I", 3), field("b", "J", 4), field("c", "I", 6)]), &[link(1)]).indices(1, &[3, 4, 6]),
        row("both-wrong", generated_of(1, &[field("a", "I", 5), field("b", "J", 5)]), &[link(1)]).answers(&[(8, 0, 0)]),
        // each ABI field that is not matched is added, a second one of its name too
        row("twice", lent(&[plain("B", 0)], &[abi("B", &[], &[fixed("x", "I", 1), fixed("x", "I", 2)])]).spare(16), &[link(1)])
            .indices(1, &[1, 2])
            .words(1, 3),
        // only the class's own ABI entry fixes its fields
        row(
            "own-entry",
            lent(&[plain("P", 0), having_field("C", 1, 0)], &[abi("P", &[], &[fixed("x", "I", 9)])]).spare(9),
            &[link(1), link(2)],
        )
        .indices(1, &[9])
        .indices(2, &[10]),
        // instance words 0 and none
        row("words-0", one_field(&[abi("C", &[], &[]).worded(0)]), &[link(1)]).indices(1, &[minus(1)]).words(1, 0),
        row("words-none", one_field(&[abi("C", &[], &[])]), &[link(1)]).indices(1, &[0]).words(1, 1),
        // the runtime count starts after the parent chain's instance fields, of a generated parent too; x has magnitude 3 and two words
        row("runtime-start", runtime_parent(), &[link(2)]).indices(2, &[minus(5), minus(6), minus(8)]).words(2, 1),
        // without a parent the running word starts at 0, and with one at the parent's instance words as the record has them
        row("no-parent", lent(&[generated("G", 0, &[], &[], 4), having_field("C", 0, 7)], &[]), &[link(2)]).indices(2, &[0]),
        row(
            "parent",
            lent(&[plain("P", 0).having(1, 0, 65534).linked_at(1, 0), having_field("C", 1, 7)], &[]).on_words(&[3, 1, 0]),
            &[link(2)],
        )
        .indices(2, &[65534]),
        // the class's own old indices do not count
        row("own-ignored", lent(&[having_field("C", 0, minus(9))], &[abi("C", &[], &[]).worded(1)]), &[link(1)]).indices(1, &[minus(1)]),
        // a generated class takes neither indices nor fields nor words of its ABI entry
        row(
            "generated-entry",
            lent(
                &[generated("G", 0, &[], &[field("x", "I", 2)], 3)],
                &[abi("G", &[], &[fixed("x", "I", 7), fixed("y", "I", 8)]).sized(2).worded(9)],
            ),
            &[link(1)],
        )
        .set(&[1, 0, 1, 0, 0, 3, 0, 1, 0, 1, 1, 0, 0, 0, 1, 0, 0, 3, 3, 0, 0, 1, 2, 0, 1, 1, 2, 1, 0, 2, 4814919]),
        // two fields of one signature: a running word each, or both the fixed index
        row("same-running", lent(&[built("C", 0, &[], &[field("x", "I", 0), field("x", "I", 0)])], &[]), &[link(1)]).indices(1, &[0, 1]),
        row(
            "same-fixed",
            lent(&[built("C", 0, &[], &[field("x", "I", 0), field("x", "I", 0)])], &[abi("C", &[], &[fixed("x", "I", 4)])]),
            &[link(1)],
        )
        .indices(1, &[4, 4]),
        // a static field matches no ABI field, and a static index is overwritten
        row(
            "static-no-match",
            lent(
                &[built("C", 0, &[], &[static_field("x", "I", 5), static_field("y", "J", 5), static_field("z", "I", 5)])],
                &[abi("C", &[], &[fixed("x", "I", 4)])],
            )
            .spare(25),
            &[link(1)],
        )
        .indices(1, &[0, 1, 3, 4]),
        // a fixed index raises the running word of the next field, and never lowers it
        row(
            "raising",
            lent(
                &[built(
                    "C",
                    0,
                    &[],
                    &[field("a", "J", 0), field("x", "I", 0), field("b", "I", 0), field("y", "I", 0), field("c", "I", 0)],
                )],
                &[abi("C", &[], &[fixed("x", "I", 7), fixed("y", "I", 1)])],
            ),
            &[link(1)],
        )
        .indices(1, &[0, 7, 8, 1, 9]),
        // the ABI's field of the declared one's signature fixes it, the first row of two; none is added, and the words are its end
        row("first-fixed-field", lent(&[having_field("C", 0, 0)], &[abi("C", &[], &[fixed("x", "I", 4), fixed("x", "I", 7)])]), &[link(1)])
            .indices(1, &[4])
            .words(1, 5),
        // a field of the name and another descriptor is no match
        row("field-of-another-descriptor", lent(&[having_field("C", 0, 0)], &[abi("C", &[], &[fixed("x", "J", 4)])]).spare(14), &[link(1)])
            .indices(1, &[0, 4])
            .words(1, 6),
        // J and D take two words, an array of them takes one
        row("array-of-long", lent(&[built("C", 0, &[], &[field("a", "[J", 0), field("b", "D", 0), field("c", "I", 0)])], &[]), &[link(1)])
            .indices(1, &[0, 1, 3])
            .words(1, 4),
        // an index is read as signed: 2^31 - 1 counts for no runtime words, 2^31 for more than there may be, 2^32 - 1 for one
        row("largest-positive", above_runtime(2147483647), &[link(2)]).answers(&[(0, 3, 0)]),
        row("smallest-negative", above_runtime(2147483648), &[link(2)]).answers(&[(10, 0, 0)]),
        row(
            "minus-one",
            lent(&[having_field("P", 0, minus(1)).linked_at(1, 0), having_field("C", 1, 0)], &[empty_entry("C").worded(1)])
                .on_words(&[3, 1, 0]),
            &[link(2)],
        )
        .indices(2, &[minus(2)])
        .words(2, 1),
    ]
}
