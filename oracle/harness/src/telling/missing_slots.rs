//! How many slots are missing: what counts, the 33 words of a class, short lists, and asking. All lists hold 7s before.

use super::assemble::*;
use super::{Lent, Row, lent, link, missing, row};
use crate::generate::ClassDraft;

/// P of foo and k without targets: stubs in both slots.
fn both_missing() -> ClassDraft {
    built("P", 0, &[method("foo", 0), method("k", 0)], &[])
}

/// P of foo without a target.
fn foo_missing() -> ClassDraft {
    having_method("P", 0, "foo", 0)
}

fn packaged(name: &str, parent: u32, method_name: &str, target: u32) -> ClassDraft {
    ClassDraft { kind: 3, ..having_method(name, parent, method_name, target) }
}

/// Parent P of two slots by hand, 77 and 88, and Q under it; the list says of P what these words say.
fn over_list(counted: &[u32]) -> Lent {
    let list = [counted, &vec![7; 66 - counted.len()]].concat();
    lent(&[plain("P", 0).linked_at(1, 2), plain("Q", 1)], &[]).on_words(&[5, 1, 77, 88, 0]).on_missing(&list)
}

/// What takes a stub, and what is copied.
fn counting() -> Vec<Row> {
    let three = || [abi("P", &[slot("foo", 3), slot("k", 1)], &[])];
    let beside = [having_method("P", 0, "foo", 5), plain("Q", 1), having_method("R", 1, "k", 6)];
    vec![
        row("missing-stub", lent(&[foo_missing()], &[]), &[link(1), missing(1)]).answers(&[(0, 1, 1), (0, 1, 0)]).counted(1, &[1, 1]),
        row("missing-none", lent(&[having_method("P", 0, "foo", 5)], &[]), &[link(1), missing(1)])
            .answers(&[(0, 1, 1), (0, 0, 0)])
            .counted(1, &[]),
        // a stub word 0 is a stub; the copy of it takes a stub of its own, and counts once
        row("missing-stub-zero", lent(&[foo_missing(), plain("Q", 1)], &[]).on_stubs(&[0]), &[link(1), link(2)])
            .table(2, &[0])
            .counted(1, &[1, 1])
            .counted(2, &[1, 1]),
        // slots that the ABI reserves; a copy counts, an own method over it does not
        row("missing-over", lent(&beside, &three()), &[link(1), link(2), link(3)])
            .table(3, &[901, 6, 903, 5])
            .counted(1, &[3, 0b0111])
            .counted(2, &[3, 0b0111])
            .counted(3, &[2, 0b0101]),
        // an own method without a target takes a stub, over a method or not
        row("missing-over-zero", lent(&[having_method("P", 0, "foo", 5), having_method("Q", 1, "foo", 0)], &[]), &[link(1), link(2)])
            .table(2, &[901])
            .counted(1, &[])
            .counted(2, &[1, 1]),
        // over a slot that counts, which its index tells, it takes a stub, too, and counts
        row(
            "missing-over-counted",
            lent(&[foo_missing(), having_method("Q", 1, "foo", 0)], &[fixing("P", "foo", 0)]),
            &[link(1), link(2), missing(2)],
        )
        .answers(&[(0, 1, 1), (0, 4, 1), (0, 1, 0)])
        .table(2, &[901])
        .counted(1, &[1, 1])
        .counted(2, &[1, 1]),
        // a stub is known by no method: foo of R takes a new slot, and the copy of a copy counts
        row("missing-copies", lent(&[foo_missing(), plain("Q", 1), having_method("R", 2, "foo", 6)], &[]), &[link(1), link(2), link(3)])
            .table(3, &[901, 6])
            .counted(2, &[1, 1])
            .counted(3, &[1, 1]),
        // a class with its own ABI entry: the entry that is moved is still a copy
        row(
            "missing-relaid",
            lent(&[built("P", 0, &[flagged(9, "k", 5)], &[]), plain("Q", 1)], &[fixing("P", "k", 0), fixing("Q", "k", 2)]),
            &[link(1), link(2)],
        )
        .table(2, &[901, 902, 901])
        .counted(1, &[1, 1])
        .counted(2, &[3, 0b111]),
        row(
            "missing-array",
            lent(&[built("java/lang/Object", 0, &[method("foo", 0), method("k", 5)], &[]), array("[C", 1)], &[]),
            &[link(1), link(2)],
        )
        .counted(1, &[1, 0b01])
        .counted(2, &[1, 0b01]),
        // a built interface has no copies
        row(
            "missing-interface",
            lent(&[foo_missing(), ClassDraft { parent: 1, ..interface("I", &[method("m", 5), method("n", 0)]) }], &[]),
            &[link(1), link(2)],
        )
        .table(2, &[5, 902])
        .counted(2, &[1, 0b10]),
        row(
            "missing-packages",
            lent(&[packaged("P", 0, "foo", 0), packaged("Q", 1, "bar", 6), packaged("R", 2, "bar", 0)], &[]),
            &[link(1), link(2), link(3)],
        )
        .table(3, &[901, 902])
        .counted(2, &[1, 0b01])
        .counted(3, &[2, 0b11]),
        // a link goes by the parent's bits in the list, whatever the words are
        row("missing-by-list", over_list(&[1, 0b10]), &[link(2)]).table(2, &[77, 88]).counted(2, &[1, 0b10]),
        row("missing-by-bits", over_list(&[9, 0b01]), &[link(2), missing(1)]).answers(&[(0, 5, 2), (0, 9, 0)]).counted(2, &[1, 0b01]),
    ]
}

/// Generated classes with a compiler table.
fn compiling() -> Vec<Row> {
    vec![
        // a nonzero slot is no copy, even with the parent's word; a zero slot is
        row("missing-nonzero", lent(&[both_missing(), compiled("G", 1, &[], &[901, 0])], &[]), &[link(1), link(2)])
            .table(2, &[901, 902])
            .counted(1, &[2, 0b11])
            .counted(2, &[1, 0b10]),
        // a zero slot past the view takes a stub
        row("missing-past-view", lent(&[compiled("G", 0, &[], &[0, 8, 0])], &[]), &[link(1)]).counted(1, &[2, 0b101]),
        // an emptied slot takes a stub; the method appended for it is a copy of one not counted
        row("missing-emptied", lent(&[having_method("P", 0, "a", 5), compiled("G", 1, &[], &[0])], &[]), &[link(1), link(2)])
            .table(2, &[901, 5])
            .counted(2, &[1, 0b01]),
        row(
            "missing-native",
            lent(&[having_method("P", 0, "a", 5).having(1, 3, 0), compiled("G", 1, &[], &[0])], &[]),
            &[link(1), link(2)],
        )
        .table(2, &[5])
        .counted(2, &[]),
        // a method is appended for the first of its entries, which is a stub known by its index, with its own target: it counts
        row(
            "missing-appended",
            lent(&[having_method("P", 0, "k", 5), compiled("G", 1, &[], &[])], &[abi("P", &[slot("k", 1), slot("k", 0)], &[])]),
            &[link(1), link(2), missing(2)],
        )
        .answers(&[(0, 1, 2), (0, 5, 1), (0, 1, 0)])
        .table(2, &[5])
        .counted(1, &[1, 0b01])
        .counted(2, &[1, 1]),
        // declared and added methods have no source; the list grows, and the parent's stub is a copy
        row(
            "missing-grown",
            lent(&[foo_missing(), compiled("G", 1, &[method("m", 0)], &[0, 8])], &[fixing("G", "k", 1)]).spare(24),
            &[link(1), link(2)],
        )
        .methods(2, &[("m", 1, 0), ("k", 1, 8)])
        .table(2, &[901, 8, 903])
        .counted(2, &[2, 0b101]),
    ]
}

/// The 33 words, and lists that are short or long.
fn listing() -> Vec<Row> {
    let sized = |size: u32| lent(&[plain("P", 0)], &[empty_entry("P").sized(size)]).on_area(&[vec![1], vec![0; 1040]].concat());
    let stubs: Vec<u32> = (901..901 + 1024).collect();
    let two = || lent(&[foo_missing(), plain("Q", 1)], &[]);
    vec![
        row("missing-40", sized(40).on_stubs(&stubs[..40]), &[link(1)]).counted(1, &[40, 0xFFFF_FFFF, 0xFF]),
        row("missing-32", sized(32).on_stubs(&stubs[..32]), &[link(1)]).counted(1, &[32, 0xFFFF_FFFF]),
        row("missing-1024", sized(1024).on_stubs(&stubs), &[link(1)]).counted(1, &[vec![1024], vec![0xFFFF_FFFF; 32]].concat()),
        // 33 words for each class of the set; a longer list keeps its rest
        row("missing-65", two().on_missing(&[7; 65]), &[link(1)]).answers(&[(15, 0, 0)]).missing(&[7; 65]),
        row("missing-66", two(), &[link(1)]).missing(&[vec![1, 1], vec![0; 31], vec![7; 33]].concat()),
        row("missing-longer", two().on_missing(&[7; 70]), &[link(1), link(2)])
            .missing(&[vec![1, 1], vec![0; 31], vec![1, 1], vec![0; 31], vec![7; 4]].concat()),
        row("missing-no-list", two().on_missing(&[]), &[link(1)]).answers(&[(15, 0, 0)]).missing(&[]),
        // a refused link leaves the list
        row("missing-refused", two().on_area(&[1, 0]), &[link(1)]).answers(&[(15, 0, 0)]).missing(&[7; 66]),
        // row 15 is last: row 6 goes before a short list, and so does row 13, of 1,025 slots
        row("missing-after-6", sized(1024).on_missing(&[]), &[link(2)]).answers(&[(6, 0, 0)]),
        row("missing-last", lent(&[having_method("P", 0, "foo", 5)], &[empty_entry("P").sized(1024)]).on_missing(&[]), &[link(1)])
            .answers(&[(13, 0, 0)]),
    ]
}

/// Asking.
fn asking() -> Vec<Row> {
    let by_hand = || lent(&[plain("P", 0).linked_at(1, 0), plain("Q", 0)], &[]).on_words(&[3, 1, 0]);
    vec![
        // the number that stands there, whatever it is
        row("asked-word", by_hand(), &[missing(1)]).answers(&[(0, 7, 0)]).missing(&[7; 66]),
        row("asked-no-class", by_hand(), &[missing(0), missing(3), missing(2)]).answers(&[(6, 0, 0); 3]),
        row("asked-short", by_hand().on_missing(&[7; 65]), &[missing(1), missing(2), missing(3)]).answers(&[
            (15, 0, 0),
            (6, 0, 0),
            (6, 0, 0),
        ]),
        // no area is asked for: one of no words does not matter
        row("asked-no-area", by_hand().on_area(&[]), &[missing(1)]).answers(&[(0, 7, 0)]),
        // both sheets are judged: a class's flags, an ABI slot's index, a short sheet
        row("asked-record", by_hand().with_word(6 + 3, 65536).on_missing(&[]), &[missing(3)]).answers(&[(4, 0, 0)]),
        row("asked-abi", by_hand().with_abi_word(0, 65).on_missing(&[]), &[missing(3)]).answers(&[(3, 0, 0)]),
        row("asked-counts", by_hand().with_word(0, 65), &[missing(1)]).answers(&[(3, 0, 0)]),
    ]
}

pub fn rows() -> Vec<Row> {
    [counting(), compiling(), listing(), asking()].concat()
}
