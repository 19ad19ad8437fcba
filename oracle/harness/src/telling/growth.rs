//! Growth, rows 14 and 15.

use super::assemble::*;
use super::{Lent, Row, lent, link, row};
use crate::generate::AbiClassDraft;
use crate::sheet::{MemberRecord, Set};

/// The words of one class C's record with `first` and `count` of its fields, instance words and table place.
fn record_c(first: u32, count: u32, words: u32, place: u32) -> Vec<u32> {
    vec![0, 1, 0, 1, 0, 0, 0, first, count, 0, 0, 0, words, 0, 0, place, 0, 0]
}

/// An ABI entry of a class C with a field n, an I; and the class.
fn field_n() -> AbiClassDraft {
    abi("C", &[], &[fixed("n", "I", 3)])
}

fn growing() -> Lent {
    lent(&[plain("C", 0)], &[field_n()])
}

fn grown_methods() -> Lent {
    let q = compiled("Q", 0, &[method("j", 5)], &[8, 9]).implementing(&[1]);
    lent(&[q, having_field("C", 0, 4)], &[abi("Q", &[slot("k", 0), slot("l", 1)], &[])]).spare(22)
}

/// One class C, records that no class owns, methods or fields, and unused text bytes, with an ABI entry of it.
fn crowded(methods: u32, fields: u32, text: u32, entry: AbiClassDraft, grows_methods: bool) -> Lent {
    let mut set = Set::decode(&class_words(&[if grows_methods { compiled("C", 0, &[], &[8]) } else { plain("C", 0) }])).expect("a set");
    set.text.extend(b"()VI");
    let (name, flags) = ((0, 1), 1);
    set.methods = vec![MemberRecord { name, descriptor: (1, 3), flags, last: 0 }; methods as usize];
    set.fields = vec![MemberRecord { name, descriptor: (4, 1), flags, last: 0 }; fields as usize];
    set.text.resize(text as usize, b'!');
    Lent { set: set.encode(), ..lent(&[], &[entry]) }.spare(20)
}

pub fn rows() -> Vec<Row> {
    vec![
        // 512 fields, 512 methods and 8,192 bytes are within the limits; a section that does not grow is not judged
        row("fields-512", crowded(0, 511, 5, field_n(), false), &[link(1)]).answers(&[(0, 1, 0)]),
        row("fields-513", crowded(0, 512, 5, field_n(), false), &[link(1)]).answers(&[(14, 0, 0)]),
        row("fields-full", crowded(0, 512, 5, empty_entry("C"), false), &[link(1)]).answers(&[(0, 1, 0)]),
        row("methods-512", crowded(511, 0, 5, fixing("C", "k", 0), true), &[link(1)]).answers(&[(0, 1, 1)]),
        row("methods-513", crowded(512, 0, 5, fixing("C", "k", 0), true), &[link(1)]).answers(&[(14, 0, 0)]),
        row("methods-full", crowded(512, 0, 5, empty_entry("C"), true), &[link(1)]).answers(&[(0, 1, 1)]),
        row("bytes-8192", crowded(0, 0, 8190, field_n(), false), &[link(1)]).answers(&[(0, 1, 0)]),
        row("bytes-8193", crowded(0, 0, 8191, field_n(), false), &[link(1)]).answers(&[(14, 0, 0)]),
        row("bytes-full", crowded(0, 0, 8192, empty_entry("C"), false), &[link(1)]).answers(&[(0, 1, 0)]),
        // stubs are wanted for every slot, whether it takes one or not, and for no more than the slots
        row("no-stub", lent(&[having_method("C", 0, "a", 1)], &[]).on_stubs(&[]), &[link(1)]).answers(&[(15, 0, 0)]),
        row("one-stub", lent(&[having_method("C", 0, "a", 1)], &[]).on_stubs(&[0]), &[link(1)]).answers(&[(0, 1, 1)]),
        row("no-slot", lent(&[plain("C", 0)], &[]).on_stubs(&[]), &[link(1)]).answers(&[(0, 1, 0)]),
        // the area holds just the table, and a word less
        row("just", lent(&[having_method("C", 0, "a", 1)], &[]).on_area(&[1, 0, 0, 0]), &[link(1)]).answers(&[(0, 1, 1)]),
        row("word-less", lent(&[having_method("C", 0, "a", 1)], &[]).on_area(&[1, 0, 0]), &[link(1)]).answers(&[(15, 0, 0)]),
        // the slice holds just the grown sections (one record of 6 words; the text C grows to CnI in its word), and a word less
        row("slice-just", growing().spare(6), &[link(1)]).answers(&[(0, 1, 0)]),
        row("slice-less", growing().spare(5), &[link(1)]).answers(&[(15, 0, 0)]),
        // bytes after the grown text in its last word are 0, words after the content stay
        row(
            "grown-text",
            lent(&[plain("C", 0)], &[abi("C", &[], &[fixed("n", "I", 0)])]).on_set(24, &[2882400067, 7, 7, 7, 7, 7, 7, 7]),
            &[link(1)],
        )
        .set(&[&[1, 0, 1, 0, 0, 3][..], &record_c(0, 1, 1, 1), &[1, 1, 2, 1, 2, 0, 4812355, 7]].concat()),
        // where nothing grows the junk stays
        row("kept-junk", lent(&[plain("C", 0)], &[]).on_set(24, &[2882400067, 7]), &[link(1)])
            .set(&[&[1, 0, 0, 0, 0, 1][..], &record_c(0, 0, 0, 1), &[2882400067, 7]].concat()),
        // a list that grows is copied whole, though it ends its section; the new indices stand in the copy, the old record is left; two records
        // are added, their texts `nI` and `kJ` after `CxI`, flags 2
        row("copied", lent(&[having_field("C", 0, 7)], &[abi("C", &[], &[fixed("n", "I", 3), fixed("k", "J", 5)])]).spare(20), &[link(1)])
            .set(
                &[
                    &[1, 0, 4, 0, 0, 7][..],
                    &record_c(1, 3, 7, 1),
                    &[1, 1, 2, 1, 0, 7, 1, 1, 2, 1, 0, 0, 3, 1, 4, 1, 2, 3, 5, 1, 6, 1, 2, 5, 1850308675, 4877129, 0],
                ]
                .concat(),
            ),
        // methods grow likewise, and the sections after them move up
        row("methods-copied", grown_methods(), &[link(1)])
            .set(&[
                2, 4, 1, 1, 2, 16, 0, 1, 0, 1, 1, 1, 3, 0, 0, 0, 1, 3, 0, 1, 2, 1, 3, 0, 1, 1, 0, 1, 0, 1, 0, 0, 1, 1, 0, 0, 0, 0, 0, 0, 0,
                0, 2, 1, 3, 3, 1, 5, 2, 1, 3, 3, 1, 5, 8, 1, 9, 3, 1, 8, 12, 1, 13, 3, 1, 9, 6, 1, 7, 1, 0, 4, 1, 8, 9, 678052689,
                1232623145, 1445537899, 1445537900, 0, 0,
            ])
            .table(1, &[8, 9, 5]),
        // a list that is not the section's first: the records of the section
        row(
            "later-fields",
            lent(&[built("C", 0, &[], &[field("y", "J", 1)]), having_field("D", 0, 7)], &[abi("D", &[], &[fixed("n", "I", 3)])]).spare(12),
            &[link(2)],
        )
        .set_part(42, &[2, 1, 3, 1, 0, 1, 4, 1, 5, 1, 0, 7, 4, 1, 5, 1, 0, 0, 6, 1, 7, 1, 2, 3]),
        row(
            "later-methods",
            lent(&[having_method("C", 0, "a", 5), compiled("Q", 0, &[method("j", 6)], &[8])], &[fixing("Q", "k", 0)]).spare(13),
            &[link(2)],
        )
        .set_part(42, &[2, 1, 3, 3, 1, 5, 6, 1, 7, 3, 1, 6, 6, 1, 7, 3, 1, 6, 10, 1, 11, 3, 1, 8]),
    ]
}
