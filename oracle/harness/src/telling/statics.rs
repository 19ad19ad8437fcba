//! Static words: the sum of a built class's own static fields, 0 of an array class, a generated class's own.

use super::assemble::*;
use super::{Lent, Row, lent, link, row};
use crate::generate::{ClassDraft, MemberDraft};

/// A class of static fields alone, one of each descriptor.
fn statics(name: &str, parent: u32, descriptors: &[&str]) -> ClassDraft {
    let fields: Vec<MemberDraft> = descriptors.iter().map(|descriptor| static_field("s", descriptor, 0)).collect();
    built(name, parent, &[], &fields)
}

/// One class of each kind, an interface among them; the generated one brings what no field of it says.
fn each_kind() -> Lent {
    let object = statics("java/lang/Object", 0, &["J"]);
    let flag = ClassDraft { flags: 0x0201, ..statics("I", 0, &["I"]) };
    let prepared = generated("G", 1, &[], &[static_field("s", "J", 0)], 0).bringing(4_000_000_000);
    lent(&[object, plain("C", 1), flag, array("[C", 1), prepared], &[])
}

pub fn rows() -> Vec<Row> {
    let wide = || abi("C", &[], &[fixed("x", "J", 0), fixed("y", "J", 2)]);
    vec![
        // J and D take two words, all others one, an array of J too; instance fields take none
        row(
            "static-widths",
            lent(
                &[built(
                    "C",
                    0,
                    &[],
                    &[
                        static_field("i", "I", 9),
                        static_field("j", "J", 9),
                        field("x", "J", 9),
                        static_field("d", "D", 9),
                        static_field("a", "[J", 9),
                    ],
                )],
                &[],
            ),
            &[link(1)],
        )
        .indices(1, &[0, 1, 0, 3, 5])
        .statics(&[6])
        .words(1, 2),
        // the ABI's fields are instance fields; a static field is no match of one, and counts
        row("static-beside-abi", lent(&[built("C", 0, &[], &[static_field("x", "J", 0)])], &[wide()]).spare(24), &[link(1)])
            .indices(1, &[0, 0, 2])
            .statics(&[2]),
        // not the parents'; of an interface, too; an array class 0; a generated class what it brings
        row("static-kinds", each_kind(), &[link(1), link(2), link(3), link(4), link(5)]).statics(&[2, 0, 1, 0, 4_000_000_000]),
        // a link overwrites what it is lent, of the linked class alone
        row("static-of-one", lent(&[plain("C", 0).bringing(7), plain("D", 0).bringing(9)], &[]), &[link(1)]).statics(&[0, 9]),
        row(
            "static-array-overwritten",
            lent(&[plain("java/lang/Object", 0).bringing(5), array("[C", 1).bringing(7)], &[]),
            &[link(1), link(2)],
        )
        .statics(&[0, 0]),
        // a refused link leaves them
        row("static-refused", lent(&[plain("C", 0).bringing(7)], &[]).on_area(&[1, 0]), &[link(1)]).answers(&[(15, 0, 0)]).statics(&[7]),
        // what a generated class brings is not compared with its fields
        row(
            "static-brought",
            lent(&[generated("G", 0, &[], &[static_field("s", "J", 0)], 0).bringing(3), generated("H", 0, &[], &[], 0).bringing(1)], &[]),
            &[link(1), link(2)],
        )
        .statics(&[3, 1]),
        row("static-brought-none", lent(&[generated("G", 0, &[], &[static_field("s", "J", 0)], 0)], &[]), &[link(1)]).statics(&[0]),
        row("static-most", lent(&[statics("C", 0, &["J"; 512])], &[]), &[link(1)]).statics(&[1024]),
    ]
}
