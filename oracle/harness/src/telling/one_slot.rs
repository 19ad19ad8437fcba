//! Two inherited signatures on one fixed slot. From the link on that inherits them the model judges, not the Rust.

use super::assemble::*;
use super::{Lent, Row, lent, link, missing, row};
use crate::generate::{AbiClassDraft, ClassDraft, MemberDraft};
use crate::sheet::{MemberRecord, Set};

/// P with these methods, and Q under it.
fn two(p: &[MemberDraft], q: &[MemberDraft], entries: &[AbiClassDraft]) -> Lent {
    lent(&[built("P", 0, p, &[]), built("Q", 1, q, &[])], entries)
}

fn a_then_b() -> [MemberDraft; 2] {
    [method("a", 5), method("b", 6)]
}

fn b_then_a() -> [MemberDraft; 2] {
    [method("b", 6), method("a", 5)]
}

/// Two sheets combined: P fixes a and Q fixes b, at one index.
fn apart() -> [AbiClassDraft; 2] {
    [fixing("P", "a", 0), fixing("Q", "b", 0)]
}

/// Q fixes both.
fn together() -> [AbiClassDraft; 1] {
    [abi("Q", &[slot("b", 0), slot("a", 0)], &[])]
}

/// P's table has a twice, 5, 6, 7; Q under it.
fn twice(entries: &[AbiClassDraft]) -> Lent {
    lent(&[compiled("P", 0, &[method("a", 5), method("b", 6), method("a", 7)], &[5, 6, 7]), plain("Q", 1)], entries)
}

/// P, Q under it, and classes below.
fn below(p: &[MemberDraft], q: ClassDraft, rest: &[ClassDraft], entries: &[AbiClassDraft]) -> Lent {
    lent(&[&[built("P", 0, p, &[]), q], rest].concat(), entries)
}

/// 511 field records, of which no class owns one; X under P and Y, each with an ABI field to add.
fn crowded() -> Lent {
    let classes = [built("P", 0, &b_then_a(), &[]), having_method("X", 1, "a", 8), plain("Y", 0)];
    let mut set = Set::decode(&class_words(&classes)).expect("a set");
    let place = set.text.len() as u32;
    set.text.extend(b"fI");
    set.fields = vec![MemberRecord { name: (place, 1), descriptor: (place + 1, 1), flags: 1, last: 0 }; 511];
    let entries = [abi("X", &[slot("b", 0), slot("a", 0)], &[fixed("x", "I", 1)]), abi("Y", &[], &[fixed("y", "I", 1)])];
    Lent { set: set.encode(), ..lent(&[], &entries) }.spare(20)
}

pub fn rows() -> Vec<Row> {
    let links = [link(1), link(2), link(3)];
    let accepted = (0, 1, 2);
    vec![
        // a vanished: later ones overwrote it
        row("vanished", two(&a_then_b(), &[], &apart()), &links[..2]).table(2, &[6, 5]),
        // the index of the nearest ABI class stays, though in P's table, 901, 6, 5, its entry is the later one
        row("nearer", two(&a_then_b(), &[], &[fixing("P", "b", 1), fixing("Q", "a", 1)]), &links[..2])
            .table(1, &[901, 6, 5])
            .table(2, &[901, 5, 6]),
        // from one ABI class the first entry, not the first row
        row("earlier", two(&a_then_b(), &[], &together()), &links[..2]).table(2, &[5, 6]),
        // in inherited order with those without a fixed index, by P's table, 5, 6, 7
        row("ordered", two(&[method("b", 6), method("c", 7), method("a", 5)], &[], &apart()), &links[..2])
            .table(1, &[5, 6, 7])
            .table(2, &[6, 5, 7]),
        // of a signature that gives way the last entry follows, once; of the one that stays the last entry stands, by its first one's place
        row("once", twice(&apart()), &links[..2]).table(2, &[6, 7]),
        row("overwrites", twice(&[fixing("P", "b", 0), fixing("Q", "a", 0)]), &links[..2]).table(2, &[7, 6]),
        row("first", twice(&together()), &links[..2]).table(2, &[7, 6]),
        row(
            "three",
            two(&[method("a", 5), method("b", 6), method("c", 7)], &[], &[abi("Q", &[slot("c", 0), slot("b", 0), slot("a", 0)], &[])]),
            &links[..2],
        )
        .table(2, &[5, 6, 7]),
        // row 11 where 12 refused, where none did, and where 15 did; and none where 12 refused
        row("redeclared", two(&a_then_b(), &[method("a", 8)], &apart()), &links[..2]).answers(&[accepted, (11, 0, 0)]),
        row("moved-redeclared", two(&b_then_a(), &[method("a", 8)], &together()), &links[..2]).answers(&[accepted, (11, 0, 0)]),
        row("moved-no-stubs", two(&b_then_a(), &[method("a", 8)], &together()).on_stubs(&[]), &links[..2])
            .answers(&[(15, 0, 0), (6, 0, 0)]),
        row("moved-stubs", two(&b_then_a(), &[method("a", 8)], &together()), &links[..2])
            .each_stubs(&[&[901, 902], &[]])
            .answers(&[accepted, (11, 0, 0)]),
        row("stays-redeclared", two(&b_then_a(), &[method("b", 8)], &together()), &links[..2]).table(2, &[8, 5]),
        // a descendant that redeclares the moved signature: 11 where 12 refused, and where its parent was refused
        row("descendant", below(&a_then_b(), plain("Q", 1), &[having_method("R", 2, "a", 8)], &apart()), &links).answers(&[
            accepted,
            (0, 5, 2),
            (11, 0, 0),
        ]),
        row("descendant-linked", below(&b_then_a(), having_method("Q", 1, "b", 8), &[having_method("R", 2, "a", 9)], &together()), &links)
            .answers(&[accepted, (0, 5, 2), (11, 0, 0)]),
        // and 12, by the parent's other table, where none refused
        row(
            "descendant-12",
            below(
                &a_then_b(),
                plain("Q", 1),
                &[having_method("R", 2, "c", 9)],
                &[fixing("P", "a", 0), fixing("Q", "b", 0), abi("R", &[slot("a", 1), slot("c", 1)], &[])],
            ),
            &links,
        )
        .answers(&[accepted, (0, 5, 2), (12, 0, 0)]),
        // 11 of a signature that did not move, where 6 refused: d's empty slot 1 in Q reads as P's by P's entry
        row(
            "descendant-known",
            below(
                &[method("d", 3), method("b", 4)],
                having_method("Q", 1, "d", 6),
                &[having_method("R", 2, "d", 8)],
                &[fixing("P", "d", 1), abi("Q", &[slot("d", 2), slot("b", 2)], &[])],
            ),
            &links,
        )
        .table(2, &[901, 902, 6, 4])
        .answers(&[(0, 1, 3), (0, 6, 4), (11, 0, 0)]),
        // a moved entry is still a copy, and counts as missing
        row(
            "moved-missing",
            lent(&[built("P", 0, &[flagged(9, "a", 5), method("b", 6)], &[]), plain("Q", 1)], &apart()),
            &[link(1), link(2), missing(2)],
        )
        .table(2, &[6, 901])
        .counted(1, &[1, 0b01])
        .counted(2, &[1, 0b10])
        .answers(&[(0, 1, 2), (0, 5, 2), (0, 1, 0)]),
        // slot 0 of Q reads as the b that Q declares, by its entry's first row, so that b is known twice: "each index one signature" is needed
        row(
            "known-twice",
            below(
                &[flagged(9, "a", 5), method("b", 6)],
                built("Q", 1, &[flagged(9, "b", 7)], &[]),
                &[having_method("R", 2, "b", 8)],
                &[fixing("P", "a", 0), abi("Q", &[slot("b", 0), slot("a", 0)], &[])],
            ),
            &links,
        )
        .table(2, &[901, 6])
        .table(3, &[8, 6]),
        // with an entry of its own a descendant lays out anew: there a is the nearest again
        row(
            "nearest-again",
            below(&a_then_b(), plain("Q", 1), &[plain("R", 2)], &[fixing("P", "a", 0), fixing("Q", "b", 0), fixing("R", "a", 0)]),
            &links,
        )
        .table(3, &[5, 6]),
        // a generated class without a compiler table relays, too; an array class has its parent's entries; a compiler table and an interface relay nothing
        row("generated", below(&a_then_b(), generated("Q", 1, &[], &[], 0), &[], &apart()), &links[..2]).table(2, &[6, 5]),
        row(
            "array",
            below(&a_then_b(), plain("java/lang/Object", 1), &[array("[A", 2)], &[fixing("P", "a", 0), fixing("java/lang/Object", "b", 0)]),
            &links,
        )
        .table(3, &[6, 5]),
        row("compiled", below(&a_then_b(), compiled("Q", 1, &[], &[0, 0]), &[], &apart()), &links[..2]).table(2, &[5, 902, 6]),
        row("interface", below(&a_then_b(), having_method("Q", 1, "c", 7).having(513, 0, 0), &[], &apart()), &links[..2]).table(2, &[7]),
        // elsewhere through room alone: Y after P and Q in an area of 11 words, and in 512 field records
        row(
            "room-15",
            below(&a_then_b(), plain("Q", 1), &[having_method("Y", 0, "y", 7)], &apart()).on_area(&[1, 0, 0, 0, 0, 0, 0, 0, 0, 0, 0]),
            &links,
        )
        .answers(&[accepted, (0, 5, 2), (15, 0, 0)]),
        row("room-14", crowded(), &links).answers(&[accepted, (11, 0, 0), (0, 5, 0)]),
    ]
}
