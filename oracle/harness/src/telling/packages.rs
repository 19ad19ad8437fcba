//! Class kind 3, linked by packages, and row 26. The Rust is not asked; rows of kind 0 beside them show where the two rules differ.

use super::assemble::*;
use super::{Lent, Row, ask, lent, link, row};
use crate::case::Call;
use crate::generate::{ClassDraft, MemberDraft};

/// A class of kind 3.
fn packaged(name: &str, parent: u32, methods: &[MemberDraft]) -> ClassDraft {
    ClassDraft { kind: 3, ..built(name, parent, methods, &[]) }
}

/// A chain of classes of a kind, root first, each with one method foo of these flags and targets 10, 20, 30 and on.
fn chain(kind: u32, classes: &[(&str, u32)]) -> Vec<ClassDraft> {
    let class = |((name, flags), number): (&(&str, u32), u32)| built(name, number, &[flagged(*flags, "foo", 10 * number + 10)], &[]);
    classes.iter().zip(0..).map(class).map(|class| ClassDraft { kind, ..class }).collect()
}

/// The links of classes 1 to n.
fn links(n: usize) -> Vec<Call> {
    (1..=n as u32).map(link).collect()
}

/// A chain of kind 3, linked from the root down, and the last class's table.
fn chained(name: &'static str, classes: &[(&str, u32)], table: &[u32]) -> Row {
    row(name, lent(&chain(3, classes), &[]), &links(classes.len())).table(classes.len() as u32, table)
}

/// The same as kind 0.
fn as_kind_0(name: &'static str, classes: &[(&str, u32)], table: &[u32]) -> Row {
    row(name, lent(&chain(0, classes), &[]), &links(classes.len())).table(classes.len() as u32, table)
}

/// A of two methods of target 10, read as the first, and B of foo.
fn read_as(flags: u32) -> Lent {
    lent(&[packaged("A", 0, &[flagged(flags, "foo", 10), method("bar", 10)]), packaged("B", 1, &[method("foo", 20)])], &[])
}

/// Root, middle and parent with tables by hand of 2, 0 and 2 slots; slot 1 has p/R's foo in the first and q/P's in the last.
fn by_hand(class: &str) -> Lent {
    let root = packaged("p/R", 0, &[flagged(0, "foo", 10)]).linked_at(1, 2);
    let parent = packaged("q/P", 2, &[flagged(0, "foo", 20)]).linked_at(7, 2);
    let classes = [root, packaged("r/M", 1, &[]).linked_at(5, 0), parent, packaged(class, 3, &[flagged(0, "foo", 30)])];
    lent(&classes, &[]).on_words(&[11, 1, 77, 10, 0, 2, 0, 3, 88, 20, 0])
}

/// Class 1 linked by hand at 1 without slots, and class 2.
fn under(above: ClassDraft, class: ClassDraft) -> Lent {
    lent(&[above.linked_at(1, 0), class], &[]).on_words(&[3, 1, 0])
}

fn plainly(kind: u32, name: &str, parent: u32) -> ClassDraft {
    ClassDraft { kind, ..plain(name, parent) }
}

const REFUSED: (u32, u32, u32) = (26, 0, 0);

/// Which methods are overridden.
fn overriding() -> Vec<Row> {
    vec![
        // the desk's two package-private methods of one signature in different packages, and what kind 0 makes of them
        chained("packages-two", &[("p/A", 0), ("q/B", 0)], &[10, 20]),
        as_kind_0("packages-two-as-kind-0", &[("p/A", 0), ("q/B", 0)], &[20]),
        chained("packages-one", &[("p/A", 0), ("p/B", 0)], &[20]),
        // through a method between, which is neither static nor private
        chained("packages-through", &[("p/A", 0), ("p/B", 1), ("q/C", 0)], &[30]),
        chained("packages-static-between", &[("p/A", 0), ("p/B", 9), ("q/C", 0)], &[10, 30]),
        chained("packages-private-between", &[("p/A", 0), ("p/B", 2), ("q/C", 0)], &[10, 30]),
        chained("packages-private-and-public-between", &[("p/A", 0), ("p/B", 3), ("q/C", 0)], &[10, 30]),
        chained("packages-protected", &[("p/A", 0), ("p/B", 1), ("q/C", 4), ("r/D", 0)], &[40]),
        // the slot's introducing method counts, not the one that it has now: q/C's is not open to r/D
        chained("packages-introduced", &[("p/A", 0), ("p/B", 1), ("q/C", 0), ("r/D", 0)], &[40]),
        // the nearest method does not hide the ones above
        chained("packages-nearest", &[("p/A", 0), ("q/B", 0), ("p/C", 0)], &[30, 20]),
        chained("packages-nearest-below", &[("p/A", 0), ("q/B", 0), ("p/C", 0), ("q/D", 0)], &[30, 40]),
        // a method can take several slots
        chained("packages-several", &[("p/A", 0), ("q/B", 1), ("p/C", 0)], &[30, 30]),
        // a method marked private is overridden where it is marked public or protected, too, and not static
        row("packages-read-private-public", read_as(3), &links(2)).table(2, &[20]),
        row("packages-read-private-protected", read_as(6), &links(2)).table(2, &[20]),
        row("packages-read-private", read_as(2), &links(2)).table(2, &[10, 20]),
        row("packages-read-static", read_as(11), &links(2)).table(2, &[10, 20]),
        // a static and a private method override nothing
        chained("packages-static-own", &[("A", 1), ("B", 9)], &[10]),
        chained("packages-private-own", &[("A", 1), ("B", 2)], &[10]),
        chained("packages-private-public-own", &[("A", 1), ("B", 3)], &[10]),
        // a package is the class name before its last slash, and no part of it counts
        chained("packages-inner", &[("p/A", 0), ("p/q/B", 0), ("C", 0)], &[10, 20, 30]),
        chained("packages-empty", &[("A", 0), ("B", 0)], &[20]),
        chained("packages-empty-again", &[("p/A", 0), ("p/q/B", 0), ("C", 0), ("D", 0)], &[10, 20, 40]),
        chained("packages-front-slash", &[("/A", 0), ("B", 0)], &[20]),
        chained("packages-last-slash", &[("A/", 0), ("A/B", 0)], &[20]),
        chained("packages-last-slash-alone", &[("A/", 0), ("A", 0)], &[10, 20]),
        chained("packages-longer", &[("p/A", 0), ("pp/B", 0)], &[10, 20]),
    ]
}

/// Slots, and what a link of kind 3 is as one of kind 0.
fn slots() -> Vec<Row> {
    let twice = packaged("A", 0, &[method("foo", 10), method("foo", 11)]);
    let fields = [field("x", "J", 9), static_field("s", "D", 9), static_field("t", "I", 9), field("y", "I", 9)];
    let worded = ClassDraft { fields: fields.to_vec(), ..packaged("A", 0, &[]) };
    vec![
        // slots that the class appends are not inherited; over an inherited one the last stays
        row("packages-twice", lent(std::slice::from_ref(&twice), &[]), &links(1)).table(1, &[10, 11]),
        row("packages-twice-below", lent(&[twice, packaged("B", 1, &[method("foo", 20)])], &[]), &links(2)).table(2, &[20, 20]),
        row(
            "packages-twice-over",
            lent(&[packaged("A", 0, &[method("foo", 10)]), packaged("B", 1, &[method("foo", 20), method("foo", 21)])], &[]),
            &links(2),
        )
        .table(2, &[21]),
        // a slot whose word is no method's has no introducing method
        row("packages-unknown", lent(&[packaged("A", 0, &[method("foo", 0)]), packaged("B", 1, &[method("foo", 20)])], &[]), &links(2))
            .table(1, &[901])
            .table(2, &[901, 20]),
        // the topmost class whose table has the slot, not the first upwards; an unlinked one has no table
        row("packages-topmost", by_hand("p/C"), &[link(4)]).table(4, &[88, 30]),
        row("packages-not-the-parent's", by_hand("q/C"), &[link(4)]).table(4, &[88, 20, 30]),
        row(
            "packages-above-unlinked",
            lent(
                &[
                    packaged("A", 0, &[method("foo", 10)]).linked_at(0, 9),
                    packaged("B", 1, &[]).linked_at(1, 1),
                    packaged("C", 2, &[method("foo", 30)]),
                ],
                &[],
            )
            .on_words(&[4, 2, 10, 0]),
            &[link(3)],
        )
        .table(3, &[30]),
        // fields, static words, a compiler table and interfaces as in a class of kind 0
        row("packages-fields", lent(&[worded, packaged("B", 1, &[]).bringing(7)], &[]), &links(2))
            .indices(1, &[0, 0, 2, 2])
            .words(1, 3)
            .words(2, 3)
            .statics(&[3, 0]),
        row(
            "packages-compiler-table",
            lent(&[ClassDraft { compiler: Some(vec![77, 78]), ..packaged("A", 0, &[method("foo", 10)]) }], &[]),
            &links(1),
        )
        .table(1, &[10]),
        row(
            "packages-interface-named",
            lent(
                &[interface("I", &[method("foo", 5)]), packaged("p/A", 0, &[flagged(0, "foo", 10)]).implementing(&[1])],
                &[fixing("I", "foo", 0)],
            ),
            &[link(1), link(2), ask(2, 1), ask(2, 2)],
        )
        .answers(&[(0, 1, 1), (0, 4, 1), (0, 8, 0), (0, 11, 1)])
        .area(&[13, 1, 5, 0, 2, 10, 10, 0, 1, 10, 7, 2, 10]),
        // an implementation is by signature alone
        row(
            "packages-ask",
            lent(
                &[
                    interface("I", &[method("foo", 5)]),
                    packaged("p/A", 0, &[flagged(0, "foo", 10)]),
                    packaged("q/B", 2, &[flagged(0, "foo", 20)]),
                ],
                &[],
            ),
            &[link(1), link(2), link(3), ask(3, 1), ask(2, 1)],
        )
        .answers(&[(0, 1, 1), (0, 4, 1), (0, 7, 2), (0, 12, 0), (0, 15, 0)])
        .table(3, &[10, 20])
        .area(&[17, 1, 5, 0, 2, 10, 14, 3, 10, 20, 11, 0, 1, 20, 0, 1, 10]),
    ]
}

/// Row 26.
fn refusals() -> Vec<Row> {
    let flag = |class: ClassDraft| class.having(0x0201, 0, 0);
    let object = || packaged("java/lang/Object", 0, &[]);
    let wide = ClassDraft { fields: vec![field("x", "J", 0)], ..generated("B", 1, &[], &[], 1) };
    vec![
        // the premise "both links are accepted": one class, refused as kind 3 and with a table as kind 0
        row("row-26-entry", lent(&[packaged("A", 0, &[method("foo", 10)])], &[empty_entry("A")]), &[link(1)]).answers(&[REFUSED]),
        row("row-26-entry-as-kind-0", lent(&[having_method("A", 0, "foo", 10)], &[empty_entry("A")]), &[link(1)])
            .answers(&[(0, 1, 1)])
            .table(1, &[10]),
        row(
            "row-26-entry-above",
            Lent { abi: abi_words(&[empty_entry("A")]), ..under(packaged("A", 0, &[]), packaged("B", 1, &[])) },
            &[link(2)],
        )
        .answers(&[REFUSED]),
        row("row-26-interface", lent(&[flag(packaged("A", 0, &[]))], &[]), &[link(1)]).answers(&[REFUSED]),
        row("row-26-interface-above", under(flag(packaged("A", 0, &[])), packaged("B", 1, &[])), &[link(2)]).answers(&[REFUSED]),
        row("row-26-under-kind-0", lent(&[plain("A", 0), packaged("B", 1, &[])], &[]), &links(2)).answers(&[(0, 1, 0), REFUSED]),
        row("row-26-under-kind-1", lent(&[plainly(1, "A", 0), packaged("B", 1, &[])], &[]), &links(2)).answers(&[(0, 1, 0), REFUSED]),
        row("row-26-under-kind-2", lent(&[plain("java/lang/Object", 0), array("[I", 1), packaged("B", 2, &[])], &[]), &links(3))
            .answers(&[(0, 1, 0), (0, 3, 0), REFUSED]),
        row("row-26-of-kind-0", lent(&[packaged("A", 0, &[]), plain("B", 1)], &[]), &links(2)).answers(&[(0, 1, 0), REFUSED]),
        row("row-26-of-kind-1", lent(&[packaged("A", 0, &[]), plainly(1, "B", 1)], &[]), &links(2)).answers(&[(0, 1, 0), REFUSED]),
        // where java/lang/Object is of kind 3, no array class is linked
        row("row-26-of-kind-2", lent(&[object(), array("[I", 1)], &[]), &links(2)).answers(&[(0, 1, 0), REFUSED]),
        row(
            "row-26-both-ways",
            lent(&[plain("A", 0), packaged("B", 1, &[]), packaged("C", 0, &[]), plain("D", 3)], &[]),
            &[link(2), link(1), link(2), link(3), link(4)],
        )
        .answers(&[(6, 0, 0), (0, 1, 0), REFUSED, (0, 3, 0), REFUSED]),
        // anywhere above
        row(
            "row-26-grandparent",
            lent(&[packaged("A", 0, &[]).linked_at(1, 0), plain("B", 1).linked_at(1, 0), plain("C", 2)], &[]).on_words(&[3, 1, 0]),
            &[link(3)],
        )
        .answers(&[REFUSED]),
        // after 6 and 7, before 8, 10 and 15
        row("row-26-after-6", lent(&[plain("A", 0), packaged("B", 1, &[])], &[]), &[link(2)]).answers(&[(6, 0, 0)]),
        row("row-26-after-7", lent(&[flag(packaged("A", 0, &[]))], &[]).on_area(&[0, 0, 0]), &[link(1)]).answers(&[(7, 0, 0)]),
        row("row-26-before-8", lent(&[packaged("A", 0, &[]), wide], &[]), &links(2)).answers(&[(0, 1, 0), REFUSED]),
        row(
            "row-26-before-10",
            under(packaged("A", 0, &[]).having(1, 0, 65535), ClassDraft { fields: vec![field("x", "I", 0)], ..plain("B", 1) }),
            &[link(2)],
        )
        .answers(&[REFUSED]),
        row(
            "row-10-of-kind-3",
            under(packaged("A", 0, &[]).having(1, 0, 65535), ClassDraft { fields: vec![field("x", "I", 0)], ..packaged("B", 1, &[]) }),
            &[link(2)],
        )
        .answers(&[(10, 0, 0)]),
        row("row-26-before-15", lent(&[flag(packaged("A", 0, &[method("foo", 10)]))], &[]).on_stubs(&[]), &[link(1)]).answers(&[REFUSED]),
        row("row-15-of-kind-3", lent(&[packaged("A", 0, &[method("foo", 10)])], &[]).on_stubs(&[]), &[link(1)]).answers(&[(15, 0, 0)]),
        // a kind that there is not
        row("kind-4", lent(&[plainly(4, "A", 0)], &[]), &[link(1)]).answers(&[(4, 0, 0)]),
    ]
}

/// Where kind 3 and kind 0 part: each premise of the claim that they do not is needed.
fn beside() -> Vec<Row> {
    let open = |kind: u32| {
        let classes = [("p/A", 4, "foo"), ("q/B", 1, "bar"), ("r/C", 4, "foo")].into_iter().zip(0..);
        let class = |((name, flags, own), number): ((&str, u32, &str), u32)| ClassDraft {
            kind,
            ..built(name, number, &[flagged(flags, own, 10 * number + 10)], &[])
        };
        lent(&classes.map(class).collect::<Vec<_>>(), &[])
    };
    let same_targets = |kind: u32| {
        let class = |name: &str, parent: u32, own: &str, target: u32| ClassDraft { kind, ..having_method(name, parent, own, target) };
        lent(&[class("A", 0, "a", 3), class("B", 1, "b", 3), class("C", 2, "a", 1)], &[])
    };
    let zero_target = |kind: u32| {
        let first = ClassDraft { kind, ..built("A", 0, &[method("a", 0), method("b", 20000)], &[]) };
        lent(&[first, ClassDraft { kind, ..having_method("B", 1, "b", 20001) }], &[]).on_stubs(&[20000, 20001])
    };
    vec![
        row("packages-open", open(3), &links(3)).table(2, &[10, 20]).table(3, &[30, 20]),
        row("packages-open-as-kind-0", open(0), &links(3)).table(2, &[10, 20]).table(3, &[30, 20]),
        chained("packages-not-public", &[("A", 0), ("q/B", 4)], &[10, 20]),
        as_kind_0("packages-not-public-as-kind-0", &[("A", 0), ("q/B", 4)], &[20]),
        row("packages-same-targets", same_targets(3), &links(3)).table(3, &[1, 3]),
        row("packages-same-targets-as-kind-0", same_targets(0), &links(3)).table(3, &[3, 3, 1]),
        row("packages-zero-target", zero_target(3), &links(2)).table(2, &[20001, 20001]),
        row("packages-zero-target-as-kind-0", zero_target(0), &links(2)).table(2, &[20001, 20000]),
    ]
}

pub fn rows() -> Vec<Row> {
    [overriding(), slots(), refusals(), beside()].concat()
}
