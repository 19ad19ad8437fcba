//! The list of the signatures' numbers: what a filling is, what links leave in the list, lists that are too short, and what is compared by
//! numbers, told by lists that are no filling. From a call on whose list does not tell the signatures apart the model judges, not the Rust.

use super::assemble::*;
use super::{Lent, Row, ask, fill, lent, link, row};
use crate::generate::{AbiClassDraft, ClassDraft};
use crate::oracle::{Oracle, numbers};
use crate::sheet::{CLASS_WORDS, MemberRecord, Set};
use crate::side::{Linker, SheetsMut};

/// Lists of 7s and of zeros, as long as they must be.
const SEVENS: [u32; 1024] = [7; 1024];
const ZEROS: [u32; 1024] = [0; 1024];

/// A class C with these methods.
fn of(methods: &[(&str, &str)], entries: &[AbiClassDraft]) -> Lent {
    let methods: Vec<_> = (1..).zip(methods).map(|(target, (name, descriptor))| described(1, name, descriptor, target)).collect();
    lent(&[built("C", 0, &methods, &[])], entries)
}

/// 512 records of a method a, which no class owns.
fn full() -> Lent {
    let mut set = Set::decode(&class_words(&[plain("C", 0)])).expect("a set");
    set.text.extend(b"a()V");
    set.methods = vec![MemberRecord { name: (1, 1), descriptor: (2, 3), flags: 1, last: 5 }; 512];
    Lent { set: set.encode(), ..lent(&[], &[]) }
}

/// An entry of 512 slots, no two of one signature.
fn slots() -> AbiClassDraft {
    abi("A", &(0..512).map(|place| slot(&format!("m{place}"), place)).collect::<Vec<_>>(), &[])
}

/// P with a, and C under it with b.
fn two() -> Lent {
    lent(&[having_method("P", 0, "a", 5), having_method("C", 1, "b", 6)], &[])
}

/// P with a, whose slots 2 and 3 are fixed by these rows.
fn two_rows(rows: [(&str, u32); 2]) -> Lent {
    lent(&[having_method("P", 0, "a", 5)], &[abi("P", &rows.map(|(name, index)| slot(name, index)), &[])])
}

/// G, generated with these methods and compiler table, which lacks what its entry fixes at 0.
fn growing(methods: &[(&str, u32)], classes: &[ClassDraft]) -> Lent {
    let methods: Vec<_> = methods.iter().map(|&(name, target)| method(name, target)).collect();
    lent(&[&[compiled("G", 0, &methods, &[9])], classes].concat(), &[fixing("G", "k", 0)]).spare(40)
}

/// G, generated, whose compiler table adds j and k; H under it declares k.
fn handed_on() -> Lent {
    let classes = [compiled("G", 0, &[], &[8, 9]), having_method("H", 1, "k", 7)];
    lent(&classes, &[abi("G", &[slot("j", 0), slot("k", 1)], &[])]).spare(40)
}

/// The same after the class was linked, but for the list, which is as it was first filled.
fn linked(mut lent: Lent, class: u32) -> Lent {
    let filled = numbers::filling_of(&lent.set, &lent.abi);
    let (mut numbers, mut missing) = (filled.clone(), vec![0; 33 * 64]);
    let sheets = SheetsMut { set: &mut lent.set, abi: &lent.abi, numbers: &mut numbers };
    Oracle::default().link(sheets, class, &mut lent.area, &lent.stubs, &mut missing);
    lent.on_numbers(&filled)
}

/// I with a, and C with b, both linked by hand.
fn by_hand() -> Lent {
    let classes = [interface("I", &[method("a", 5)]).linked_at(1, 1), having_method("C", 0, "b", 7).linked_at(4, 1)];
    lent(&classes, &[]).on_words(&[7, 1, 5, 0, 2, 7, 0])
}

/// With the flags of the first method changed to ones that row 4 refuses.
fn bad_record(lent: Lent) -> Lent {
    let place = 6 + CLASS_WORDS * lent.set[0] as usize + 4;
    lent.with_word(place, u32::MAX)
}

pub fn rows() -> Vec<Row> {
    [fillings(), grown(), short(), by_numbers()].concat()
}

fn fillings() -> Vec<Row> {
    let a_b_a = || of(&[("a", "()V"), ("b", "()V"), ("a", "()V")], &[abi("A", &[slot("b", 1), slot("c", 0)], &[])]);
    let numbers = |places: &[u32], slots: &[u32]| [places, &ZEROS[places.len()..512], slots, &ZEROS[slots.len()..512]].concat();
    let joined = of(&[("f", "()La(B)Lb;"), ("f()La", "(B)Lb;")], &[]);
    let parts = of(&[("a", "()V"), ("a", "(I)V"), ("b", "()V"), ("b", "(I)V")], &[abi("A", &[fixed("b", "(I)V", 0), slot("a", 1)], &[])]);
    vec![
        // each place holds the first one of both parts equal, whichever text they lie in; unused places become 0
        row("fill", a_b_a().on_numbers(&SEVENS), &[fill()]).answers(&[(0, 0, 0)]).numbers(0, &numbers(&[0, 1, 0], &[1, 513])),
        // the rest of a longer list stays
        row("fill-longer", a_b_a().on_first_numbers(&[7; 4], 2), &[fill()]).numbers(1022, &[0, 0, 7, 7]),
        // each part for itself: not their bytes in a row, not one of them
        row("fill-joined", joined.on_first_numbers(&[7; 6], 0), &[fill()]).numbers(0, &numbers(&[0, 1], &[])),
        row("fill-parts", parts.on_first_numbers(&[7; 6], 0), &[fill()]).numbers(0, &numbers(&[0, 1, 2, 3], &[3, 0])),
        // no record at all; 512 equal methods, which no class owns; 512 slots alone
        row("fill-nothing", lent(&[], &[]).on_first_numbers(&[7; 6], 0), &[fill()]).numbers(0, &ZEROS),
        row("fill-512-methods", full().on_first_numbers(&[7; 6], 0), &[fill()]).numbers(0, &ZEROS),
        row("fill-512-slots", lent(&[], &[slots()]).on_first_numbers(&[7; 6], 0), &[fill()])
            .numbers(0, &numbers(&[], &(512..1024).collect::<Vec<_>>())),
        // a bad record, a bad descriptor: the list stays
        row("fill-4", bad_record(a_b_a()).on_numbers(&SEVENS), &[fill()]).answers(&[(4, 0, 0)]).numbers(0, &SEVENS),
        row("fill-5", of(&[("a", "(V)V")], &[]).on_numbers(&SEVENS), &[fill()]).answers(&[(5, 0, 0)]).numbers(0, &SEVENS),
    ]
}

/// What links leave in the list.
fn grown() -> Vec<Row> {
    let of_view = lent(&[having_method("P", 0, "a", 5).having(1, 3, 0), compiled("Q", 1, &[], &[8])], &[]).spare(20);
    vec![
        // copied records keep their numbers, the added one has that of the ABI slot that it took, the places after it stay
        row("numbers-grown", growing(&[("a", 5), ("x", 6)], &[]), &[link(1)]).numbers(0, &[0, 1, 0, 1, 512, 0]).numbers(512, &[512, 0]),
        row("numbers-rest", growing(&[("a", 5)], &[]).on_first_numbers(&[4, 3, 6, 7, 9], 2), &[link(1)])
            .numbers(0, &[4, 4, 0, 7, 9])
            .numbers(1023, &[0, 7, 7]),
        // that is no filling of the grown set, where the added method is the first of its signature
        row("numbers-kept", growing(&[], &[]), &[link(1)]).numbers(0, &[512, 0]).numbers(512, &[512, 0]),
        row("numbers-refilled", growing(&[], &[]), &[link(1), fill()]).numbers(0, &[0, 0]).numbers(512, &[0, 0]),
        // the number of the view's method
        row("numbers-of-view", of_view, &[link(1), link(2)]).numbers(0, &[0, 0, 0]).methods(2, &[("a", 1, 8)]),
        // a refused link leaves the list, and so does one that adds fields
        row("numbers-refused", growing(&[("a", 5)], &[]).on_first_numbers(&[4, 3, 6], 0).on_stubs(&[]), &[link(1)])
            .answers(&[(15, 0, 0)])
            .numbers(0, &[4, 3, 6]),
        row(
            "numbers-fields",
            lent(&[having_method("C", 0, "a", 1)], &[abi("C", &[], &[fixed("n", "I", 3)])]).spare(12).on_numbers(&SEVENS),
            &[link(1)],
        )
        .numbers(0, &SEVENS),
        // H under a class whose list grew finds its k, by the list as the last link left it; by the list as it was first filled both added
        // methods have k's number
        row("numbers-handed-on", handed_on(), &[link(1), link(2)]).numbers(0, &[0, 512, 0]).numbers(512, &[512, 0]).table(2, &[8, 7]),
        row("numbers-stale", linked(handed_on(), 1), &[link(2)]).answers(&[(11, 0, 0)]),
    ]
}

/// Row 3 takes a shorter list, before row 4.
fn short() -> Vec<Row> {
    let one_less = &ZEROS[1..];
    let asking = || bad_record(by_hand());
    vec![
        row("fill-short", two().on_numbers(one_less), &[fill()]).answers(&[(3, 0, 0)]),
        row("fill-short-bad", bad_record(two()).on_numbers(one_less), &[fill()]).answers(&[(3, 0, 0)]),
        row("link-short", two().on_numbers(one_less), &[link(1)]).answers(&[(3, 0, 0)]),
        row("link-short-bad", bad_record(two()).on_numbers(one_less), &[link(1)]).answers(&[(3, 0, 0)]),
        row("link-bad", bad_record(two()).on_numbers(&ZEROS), &[link(1)]).answers(&[(4, 0, 0)]),
        row("ask-short", by_hand().on_numbers(one_less), &[ask(2, 1)]).answers(&[(3, 0, 0)]),
        row("ask-short-bad", asking().on_numbers(one_less), &[ask(2, 1)]).answers(&[(3, 0, 0)]),
        row("ask-bad", asking().on_numbers(&ZEROS), &[ask(2, 1)]).answers(&[(4, 0, 0)]),
        row("no-numbers", two().on_numbers(&[]), &[link(1), fill()]).answers(&[(3, 0, 0), (3, 0, 0)]),
    ]
}

/// What is compared by numbers.
fn by_numbers() -> Vec<Row> {
    let twice = lent(&[having_method("P", 0, "a", 5), having_method("C", 1, "a", 6)], &[]);
    let renamed = class_words(&[having_method("P", 0, "a", 5), having_method("C", 1, "a", 6)]);
    let of_other_order = two_rows([("a", 3), ("b", 2)]);
    let relaid = || lent(&[built("P", 0, &[method("a", 5), method("b", 6)], &[]), plain("Q", 1)], &[fixing("Q", "a", 1)]);
    let taken = || lent(&[having_method("P", 0, "a", 5), having_method("Q", 1, "b", 7)], &[fixing("P", "a", 0), fixing("Q", "b", 0)]);
    let packaged = || {
        let classes = [having_method("P", 0, "a", 5), having_method("C", 1, "b", 6)];
        lent(&classes.map(|class| ClassDraft { kind: 3, ..class }), &[])
    };
    let read = || {
        let classes = [having_method("P", 0, "a", 5).linked_at(1, 1), having_method("C", 0, "a", 7).linked_at(4, 1)];
        lent(&classes, &[fixing("P", "b", 0)]).on_words(&[7, 1, 77, 0, 2, 7, 0])
    };
    vec![
        // zeros: b is a; by the bytes both have slots
        row("numbers-filled", two(), &[link(1), link(2)]).table(2, &[5, 6]),
        row("numbers-zeros", two().on_numbers(&ZEROS), &[link(1), link(2)]).table(2, &[6]),
        // numbers of their own: a is not a
        row("numbers-apart", twice.on_numbers(&(0..1024).collect::<Vec<_>>()), &[link(1), link(2)]).table(2, &[5, 6]),
        // filled from another set, where b was called a
        row("numbers-of-other-set", two().on_numbers(&numbers::filling_of(&renamed, &[0; 4])), &[link(1), link(2)]).table(2, &[6]),
        // filled from another ABI sheet, whose rows were in another order
        row("numbers-of-abi", two_rows([("b", 2), ("a", 3)]), &[link(1)]).table(1, &[901, 902, 903, 5]),
        row(
            "numbers-of-other-abi",
            two_rows([("b", 2), ("a", 3)]).on_numbers(&numbers::filling_of(&of_other_order.set, &of_other_order.abi)),
            &[link(1)],
        )
        .table(1, &[901, 902, 5, 904]),
        // relaying, row 12, packages
        row("relaid-filled", relaid(), &[link(1), link(2)]).table(2, &[901, 5, 6]),
        row("relaid-zeros", relaid().on_numbers(&ZEROS), &[link(1), link(2)]).table(2, &[901, 6]),
        row("taken-filled", taken(), &[link(1), link(2)]).answers(&[(0, 1, 1), (12, 0, 0)]),
        row("taken-zeros", taken().on_numbers(&ZEROS), &[link(1), link(2)]).table(2, &[7]),
        row("packages-filled", packaged(), &[link(1), link(2)]).table(2, &[5, 6]),
        row("packages-zeros", packaged().on_numbers(&ZEROS), &[link(1), link(2)]).table(2, &[6]),
        // an added method: k is the declared a, so it is none
        row("added-filled", growing(&[("a", 5)], &[]), &[link(1)]).methods(1, &[("a", 1, 5), ("k", 1, 9)]),
        row("added-zeros", growing(&[("a", 5)], &[]).on_numbers(&ZEROS), &[link(1)]).methods(1, &[("a", 1, 5)]),
        // reading by the ABI: slot 0 is b, which P has not, and keeps its word; by the zeros it is a
        row("read-filled", read(), &[ask(2, 1)]).area(&[10, 1, 77, 0, 2, 7, 7, 0, 1, 77]),
        row("read-zeros", read().on_numbers(&ZEROS), &[ask(2, 1)]).area(&[10, 1, 77, 0, 2, 7, 7, 0, 1, 7]),
        // an ask: b implements a
        row("ask-filled", by_hand(), &[ask(2, 1)]).answers(&[(16, 0, 0)]),
        row("ask-zeros", by_hand().on_numbers(&ZEROS), &[ask(2, 1)]).answers(&[(0, 8, 0)]).area(&[10, 1, 5, 0, 2, 7, 7, 0, 1, 7]),
    ]
}
