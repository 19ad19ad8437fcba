//! Interface tables that stay: what is built is found again, whatever comes between; each premise is needed; the bound on nodes read is met.

use super::assemble::*;
use super::{Lent, Row, ask, lent, link, row};

/// I with an abstract run, and K whose run has target 0.
fn run() -> Lent {
    lent(&[interface("I", &[flagged(1025, "run", 5)]), having_method("K", 0, "run", 0)], &[])
}

/// Three interfaces, one of them by an ABI entry of no known method, and K that has what they ask for.
fn three() -> Lent {
    let classes = [
        interface("I", &[flagged(1025, "a", 5)]),
        plain("J", 0),
        interface("L", &[flagged(1025, "b", 6), flagged(1025, "a", 7)]),
        built("K", 0, &[method("a", 8), method("b", 9)], &[]),
    ];
    lent(&classes, &[fixing("J", "z", 0)]).on_area(&[&[1][..], &[0; 47]].concat())
}

/// 64 classes without slots, and an area that has room for a table of each and for a node of each on one list.
fn sixty_four() -> Lent {
    let classes: Vec<_> = (1..=64).map(|number| plain(&format!("C{number}"), 0)).collect();
    lent(&classes, &[]).on_area(&[&[1][..], &[0; 256]].concat())
}

pub fn rows() -> Vec<Row> {
    let each: Vec<_> = (1..=64).map(link).chain((1..=64).map(|interface| ask(1, interface))).chain([ask(1, 1), ask(1, 64)]).collect();
    let tables = (0..64).map(|class| (0, 1 + 2 * class, 0));
    let nodes = (0..64).map(|read| (0, 130 + 2 * read, read));
    let bound: Vec<_> = tables.chain(nodes).chain([(0, 130, 64), (0, 256, 1)]).collect();
    vec![
        row("kept", run(), &[link(1), link(2), ask(2, 1), ask(2, 1)])
            .answers(&[(0, 1, 1), (0, 4, 1), (0, 8, 0), (0, 8, 1)])
            .area(&[10, 1, 5, 0, 2, 901, 7, 0, 1, 901]),
        // three interfaces on one class's list, and the class itself; asked again in another order
        row(
            "kept-order",
            three(),
            &[link(1), link(2), link(3), link(4), ask(4, 1), ask(4, 2), ask(4, 3), ask(4, 4), ask(4, 2), ask(4, 4), ask(4, 1), ask(4, 3)],
        )
        .answers(&[
            (0, 1, 1),
            (0, 4, 1),
            (0, 7, 2),
            (0, 11, 2),
            (0, 16, 0),
            (0, 19, 1),
            (0, 22, 2),
            (0, 26, 3),
            (0, 19, 3),
            (0, 26, 1),
            (0, 16, 4),
            (0, 22, 2),
        ])
        .area(&[29, 1, 5, 0, 2, 901, 0, 3, 6, 7, 0, 4, 8, 9, 25, 0, 1, 8, 15, 2, 901, 18, 3, 9, 8, 21, 4, 8, 9]),
        // a generated class that adds a method is linked between, and an ask is refused by 16
        row(
            "kept-grown",
            lent(
                &[
                    interface("I", &[flagged(1025, "run", 5)]),
                    having_method("K", 0, "run", 6),
                    compiled("G", 0, &[], &[8]),
                    interface("L", &[flagged(1025, "no", 7)]),
                ],
                &[fixing("G", "k", 0)],
            )
            .spare(16),
            &[link(1), link(2), ask(2, 1), link(3), link(4), ask(2, 4), ask(2, 1)],
        )
        .answers(&[(0, 1, 1), (0, 4, 1), (0, 8, 0), (0, 10, 1), (0, 13, 1), (16, 0, 0), (0, 8, 1)])
        .methods(3, &[("k", 1, 8)]),
        // one stub list is needed: what was built keeps the stubs of its list
        row("kept-stubs", run(), &[link(1), link(2), ask(2, 1), ask(2, 1)])
            .each_stubs(&[&[901], &[901], &[901], &[903]])
            .answers(&[(0, 1, 1), (0, 4, 1), (0, 8, 0), (0, 8, 1)])
            .area(&[10, 1, 5, 0, 2, 901, 7, 0, 1, 901]),
        // so is an unlinked sheet: a list that was there before names an interface twice, and the first counts
        row("kept-unlinked", lent(&[plain("C", 0).linked_at(1, 0)], &[]).on_area(&[9, 1, 3, 5, 1, 0, 1, 0, 0]), &[ask(1, 1)])
            .answers(&[(0, 4, 1)]),
        // a full area keeps its tables, and has room for no other
        row("kept-full", run().on_area(&[1, 0, 0, 0, 0, 0, 0, 0, 0, 0]), &[link(1), link(2), ask(2, 1), ask(2, 1), ask(2, 2)]).answers(&[
            (0, 1, 1),
            (0, 4, 1),
            (0, 8, 0),
            (0, 8, 1),
            (15, 0, 0),
        ]),
        // one class is asked for every class: the last miss reads 63 nodes, the hit on the first one all 64
        row("kept-bound", sixty_four(), &each).answers(&bound),
    ]
}
