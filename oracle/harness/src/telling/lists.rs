//! Lists of calls to which demand 3 speaks: chains through an array class, with links and asks of other classes between them.

use super::assemble::*;
use super::{Row, ask, lent, link, row};
use crate::generate::{AbiClassDraft, ClassDraft};

/// Class 1 declares foo, which its ABI entry fixes at 1; class 2 is an array of it whose ABI entry fixes bar at 2; class 3
/// declares foo and bar.
fn chain() -> [ClassDraft; 3] {
    let child = built("C", 2, &[method("foo", 200), method("bar", 300)], &[]);
    [having_method("java/lang/Object", 0, "foo", 100), array("[I", 1), child]
}

fn entries() -> [AbiClassDraft; 2] {
    [fixing("java/lang/Object", "foo", 1), fixing("[I", "bar", 2)]
}

/// Beside the chain a class that grows the field section, one that grows the method section, and an interface.
fn world() -> super::Lent {
    let others = [plain("F", 0), compiled("G", 1, &[], &[0, 777]), interface("I", &[method("bar", 400)])];
    let classes = [&chain()[..], &others].concat();
    let area = [vec![1], vec![0; 40]].concat();
    lent(&classes, &[&entries()[..], &[abi("F", &[], &[fixed("f", "I", 0)])]].concat()).spare(60).on_area(&area)
}

pub fn rows() -> Vec<Row> {
    vec![
        row("array-between", lent(&chain(), &entries()), &[link(1), link(2), link(3)])
            .answers(&[(0, 1, 2), (0, 5, 2), (0, 9, 3)])
            .table(1, &[901, 100])
            .table(2, &[901, 100])
            .table(3, &[901, 200, 300]),
        // class 3 before its parent, class 1, both sections grow, the interface, the array class, class 3, an ask that puts a node,
        // class 3 again, an ask that finds it, a number that is no class
        row(
            "all-between",
            world(),
            &[link(3), link(1), link(4), link(5), link(6), link(2), link(3), ask(3, 6), link(3), ask(3, 6), link(99)],
        )
        .each_stubs(&[&[901], &[902, 903], &[], &[904, 905], &[906], &[907, 908], &[909, 910, 911], &[912], &[913], &[], &[]])
        .answers(&[
            (6, 0, 0),
            (0, 1, 2),
            (0, 5, 0),
            (0, 7, 2),
            (0, 11, 1),
            (0, 14, 2),
            (0, 18, 3),
            (0, 24, 0),
            (6, 0, 0),
            (0, 24, 1),
            (6, 0, 0),
        ])
        .table(1, &[902, 100])
        .table(2, &[902, 100])
        .table(3, &[902, 200, 300])
        .methods(5, &[("foo", 1, 777)])
        .indices(4, &[0])
        .set_part(0, &[6, 5, 1, 0, 2, 54]),
    ]
}
