//! Row 7: the area, tables in it, and walks of interface lists.

use super::assemble::plain;
use super::{Lent, Row, ask, lent, link, minus, row};

fn linked_other(place: u32, slots: u32) -> Lent {
    lent(&[plain("C", 0), plain("D", 0), plain("E", 0).linked_at(place, slots)], &[])
}

/// Classes 1 and 2 linked with no slots, and n nodes in class 1's list: of classes that are not asked for, but for the last.
fn listed(n: u32, last: u32) -> Lent {
    let node = |k: u32| if k == n { [0, last] } else { [5 + 2 * k, 77] };
    let nodes: Vec<u32> = (1..=n).flat_map(node).collect();
    let area = [vec![5 + 2 * n, 1, 5, 2, 0], nodes, vec![0; 2]].concat();
    lent(&[plain("C", 0).linked_at(1, 0), plain("I", 0).linked_at(3, 0)], &[]).on_area(&area)
}

pub fn rows() -> Vec<Row> {
    vec![
        // the tables of all classes are judged, and their ends are behind their list heads
        row("end-above", linked_other(1, 0).on_words(&[2]), &[link(1)]).answers(&[(7, 0, 0)]),
        row("end-at", linked_other(1, 0).on_words(&[3]), &[link(1)]).answers(&[(0, 3, 0)]),
        row("no-wrap", linked_other(minus(1), 0), &[link(2)]).answers(&[(7, 0, 0)]),
        row(
            "of-asks",
            lent(&[plain("C", 0).linked_at(1, 0), plain("I", 0).linked_at(3, 0), plain("E", 0).linked_at(9, 0)], &[])
                .on_words(&[5, 1, 0, 2, 0]),
            &[ask(1, 2)],
        )
        .answers(&[(7, 0, 0)]),
        // a link walks no list, an ask walks one
        row(
            "no-walk",
            lent(&[plain("L", 0).linked_at(1, 0), plain("C", 0)], &[]).on_words(&[3, 1, minus(1)]),
            &[link(2), ask(1, 2), ask(2, 1)],
        )
        .answers(&[(0, 3, 0), (7, 0, 0), (0, 6, 0)]),
        // the 64th node may be the hit, or the last of a list without it; a 65th node and a ring are refused
        row("hit-64", listed(64, 2), &[ask(1, 2)]).answers(&[(0, 132, 64)]),
        row("missed-64", listed(64, 78), &[ask(1, 2)]).answers(&[(0, 134, 64)]),
        row("node-65", listed(65, 2), &[ask(1, 2)]).answers(&[(7, 0, 0)]),
        row("ring", listed(2, 2).on_words(&[9, 1, 5, 2, 0, 7, 77, 5, 77]), &[ask(1, 2)]).answers(&[(7, 0, 0)]),
        // a hit's own link is not looked at; a node's two words are below word 0
        row("hit-link", listed(1, 2).on_words(&[7, 1, 5, 2, 0, minus(1), 2]), &[ask(1, 2)]).answers(&[(0, 6, 1)]),
        row("node-above", listed(1, 2).on_words(&[6, 1, 5, 2, 0, 0, 2]), &[ask(1, 2)]).answers(&[(7, 0, 0)]),
        // no area, word 0 of 0, at the length, above it
        row("no-area", lent(&[plain("C", 0)], &[]).on_area(&[]), &[link(1)]).answers(&[(7, 0, 0)]),
        row("no-next", lent(&[plain("C", 0)], &[]).on_area(&[0, 0, 0]), &[link(1)]).answers(&[(7, 0, 0)]),
        row("full", lent(&[plain("C", 0)], &[]).on_area(&[1]), &[link(1)]).answers(&[(15, 0, 0)]),
        row("above", lent(&[plain("C", 0)], &[]).on_area(&[2]), &[link(1)]).answers(&[(7, 0, 0)]),
        // what is not written stays
        row("rest", lent(&[plain("C", 0)], &[]).on_area(&[1, 7, 7, 7, 7]), &[link(1)]).area(&[3, 1, 0, 7, 7]),
    ]
}
