//! What is looked up along a chain: ABI entries by name, fixed indices, sizes, eligible methods.

use super::assemble::*;
use super::{Row, lent, link, row};
use crate::generate::AbiClassDraft;

/// Classes a, c and b, each the next one's parent, c without an ABI entry; b declares m.
fn three(entries: &[AbiClassDraft]) -> super::Lent {
    lent(&[plain("a", 0), plain("c", 1), having_method("b", 2, "m", 9)], entries)
}

pub fn rows() -> Vec<Row> {
    let all = &[link(1), link(2), link(3)];
    vec![
        // the nearest entry that fixes the method counts, else a farther one, past a class that has none
        row("nearest-entry", three(&[fixing("a", "m", 2), fixing("b", "m", 1)]), all).table(3, &[901, 9, 903]),
        row("farther-entry", three(&[fixing("a", "m", 2), empty_entry("b")]), all).table(3, &[901, 902, 9]),
        // the size is the largest along the chain, by a table size or by an index; an entry may ask for none
        row("largest-by-size", three(&[empty_entry("a").sized(4), fixing("b", "m", 1)]), all).table(3, &[901, 9, 903, 904]),
        row("largest-by-index", three(&[empty_entry("a").sized(2), fixing("b", "m", 3)]), all).table(3, &[901, 902, 903, 9]),
        row("no-size", three(&[empty_entry("a"), empty_entry("b")]), all).table(3, &[9]),
        // the entry of a class that is not of the chain does not count
        row("other-entry", three(&[fixing("d", "m", 3)]), all).table(3, &[9]),
        // of the first ABI class of a name the first match counts, and no other class of that name
        row("first-match", three(&[abi("b", &[slot("m", 2), slot("m", 0)], &[]), fixing("b", "m", 1)]), all).table(3, &[901, 902, 9]),
        // a method of the name and another descriptor is not fixed
        row("not-fixed", three(&[abi("b", &[fixed("m", "(I)V", 1)], &[])]), all).table(3, &[901, 902, 9]),
        // own fields are looked up in the own entry alone, instance words too: with 8 given the field is a runtime field
        row("given-words", lent(&[having_field("C", 0, 0)], &[empty_entry("C").worded(8)]), &[link(1)]).indices(1, &[u32::MAX]).words(1, 8),
        row("own-entry-alone", lent(&[plain("P", 0), having_field("C", 1, 0)], &[empty_entry("P").worded(8)]), &[link(1), link(2)])
            .indices(2, &[8])
            .words(2, 9),
    ]
}
