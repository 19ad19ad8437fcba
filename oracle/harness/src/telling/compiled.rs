//! Generated classes with a compiler table.

use super::assemble::*;
use super::tables::over_word;
use super::{Lent, Row, lent, link, row};
use crate::generate::AbiClassDraft;

fn under_p(state: u32, table: &[u32], entries: &[AbiClassDraft]) -> Lent {
    lent(&[having_method("P", 0, "k", 5).having(1, state, 0), compiled("Q", 1, &[], table)], entries)
}

pub fn rows() -> Vec<Row> {
    vec![
        // a table of no slots is one: unknown parent entries go
        row("no-slots", lent(&[plain("P", 0), compiled("Q", 1, &[], &[])], &[empty_entry("P").sized(1)]), &[link(1), link(2)])
            .table(2, &[]),
        row("no-table", lent(&[plain("P", 0), generated("Q", 1, &[], &[], 0)], &[empty_entry("P").sized(1)]), &[link(1), link(2)])
            .table(2, &[901]),
        // (a) the native view: link state 3, or the fixed index of the parent chain's ABI, not of the class's own
        row("view-own", under_p(0, &[0], &[fixing("Q", "k", 0)]), &[link(1), link(2)]).table(2, &[901, 5]),
        row("view-state", under_p(3, &[0], &[]), &[link(1), link(2)]).table(2, &[5]),
        row("view-fixed", under_p(0, &[0], &[fixing("P", "k", 0)]), &[link(1), link(2)]).table(2, &[5]),
        // the owner's state counts, not the parent's: P of state 0 has k, M under it is of state 3
        row(
            "view-owner",
            lent(&[having_method("P", 0, "k", 5), plain("M", 1).having(1, 3, 0), compiled("Q", 2, &[], &[0])], &[]),
            &[link(1), link(2), link(3)],
        )
        .table(3, &[901, 5]),
        // (b) a target equal to an unknown entry's word does not differ, so nothing is added
        row("equal-word", over_word(77, plain("P", 0), compiled("Q", 1, &[], &[77]), &[fixing("Q", "k", 0)]), &[link(2)])
            .table(2, &[77])
            .methods(2, &[]),
        // two slots that take one signature, from the own entry and from an interface's, add two methods
        row(
            "two-methods",
            lent(&[plain("I", 0), compiled("Q", 0, &[], &[8, 9]).implementing(&[1])], &[fixing("Q", "k", 0), fixing("I", "k", 1)])
                .spare(16),
            &[link(2)],
        )
        .methods(2, &[("k", 1, 8), ("k", 1, 9)])
        .table(2, &[8, 9]),
        // the interfaces' parents are not asked
        row(
            "no-parents",
            lent(&[plain("S", 0), plain("I", 1), compiled("Q", 0, &[], &[8]).implementing(&[2])], &[fixing("S", "k", 0)]).spare(16),
            &[link(3)],
        )
        .methods(3, &[]),
        // the signature of the view's method goes before the ABI's; its abstract flag goes
        row(
            "view-signature",
            lent(&[built("P", 0, &[flagged(1029, "k", 5)], &[]).having(1, 3, 0), compiled("Q", 1, &[], &[8])], &[fixing("Q", "j", 0)])
                .spare(16),
            &[link(1), link(2)],
        )
        .methods(2, &[("k", 5, 8)]),
        // an originally declared signature is not added, static or not
        row("declared", lent(&[compiled("Q", 0, &[flagged(9, "k", 5)], &[8])], &[fixing("Q", "k", 0)]).spare(16), &[link(1)])
            .methods(1, &[("k", 9, 5)])
            .table(1, &[8]),
        // (c) a target is matched with the records' targets: k's is 7, so slot 0 is unknown, and (d) appends k
        row("by-record", over_word(77, having_method("P", 0, "k", 7), compiled("Q", 1, &[], &[77]), &[fixing("P", "k", 0)]), &[link(2)])
            .table(2, &[77, 7]),
        // then with the native methods': slot 0 is b's, so b is not appended
        row(
            "native",
            lent(&[built("P", 0, &[method("a", 5), method("b", 6)], &[]).having(1, 3, 0), compiled("Q", 1, &[method("a", 7)], &[6])], &[]),
            &[link(1), link(2)],
        )
        .table(2, &[6, 7]),
        // an ineligible declared method is matched too, so its signature has a slot
        row("ineligible", lent(&[compiled("Q", 0, &[flagged(9, "k", 5), method("k", 6)], &[5])], &[]), &[link(1)]).table(1, &[5]),
        // (d) a parent's method is appended with its own target, 0, and so takes this call's stub, not the word in the parent's slot
        row(
            "own-target",
            lent(&[having_method("P", 0, "k", 0), compiled("Q", 1, &[], &[])], &[fixing("P", "k", 0)]).on_stubs(&[700]),
            &[link(1), link(2)],
        )
        .then_stubs(&[800])
        .table(2, &[800])
        .table(1, &[700]),
        // declared, then parent methods; ineligible ones are not appended
        row(
            "appended",
            lent(
                &[
                    built("P", 0, &[method("a", 5), method("b", 6)], &[]),
                    compiled("Q", 1, &[method("c", 7), method("b", 8), flagged(2, "d", 9)], &[]),
                ],
                &[],
            ),
            &[link(1), link(2)],
        )
        .table(2, &[7, 8, 5]),
        // a target is matched in declared methods, then in added ones, then in native ones: slot 1 is j's, slot 0 the added k's
        row(
            "match-order",
            lent(&[having_method("P", 0, "m", 8).having(1, 3, 0), compiled("Q", 1, &[method("j", 9)], &[8, 9])], &[fixing("Q", "k", 0)])
                .spare(20),
            &[link(1), link(2)],
        )
        .methods(2, &[("j", 1, 9)])
        .table(2, &[8, 9]),
        row("added-matched", lent(&[compiled("Q", 0, &[method("j", 9)], &[8, 9])], &[fixing("Q", "k", 0)]).spare(20), &[link(1)])
            .methods(1, &[("j", 1, 9), ("k", 1, 8)])
            .table(1, &[8, 9]),
        // an index past the native view differs from it, and no target 0 adds anything
        row("zero-target", lent(&[compiled("Q", 0, &[], &[0, 8])], &[abi("Q", &[slot("k", 0), slot("l", 1)], &[])]).spare(20), &[link(1)])
            .methods(1, &[("l", 1, 8)])
            .table(1, &[901, 8]),
        // a target that nothing names is no method, and its slot is unknown
        row("nameless", lent(&[compiled("Q", 0, &[], &[8])], &[]), &[link(1)]).methods(1, &[]).table(1, &[8]),
    ]
}
