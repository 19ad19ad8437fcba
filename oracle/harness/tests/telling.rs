//! The telling rows on the original Rust and on the model: both answer and leave what a row says,
//! and agree on all memory.

use std::collections::BTreeSet;

use harness::compare::compare;
use harness::model::Model;
use harness::oracle::Oracle;
use harness::telling::rows;

#[test]
fn each_row_on_the_original_rust() {
    let mut oracle = Oracle::default();
    let wrong = rows().into_iter().filter_map(|row| {
        oracle.new_case(row.case.rebuilds);
        row.check(&mut oracle).err()
    });
    assert_eq!(wrong.collect::<Vec<_>>(), [""; 0]);
}

#[test]
fn each_row_on_the_model() {
    let wrong = rows().into_iter().filter_map(|row| row.check(&mut Model).err());
    assert_eq!(wrong.collect::<Vec<_>>(), [""; 0]);
}

#[test]
fn both_agree_on_all_memory() {
    let mut oracle = Oracle::default();
    for row in rows() {
        let result = compare(&mut oracle, &mut Model, &row.case, &mut |_| {});
        assert!(result.is_ok(), "{}: {result:?}", row.name);
    }
}

#[test]
fn each_row_has_a_name_of_its_own() {
    let rows = rows();
    assert_eq!(rows.iter().map(|row| row.name).collect::<BTreeSet<_>>().len(), rows.len());
}
