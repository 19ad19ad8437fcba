//! Two inherited signatures on one fixed slot: which stays, which follows, and refusal 11 of what redeclares one that gave way.

use lgt_linker::*;

/// Device fixes `open` in slot 0 and Printer `close`: two ABI sheets combined.
fn combined() -> AbiSheet {
    let entry = |name, method| AbiClassBuilder::new(name).slot(method, "()V", 0);
    AbiBuilder::new().class(entry("Device", "open")).class(entry("Printer", "close")).build().unwrap()
}

/// Printer fixes both in slot 0.
fn in_one() -> AbiSheet {
    AbiBuilder::new().class(AbiClassBuilder::new("Printer").slot("close", "()V", 0).slot("open", "()V", 0)).build().unwrap()
}

/// Device with `open` and `close`, Printer under it, and these below.
fn devices(below: &[ClassBuilder]) -> ClassSet {
    let device = ClassBuilder::new("Device").method("open", "()V", 5).method("close", "()V", 6);
    let set = SetBuilder::new().class(device).class(ClassBuilder::new("Printer").extends("Device"));
    below.iter().fold(set, |set, class| set.class(class.clone())).build().unwrap()
}

/// The tables after all links, or the refusals.
fn tables(set: &mut ClassSet, abi: &AbiSheet, area: &mut Area) -> Vec<Result<Vec<u32>, Refusal>> {
    let linked = set.link_all(abi, area, &[901, 902, 903]);
    linked.into_iter().map(|linked| linked.map(|linked| area.slots(linked).to_vec())).collect()
}

#[test]
fn none_is_lost() {
    let (mut set, mut area) = (devices(&[]), Area::fresh(64));
    assert_eq!(tables(&mut set, &combined(), &mut area), [Ok(vec![5, 6]), Ok(vec![6, 5])]);
    assert_eq!(set.virtual_method_index(&combined(), &area, 2, "open", "()V"), Some(1));
    assert_eq!(set.virtual_method_index(&combined(), &area, 2, "close", "()V"), Some(0));
}

#[test]
fn from_one_entry_the_method_inherited_first_stays() {
    assert_eq!(tables(&mut devices(&[]), &in_one(), &mut Area::fresh(64))[1], Ok(vec![5, 6]));
}

#[test]
fn what_redeclares_the_moved_signature_is_refused() {
    let label = |method| ClassBuilder::new("Label").extends("Printer").method(method, "()V", 8);
    let (mut set, mut area) = (devices(&[label("open")]), Area::fresh(64));
    set.link(&combined(), 1, &mut area, &[901, 902]).unwrap();
    set.link(&combined(), 2, &mut area, &[901, 902]).unwrap();
    let (before, lent) = (set.clone(), area.clone());
    assert_eq!(set.link(&combined(), 3, &mut area, &[901, 902]), Err(Refusal::MovedSlot));
    assert!(set == before && area == lent);
    assert_eq!(tables(&mut devices(&[label("close")]), &combined(), &mut Area::fresh(64))[2], Ok(vec![8, 5]));
    assert_eq!(Refusal::MovedSlot.number(), 11);
}

#[test]
fn a_copy_that_moved_still_counts_as_missing() {
    let device = ClassBuilder::new("Device").method_with("open", "()V", layout::flags::STATIC, 5).method("close", "()V", 6);
    let mut set = SetBuilder::new().class(device).class(ClassBuilder::new("Printer").extends("Device")).build().unwrap();
    assert_eq!(tables(&mut set, &combined(), &mut Area::fresh(64)), [Ok(vec![901, 6]), Ok(vec![6, 901])]);
    assert_eq!((set.missing_slots(&combined(), 2), set.missing_indices(2)), (Ok(1), vec![1]));
}
