//! Classes linked by packages, and refusal 26.

use lgt_linker::layout::flags::{INTERFACE, PROTECTED, PUBLIC};
use lgt_linker::*;

fn abi() -> AbiSheet {
    AbiBuilder::new().build().unwrap()
}

/// A chain of classes of a kind, each with a method `foo` of these flags and the targets 10, 20, 30 and on; the tables after all links.
fn tables(kind: Kind, classes: &[(&str, u32)]) -> Vec<Vec<u32>> {
    let mut builder = SetBuilder::new();
    let mut above = None;
    for ((name, flags), target) in classes.iter().zip((10..).step_by(10)) {
        let class = ClassBuilder::new(name).kind(kind).method_with("foo", "()V", *flags, target);
        builder = builder.class(above.map_or(class.clone(), |above| class.extends(above)));
        above = Some(*name);
    }
    let (mut set, mut area) = (builder.build().unwrap(), Area::fresh(64));
    let linked = set.link_all(&abi(), &mut area, &[9; 8]);
    linked.into_iter().map(|linked| area.slots(linked.unwrap()).to_vec()).collect()
}

#[test]
fn package_private_methods_of_two_packages_have_two_slots() {
    let desk = [("p/A", 0), ("q/B", 0)];
    assert_eq!(tables(Kind::Built, &desk), [[10], [20]]);
    assert_eq!(tables(Kind::Packaged, &desk), [vec![10], vec![10, 20]]);
    assert_eq!(tables(Kind::Packaged, &[("p/A", 0), ("p/B", 0)]), [[10], [20]]);
}

#[test]
fn a_method_overrides_through_another_and_takes_several_slots() {
    assert_eq!(tables(Kind::Packaged, &[("p/A", 0), ("p/B", PUBLIC), ("q/C", 0)])[2], [30]);
    assert_eq!(tables(Kind::Packaged, &[("p/A", 0), ("q/B", PROTECTED), ("p/C", 0)])[2], [30, 30]);
}

/// What a class answers that is linked after its parent.
fn linked(parent: ClassBuilder, child: ClassBuilder, abi: &AbiSheet) -> Result<Linked, Refusal> {
    let mut set = SetBuilder::new().class(parent).class(child.extends("A")).build().unwrap();
    let mut area = Area::fresh(64);
    set.link(abi, 1, &mut area, &[])?;
    let (before, lent) = (set.clone(), area.clone());
    let answer = set.link(abi, 2, &mut area, &[]);
    assert!(answer.is_ok() || (set == before && area == lent));
    answer
}

#[test]
fn a_chain_is_of_one_kind_without_interfaces_and_abi_entries() {
    let (a, b) = (|| ClassBuilder::new("A"), || ClassBuilder::new("B"));
    let packaged = |class: ClassBuilder| class.kind(Kind::Packaged);
    assert!(linked(packaged(a()), packaged(b()), &abi()).is_ok());
    assert_eq!(linked(a(), packaged(b()), &abi()), Err(Refusal::Packages));
    assert_eq!(linked(packaged(a()), b(), &abi()), Err(Refusal::Packages));
    assert_eq!(linked(packaged(a()), b().kind(Kind::Generated), &abi()), Err(Refusal::Packages));
    assert_eq!(linked(packaged(a()), packaged(b()).flags(INTERFACE), &abi()), Err(Refusal::Packages));
    let entry = AbiBuilder::new().class(AbiClassBuilder::new("B")).build().unwrap();
    assert_eq!(linked(packaged(a()), packaged(b()), &entry), Err(Refusal::Packages));
    assert_eq!(Refusal::Packages.number(), 26);
}
