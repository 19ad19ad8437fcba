//! "The desk's examples" of the specification, on the oracle and on the model.

mod desk;

use desk::{Desk, abi, class, field, generated, method};
use harness::generate::{AbiClassDraft, ClassDraft};
use harness::model::argument_words;
use harness::side::Answer;

#[test]
fn fields_after_parent_words_3() {
    let parent = ClassDraft { instance_words: 3, ..generated("P", 0) };
    let child = ClassDraft { fields: vec![field("a", "I", 0), field("b", "J", 0), field("c", "I", 0)], ..class("C", 1) };
    let mut desk = Desk::new(vec![parent, child], vec![]);
    desk.link_all(2);
    assert_eq!((desk.indices(2), desk.instance_words(2)), (vec![3, 4, 6], 7));
}

#[test]
fn fields_under_abi_words_3() {
    let fields = vec![field("a", "I", 0), field("b", "J", 0), field("c", "I", 0)];
    let entry = AbiClassDraft { words: Some(3), ..abi("C", &[], &[]) };
    let mut desk = Desk::new(vec![ClassDraft { fields, ..class("C", 0) }], vec![entry]);
    desk.link_all(1);
    assert_eq!((desk.indices(1), desk.instance_words(1)), (vec![4294967295, 4294967294, 4294967292], 3));
}

fn generated_with(total: u32, indices: [u32; 3]) -> Desk {
    let fields = vec![field("a", "I", indices[0]), field("b", "J", indices[1]), field("c", "I", indices[2])];
    Desk::new(vec![ClassDraft { fields, instance_words: total, ..generated("G", 0) }], vec![])
}

#[test]
fn generated_indices() {
    let mut desk = generated_with(7, [0, 1, 3]);
    desk.link_all(1);
    assert_eq!(desk.indices(1), vec![3, 4, 6]);
    assert_eq!(generated_with(7, [0, 4, 6]).link(1).refusal, 9);
    assert_eq!(generated_with(3, [0, 1, 3]).link(1).refusal, 8);
}

#[test]
fn argument_words_by_descriptor() {
    assert_eq!(argument_words(b"(IJ)V", 0), Ok(4));
    assert_eq!(argument_words(b"(IJ)V", 8), Ok(3));
    assert_eq!(argument_words(b"(V)V", 0), Err(5));
    let longs = format!("({}I)V", "J".repeat(127));
    assert_eq!(argument_words(longs.as_bytes(), 8), Ok(255));
    assert_eq!(argument_words(longs.as_bytes(), 0), Err(5));
}

#[test]
fn fixed_slot_against_a_compiler_slot() {
    let q = ClassDraft { methods: vec![method("foo", 9000)], compiler: Some(vec![0, 0, 0, 0, 0, 9000]), ..generated("Q", 1) };
    let child = ClassDraft { methods: vec![method("foo", 9100)], ..class("R", 2) };
    let mut desk = Desk::new(vec![class("P", 0), q, child], vec![abi("P", &[("foo", 3)], &[])]);
    assert_eq!(desk.refusal_of(3), 11);
}

#[test]
fn places_and_nodes() {
    let interface = ClassDraft { flags: 0x0201, methods: vec![method("run", 100)], ..class("I", 0) };
    let implementing = ClassDraft { methods: vec![method("run", 200), method("stop", 216)], ..class("C", 0) };
    let mut desk = Desk::new(vec![interface, implementing], vec![]);
    assert_eq!(desk.link(1), Answer::accepted(1, 1));
    assert_eq!(desk.link(2), Answer::accepted(4, 2));
    assert_eq!(desk.ask(2, 1), Answer::accepted(9, 0));
    assert_eq!(desk.area[0], 11);
    assert_eq!(desk.ask(2, 1), Answer::accepted(9, 1));
}

#[test]
fn cards() {
    let card = ClassDraft { methods: vec![method("open", 4096), method("close", 4112)], ..class("Card", 0) };
    let vip = ClassDraft { methods: vec![method("close", 8192), method("mark", 8208)], ..class("VipCard", 1) };
    let mut desk = Desk::new(vec![card, vip], vec![]);
    desk.link_all(2);
    assert_eq!(desk.table(1), vec![4096, 4112]);
    assert_eq!(desk.table(2), vec![4096, 8192, 8208]);
}
