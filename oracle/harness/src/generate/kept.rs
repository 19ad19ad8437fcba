//! Lists for kept interface tables: few classes, a third of them interfaces, some of arrays, in some cases all others of kind 3; each is linked when its turn
//! comes, and most other calls ask. One stub list a case, and an area that often has something in its free words.

use crate::case::{Call, Case};
use crate::random::Random;

use super::draft::{AbiClassDraft, AbiMemberDraft, ClassDraft, Draft, MemberDraft, Shape};
use super::members::FIRST_STUB;

const NAMES: [&str; 4] = ["a", "b", "c", "d"];

/// What an array class's parent is called.
const ROOT: &str = "java/lang/Object";

pub fn case(random: &mut Random) -> Case {
    let packaged = random.chance(15);
    let mut classes: Vec<ClassDraft> = Vec::new();
    for number in 1..=random.between(3, 8) {
        let class = class(random, number, &classes, packaged);
        classes.push(class);
    }
    // a compiler table adds methods by its class's entry; a chain of kind 3 has none
    let mut has_entry = |class: &&ClassDraft| class.kind != 3 && random.chance(if class.compiler.is_some() { 90 } else { 30 });
    let named: Vec<String> = classes.iter().filter(&mut has_entry).map(|class| class.name.clone()).collect();
    let abi = named.into_iter().map(|name| entry(random, name)).collect();
    let shape = Shape { shares_text: random.chance(50), slack: random.pick(&[60, 200]), ..Shape::default() };
    let count = classes.len() as u32;
    let draft = Draft { classes, abi, shape };
    let words = if random.chance(30) { random.between(16, 60) } else { 400 };
    let stubs = (0..random.pick(&[40, 40, 40, 3])).map(|stub| FIRST_STUB + stub).collect();
    Case {
        set: draft.set_words(),
        abi: draft.abi_words(),
        numbers: vec![0; 1024],
        area: area(random, words),
        missing: vec![0; 33 * count as usize],
        stubs: vec![stubs],
        calls: calls(random, count),
        rebuilds: true,
        spoiled: None,
    }
}

/// A free place, and words behind it: in four of ten cases with something in them.
fn area(random: &mut Random, words: u32) -> Vec<u32> {
    let junk = random.chance(40);
    let word = |_| if junk { random.word() } else { 0 };
    [vec![1], (0..words).map(word).collect()].concat()
}

/// An interface, a built class, one of kind 3, a class of arrays below the root, or a generated class with or without a compiler table.
fn class(random: &mut Random, number: u32, above: &[ClassDraft], packaged: bool) -> ClassDraft {
    let has_root = above.first().is_some_and(|root| root.name == ROOT);
    if has_root && !packaged && random.chance(10) {
        return ClassDraft { name: format!("[C{number}"), parent: 1, flags: 1, kind: 2, ..ClassDraft::default() };
    }
    let is_interface = random.chance(30);
    let parent = parent(random, above, packaged, is_interface);
    let methods: Vec<MemberDraft> = (0..random.below(4)).map(|place| method(random, number, place, is_interface)).collect();
    let name = if number == 1 && random.chance(50) { ROOT.to_owned() } else { format!("C{number}") };
    let mut class = ClassDraft { name, parent, flags: 1, methods, ..ClassDraft::default() };
    if is_interface {
        class.flags = 0x0201;
    } else if packaged {
        class.kind = 3;
    } else if random.chance(30) {
        (class.kind, class.link_state) = (1, random.pick(&[3, 3, 0]));
        if random.chance(70) {
            let known: Vec<u32> = above.iter().flat_map(|class| &class.methods).chain(&class.methods).map(|method| method.last).collect();
            let word = |random: &mut Random| if known.is_empty() || random.chance(40) { 70 + random.below(5) } else { random.pick(&known) };
            class.compiler = Some((0..random.below(4)).map(|_| word(random)).collect());
        }
    }
    class
}

/// None, or a class above; of kind 3 below kind 3 only.
fn parent(random: &mut Random, above: &[ClassDraft], packaged: bool, is_interface: bool) -> u32 {
    let fits = |class: &ClassDraft| !packaged || (class.kind == 3) != is_interface;
    let fitting: Vec<u32> = (1..).zip(above).filter(|(_, class)| fits(class)).map(|(number, _)| number).collect();
    if fitting.is_empty() || random.chance(50) { 0 } else { random.pick(&fitting) }
}

fn method(random: &mut Random, number: u32, place: u32, is_interface: bool) -> MemberDraft {
    let flags = match is_interface {
        true => 0x0401,
        false => random.pick(&[1, 1, 1, 1, 1, 1, 2, 9]),
    };
    let last = if random.chance(15) { 0 } else { 100 * number + place };
    MemberDraft { name: random.pick(&NAMES).to_owned(), descriptor: "()V".to_owned(), flags, last }
}

fn entry(random: &mut Random, name: String) -> AbiClassDraft {
    let row =
        |random: &mut Random| AbiMemberDraft { name: random.pick(&NAMES).to_owned(), descriptor: "()V".to_owned(), index: random.below(3) };
    AbiClassDraft { name, slots: (0..random.below(3)).map(|_| row(random)).collect(), ..AbiClassDraft::default() }
}

fn calls(random: &mut Random, classes: u32) -> Vec<Call> {
    let mut calls = Vec::new();
    let mut next = 1;
    for _ in 0..random.between(8, 30) {
        calls.push(match random.below(100) {
            0..35 if next <= classes => {
                next += 1;
                Call::Link { class: next - 1, stubs: 0 }
            }
            0..40 => Call::Link { class: random.between(1, classes), stubs: 0 },
            _ => Call::Ask { class: random.between(1, next.min(classes)), interface: random.between(1, next.min(classes)), stubs: 0 },
        });
    }
    calls
}
