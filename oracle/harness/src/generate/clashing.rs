//! Cases in which two inherited signatures have one fixed index: a root without an ABI entry that declares 2 to 4 signatures, and below it classes with entries of
//! indices 0 to 2; beside them classes and asks that name none of these, a growing field list, and now and then too little room.

use crate::case::{Call, Case};
use crate::random::Random;

use super::draft::{AbiClassDraft, AbiMemberDraft, ClassDraft, Draft, MemberDraft, Shape};
use super::members::FIRST_STUB;

const NAMES: [&str; 4] = ["a", "b", "c", "d"];

pub fn case(random: &mut Random) -> Case {
    let roots = random.between(1, 2);
    let classes: Vec<ClassDraft> = (1..=random.between(roots + 2, 8)).map(|number| class(random, number, roots)).collect();
    let abi = classes.iter().skip(roots as usize).filter(|_| random.chance(70)).map(|class| class.name.clone()).collect::<Vec<_>>();
    let abi = abi.into_iter().map(|name| entry(random, name)).collect();
    let crowded = random.chance(8);
    let shape = Shape {
        shares_text: random.chance(50),
        slack: random.pick(&[0, 60, 200]),
        spare_fields: if crowded { 509 + random.below(3) as usize } else { 0 },
        ..Shape::default()
    };
    let count = classes.len() as u32;
    let draft = Draft { classes, abi, shape };
    let area = area(random);
    let stubs: Vec<Vec<u32>> =
        (0..2).map(|list| (0..random.pick(&[40, 40, 40, 2])).map(|stub| FIRST_STUB + 100 * list + stub).collect()).collect();
    let calls = calls(random, count, roots);
    let (numbers, missing) = (vec![0; 1024], vec![0; 33 * count as usize]);
    Case { set: draft.set_words(), abi: draft.abi_words(), numbers, area, missing, stubs, calls, rebuilds: true, spoiled: None }
}

/// One of the first, roots, or a class below another.
fn class(random: &mut Random, number: u32, roots: u32) -> ClassDraft {
    let any = random.between(1, number.max(2) - 1);
    let parent = match number <= roots {
        true => 0,
        false => random.pick(&[number - 1, number - 1, any, 0]),
    };
    let signatures = if parent == 0 { random.between(2, 4) } else { random.pick(&[0, 0, 1, 1, 2]) };
    let first = random.below(4);
    let methods = (0..signatures).map(|place| method(random, number, first + place)).collect();
    let mut class = ClassDraft { name: format!("C{number}"), parent, flags: 1, methods, ..ClassDraft::default() };
    match random.below(100) {
        0..12 => (class.kind, class.link_state) = (1, 3),
        12..20 => {
            // its own methods, the first one twice
            let targets: Vec<u32> = class.methods.iter().map(|method| method.last).collect();
            (class.kind, class.link_state) = (1, 3);
            class.compiler = Some([&targets[..], &targets[..targets.len().min(1)]].concat());
        }
        20..28 if parent == 0 => class.flags = 0x0201,
        _ => {}
    }
    class
}

fn method(random: &mut Random, number: u32, name: u32) -> MemberDraft {
    let flags = if random.chance(94) { 1 } else { random.pick(&[2, 9]) };
    MemberDraft { name: NAMES[name as usize % 4].to_owned(), descriptor: "()V".to_owned(), flags, last: 100 * number + name }
}

fn entry(random: &mut Random, name: String) -> AbiClassDraft {
    let row =
        |random: &mut Random| AbiMemberDraft { name: random.pick(&NAMES).to_owned(), descriptor: "()V".to_owned(), index: random.below(3) };
    let slots = (0..random.below(4)).map(|_| row(random)).collect();
    let fields = match random.chance(15) {
        true => vec![AbiMemberDraft { name: "f".to_owned(), descriptor: "I".to_owned(), index: 1 }],
        false => Vec::new(),
    };
    AbiClassDraft { name, slots, fields, ..AbiClassDraft::default() }
}

fn area(random: &mut Random) -> Vec<u32> {
    let words = if random.chance(25) { random.between(8, 40) } else { 200 };
    [vec![1], vec![0; words as usize]].concat()
}

/// Every class is linked, mostly in order; asks between and after.
fn calls(random: &mut Random, classes: u32, roots: u32) -> Vec<Call> {
    let mut calls = Vec::new();
    for class in 1..=classes {
        calls.push(Call::Link { class, stubs: random.pick(&[0, 0, 0, 1]) });
        if random.chance(30) {
            calls.push(Call::Ask { class: random.between(1, class), interface: random.between(1, class.min(roots + 1)), stubs: 0 });
        }
    }
    for _ in 0..random.below(4) {
        calls.push(match random.chance(60) {
            true => Call::Ask { class: random.between(1, classes), interface: random.between(1, classes), stubs: 0 },
            false => Call::Link { class: random.between(1, classes), stubs: 0 },
        });
    }
    calls
}
