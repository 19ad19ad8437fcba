//! Cases of class kind 3: chains of 2 to 8 classes over four packages and two signatures, methods of all flags, interfaces to ask for, and
//! now and then what row 26 refuses.

use crate::case::Case;
use crate::random::Random;

use super::draft::{AbiClassDraft, AbiMemberDraft, ClassDraft, Draft, MemberDraft, Shape};
use super::members::FIRST_STUB;
use super::memory;

const PACKAGES: [&str; 4] = ["", "p/", "q/", "p/q/"];
const SIGNATURES: [(&str, &str); 2] = [("foo", "()V"), ("foo", "(I)V")];
/// 1 public, 2 private, 4 protected, 8 static; the mixed ones pass row 4.
const FLAGS: [u32; 24] = [0, 0, 0, 0, 0, 0, 0, 1, 1, 1, 1, 4, 4, 4, 2, 8, 9, 3, 6, 5, 7, 10, 11, 12];

pub fn case(random: &mut Random) -> Case {
    let chain = random.between(2, 8);
    let open = random.chance(25);
    let mut draft = Draft { classes: (1..=chain).map(|number| class(random, number, open)).collect(), ..Draft::default() };
    faults(random, &mut draft);
    for number in chain + 1..=chain + random.below(3) {
        draft.classes.push(asked(random, number));
    }
    draft.shape =
        Shape { shares_text: random.chance(70), lists_reversed: random.chance(30), slack: random.below(3) as usize, ..Shape::default() };
    let by_hand = random.chance(12).then(|| memory::link_by_hand(random, &mut draft, 60));
    if by_hand.is_some() && random.chance(25) {
        draft.classes.iter_mut().filter(|class| class.place != 0).for_each(|class| class.instance_words = 65535);
    }
    let stubs = memory::stub_lists(random, 40);
    let calls = memory::calls(random, draft.classes.len() as u32, stubs.len(), 8);
    let area = by_hand.unwrap_or_else(|| memory::area(random, 300));
    Case { set: draft.set_words(), abi: draft.abi_words(), area, stubs, calls, rebuilds: true, ..Case::default() }
}

/// A class of kind 3, mostly under the one before it; where all is open its methods are public or protected, each signature once.
fn class(random: &mut Random, number: u32, open: bool) -> ClassDraft {
    let parent = match random.below(100) {
        _ if number == 1 => 0,
        0..4 => 0,
        4..14 => random.between(1, number - 1),
        _ => number - 1,
    };
    let package = random.pick(&PACKAGES);
    let methods: Vec<MemberDraft> = match open {
        true => SIGNATURES.iter().zip(0..).filter(|_| random.chance(60)).map(|(signature, place)| (*signature, place)).collect::<Vec<_>>(),
        false => (0..random.below(4)).map(|place| (random.pick(&SIGNATURES), place)).collect(),
    }
    .into_iter()
    .map(|((name, descriptor), place)| MemberDraft {
        name: if !open && random.chance(4) { "<init>" } else { name }.to_owned(),
        descriptor: descriptor.to_owned(),
        flags: if open { random.pick(&[1, 4]) } else { random.pick(&FLAGS) | (u32::from(random.chance(4)) * 0x0400) },
        last: target(random, number, place),
    })
    .collect();
    ClassDraft {
        name: format!("{package}C{number}"),
        parent,
        flags: 1,
        kind: 3,
        methods,
        fields: (0..random.below(3) * random.below(2)).map(|place| field(random, place)).collect(),
        interfaces: Vec::new(),
        link_state: random.below(4),
        instance_words: if random.chance(10) { random.below(9) } else { 0 },
        compiler: random.chance(3).then(|| vec![77]),
        ..ClassDraft::default()
    }
}

/// Mostly one that no other method has.
fn target(random: &mut Random, number: u32, place: u32) -> u32 {
    match random.below(100) {
        0..3 => 0,
        3..6 => FIRST_STUB + random.below(4),
        6..10 => 100 * random.between(1, 8) + random.below(3),
        _ => 100 * number + place,
    }
}

fn field(random: &mut Random, place: u32) -> MemberDraft {
    MemberDraft {
        name: format!("f{place}"),
        descriptor: random.pick(&["I", "J", "D", "[J"]).to_owned(),
        flags: random.pick(&[0, 1, 8, 9]),
        last: random.pick(&[0, 0, 5, u32::MAX, 0xFFFF_0000]),
    }
}

/// Now and then what row 26 refuses: an ABI entry, an interface, another kind, also with a fault of row 8.
fn faults(random: &mut Random, draft: &mut Draft) {
    let at = random.below(draft.classes.len() as u32) as usize;
    let class = &mut draft.classes[at];
    match random.below(100) {
        0..4 => {
            let slots = vec![AbiMemberDraft { name: "foo".to_owned(), descriptor: "()V".to_owned(), index: random.below(3) }];
            draft.abi.push(AbiClassDraft { name: class.name.clone(), slots, ..AbiClassDraft::default() });
        }
        4..8 => class.flags |= 0x0200,
        8..13 => class.kind = 0,
        13..18 => {
            class.kind = 1;
            class.instance_words = random.below(2);
            class.compiler = random.chance(30).then(|| vec![0, 105]);
        }
        18..22 => {
            draft.classes[0].name = "java/lang/Object".to_owned();
            draft.classes[0].kind = random.pick(&[0, 3]);
            let second = &mut draft.classes[1];
            *second = ClassDraft { kind: 2, parent: 1, methods: Vec::new(), fields: Vec::new(), ..second.clone() };
        }
        22..25 => draft.classes.iter_mut().for_each(|class| class.kind = random.pick(&[0, 3, 3])),
        25..28 => draft.classes.iter_mut().for_each(|class| class.kind = random.pick(&[0, 1])),
        _ => {}
    }
}

/// An interface of kind 0 to ask for, now and then with an ABI entry of its own name in no chain, or a class of kind 3 beside.
fn asked(random: &mut Random, number: u32) -> ClassDraft {
    let methods = SIGNATURES.iter().filter(|_| random.chance(50)).map(|(name, descriptor)| MemberDraft {
        name: (*name).to_owned(),
        descriptor: (*descriptor).to_owned(),
        flags: 0x0401,
        last: 900 + number,
    });
    let methods = methods.collect();
    let kind = if random.chance(85) { 0 } else { 3 };
    ClassDraft { name: format!("I{number}"), flags: if kind == 0 { 0x0601 } else { 1 }, kind, methods, ..ClassDraft::default() }
}
