//! `slots`, `interface_slots` and the searches, held to the library on random sets: an ask reads the interface's table as `slots` does,
//! so that what it answers, for any two classes, tells each known slot.

use lgt_linker::layout::flags::{ABSTRACT, INTERFACE, PRIVATE, PUBLIC, STATIC};
use lgt_linker::*;

/// Numbers that look random, the same in every run.
struct Dice(u64);

impl Dice {
    fn below(&mut self, limit: u32) -> u32 {
        self.0 = self.0.wrapping_mul(6_364_136_223_846_793_005).wrapping_add(1_442_695_040_888_963_407);
        (self.0 >> 33) as u32 % limit
    }

    fn one_of<T: Copy>(&mut self, choices: &[T]) -> T {
        choices[self.below(choices.len() as u32) as usize]
    }
}

const NAMES: [&str; 4] = ["a", "b", "c", "<d>"];
const DESCRIPTORS: [&str; 2] = ["()V", "(I)V"];
const FIRST_STUB: u32 = 5000;

fn random_class(dice: &mut Dice, number: u32) -> ClassBuilder {
    let mut class = ClassBuilder::new(&format!("C{number}"));
    if number > 1 && dice.below(3) > 0 {
        class = class.extends(&format!("C{}", 1 + dice.below(number - 1)));
    }
    if dice.below(4) == 0 {
        class = class.flags(PUBLIC | INTERFACE);
    }
    if dice.below(4) == 0 {
        class = class.kind(Kind::Generated).link_state(dice.one_of(&[0, 3]));
        if dice.below(2) == 0 {
            let table: Vec<u32> = (0..dice.below(4)).map(|_| dice.one_of(&[0, 101, 102, 103])).collect();
            class = class.compiler_table(&table);
        }
    }
    (0..dice.below(4)).fold(class, |class, _| {
        let flags = dice.one_of(&[PUBLIC, PUBLIC, PUBLIC, PUBLIC | ABSTRACT, PUBLIC | STATIC, PRIVATE]);
        class.method_with(dice.one_of(&NAMES), dice.one_of(&DESCRIPTORS), flags, dice.one_of(&[0, 0, 101, 102, 103, 104, 105]))
    })
}

fn random_abi(dice: &mut Dice, classes: u32) -> AbiBuilder {
    let mut abi = AbiBuilder::new();
    for number in 1..=classes {
        if dice.below(3) == 0 {
            let rows = 0..dice.below(3);
            let mut class = AbiClassBuilder::new(&format!("C{number}"));
            class = rows.fold(class, |class, _| class.slot(dice.one_of(&NAMES), dice.one_of(&DESCRIPTORS), dice.below(4)));
            abi = abi.class(class);
        }
    }
    abi
}

/// What an ask must answer where `slots` reads the interface's table rightly: the targets, or a refusal by 16.
fn foretold(set: &ClassSet, class: u32, interface: &[Slot], stubs: &[u32]) -> Result<Vec<u32>, Refusal> {
    let implementation = |slot: &Slot| {
        let Some(wanted) = slot.method else { return Ok(slot.target) };
        let mut methods = set.class(class).unwrap().chain().flat_map(Class::methods);
        let is_it = |method: &Method| {
            method.flags & (STATIC | PRIVATE) == 0 && (method.name, method.descriptor) == (wanted.name, wanted.descriptor)
        };
        let target = methods.find(is_it).ok_or(Refusal::NoImplementation)?.target;
        Ok(if target == 0 { stubs[slot.index as usize] } else { target })
    };
    interface.iter().map(implementation).collect()
}

#[test]
fn asks_answer_what_slots_foretell() {
    let (mut dice, stubs) = (Dice(13), (FIRST_STUB..).take(layout::MOST_SLOTS).collect::<Vec<_>>());
    let (mut asks, mut refused, mut by_index) = (0, 0, 0);
    for _ in 0..1500 {
        let classes = 1 + dice.below(6);
        let set = (1..=classes).fold(SetBuilder::new(), |set, number| set.class(random_class(&mut dice, number)));
        let (mut set, abi) = (set.build().unwrap(), random_abi(&mut dice, classes).build().unwrap());
        let mut area = Area::fresh(4096);
        set.link_all(&abi, &mut area, &stubs);
        let linked: Vec<u32> = (1..=classes).filter(|&class| set.linked(class).is_some()).collect();
        for (&class, &interface) in linked.iter().flat_map(|class| linked.iter().map(move |interface| (class, interface))) {
            let slots = set.slots(&abi, &area, interface);
            assert_eq!(slots.len() as u32, set.linked(interface).unwrap().slots);
            by_index += slots.iter().filter(|slot| slot.method.is_some_and(|method| method.target != slot.target)).count();
            let answer = set.interface_dispatch_table(&abi, class, interface, &mut area, &stubs);
            let targets = |asked| set.interface_slots(&abi, &area, interface, asked).iter().map(|slot| slot.target).collect::<Vec<_>>();
            let expected = foretold(&set, class, &slots, &stubs);
            assert_eq!(answer.map(targets), expected);
            asks += 1;
            refused += u32::from(expected.is_err());
            searched(&set, &abi, &area, interface, &slots);
        }
    }
    assert!(asks > 5000 && refused > 500 && by_index > 100, "{asks} asks, {refused} refused, {by_index} slots known by their index");
}

/// `virtual_method_index` finds the first slot of each signature, and none of one that no slot is of.
fn searched(set: &ClassSet, abi: &AbiSheet, area: &Area, class: u32, slots: &[Slot]) {
    for name in NAMES {
        for descriptor in DESCRIPTORS {
            let first =
                slots.iter().position(|slot| slot.method.is_some_and(|method| (method.name, method.descriptor) == (name, descriptor)));
            let found = set.virtual_method_index(abi, area, class, name, descriptor);
            assert_eq!(found, first.map(|index| index as u32));
        }
    }
}

/// A built class's fields stand where a link put them: no two of a chain overlap, and `field_word_index` finds the nearest.
#[test]
fn fields_are_found_where_a_link_put_them() {
    let mut dice = Dice(7);
    let abi = AbiBuilder::new().build().unwrap();
    for _ in 0..300 {
        let mut builder = SetBuilder::new();
        for number in 1..=4 {
            let mut class = ClassBuilder::new(&format!("C{number}"));
            if number > 1 {
                class = class.extends(&format!("C{}", number - 1));
            }
            for _ in 0..dice.below(4) {
                class = class.field_with(dice.one_of(&["x", "y", "z"]), dice.one_of(&["I", "J", "D"]), dice.one_of(&[PUBLIC, STATIC]), 0);
            }
            builder = builder.class(class);
        }
        let (mut set, mut area) = (builder.build().unwrap(), Area::fresh(64));
        set.link_all(&abi, &mut area, &[]);
        let mut end = 0;
        for class in set.classes() {
            for field in class.fields().filter(|field| !field.is_static()) {
                assert_eq!(field.word_index, end);
                end += field.width();
            }
            assert_eq!(class.instance_words(), end);
            let own = class.fields().filter(Field::is_static).map(|field| field.width()).sum::<u32>();
            assert_eq!((class.static_words(), set.static_words(class.number())), (own, Some(own)));
            for (name, descriptor, is_static) in [("x", "I", false), ("y", "J", true), ("z", "D", false)] {
                let own = |class: Class| {
                    let is_it = |field: &Field| (field.name, field.descriptor, field.is_static()) == (name, descriptor, is_static);
                    class.fields().find(is_it).map(|field| field.word_index)
                };
                let found = set.field_word_index(class.number(), name, descriptor, is_static);
                assert_eq!(found, own(class).or_else(|| set.field_word_index(class.number() - 1, name, descriptor, is_static)));
            }
        }
    }
}
