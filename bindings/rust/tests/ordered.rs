//! Sets whose classes come in any order: where each class goes, what moves with it, what is refused.

use lgt_linker::layout::{class, set};
use lgt_linker::*;

/// The words of classes without members, named A, B, .., of these parents; then one word behind the content.
fn parents(parents: &[u32]) -> Vec<u32> {
    let mut words = vec![0; class::record(parents.len() as u32 + 1)];
    words[set::CLASSES] = parents.len() as u32;
    words[set::TEXT] = parents.len() as u32;
    for (number, &parent) in (1..).zip(parents) {
        let at = class::record(number);
        words[at + class::NAME_START..=at + class::PARENT].copy_from_slice(&[number - 1, 1, parent]);
    }
    let name = |i: usize| u32::from(b'A') + i as u32;
    let packed = (0..parents.len()).collect::<Vec<_>>();
    words.extend(packed.chunks(4).map(|part| part.iter().rev().fold(0, |word, &i| word << 8 | name(i))));
    words.push(77);
    words
}

/// The renumbering of these words: the list, of as many words as there are classes, and what the set then holds.
fn renumbered(words: &[u32]) -> Result<(Vec<u32>, Vec<u32>), Refusal> {
    let (mut set, mut order) = (words.to_vec(), vec![9; words[set::CLASSES] as usize + 2]);
    let answer = renumber_classes(&mut set, &mut order);
    if answer.is_err() {
        assert!(set == words && order.iter().all(|&word| word == 9));
    }
    let classes = answer?;
    assert_eq!(order.split_off(classes as usize), [9, 9]);
    Ok((order, set))
}

fn order(given: &[u32]) -> Result<Vec<u32>, Refusal> {
    renumbered(&parents(given)).map(|(order, _)| order)
}

#[test]
fn parents_come_first_and_then_the_smallest() {
    for (given, expected) in [
        (&[][..], &[][..]),
        (&[3, 0, 0], &[2, 3, 1]),
        (&[2, 0, 0], &[2, 1, 3]),
        (&[2, 3, 0], &[3, 2, 1]),
        (&[0, 1, 1, 2], &[1, 2, 3, 4]),
        (&[5, 1, 0, 3, 0], &[3, 4, 5, 1, 2]),
    ] {
        assert_eq!(order(given).unwrap(), expected, "{given:?}");
    }
    let falling: Vec<u32> = (2..=64).chain([0]).collect();
    assert_eq!(order(&falling).unwrap(), (1..=64).rev().collect::<Vec<_>>());
}

#[test]
fn rings_are_refused_after_stray_parents_and_before_the_list() {
    for ring in [&[1][..], &[2, 1], &[0, 3, 4, 3]] {
        assert_eq!(order(ring), Err(Refusal::Ring), "{ring:?}");
    }
    assert_eq!(order(&(2..=64).chain([1]).collect::<Vec<_>>()), Err(Refusal::Ring));
    assert_eq!(order(&[1, 3]), Err(Refusal::Record));
    assert_eq!(renumber_classes(&mut parents(&[1]), &mut []), Err(Refusal::Ring));
    assert_eq!(renumber_classes(&mut parents(&[5]), &mut []), Err(Refusal::Record));
    assert_eq!(renumber_classes(&mut parents(&[0, 1]), &mut [0]), Err(Refusal::NoRoom));
    assert_eq!(renumber_classes(&mut parents(&[]), &mut []), Ok(0));
    let mut linked = parents(&[9]);
    linked[class::record(1) + class::SLOT_COUNT] = 1;
    assert_eq!(renumbered(&linked), Err(Refusal::SheetCounts));
    assert_eq!(renumber_classes(&mut [0; 5], &mut []), Err(Refusal::SheetCounts));
}

#[test]
fn records_parents_and_interface_words_follow() {
    // A under B, with interface words 1 and 2; word 0 is in no list.
    let mut words = parents(&[2, 0]);
    words[set::INTERFACES] = 3;
    let at = class::record(3);
    words.splice(at..at, [2, 1, 2]);
    let [a, b] = [class::record(1), class::record(2)];
    words[a + class::FIRST_INTERFACE] = 1;
    words[a + class::INTERFACE_COUNT] = 2;
    let (order, moved) = renumbered(&words).unwrap();
    let mut expected = words.clone();
    expected[a..a + class::WIDTH].copy_from_slice(&words[b..b + class::WIDTH]);
    expected[b..b + class::WIDTH].copy_from_slice(&words[a..a + class::WIDTH]);
    expected[b + class::PARENT] = 1;
    expected[at..at + 3].copy_from_slice(&[1, 2, 1]);
    assert_eq!((order, moved.clone()), (vec![2, 1], expected));
    // In order, a second renumbering moves nothing.
    assert_eq!(renumbered(&moved).unwrap(), (vec![1, 2], moved));
    for stray in [0, 3] {
        words[at] = stray;
        assert_eq!(renumbered(&words), Err(Refusal::Record));
    }
}

/// A class's name, its instance words, and its slots' names and targets.
type Table = (String, u32, Vec<(String, u32)>);

/// All tables, in the order of the classes' names.
fn tables(mut set: ClassSet) -> Vec<Table> {
    let (abi, mut area) = (AbiBuilder::new().build().unwrap(), Area::fresh(4096));
    assert!(set.link_all(&abi, &mut area, &[7; 1024]).iter().all(Result::is_ok));
    let slots = |class: Class| {
        let named = |slot: Slot| (slot.method.map_or(String::new(), |method| method.name.into()), slot.target);
        set.slots(&abi, &area, class.number()).into_iter().map(named).collect()
    };
    let mut all: Vec<Table> = set.classes().map(|class| (class.name().to_string(), class.instance_words(), slots(class))).collect();
    all.sort();
    all
}

#[test]
fn tables_are_those_of_the_same_classes_in_order() {
    let card = || ClassBuilder::new("Card").implements("Renewable").method("withdraw", "()V", 1).method("renew", "()V", 2).field("x", "J");
    let access = || ClassBuilder::new("Access").extends("Card").method("renew", "()V", 3).field("y", "I");
    let vip = || ClassBuilder::new("Vip").extends("Access").method("mark", "()V", 4);
    let renewable = || ClassBuilder::new("Renewable").flags(0x201).method_with("renew", "()V", 0x401, 5);
    let built = |classes: [ClassBuilder; 4]| classes.into_iter().fold(SetBuilder::new(), SetBuilder::class);
    let whole = tables(built([renewable(), card(), access(), vip()]).build().unwrap());
    let unordered = built([access(), card(), renewable(), vip()]);
    assert_eq!(unordered.build(), Err(BuildError::Refused(Refusal::Record)));
    for shuffled in [unordered, built([vip(), access(), renewable(), card()])] {
        let (set, order) = ClassSet::read_unordered(&shuffled.sheet().unwrap()).unwrap();
        assert_eq!(order.len(), 4);
        assert_eq!(ClassSet::read(&set.write().unwrap()).unwrap(), set);
        let class = set.class_named("Card").unwrap();
        assert_eq!(class.interfaces().map(Class::name).collect::<Vec<_>>(), ["Renewable"]);
        assert_eq!(tables(set), whole);
    }
}

#[test]
fn what_was_not_judged_is_judged_at_the_end() {
    // The reading and the renumbering let a wrong descriptor, a wrong kind and flags above 65,535 pass.
    let late = |class: ClassBuilder| SetBuilder::new().class(class.extends("Card")).class(ClassBuilder::new("Card")).sheet().unwrap();
    for (sheet, refusal) in [
        (late(ClassBuilder::new("Access").method("renew", "(V)V", 1)), Refusal::Descriptor),
        (late(ClassBuilder::new("Access").kind(Kind::Unknown(9))), Refusal::Record),
        (late(ClassBuilder::new("Card2").flags(65536)), Refusal::Record),
    ] {
        let mut words = [0; CLASS_WORDS];
        assert_eq!(read_unordered_sheet(&sheet, &mut words), Ok(127));
        assert_eq!(renumber_classes(&mut words, &mut [0; 64]), Ok(2));
        assert_eq!(ClassSet::read_unordered(&sheet), Err(refusal));
    }
    assert_eq!(ClassSet::read_unordered(&[0; 511]), Err(Refusal::SheetSize));
    assert_eq!(ClassSet::read_unordered(&[9; 512]), Err(Refusal::BlockCheck));
}
