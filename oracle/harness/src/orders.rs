//! Comparison of class sets in any order, which no original file judges: the harness's own rows and order against the other side. Then
//! the original links a set and the same set shuffled and renumbered: each class must get the same slots, by its name.

use std::collections::BTreeMap;

use crate::case::Case;
use crate::oracle::{Oracle, numbers};
use crate::random::Random;
use crate::readings::{ReadingCounts, unlinked};
use crate::sheet::{ClassRecord, Set, class_word};
use crate::side::{Answer, Linker, SheetsMut};

/// Class words to renumber, and the number of list words lent.
pub struct Order {
    pub set: Vec<u32>,
    pub lent: usize,
}

/// What the list holds before a call.
const UNWRITTEN: u32 = 0x5A5A_5A5A;

/// The most classes of a set that is linked, and how seldom one is.
const LINKED_CLASSES: usize = 12;
const LINKED_EACH: u32 = 6;

/// The set with its classes in another order, parents and interface words following.
fn shuffled(random: &mut Random, set: &Set) -> Set {
    let mut old: Vec<usize> = (0..set.classes.len()).collect();
    for place in (1..old.len()).rev() {
        old.swap(place, random.below(place as u32 + 1) as usize);
    }
    let new_number = |number: u32| match old.iter().position(|&class| class + 1 == number as usize) {
        Some(place) => place as u32 + 1,
        None => number,
    };
    let mut set = Set { classes: old.iter().map(|&class| set.classes[class]).collect(), ..set.clone() };
    for class in &mut set.classes {
        class.0[class_word::PARENT] = new_number(class.get(class_word::PARENT));
    }
    for number in &mut set.interfaces {
        *number = new_number(*number);
    }
    set
}

/// The case's set, mostly as if no class were linked and shuffled, often with a number that names another class or none.
pub fn random(random: &mut Random, case: &Case) -> Order {
    let words = if random.chance(90) { unlinked(&case.set) } else { None }.unwrap_or_else(|| case.set.clone());
    let Some(mut set) = Set::decode(&words) else { return Order { set: words, lent: random.below(66) as usize } };
    if random.chance(80) {
        set = shuffled(random, &set);
    }
    let classes = set.classes.len() as u32;
    let any = |random: &mut Random| if random.chance(80) { random.below(classes + 2) } else { random.pick(&[0, 65, u32::MAX]) };
    if classes > 0 && random.chance(30) {
        let class = random.below(classes) as usize;
        const WORDS: [usize; 6] =
            [class_word::PARENT, class_word::PARENT, class_word::PARENT, class_word::PLACE, class_word::SLOTS, class_word::STATIC_WORDS];
        let word = random.pick(&WORDS);
        set.classes[class].0[word] = any(random);
    }
    if !set.interfaces.is_empty() && random.chance(10) {
        let word = random.below(set.interfaces.len() as u32) as usize;
        set.interfaces[word] = any(random);
    }
    let mut words = set.encode();
    if random.chance(20) {
        if let (Some(last), true) = (words.last_mut(), set.text.len() % 4 != 0) {
            *last |= 0x4100_0000;
        }
        words.extend((0..random.below(9)).map(|word| word ^ 0xA5));
    }
    let lent = match random.below(8) {
        0 => (classes as usize).saturating_sub(1),
        1 => random.below(classes + 1) as usize,
        2..5 => classes as usize,
        _ => classes as usize + random.below(4) as usize,
    };
    Order { set: words, lent }
}

/// Renumbers on both sides, sees that a second step moves nothing, and sometimes links. Answers the first disagreement.
pub fn compare(
    oracle: &mut Oracle,
    other: &mut dyn Linker,
    random: &mut Random,
    case: &Case,
    counts: &mut ReadingCounts,
) -> Result<(), String> {
    let order = self::random(random, case);
    let (answer, list, after) = judge(oracle, other, &order)?;
    observe(&order, answer, &list, counts);
    if answer.refusal == 0 {
        if list.is_sorted() && after != order.set {
            return Err(format!("a set in order was changed\nclass words {:?}", order.set));
        }
        let mut again = after.clone();
        let mut rising = vec![UNWRITTEN; list.len()];
        if other.renumber_classes(&mut again, &mut rising) != answer || again != after || !rising.is_sorted() {
            return Err(format!("a second step moves something\nclass words {:?}", order.set));
        }
    }
    if random.below(LINKED_EACH) == 0 { link_alike(oracle, other, random, case, counts) } else { Ok(()) }
}

/// Counts what a renumbering that was answered so is about; `list` has the old numbers.
pub fn observe(order: &Order, answer: Answer, list: &[u32], counts: &mut ReadingCounts) {
    counts.hit(&match answer.refusal {
        0 => "classes renumbered".to_owned(),
        row => format!("classes not renumbered, by row {row}"),
    });
    let Some(set) = Set::decode(&order.set) else {
        counts.hit("order: no class set");
        return;
    };
    let any = |row: u32, word: usize, is_such: &dyn Fn(u32) -> bool| {
        answer.refusal == row && set.classes.iter().any(|class| is_such(class.get(word)))
    };
    let (classes, is_some) = (set.classes.len() as u32, |word: u32| word != 0);
    let is_counted = |class: &ClassRecord| class.span(class_word::PLACE) == (0, 0) && !class.is_untouched();
    let parents: Vec<u32> = set.classes.iter().map(|class| class.get(class_word::PARENT)).collect();
    for (bucket, reached) in [
        ("order: kept", answer.refusal == 0 && list.is_sorted()),
        ("order: changed", answer.refusal == 0 && !list.is_sorted()),
        ("order: list words after the classes", answer.refusal == 0 && order.lent > set.classes.len()),
        ("order: words after the content", answer.refusal == 0 && order.set.len() > set.content()),
        ("order: a table place alone", any(3, class_word::PLACE, &is_some) && !any(3, class_word::SLOTS, &is_some)),
        ("order: a slot count alone", any(3, class_word::SLOTS, &is_some) && !any(3, class_word::PLACE, &is_some)),
        ("order: static words", answer.refusal == 3 && set.classes.iter().any(is_counted)),
        ("order: a parent above the classes", any(4, class_word::PARENT, &|parent| parent > classes)),
        ("order: an interface word that names no class", answer.refusal == 4 && parents.iter().all(|&parent| parent <= classes)),
        ("order: a class its own parent", answer.refusal == 19 && (1..).zip(&parents).any(|(class, &parent)| class == parent)),
        ("order: several classes that return", answer.refusal == 19 && (1..).zip(&parents).all(|(class, &parent)| class != parent)),
    ] {
        if reached {
            counts.hit(bucket);
        }
    }
}

/// The answer on which both sides agree, the list, and the class words, on which they agree too.
pub fn judge(oracle: &mut Oracle, other: &mut dyn Linker, order: &Order) -> Result<(Answer, Vec<u32>, Vec<u32>), String> {
    let Order { set, lent } = order;
    let (mut expected_set, mut found_set) = (set.clone(), set.clone());
    let (mut expected, mut found) = (vec![UNWRITTEN; *lent], vec![UNWRITTEN; *lent]);
    let answers = [oracle.renumber_classes(&mut expected_set, &mut expected), other.renumber_classes(&mut found_set, &mut found)];
    if answers[0] != answers[1] || expected != found || expected_set != found_set {
        return Err(format!(
            "renumbering with {lent} list words: oracle {:?} {expected:?}, other {:?} {found:?}, class words equal: {}\nclass words {set:?}",
            answers[0],
            answers[1],
            expected_set == found_set
        ));
    }
    expected.truncate(answers[0].first as usize);
    Ok((answers[0], expected, found_set))
}

/// The slots of each class, or the row that refuses it, by its name: all of a set's classes, linked in number order.
fn tables(side: &mut dyn Linker, set: &Set, abi: &[u32]) -> BTreeMap<String, Result<Vec<u32>, u32>> {
    let mut words = set.encode();
    words.resize(11_684, 0);
    let mut area = vec![0; 1 + 1_026 * set.classes.len()];
    area[0] = 1;
    let stubs: Vec<u32> = (0..1_024).map(|slot| 0xF000_0000 + slot).collect();
    let (mut numbers, mut missing) = (vec![0; numbers::WORDS], vec![0; 33 * set.classes.len()]);
    side.number_signatures(&words, abi, &mut numbers);
    let linked = (1..=set.classes.len() as u32).map(|class| {
        let sheets = SheetsMut { set: &mut words, abi, numbers: &mut numbers };
        let answer = side.link(sheets, class, &mut area, &stubs, &mut missing);
        let table = match answer.refusal {
            0 => Ok(area[answer.first as usize + 1..][..answer.second as usize].to_vec()),
            row => Err(row),
        };
        (set.name(class).to_owned(), table)
    });
    linked.collect()
}

/// The original links the case's set; it and the other side link it shuffled and renumbered. Rows 14 and 15 depend on what was linked
/// before, so a set that meets them is left out.
fn link_alike(
    oracle: &mut Oracle,
    other: &mut dyn Linker,
    random: &mut Random,
    case: &Case,
    counts: &mut ReadingCounts,
) -> Result<(), String> {
    let Some(set) = unlinked(&case.set).and_then(|words| Set::decode(&words)) else { return Ok(()) };
    let mut room = vec![0; 127 * 92];
    let (mut bytes, mut list) = (vec![0; 512 * 92], vec![0; set.classes.len()]);
    let is_good = oracle.write_class_sheet(&set.encode(), &mut bytes).refusal == 0 && crate::sheet::Abi::decode(&case.abi).is_some();
    if !is_good || set.classes.len() > LINKED_CLASSES {
        return Ok(());
    }
    let words = shuffled(random, &set).encode();
    let blocks = other.read_unordered_sheet(&crate::sheet::blocks(&words), &mut room);
    if blocks.refusal != 0 || other.renumber_classes(&mut room[..blocks.first as usize], &mut list).refusal != 0 {
        return Err(format!("a shuffled set is not renumbered\nclass words {words:?}"));
    }
    let renumbered = Set::decode(&room).ok_or("a renumbered set has its sections")?;
    oracle.new_case(false);
    let expected = tables(oracle, &set, &case.abi);
    oracle.new_case(false);
    let found = [tables(oracle, &renumbered, &case.abi), tables(other, &renumbered, &case.abi)];
    let rows = [&expected, &found[0], &found[1]].into_iter().flat_map(|tables| tables.values()).filter_map(|table| table.clone().err());
    if rows.into_iter().any(|row| row == 14 || row == 15) {
        return Ok(());
    }
    if found.iter().any(|found| *found != expected) {
        return Err(format!("shuffled and renumbered, by {list:?}, a class gets other slots\nclass words {:?}", set.encode()));
    }
    counts.hit("order: linked alike");
    if expected.values().any(Result::is_err) {
        counts.hit("order: a class refused alike");
    }
    if !list.is_sorted() && expected.values().any(|table| table.as_ref().is_ok_and(|table| !table.is_empty())) {
        counts.hit("order: a table in another order");
    }
    Ok(())
}
