//! Classes of kind 3, which are never given to the Rust: the harness's own judge of row 26, of a link of such a class, and of an ask that
//! has one. What a method overrides is searched for, from method to method up the chain.

use crate::sheet::{Abi, MemberRecord, Set, class_word, range};

use super::machine::{Asked, Linked, Member};

/// The kind of classes linked by packages.
pub const PACKAGED: u32 = 3;

const PRIVATE: u32 = 0x0002;
const STATIC: u32 = 0x0008;
const PUBLIC_OR_PROTECTED: u32 = 0x0005;

/// A class and a place in the method section.
pub type Known = (u32, usize);

pub fn parent(set: &Set, class: u32) -> u32 {
    set.class(class).get(class_word::PARENT)
}

/// A class and its ancestors, nearest first; of class 0 none.
pub fn chain(set: &Set, class: u32) -> impl Iterator<Item = u32> {
    let some = |class: u32| (class != 0).then_some(class);
    std::iter::successors(some(class), move |&class| some(parent(set, class)))
}

fn is_packaged(set: &Set, class: u32) -> bool {
    set.class(class).get(class_word::KIND) == PACKAGED
}

/// Whether the Rust is not asked: the class or an ancestor is of kind 3.
pub fn has_packages(set: &Set, class: u32) -> bool {
    chain(set, class).any(|class| is_packaged(set, class))
}

/// Row 26.
pub fn row_26(set: &Set, abi: &Abi, class: u32) -> Result<(), u32> {
    let is_fit = |class: u32| {
        let is_interface = set.class(class).get(class_word::FLAGS) & 0x0200 != 0;
        is_packaged(set, class) && !is_interface && abi.classes.iter().all(|entry| abi.part(entry.name) != set.name(class))
    };
    let holds = if is_packaged(set, class) { chain(set, class).all(is_fit) } else { !has_packages(set, class) };
    if holds { Ok(()) } else { Err(26) }
}

fn methods(set: &Set, class: u32) -> impl Iterator<Item = Known> {
    set.class(class).range(class_word::METHODS).map(move |method| (class, method))
}

pub fn method(set: &Set, (_, method): Known) -> &MemberRecord {
    &set.methods[method]
}

fn has_signature(set: &Set, known: Known, name: &str, descriptor: &str) -> bool {
    let record = method(set, known);
    set.part(record.name) == name && set.part(record.descriptor) == descriptor
}

fn same_signature(set: &Set, one: Known, other: Known) -> bool {
    let record = method(set, other);
    has_signature(set, one, set.part(record.name), set.part(record.descriptor))
}

/// The slots of a linked class: each word, and its method if there is one.
pub fn reading(set: &Set, abi: &Abi, area: &[u32], class: u32) -> Vec<(u32, Option<Known>)> {
    let (place, slots) = set.class(class).span(class_word::PLACE);
    let by_target = |word: u32| chain(set, class).flat_map(|class| methods(set, class)).find(|&known| method(set, known).last == word);
    let by_abi = |index: u32| {
        chain(set, class).find_map(|class| {
            let entry = abi.classes.iter().find(|entry| abi.part(entry.name) == set.name(class))?;
            let row = abi.slots[range(entry.slots)].iter().find(|row| row.index == index)?;
            methods(set, class).find(|&known| has_signature(set, known, abi.part(row.name), abi.part(row.descriptor)))
        })
    };
    let words = &area[place as usize + 1..][..slots as usize];
    words.iter().zip(0..).map(|(&word, index)| (word, by_target(word).or_else(|| by_abi(index)))).collect()
}

fn package(name: &str) -> &str {
    name.rsplit_once('/').map_or("", |(package, _)| package)
}

/// Whether a method overrides one of an ancestor with no third between them.
fn overrides_at_once(set: &Set, own: Known, above: Known) -> bool {
    let (flags, own_flags) = (method(set, above).flags, method(set, own).flags);
    let is_near = flags & PRIVATE == 0 && package(set.name(own.0)) == package(set.name(above.0));
    own_flags & (STATIC | PRIVATE) == 0
        && flags & STATIC == 0
        && (flags & PUBLIC_OR_PROTECTED != 0 || is_near)
        && same_signature(set, own, above)
}

/// Every method that one overrides: what it overrides at once, what that overrides, and so on.
fn overridden(set: &Set, own: Known) -> Vec<Known> {
    let (mut found, mut left) = (Vec::new(), vec![own]);
    while let Some(next) = left.pop() {
        for above in chain(set, parent(set, next.0)).flat_map(|class| methods(set, class)) {
            if overrides_at_once(set, next, above) && !found.contains(&above) {
                found.push(above);
                left.push(above);
            }
        }
    }
    found
}

/// The method that introduced a slot: as the last class up the chain reads it that is linked and has so many slots.
fn introducing(set: &Set, abi: &Abi, area: &[u32], above: u32, slot: usize) -> Option<Known> {
    let has = |class: &u32| set.class(*class).is_linked() && set.class(*class).get(class_word::SLOTS) as usize > slot;
    chain(set, above).filter(has).last().and_then(|class| reading(set, abi, area, class)[slot].1)
}

/// The words of a table, stubs in place as far as they are lent.
fn stubbed(table: Vec<u32>, stubs: &[u32]) -> Vec<u32> {
    let stub = |slot: usize| stubs.get(slot).copied().unwrap_or_default();
    table.into_iter().enumerate().map(|(slot, word)| if word == 0 { stub(slot) } else { word }).collect()
}

/// Each slot's word, and the parent's slot that it is a copy of.
fn table(set: &Set, abi: &Abi, area: &[u32], class: u32) -> Vec<(u32, Option<usize>)> {
    let above = parent(set, class);
    let inherited = chain(set, above).take(1).flat_map(|above| reading(set, abi, area, above)).enumerate();
    let mut table: Vec<(u32, Option<usize>)> = inherited.map(|(slot, (word, _))| (word, Some(slot))).collect();
    let introduced: Vec<Option<Known>> = (0..table.len()).map(|slot| introducing(set, abi, area, above, slot)).collect();
    for own in methods(set, class) {
        let record = method(set, own);
        if record.flags & (STATIC | PRIVATE) != 0 || set.part(record.name).starts_with('<') {
            continue;
        }
        let overridden = overridden(set, own);
        let is_taken = |slot: &usize| introduced[*slot].is_some_and(|introducing| overridden.contains(&introducing));
        let taken: Vec<usize> = (0..introduced.len()).filter(is_taken).collect();
        taken.iter().for_each(|&slot| table[slot] = (record.last, None));
        if taken.is_empty() {
            table.push((record.last, None));
        }
    }
    table
}

/// A link of a class of kind 3, after row 26, and of each slot the parent's slot that it is a copy of; row 10.
pub fn link(set: &Set, abi: &Abi, class: u32, area: &[u32], stubs: &[u32]) -> Result<(Linked, Vec<Option<usize>>), u32> {
    let width = |field: &MemberRecord| if matches!(set.part(field.descriptor), "J" | "D") { 2 } else { 1 };
    let above = parent(set, class);
    let (mut words, mut statics) = (chain(set, above).take(1).map(|above| set.class(above).get(class_word::INSTANCE_WORDS)).sum(), 0);
    let mut member = |field: &MemberRecord| {
        let next = if field.flags & STATIC != 0 { &mut statics } else { &mut words };
        *next += width(field);
        unnamed(field.flags, *next - width(field))
    };
    let fields = set.fields_of(class).iter().map(&mut member).collect();
    let runtime = |field: &MemberRecord| field.last.wrapping_neg() - 1 + width(field);
    let is_runtime = |field: &&MemberRecord| field.flags & STATIC == 0 && field.last > i32::MAX as u32;
    let has_many = chain(set, above).flat_map(|class| set.fields_of(class)).filter(is_runtime).any(|field| runtime(field) > 0xFFFF);
    if words > 0xFFFF || has_many {
        return Err(10);
    }
    let (slots, copies): (Vec<u32>, Vec<Option<usize>>) = table(set, abi, area, class).into_iter().unzip();
    let linked = Linked {
        stubbed: (0..slots.len()).filter(|&slot| slots[slot] == 0).collect(),
        table: stubbed(slots, stubs),
        instance_words: Some(words),
        static_words: statics,
        methods: set.methods_of(class).iter().map(|method| unnamed(method.flags, method.last)).collect(),
        fields,
    };
    Ok((linked, copies))
}

/// A declared member, whose name and descriptor stay.
fn unnamed(flags: u32, last: u32) -> Member {
    Member { name: String::new(), descriptor: String::new(), flags, last }
}

/// An ask after rows 6 and 7; `nodes` are the class's list up to the interface's node.
pub fn ask(set: &Set, abi: &Abi, class: u32, interface: u32, area: &[u32], nodes: &[u32], stubs: &[u32]) -> Result<Asked, u32> {
    let read = nodes.len() as u32;
    if let Some(&node) = nodes.last()
        && area[node as usize + 1] == interface
    {
        return Ok(Asked { found: node + 1, nodes: read, built: None });
    }
    let implementation = |known: Known| {
        let can_be = |own: &Known| method(set, *own).flags & (STATIC | PRIVATE) == 0 && same_signature(set, *own, known);
        chain(set, class).flat_map(|class| methods(set, class)).find(can_be).map(|own| method(set, own).last).ok_or(16)
    };
    let entries = reading(set, abi, area, interface).into_iter();
    let table: Result<Vec<u32>, u32> = entries.map(|(word, known)| known.map_or(Ok(word), implementation)).collect();
    Ok(Asked { found: 0, nodes: read, built: Some(stubbed(table?, stubs)) })
}
