//! Tables: "Tables (`vtable.rs`, `prepare_generated`)".

use super::missing::is_counted;
use super::sheets::{ABSTRACT, AbiClass, AbiSheet, ClassSheet, Method, PRIVATE, STATIC};
use super::why::{Fixed, Refused, Why};
use super::{Because, refuse};

/// A slot of a table: its target (0 if empty), its method if it is known, and whether it is "copied from parent entries that the parent's
/// count included".
#[derive(Clone, Copy)]
pub struct Entry<'a> {
    pub target: u32,
    pub method: Option<Method<'a>>,
    pub copies_counted: bool,
}

pub const EMPTY: Entry = Entry { target: 0, method: None, copies_counted: false };

/// "Eligible: not static, not private (0x0002), name not starting with `<`."
pub fn eligible(method: &Method) -> bool {
    method.flags & (STATIC | PRIVATE) == 0 && !method.name.starts_with(b"<")
}

pub fn entry_of(method: Method) -> Entry {
    Entry { target: method.target, method: Some(method), copies_counted: false }
}

fn slot_of(table: &[Entry], method: &Method) -> Option<usize> {
    table.iter().position(|entry| entry.method.is_some_and(|known| known.number == method.number))
}

/// "Reading: a slot's method is the first with that target, class first, then ancestors.
/// Failing that, the first chain class whose ABI entry fixes that index and which itself has
/// a method of that signature, of any flags. Else unknown. In each case the entry's target
/// is the slot's word."
pub fn reading<'a>(sheet: &ClassSheet<'a>, abi: &AbiSheet, area: &[u32], class: u32) -> Vec<Entry<'a>> {
    let record = sheet.class(class);
    let chain = sheet.chain(class);
    let methods: Vec<Method> = chain.iter().flat_map(|&class| sheet.methods_of(class)).collect();
    let entries: Vec<(u32, AbiClass)> = chain.iter().filter_map(|&class| Some((class, abi.class_named(sheet.name(class))?))).collect();
    let by_abi = |index: u32| {
        entries.iter().find_map(|&(class, entry)| {
            let fixed = abi.slots_of(entry).find(|slot| slot.index == index)?;
            sheet.methods_of(class).find(|method| method.number == fixed.number)
        })
    };
    let slots = &area[record.place as usize + 1..][..record.slots as usize];
    slots
        .iter()
        .zip(0..)
        .map(|(&word, index)| {
            let by_target = methods.iter().find(|method| method.target == word).copied();
            Entry { target: word, method: by_target.or_else(|| by_abi(index)), copies_counted: false }
        })
        .collect()
}

/// The ABI classes that a chain names, nearest first.
fn abi_classes(sheet: &ClassSheet, abi: &AbiSheet, chain: &[u32]) -> Vec<AbiClass> {
    chain.iter().filter_map(|&class| abi.class_named(sheet.name(class))).collect()
}

/// A signature's fixed index, by its number: the first match, over the chain's ABI classes.
pub fn fixed_index(abi: &AbiSheet, classes: &[AbiClass], number: u32) -> Option<u32> {
    fixed_slot(abi, classes, number).map(|(index, _)| index)
}

/// A signature's fixed index and the ABI class that fixes it.
fn fixed_slot(abi: &AbiSheet, classes: &[AbiClass], number: u32) -> Option<(u32, AbiClass)> {
    classes.iter().find_map(|&class| {
        let slot = abi.slots_of(class).find(|slot| slot.number == number)?;
        Some((slot.index, class))
    })
}

/// "the largest fixed index + 1 or table size among the chain's ABI classes"
pub fn minimum_size(abi: &AbiSheet, classes: &[AbiClass]) -> usize {
    let sizes = classes.iter().filter_map(|class| class.table_size());
    let ends = classes.iter().flat_map(|&class| abi.slots_of(class)).map(|slot| slot.index + 1);
    sizes.chain(ends).max().unwrap_or(0) as usize
}

/// "Interface flag (0x0200), built class: the eligible methods in order."
pub fn build_interface_methods<'a>(sheet: &ClassSheet<'a>, class: u32) -> Vec<Entry<'a>> {
    sheet.methods_of(class).filter(eligible).map(entry_of).collect()
}

/// How a class with its own ABI entry lays out what it inherits: by today's rule, or by the one before, which lost all but the last of the
/// signatures of one fixed index.
#[derive(Clone, Copy, PartialEq, Eq)]
pub enum Rule {
    Today,
    Before,
}

/// `build_methods`, with rows 11 and 12 "method by method, 11 first".
pub fn build_methods<'a>(
    sheet: &ClassSheet<'a>,
    abi: &AbiSheet,
    area: &[u32],
    missing: &[u32],
    class: u32,
    rule: Rule,
) -> Result<Vec<Entry<'a>>, Refused> {
    let classes = abi_classes(sheet, abi, &sheet.chain(class));
    let minimum = minimum_size(abi, &classes);

    // "parent entries, extended with empty ones"
    let inherited = parent_entries(sheet, abi, area, missing, class);
    let mut table = if abi.class_named(sheet.name(class)).is_some() {
        match rule {
            Rule::Today => relaid(abi, &classes, &inherited, minimum),
            Rule::Before => relaid_before(abi, &classes, inherited, minimum),
        }
    } else {
        let size = inherited.len().max(minimum);
        let mut table = inherited;
        table.resize(size, EMPTY);
        table
    };

    // "Then each eligible method takes its fixed slot, else the slot of its signature, else a
    // new last one."
    for method in sheet.methods_of(class).filter(eligible) {
        let inherited = slot_of(&table, &method);
        let index = match (fixed_slot(abi, &classes, method.number), inherited) {
            (Some((index, abi_class)), inherited) => {
                let fixed = index as usize;
                let against =
                    |slot: usize| Fixed::new(&method, (index, abi_class), abi, slot, table[slot].method.as_ref().unwrap_or(&method));
                // "a fixed index differs from the inherited one"
                let moved = || Why::Moved(against(inherited.unwrap_or(fixed)));
                refuse(11, inherited.is_some_and(|inherited| inherited != fixed)).because(moved)?;
                // "the fixed slot holds another signature"
                let held = table[fixed].method;
                let taken = || Why::Taken(against(fixed));
                refuse(12, held.is_some_and(|held| held.number != method.number)).because(taken)?;
                fixed
            }
            (None, Some(inherited)) => inherited,
            (None, None) => {
                table.push(EMPTY);
                table.len() - 1
            }
        };
        table[index] = entry_of(method);
    }
    Ok(table)
}

/// A known inherited entry, its method, and its fixed index with how many of the chain's ABI classes are nearer than the one that it comes from.
struct Known<'a> {
    entry: Entry<'a>,
    method: Method<'a>,
    fixed: Option<(u32, usize)>,
}

impl Known<'_> {
    fn is_of(&self, method: &Method) -> bool {
        self.method.number == method.number
    }

    fn has_index(&self, index: u32) -> bool {
        self.fixed.is_some_and(|(fixed, _)| fixed == index)
    }
}

fn known<'a>(abi: &AbiSheet, classes: &[AbiClass], inherited: &[Entry<'a>]) -> Vec<Known<'a>> {
    let index = |class: AbiClass, method: &Method| abi.slots_of(class).find(|slot| slot.number == method.number).map(|slot| slot.index);
    let fixed = |method: &Method| classes.iter().enumerate().find_map(|(nearer, &class)| Some((index(class, method)?, nearer)));
    inherited.iter().filter_map(|&entry| entry.method.map(|method| Known { entry, method, fixed: fixed(&method) })).collect()
}

/// "In a class with its own ABI entry, .. later known entries of one signature still overwrite earlier ones at a fixed index. Of several
/// signatures, the one whose index comes from the ABI class nearest on the chain stays; from the same ABI class, the one whose first entry is
/// earlier. The last entry of each other follows after the minimum size, in inherited order with the entries without a fixed index." And of
/// document 01 what this leaves: unknown ones go.
pub fn relaid<'a>(abi: &AbiSheet, classes: &[AbiClass], inherited: &[Entry<'a>], minimum: usize) -> Vec<Entry<'a>> {
    let known = known(abi, classes, inherited);
    // (of several least ones `min_by_key` takes the first)
    let stays = |index: u32| {
        let there = known.iter().filter(|entry| entry.has_index(index));
        there.min_by_key(|entry| entry.fixed.map(|(_, nearer)| nearer)).map(|entry| entry.method)
    };
    let last = |method: Method| known.iter().rfind(|entry| entry.is_of(&method)).map(|entry| entry.entry);
    let mut table: Vec<Entry> = (0..minimum as u32).map(|index| stays(index).and_then(last).unwrap_or(EMPTY)).collect();
    for (place, entry) in known.iter().enumerate() {
        let gives_way = |index: u32| stays(index).is_none_or(|stays| !entry.is_of(&stays));
        let is_last = !known[place + 1..].iter().any(|later| later.is_of(&entry.method));
        if entry.fixed.is_none_or(|(index, _)| gives_way(index) && is_last) {
            table.push(entry.entry);
        }
    }
    table
}

/// The inherited signatures of the class that give way at their fixed index, where it lays out what it inherits.
pub fn moved(sheet: &ClassSheet, abi: &AbiSheet, area: &[u32], class: u32) -> Vec<(Vec<u8>, Vec<u8>)> {
    let classes = abi_classes(sheet, abi, &sheet.chain(class));
    let inherited = parent_entries(sheet, abi, area, &[], class);
    let table = relaid(abi, &classes, &inherited, minimum_size(abi, &classes));
    let gives_way = |known: &Known| {
        let stays = known.fixed.and_then(|(index, _)| table[index as usize].method);
        stays.is_some_and(|stays| !known.is_of(&stays))
    };
    let moved = self::known(abi, &classes, &inherited).into_iter().filter(gives_way);
    moved.map(|known| (known.method.name.to_vec(), known.method.descriptor.to_vec())).collect()
}

/// Whether two known inherited entries of the class have one fixed index and different signatures.
pub fn clash(sheet: &ClassSheet, abi: &AbiSheet, area: &[u32], class: u32) -> bool {
    let classes = abi_classes(sheet, abi, &sheet.chain(class));
    let known = known(abi, &classes, &parent_entries(sheet, abi, area, &[], class));
    let rivals = |one: &Known, other: &Known| one.fixed.is_some_and(|(index, _)| other.has_index(index)) && !one.is_of(&other.method);
    known.iter().any(|one| known.iter().any(|other| rivals(one, other)))
}

/// The rule before: "A class with its own ABI entry first puts each known inherited entry at its fixed index,
/// later ones overwriting; known entries without one follow after the minimum size; unknown
/// ones go."
fn relaid_before<'a>(abi: &AbiSheet, classes: &[AbiClass], inherited: Vec<Entry<'a>>, minimum: usize) -> Vec<Entry<'a>> {
    let mut table = vec![EMPTY; minimum];
    for entry in inherited {
        let Some(method) = entry.method else { continue };
        match fixed_index(abi, classes, method.number) {
            Some(fixed) => table[fixed as usize] = entry,
            None => table.push(entry),
        }
    }
    table
}

/// The parent's entries, read along the parent's own chain, each with what the parent's count in the list says of it: whoever takes one
/// whole has a copy.
pub fn parent_entries<'a>(sheet: &ClassSheet<'a>, abi: &AbiSheet, area: &[u32], missing: &[u32], class: u32) -> Vec<Entry<'a>> {
    let parent = sheet.class(class).parent;
    if parent == 0 {
        return Vec::new();
    }
    let entries = reading(sheet, abi, area, parent).into_iter().enumerate();
    entries.map(|(slot, entry)| Entry { copies_counted: is_counted(missing, parent, slot), ..entry }).collect()
}

/// (a) "a known parent entry whose owner's link state is not 3 and whose slot is not its
/// fixed index (parent chain's ABI) is emptied: the native view."
pub fn native_view<'a>(sheet: &ClassSheet<'a>, abi: &AbiSheet, class: u32, parent: &[Entry<'a>]) -> Vec<Entry<'a>> {
    let classes = abi_classes(sheet, abi, &sheet.chain(sheet.class(class).parent));
    let emptied = |index: usize, method: Method| {
        sheet.class(method.owner).link_state != 3 && fixed_index(abi, &classes, method.number) != Some(index as u32)
    };
    let view = parent.iter().enumerate().map(|(index, entry)| match entry.method {
        Some(method) if emptied(index, method) => EMPTY,
        _ => *entry,
    });
    view.collect()
}

/// A generated class with a compiler table: its entries, and its added methods.
pub fn compiler_table<'a>(
    sheet: &ClassSheet<'a>,
    abi: &AbiSheet<'a>,
    area: &[u32],
    missing: &[u32],
    class: u32,
    compiled: &[u32],
) -> (Vec<Entry<'a>>, Vec<Method<'a>>) {
    let parent = parent_entries(sheet, abi, area, missing, class);
    let view = native_view(sheet, abi, class, &parent);
    let declared: Vec<Method> = sheet.methods_of(class).collect();
    let added = added_methods(sheet, abi, class, compiled, &view, &declared);

    // (c) "A zero slot is the native view's; another is matched by target in declared and
    // added, then native methods." "a nonzero compiler slot is no copy"
    let own = || declared.iter().chain(&added);
    let native = || view.iter().filter_map(|entry| entry.method.as_ref());
    let mut table: Vec<Entry> = compiled
        .iter()
        .enumerate()
        .map(|(index, &target)| match target {
            0 => view.get(index).copied().unwrap_or(EMPTY),
            target => {
                Entry { target, method: own().chain(native()).find(|method| method.target == target).copied(), copies_counted: false }
            }
        })
        .collect();

    // (d) "Eligible declared, added and parent methods whose signature has no slot are
    // appended with their own targets." "an appended parent method is" a copy
    let own = own().map(|method| entry_of(*method));
    let inherited = parent.iter().filter_map(|entry| Some(Entry { copies_counted: entry.copies_counted, ..entry_of(entry.method?) }));
    for entry in own.chain(inherited) {
        if entry.method.is_some_and(|method| eligible(&method) && slot_of(&table, &method).is_none()) {
            table.push(entry);
        }
    }
    (table, added)
}

/// (b) "Each nonzero compiler target differing from the native view there takes its signature
/// from that view's method (flags without 0x0400), else from the fixed entry at that index of
/// the class's own ABI entry, then its interfaces' (flags 1). It is added as a method unless
/// originally declared or nameless."
fn added_methods<'a>(
    sheet: &ClassSheet<'a>,
    abi: &AbiSheet<'a>,
    class: u32,
    compiled: &[u32],
    view: &[Entry<'a>],
    declared: &[Method],
) -> Vec<Method<'a>> {
    let named = std::iter::once(&class).chain(sheet.interfaces_of(class));
    let sources: Vec<AbiClass> = named.filter_map(|&class| abi.class_named(sheet.name(class))).collect();
    let differing = compiled
        .iter()
        .zip(0u32..)
        .filter(|&(&target, index)| target != 0 && view.get(index as usize).is_none_or(|entry| entry.target != target));
    let named = differing.filter_map(|(&target, index)| {
        let of_view = view.get(index as usize).and_then(|entry| entry.method);
        let of_view = of_view.map(|method| Method { flags: method.flags & !ABSTRACT, target, owner: class, ..method });
        of_view.or_else(|| {
            let fixed = sources.iter().find_map(|&source| abi.slots_of(source).find(|slot| slot.index == index))?;
            Some(Method { name: fixed.name, descriptor: fixed.descriptor, flags: 1, target, owner: class, number: fixed.number })
        })
    });
    named.filter(|method| !declared.iter().any(|known| known.number == method.number)).collect()
}
