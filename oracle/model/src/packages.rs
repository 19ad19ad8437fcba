//! Class kind 3: "a built class, not an interface, linked by JVMS 5.4.5", the section of the Java SE 8 edition. `overridden` is the
//! least relation that it describes.

use super::sheets::{AbiSheet, ClassSheet, INTERFACE, Method, PACKAGED, PRIVATE, PROTECTED, PUBLIC, STATIC};
use super::tables::{Entry, eligible, entry_of, parent_entries, reading};
use super::why::{Refused, Why};

/// "A package is the class name before its last slash, empty without one."
pub fn package(name: &[u8]) -> &[u8] {
    name.iter().rposition(|&byte| byte == b'/').map_or(&[], |slash| &name[..slash])
}

/// 5.4.5 without a method between: both are instance methods, m1's class is a subclass of m2's, they have one name and descriptor, m1 is
/// not marked private, and m2 is marked public, or protected, or none of public, protected and private in a class of m1's package.
fn overrides_at_once(sheet: &ClassSheet, m1: &Method, m2: &Method) -> bool {
    let is_subclass = m1.owner != m2.owner && sheet.chain(m1.owner).contains(&m2.owner);
    let one_package = || package(sheet.name(m1.owner)) == package(sheet.name(m2.owner));
    let is_open = m2.flags & (PUBLIC | PROTECTED) != 0 || (m2.flags & PRIVATE == 0 && one_package());
    is_subclass && m1.number == m2.number && m1.flags & (STATIC | PRIVATE) == 0 && m2.flags & STATIC == 0 && is_open
}

/// The methods m2 that method `m1` overrides: at once, or because m1 overrides a method m3 that overrides m2.
pub fn overridden<'a>(sheet: &ClassSheet<'a>, m1: &Method) -> Vec<Method<'a>> {
    let chain = sheet.chain(m1.owner);
    let alike = chain.iter().flat_map(|&class| sheet.methods_of(class)).filter(|m2| m1.number == m2.number);
    let alike: Vec<Method> = alike.collect();
    let mut overrides: Vec<Vec<bool>> = alike.iter().map(|m1| alike.iter().map(|m2| overrides_at_once(sheet, m1, m2)).collect()).collect();
    for m3 in 0..alike.len() {
        for m1 in 0..alike.len() {
            for m2 in 0..alike.len() {
                overrides[m1][m2] |= overrides[m1][m3] && overrides[m3][m2];
            }
        }
    }
    let own = alike.iter().position(|method| method == m1).expect("a method is of its own signature");
    alike.iter().zip(&overrides[own]).filter(|(_, is_overridden)| **is_overridden).map(|(method, _)| *method).collect()
}

/// "A slot's introducing method is what Reading finds there in the topmost chain class whose table has it." Of each slot of `parent`.
pub fn introducing<'a>(sheet: &ClassSheet<'a>, abi: &AbiSheet, area: &[u32], parent: u32) -> Vec<Option<Method<'a>>> {
    let mut found = vec![None; sheet.class(parent).slots as usize];
    for class in sheet.chain(parent).into_iter().filter(|&class| sheet.is_linked(class)) {
        for (slot, entry) in found.iter_mut().zip(reading(sheet, abi, area, class)) {
            *slot = entry.method;
        }
    }
    found
}

/// "An eligible method takes every inherited slot whose introducing method it overrides by that section, and a new last slot if there is
/// none."
pub fn build_packages<'a>(sheet: &ClassSheet<'a>, abi: &AbiSheet, area: &[u32], missing: &[u32], class: u32) -> Vec<Entry<'a>> {
    let parent = sheet.class(class).parent;
    let mut table = parent_entries(sheet, abi, area, missing, class);
    let introducing = if parent == 0 { Vec::new() } else { introducing(sheet, abi, area, parent) };
    for method in sheet.methods_of(class).filter(eligible) {
        let overridden = overridden(sheet, &method);
        let taken = |slot: usize| introducing[slot].is_some_and(|introducing| overridden.contains(&introducing));
        let taken: Vec<usize> = (0..introducing.len()).filter(|&slot| taken(slot)).collect();
        if taken.is_empty() {
            table.push(entry_of(method));
        }
        for slot in taken {
            table[slot] = entry_of(method);
        }
    }
    table
}

/// Row 26: "if a kind 3 class's chain has an ABI entry, an interface or another kind, or another class's chain has kind 3".
pub fn row_26(sheet: &ClassSheet, abi: &AbiSheet, class: u32) -> Result<(), Refused> {
    let is_packaged = sheet.class(class).kind == PACKAGED;
    let fault = |class: u32| {
        let record = sheet.class(class);
        match record.kind {
            PACKAGED if !is_packaged => Some(Why::PackagesAbove { class }),
            _ if !is_packaged => None,
            _ if abi.class_named(sheet.name(class)).is_some() => Some(Why::PackagesEntry { class }),
            _ if record.flags & INTERFACE != 0 => Some(Why::PackagesInterface { class }),
            PACKAGED => None,
            kind => Some(Why::PackagesKind { class, kind }),
        }
    };
    sheet.chain(class).into_iter().find_map(fault).map_or(Ok(()), |why| Err(Refused { row: 26, why }))
}
