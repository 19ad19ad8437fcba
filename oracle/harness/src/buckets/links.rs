//! The buckets that a link reaches.

use crate::model::parts::{
    AbiClass, AbiRecord, AbiSheet, EMPTY, Entry, Method, eligible, entry_of, fixed_index, minimum_size, reading, relaid,
};

use super::{Bucket, Hits, View, area_clauses, compiled, fields, hit, missing, numbers, written};

pub fn link(view: &View, class: u32, hits: &mut Hits) {
    match view.step.answer.refusal {
        6 => return row_6(view, class, hits),
        7 => return area_clauses(view, &[class, view.sheet.class(class).parent], hits),
        _ => {}
    }
    let record = view.sheet.class(class);
    if record.kind == 3 || view.step.answer.refusal == 26 {
        return;
    }
    surroundings(view, class, hits);
    numbers::below(view, class, hits);
    match record.kind {
        0 => fields::of_built(view, class, hits),
        1 => fields::of_generated(view, class, hits),
        _ => {}
    }
    if matches!(view.step.answer.refusal, 8..=10) {
        return;
    }
    if record.parent != 0 {
        inherited(view, record.parent, hits);
    }
    let is_interface = record.flags & 0x0200 != 0;
    match (record.kind, view.sheet.compiler_table_of(class)) {
        (0, _) if is_interface => {}
        (1, Some(slots)) => compiled::compiler_table(view, class, slots, hits),
        (0 | 1, _) => build_methods(view, class, hits),
        _ => {}
    }
    match view.step.answer.refusal {
        0 => {
            written::accepted(view, class, hits);
            missing::counted(view, class, hits);
            numbers::linked(view, class, hits);
        }
        14 => written::row_14(view, class, hits),
        15 => written::row_15(view, class, hits),
        _ => {}
    }
}

fn row_6(view: &View, class: u32, hits: &mut Hits) {
    hit(hits, Bucket::LinkZero, class == 0);
    hit(hits, Bucket::LinkAbove, class > view.sheet.class_count());
    if class == 0 || class > view.sheet.class_count() {
        return;
    }
    let record = view.sheet.class(class);
    hit(hits, Bucket::LinkAgain, record.place != 0);
    hit(hits, Bucket::LinkOrphan, record.parent != 0 && !view.sheet.is_linked(record.parent));
    if record.kind == 2 {
        hit(hits, Bucket::ArrayMembers, record.method_count != 0 || record.field_count != 0);
        hit(hits, Bucket::ArrayRoot, record.parent == 0);
        hit(hits, Bucket::ArrayStranger, record.parent != 0 && view.sheet.name(record.parent) != b"java/lang/Object");
    }
}

/// The set around the class, and the memory.
fn surroundings(view: &View, class: u32, hits: &mut Hits) {
    let (sheet, area) = (&view.sheet, &view.step.before.area);
    let record = sheet.class(class);
    hits.push(if view.step.case.rebuilds { Bucket::Rebuilt } else { Bucket::Persistent });
    hit(hits, Bucket::Chain32, sheet.chain(class).len() >= 32);
    let parent_orphan =
        record.parent != 0 && matches!(sheet.class(record.parent).parent, parent if parent != 0 && !sheet.is_linked(parent));
    hit(hits, Bucket::ParentOfUnlinked, parent_orphan);
    let names: Vec<&[u8]> = view.abi.classes().map(|class| view.abi.part(class.name_start, class.name_length)).collect();
    hit(hits, Bucket::AbiTwice, (1..names.len()).any(|position| names[..position].contains(&names[position])));
    let bad_list = (1..=sheet.class_count()).filter(|&class| sheet.is_linked(class)).any(|class| {
        let record = sheet.class(class);
        u64::from(area[(record.place + record.slots) as usize + 1]) + 1 >= u64::from(area[0])
    });
    hit(hits, Bucket::LinkWithBadList, bad_list);
}

/// How the parent's entries are read.
fn inherited(view: &View, parent: u32, hits: &mut Hits) {
    let (sheet, abi) = (&view.sheet, &view.abi);
    let chain = sheet.chain(parent);
    for (index, entry) in (0..).zip(reading(sheet, abi, &view.step.before.area, parent)) {
        let fixing =
            |class: u32| abi.class_named(sheet.name(class)).is_some_and(|entry| abi.slots_of(entry).any(|slot| slot.index == index));
        match entry.method {
            None => {
                hits.push(Bucket::ReadUnknown);
                hit(hits, Bucket::ReadAbiSkips, chain.iter().any(|&class| fixing(class)));
            }
            Some(method) if method.target == entry.target => {
                hits.push(if method.owner == parent { Bucket::ReadOwn } else { Bucket::ReadAncestor });
                hit(hits, Bucket::ReadZero, entry.target == 0);
                hit(hits, Bucket::ReadIneligible, !eligible(&method));
                hit(hits, Bucket::ReadStubKnown, entry.target >> 8 == 0x00F0_0000);
            }
            Some(method) => {
                hits.push(if method.owner == parent { Bucket::ReadAbiOwn } else { Bucket::ReadAbiAncestor });
                let nearest = chain.iter().find(|&&class| fixing(class));
                hit(hits, Bucket::ReadAbiSkips, nearest != Some(&method.owner));
            }
        }
    }
}

pub fn abi_classes(view: &View, class: u32) -> Vec<AbiClass> {
    view.sheet.chain(class).into_iter().filter_map(|class| view.abi.class_named(view.sheet.name(class))).collect()
}

fn build_methods(view: &View, class: u32, hits: &mut Hits) {
    let (sheet, abi) = (&view.sheet, &view.abi);
    let parent = sheet.class(class).parent;
    let classes = abi_classes(view, class);
    let inherited = if parent == 0 { Vec::new() } else { reading(sheet, abi, &view.step.before.area, parent) };
    let minimum = minimum_size(abi, &classes);
    hit(hits, Bucket::TableNoParent, parent == 0);
    let by_size = classes.iter().filter_map(|class| class.table_size()).max().unwrap_or(0) as usize;
    hit(hits, Bucket::TableExtendedBySize, minimum > inherited.len() && minimum == by_size);
    hit(hits, Bucket::TableExtendedByIndex, minimum > inherited.len() && minimum > by_size);
    let own = abi.class_named(sheet.name(class));
    hit(hits, Bucket::TableParentAbi, own.is_none() && !classes.is_empty());
    hit(hits, Bucket::TableOwnAbi, own.is_some());
    hit(hits, Bucket::TableEmptyAbi, own.is_some_and(|own| own.slot_count == 0 && own.table_size().is_none()) && !inherited.is_empty());
    for &class in &classes {
        let slots: Vec<AbiRecord> = abi.slots_of(class).collect();
        let repeats = |position: usize| slots[..position].iter().any(|slot| slot.number == slots[position].number);
        hit(hits, Bucket::ShadowedRow, (1..slots.len()).any(repeats));
    }

    let (refusal, table) = place_methods(view, class, hits);
    let Some(row) = refusal else {
        hit(hits, Bucket::Row13Build, table.len() > 1024);
        hit(hits, Bucket::NewSlotsMany, table.len() > inherited.len().max(minimum) + 250);
        return;
    };
    hits.push(if row == 11 { Bucket::Row11Inherited } else { Bucket::Row12Held });
    hit(hits, Bucket::Row12Passed1024, table.len() > 1024);
    let array_with_abi = |class: u32| sheet.class(class).kind == 2 && abi.class_named(sheet.name(class)).is_some();
    hit(
        hits,
        Bucket::Row11Array,
        sheet.chain(class).into_iter().any(array_with_abi) && is_orderly(view, &classes) && no_generated(view, class),
    );
}

fn no_generated(view: &View, class: u32) -> bool {
    view.sheet.chain(class).into_iter().all(|class| view.sheet.class(class).kind != 1)
}

/// Each signature has one index and each index one signature.
fn is_orderly(view: &View, classes: &[AbiClass]) -> bool {
    let slots: Vec<AbiRecord> = classes.iter().flat_map(|&class| view.abi.slots_of(class)).collect();
    let agree = |one: &AbiRecord, other: &AbiRecord| (one.index == other.index) == (one.number == other.number);
    slots.iter().all(|one| slots.iter().all(|other| agree(one, other)))
}

/// What relaying reaches.
fn relaid_hits(abi: &AbiSheet, classes: &[AbiClass], inherited: &[Entry], table: &[Entry], hits: &mut Hits) {
    let distance = |method: &Method| (1..=classes.len()).find(|&n| fixed_index(abi, &classes[..n], method.number).is_some());
    let same = |entry: &Entry, method: &Method| entry.method.is_some_and(|known| known.number == method.number);
    for (position, entry) in inherited.iter().enumerate() {
        let Some(method) = entry.method else {
            hits.push(Bucket::RelaidUnknownGoes);
            continue;
        };
        let Some(fixed) = fixed_index(abi, classes, method.number) else {
            hits.push(Bucket::RelaidFollows);
            continue;
        };
        let is_again = inherited[position + 1..].iter().any(|later| same(later, &method));
        let stays = table[fixed as usize].method.expect("a known entry has this index");
        if stays.number == method.number {
            hits.push(if fixed as usize == position { Bucket::RelaidFixed } else { Bucket::RelaidMoved });
            hit(hits, Bucket::RelaidOverwritten, is_again);
        } else {
            hits.push(if distance(&stays) < distance(&method) { Bucket::GivesWayNearer } else { Bucket::GivesWayEarlier });
            hits.push(if is_again { Bucket::GivesWayAgain } else { Bucket::GivesWayFollows });
        }
    }
}

/// Places the inherited entries and the methods; answers the refusal and the table then.
pub fn place_methods<'a>(view: &View<'a>, class: u32, hits: &mut Hits) -> (Option<u32>, Vec<Entry<'a>>) {
    let (sheet, abi) = (&view.sheet, &view.abi);
    let parent = sheet.class(class).parent;
    let classes = abi_classes(view, class);
    let minimum = minimum_size(abi, &classes);
    let inherited = if parent == 0 { Vec::new() } else { reading(sheet, abi, &view.step.before.area, parent) };
    let mut table;
    if abi.class_named(sheet.name(class)).is_some() {
        table = relaid(abi, &classes, &inherited, minimum);
        relaid_hits(abi, &classes, &inherited, &table, hits);
    } else {
        table = inherited;
        table.resize(table.len().max(minimum), EMPTY);
    }
    for method in sheet.methods_of(class) {
        hit(hits, Bucket::SkippedStatic, method.flags & 0x0008 != 0);
        hit(hits, Bucket::SkippedPrivate, method.flags & 0x0002 != 0);
        hit(hits, Bucket::SkippedAngle, method.flags & 0x000A == 0 && method.name.starts_with(b"<"));
        if !eligible(&method) {
            continue;
        }
        let same = |entry: &Entry| entry.method.is_some_and(|known| known.number == method.number);
        let own_slot = table.iter().position(same);
        let fixed = fixed_index(abi, &classes, method.number).map(|fixed| fixed as usize);
        let slot = match (fixed, own_slot) {
            (Some(fixed), Some(slot)) if fixed != slot => return (Some(11), table),
            (Some(fixed), None) if table[fixed].method.is_some() => return (Some(12), table),
            (Some(fixed), slot) => {
                hits.push(match slot {
                    Some(_) => Bucket::TakesFixedInherited,
                    None if table[fixed].target != 0 => Bucket::TakesFixedUnknown,
                    None => Bucket::TakesFixedEmpty,
                });
                fixed
            }
            (None, Some(slot)) => {
                let twin = table[slot].method.is_some_and(|known| known.owner == class);
                hits.push(if twin { Bucket::TakesOwnTwin } else { Bucket::TakesInherited });
                slot
            }
            (None, None) => {
                hits.push(Bucket::TakesNew);
                table.push(EMPTY);
                table.len() - 1
            }
        };
        table[slot] = entry_of(method);
    }
    (None, table)
}
