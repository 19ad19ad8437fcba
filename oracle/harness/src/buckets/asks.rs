//! The buckets that an ask reaches.

use crate::model::parts::{Method, reading};

use super::{Bucket, Hits, View, area_clauses, hit, numbers};

pub fn ask(view: &View, class: u32, interface: u32, hits: &mut Hits) {
    let sheet = &view.sheet;
    let count = sheet.class_count();
    match view.step.answer.refusal {
        6 => {
            hit(hits, Bucket::AskZero, class == 0);
            hit(hits, Bucket::AskAbove, class > count);
            hit(hits, Bucket::AskInterfaceWrong, interface == 0 || interface > count);
            let unlinked = |number: u32| (1..=count).contains(&number) && !sheet.is_linked(number);
            hit(hits, Bucket::AskClassUnlinked, unlinked(class));
            hit(hits, Bucket::AskInterfaceUnlinked, unlinked(interface));
            return;
        }
        7 => {
            let before = hits.len();
            area_clauses(view, &[class, interface], hits);
            if hits.len() == before {
                walk_clauses(view, class, hits);
            }
            return;
        }
        _ => {}
    }
    let chain = sheet.chain(class);
    let (asked, record) = (sheet.class(interface), sheet.class(class));
    hit(hits, Bucket::AskSelf, class == interface);
    hit(hits, Bucket::AskAncestor, chain[1..].contains(&interface));
    hit(hits, Bucket::AskArray, asked.kind == 2 || record.kind == 2);
    hit(hits, Bucket::AskGenerated, asked.kind == 1 || record.kind == 1);
    hit(hits, Bucket::AskPlain, asked.flags & 0x0200 == 0);
    passed_nodes(view, class, interface, hits);

    let area = &view.step.before.area;
    let slots = asked.slots as usize;
    let free = area.len() - area[0] as usize;
    let nodes = view.step.answer.second;
    if view.step.answer.refusal == 0 && view.step.answer.first < area[0] {
        hit(hits, Bucket::AskHitFirst, nodes == 1);
        hit(hits, Bucket::AskHitLater, nodes > 1);
        hit(hits, Bucket::AskHit64, nodes == 64);
        hit(hits, Bucket::AskHitNoStubs, view.stubs.is_empty() && slots > 0);
        hit(hits, Bucket::AskHitFullArea, free == 0);
        return;
    }
    if view.step.answer.refusal == 0 {
        hit(hits, Bucket::AskMissEmpty, nodes == 0);
        hit(hits, Bucket::AskMissNodes, nodes > 0);
        hit(hits, Bucket::AskMiss64, nodes == 64);
        hit(hits, Bucket::AskEmptyTable, slots == 0);
        hit(hits, Bucket::AskExact, free == slots + 2);
    }
    hit(hits, Bucket::Ask15Stubs, view.step.answer.refusal == 15 && view.stubs.len() < slots);
    hit(hits, Bucket::Ask15Area, view.step.answer.refusal == 15 && free < slots + 2);
    implementations(view, class, interface, hits);
}

fn implementations(view: &View, class: u32, interface: u32, hits: &mut Hits) {
    let methods: Vec<Method> = view.sheet.chain(class).into_iter().flat_map(|class| view.sheet.methods_of(class)).collect();
    for entry in reading(&view.sheet, &view.abi, &view.step.before.area, interface) {
        let Some(known) = entry.method else {
            hits.push(if entry.target == 0 { Bucket::AskUnknownZero } else { Bucket::AskUnknown });
            continue;
        };
        let mut alike = methods.iter().filter(|method| method.number == known.number).peekable();
        let first = alike.peek().copied();
        match alike.find(|method| method.flags & 0x000A == 0) {
            None => {
                hits.push(Bucket::Ask16);
                hit(hits, Bucket::Ask16Only, first.is_some());
                return;
            }
            Some(method) => {
                hits.push(if method.owner == class { Bucket::AskOwn } else { Bucket::AskInherited });
                hit(hits, Bucket::AskAbstract, method.flags & 0x0400 != 0);
                hit(hits, Bucket::AskZeroTarget, method.target == 0);
                numbers::implemented(view, method.owner, method.number, hits);
                hit(hits, Bucket::AskAngle, method.name.starts_with(b"<"));
                hit(hits, Bucket::AskSkips, first.is_some_and(|first| first.flags & 0x000A != 0));
            }
        }
    }
}

/// The nodes of a class's list, at most 65, as far as they lie below word 0.
fn nodes(view: &View, class: u32) -> (Vec<u32>, bool) {
    let area = &view.step.before.area;
    let record = view.sheet.class(class);
    let mut link = area[(record.place + record.slots) as usize + 1];
    let mut nodes = Vec::new();
    while link != 0 && nodes.len() < 65 {
        if u64::from(link) + 1 >= u64::from(area[0]) {
            return (nodes, true);
        }
        nodes.push(link);
        link = area[link as usize];
    }
    (nodes, false)
}

fn walk_clauses(view: &View, class: u32, hits: &mut Hits) {
    let (nodes, beyond) = nodes(view, class);
    let area = &view.step.before.area;
    let record = view.sheet.class(class);
    let last = nodes.last().map_or((record.place + record.slots) as usize + 1, |&node| node as usize);
    hit(hits, Bucket::WalkBeyond, beyond);
    hit(hits, Bucket::WalkLastWord, beyond && u64::from(area[last]) + 1 == u64::from(area[0]));
    hit(hits, Bucket::WalkTooLong, nodes.len() == 65);
}

fn passed_nodes(view: &View, class: u32, interface: u32, hits: &mut Hits) {
    let area = &view.step.before.area;
    let (nodes, _) = nodes(view, class);
    let numbers = nodes.iter().map(|&node| area[node as usize + 1]);
    let passed: Vec<u32> = numbers.take_while(|&number| number != interface).collect();
    hit(hits, Bucket::AskHandNodes, !nodes.is_empty() && view.step.case.area.first() != Some(&1));
    hit(hits, Bucket::AskForeignNode, passed.iter().any(|&number| number == 0 || number > view.sheet.class_count()));
}
