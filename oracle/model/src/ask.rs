//! Asking for an interface table: "Interface tables (`interface_dispatch_table`)".

use super::link::{row_7, row_15_of_area, write_slots};
use super::rules::after_row_5;
use super::sheets::{AbiSheet, ClassSheet, Method, PRIVATE, STATIC};
use super::side::Sheets;
use super::tables::reading;
use super::why::{Refused, Why};
use super::{Because, refuse};

/// Asks class `class` for its table of interface `interface`: "the answer is the place after
/// the link word, with the number of nodes read".
pub fn ask(sheets: Sheets, class: u32, interface: u32, area: &mut [u32], stubs: &[u32]) -> Result<(u32, u32), Refused> {
    after_row_5(sheets, |sheet, abi| ask_valid(sheet, abi, class, interface, area, stubs))
}

/// The same of sheets that rows 3 to 5 accept.
fn ask_valid(
    sheet: &ClassSheet,
    abi: &AbiSheet,
    class: u32,
    interface: u32,
    area: &mut [u32],
    stubs: &[u32],
) -> Result<(u32, u32), Refused> {
    // "number 0 or above the count; ... interface ask: either class unlinked"
    for number in [class, interface] {
        let no_class = || Why::NoClass { number, count: sheet.class_count() };
        refuse(6, number == 0 || number > sheet.class_count()).because(no_class)?;
        refuse(6, !sheet.is_linked(number)).because(|| Why::Unlinked { class: number })?;
    }
    row_7(sheet, area)?;

    let record = sheet.class(class);
    let head = record.place as usize + 1 + record.slots as usize;
    let walk = walk(area, area[head], interface)?;
    if let Some(node) = walk.found {
        return Ok((node + 1, walk.nodes));
    }
    let targets = implementations(sheet, abi, area, class, interface)?;
    row_15_of_area(targets.len(), area, stubs)?;

    // "a node (old head, interface number, slots) goes in front"
    let node = area[0] as usize;
    area[node] = area[head];
    area[node + 1] = interface;
    write_slots(&mut area[node + 2..], &targets, stubs);
    area[head] = node as u32;
    area[0] = (node + 2 + targets.len()) as u32;
    Ok((node as u32 + 1, walk.nodes))
}

struct Walk {
    found: Option<u32>,
    nodes: u32,
}

/// "Walk from the head". Row 7: "a chain walk meets a link whose two words are not below word
/// 0, or a 65th node". "Nodes read equal those the walk's definition passes, at most 64".
fn walk(area: &[u32], head: u32, interface: u32) -> Result<Walk, Refused> {
    let (mut node, mut nodes) = (head, 0);
    while node != 0 {
        refuse(7, nodes == 64).because(|| Why::ManyNodes)?;
        refuse(7, u64::from(node) + 1 >= u64::from(area[0])).because(|| Why::NodeOutside { node, next: area[0] })?;
        nodes += 1;
        if area[node as usize + 1] == interface {
            return Ok(Walk { found: Some(node), nodes });
        }
        node = area[node as usize];
    }
    Ok(Walk { found: None, nodes })
}

/// "each known interface entry takes the first non-static, non-private method of its
/// signature, class first, an unknown one keeps its target". Row 16: "a known interface
/// method has no implementation".
fn implementations(sheet: &ClassSheet, abi: &AbiSheet, area: &[u32], class: u32, interface: u32) -> Result<Vec<u32>, Refused> {
    let methods: Vec<Method> = sheet.chain(class).into_iter().flat_map(|class| sheet.methods_of(class)).collect();
    let entries = reading(sheet, abi, area, interface);
    let targets = entries.iter().map(|entry| match entry.method {
        None => Ok(entry.target),
        Some(known) => methods
            .iter()
            .find(|method| method.flags & (STATIC | PRIVATE) == 0 && method.number == known.number)
            .map(|method| method.target)
            .ok_or_else(|| Refused { row: 16, why: Why::Unimplemented { interface, method: Box::new((&known).into()) } }),
    });
    targets.collect()
}
