//! Class sheets whose classes come in any order: a reading by rows 1 to 3 alone, and the step that renumbers the classes.

use super::reading::{blocks, fill, row_3, unlinked};
use super::refuse;
use super::rules::fits;
use super::sheets::{CLASS_WORDS, ClassSheet, class_content};
use super::why::Refused;

/// "an entry that reads by rows 1 to 3 alone"
pub fn read_unordered_sheet(bytes: &[u8], words: &mut [u32]) -> Result<u32, Refused> {
    let read = blocks(bytes, 92, words.len())?;
    row_3(&read, class_content(&read), |content| content - read[5].div_ceil(4) as usize, read[5])?;
    unlinked(&ClassSheet::unnumbered(&read, &[]))?;
    Ok(fill(&read, words))
}

/// "a step on such words that renumbers the classes"; answers their number.
pub fn renumber_classes(set: &mut [u32], list: &mut [u32]) -> Result<u32, Refused> {
    // "Turned away: 3, first, as for a link or if a table place or slot count is not 0"; static words as in reading
    refuse(3, !fits(class_content(set), set))?;
    let sheet = ClassSheet::unnumbered(set, &[]);
    unlinked(&sheet)?;
    // "4, if a parent number exceeds the count or an interface word names no class"
    let count = sheet.class_count();
    let parents: Vec<u32> = sheet.classes().map(|class| class.parent).collect();
    refuse(4, parents.iter().any(|&parent| parent > count))?;
    refuse(4, sheet.interface_words().iter().any(|&number| number == 0 || number > count))?;
    refuse(19, (1..=count).any(|class| returns(&parents, class)))?;
    // "15, last, if the list is too short"
    refuse(15, list.len() < count as usize)?;
    let order = order(&parents);
    move_classes(set, &order);
    list[..order.len()].copy_from_slice(&order);
    Ok(count)
}

/// "19, after that, if following parents from some class returns to a class already passed"
fn returns(parents: &[u32], class: u32) -> bool {
    let mut passed = Vec::new();
    let mut at = class;
    while at != 0 {
        if passed.contains(&at) {
            return true;
        }
        passed.push(at);
        at = parents[at as usize - 1];
    }
    false
}

/// "Parents come first, and among those ready the smallest old number goes next."
fn order(parents: &[u32]) -> Vec<u32> {
    let mut order = Vec::new();
    while order.len() < parents.len() {
        let is_ready = |class: &u32| {
            let parent = parents[*class as usize - 1];
            !order.contains(class) && (parent == 0 || order.contains(&parent))
        };
        let next = (1..=parents.len() as u32).find(is_ready).expect("no parent returns");
        order.push(next);
    }
    order
}

/// "Parent and interface numbers follow": the records go whole to their new places, the interface words stay where they are.
fn move_classes(set: &mut [u32], order: &[u32]) {
    let new_number = |old: u32| order.iter().position(|&class| class == old).map_or(0, |place| place as u32 + 1);
    let sheet = ClassSheet::unnumbered(set, &[]);
    let (interfaces_at, interfaces) = (sheet.field_at(set[2]), set[3] as usize);
    let old = set.to_vec();
    for (class, &from) in (1..).zip(order) {
        let (from, to) = (ClassSheet::class_at(from), ClassSheet::class_at(class));
        set[to..to + CLASS_WORDS].copy_from_slice(&old[from..from + CLASS_WORDS]);
        set[to + 2] = new_number(old[from + 2]);
    }
    for word in &mut set[interfaces_at..interfaces_at + interfaces] {
        *word = new_number(*word);
    }
}
