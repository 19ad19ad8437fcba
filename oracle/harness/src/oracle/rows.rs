//! The rows that the harness adds before the Rust is asked: 1 to 7.

use std::cmp::Reverse;
use std::collections::{BinaryHeap, HashSet};

use crate::sheet::{Abi, AbiMember, ClassRecord, MemberRecord, Set, blocks, class_word};

use super::{descriptors, numbers};

/// Rows 3 to 5 of a link or an ask, each over both sheets before the next.
pub fn sheets(set: &[u32], abi: &[u32]) -> Result<(Set, Abi), u32> {
    let (Some(set), Some(abi)) = (Set::decode(set), Abi::decode(abi)) else {
        return Err(3);
    };
    if !set_follows_row_4(&set) || !abi_follows_row_4(&abi) {
        return Err(4);
    }
    if !set_follows_row_5(&set) || !abi_follows_row_5(&abi) {
        return Err(5);
    }
    Ok((set, abi))
}

/// The same of a call that is lent the list of the signatures' numbers: row 3 also takes a shorter list.
pub fn numbered_sheets(set: &[u32], abi: &[u32], list: &[u32]) -> Result<(Set, Abi), u32> {
    if list.len() < numbers::WORDS { Err(3) } else { sheets(set, abi) }
}

/// Reads a class sheet's blocks, rows 1 to 5.
pub fn read_class_sheet(bytes: &[u8], words: &mut [u32]) -> Result<u32, u32> {
    let (content, set) = unlinked_words(bytes, words.len())?;
    if !set_follows_row_4(&set) {
        return Err(4);
    }
    if !set_follows_row_5(&set) {
        return Err(5);
    }
    words[..content.len()].copy_from_slice(&content);
    Ok(content.len() as u32)
}

/// Rows 1 to 3 of a class sheet's blocks.
fn unlinked_words(bytes: &[u8], lent: usize) -> Result<(Vec<u32>, Set), u32> {
    let content = block_words(bytes, 92, lent)?;
    let set = Set::decode(&content).ok_or(3u32)?;
    if blocks(&set.encode()) != bytes || !is_untouched(&set) {
        return Err(3);
    }
    Ok((content, set))
}

fn is_untouched(set: &Set) -> bool {
    set.classes.iter().all(ClassRecord::is_untouched)
}

/// Reads a class sheet's blocks, rows 1 to 3.
pub fn read_unordered_sheet(bytes: &[u8], words: &mut [u32]) -> Result<u32, u32> {
    let (content, _) = unlinked_words(bytes, words.len())?;
    words[..content.len()].copy_from_slice(&content);
    Ok(content.len() as u32)
}

/// Renumbers the classes: a heap holds those whose parent is placed. Rows 3, 4, 19 (the heap runs empty too early) and 15.
pub fn renumber_classes(words: &mut [u32], list: &mut [u32]) -> Result<u32, u32> {
    let mut set = Set::decode(words).filter(is_untouched).ok_or(3u32)?;
    let classes = set.classes.len() as u32;
    let parents: Vec<u32> = set.classes.iter().map(|class| class.get(class_word::PARENT)).collect();
    if parents.iter().any(|parent| !(0..=classes).contains(parent)) || set.interfaces.iter().any(|number| !(1..=classes).contains(number)) {
        return Err(4);
    }
    let children = |of: u32| (1..).zip(&parents).filter(move |&(_, &parent)| parent == of).map(|(class, _)| Reverse(class));
    let mut ready: BinaryHeap<Reverse<u32>> = children(0).collect();
    let mut order = Vec::new();
    let mut new_numbers = vec![0; classes as usize + 1];
    while let Some(Reverse(class)) = ready.pop() {
        order.push(class);
        new_numbers[class as usize] = order.len() as u32;
        ready.extend(children(class));
    }
    if order.len() < parents.len() {
        return Err(19);
    }
    list.get_mut(..order.len()).ok_or(15u32)?.copy_from_slice(&order);
    set.classes = order.iter().map(|&class| *set.class(class)).collect();
    for class in &mut set.classes {
        class.0[class_word::PARENT] = new_numbers[class.get(class_word::PARENT) as usize];
    }
    for number in &mut set.interfaces {
        *number = new_numbers[*number as usize];
    }
    // The text and what follows it stay.
    let moved = set.encode();
    let text_at = moved.len() - set.text.len().div_ceil(4);
    words[..text_at].copy_from_slice(&moved[..text_at]);
    Ok(classes)
}

/// Reads an ABI sheet's blocks, rows 1 to 5.
pub fn read_abi_sheet(bytes: &[u8], words: &mut [u32]) -> Result<u32, u32> {
    let content = block_words(bytes, 51, words.len())?;
    let abi = Abi::decode(&content).ok_or(3u32)?;
    if blocks(&abi.encode()) != bytes {
        return Err(3);
    }
    if !abi_follows_row_4(&abi) {
        return Err(4);
    }
    if !abi_follows_row_5(&abi) {
        return Err(5);
    }
    words[..content.len()].copy_from_slice(&content);
    Ok(content.len() as u32)
}

/// Writes a class sheet's blocks: rows 3 to 5 of the class words, then 17 and 18. What a sheet cannot say is what its sections,
/// decoded and encoded again, lose.
pub fn write_class_sheet(words: &[u32], bytes: &mut [u8]) -> Result<u32, u32> {
    let set = Set::decode(words).ok_or(3u32)?;
    if !set_follows_row_4(&set) {
        return Err(4);
    }
    if !set_follows_row_5(&set) {
        return Err(5);
    }
    let content = set.encode();
    if !words.starts_with(&content) || !is_untouched(&set) {
        return Err(17);
    }
    put_blocks(&content, bytes)
}

/// The blocks of these words, or row 18.
fn put_blocks(content: &[u32], bytes: &mut [u8]) -> Result<u32, u32> {
    let written = blocks(content);
    bytes.get_mut(..written.len()).ok_or(18u32)?.copy_from_slice(&written);
    Ok(written.len() as u32 / 512)
}

/// Makes a class sheet of 17-word records one of 18: rows 1 to 5 of the old form, and 18. What the form cannot say is what its sections,
/// decoded and encoded again, lose.
pub fn widen_class_sheet(bytes: &[u8], out: &mut [u8]) -> Result<u32, u32> {
    let mut set = Set::decode_old(&block_words(bytes, 92, usize::MAX)?).ok_or(3u32)?;
    if blocks(&set.encode_old()) != bytes || !is_untouched(&set) {
        return Err(3);
    }
    if !set_follows_row_4(&set) {
        return Err(4);
    }
    if !set_follows_row_5(&set) {
        return Err(5);
    }
    set.bring_static_words();
    put_blocks(&set.encode(), out)
}

/// And back: rows 1 to 5 of a reading, 23 where a class would come back with other static words, and 18.
pub fn narrow_class_sheet(bytes: &[u8], out: &mut [u8]) -> Result<u32, u32> {
    let mut words = vec![0; 127 * 92];
    let count = read_class_sheet(bytes, &mut words)? as usize;
    let set = Set::decode(&words[..count]).ok_or(3u32)?;
    let mut again = set.clone();
    again.bring_static_words();
    if again != set {
        return Err(23);
    }
    put_blocks(&set.encode_old(), out)
}

/// Rows 1 and 2: the words of all blocks, less their checks.
fn block_words(bytes: &[u8], most: usize, lent: usize) -> Result<Vec<u32>, u32> {
    let fits = !bytes.is_empty() && bytes.len().is_multiple_of(512) && bytes.len() / 512 <= most;
    if !fits || bytes.len() / 512 * 127 > lent {
        return Err(1);
    }
    let mut content = Vec::new();
    for (number, block) in bytes.chunks(512).enumerate() {
        let word = |position: usize| u32::from_le_bytes(block[4 * position..][..4].try_into().unwrap());
        let sum = (0..127).map(|position| u64::from(word(position))).sum::<u64>() + number as u64 + 1;
        if sum as u32 != word(127) {
            return Err(2);
        }
        content.extend((0..127).map(word));
    }
    Ok(content)
}

/// A text part that is a string.
fn is_name(text: &[u8], (start, length): (u32, u32)) -> bool {
    let (start, length) = (start as usize, length as usize);
    let part = text.get(start..).and_then(|tail| tail.get(..length));
    part.is_some_and(is_string)
}

/// 1 to 255 bytes, all printable.
pub fn is_string(bytes: &[u8]) -> bool {
    matches!(bytes.len(), 1..=255) && bytes.iter().all(u8::is_ascii_graphic)
}

fn lies_inside(span: (u32, u32), size: usize) -> bool {
    span.0 as usize + span.1 as usize <= size
}

/// Counts each record's owners: none may have two.
fn lists_are_apart(set: &Set, word: usize, size: usize) -> bool {
    let mut owned = vec![false; size];
    set.classes.iter().all(|class| owned[class.range(word)].iter_mut().all(|taken| !std::mem::replace(taken, true)))
}

fn set_follows_row_4(set: &Set) -> bool {
    let class_is_right = |(position, class): (usize, &ClassRecord)| {
        let (table, compiled) = class.span(class_word::COMPILER);
        let (place, slots) = class.span(class_word::PLACE);
        is_name(&set.text, class.span(class_word::NAME))
            && class.get(class_word::PARENT) as usize <= position
            && class.get(class_word::FLAGS) <= 0xFFFF
            && class.get(class_word::KIND) <= 3
            && lies_inside(class.span(class_word::METHODS), set.methods.len())
            && lies_inside(class.span(class_word::FIELDS), set.fields.len())
            && lies_inside(class.span(class_word::INTERFACES), set.interfaces.len())
            && class.get(class_word::LINK_STATE) <= 0xFFFF
            && class.get(class_word::INSTANCE_WORDS) <= 0xFFFF
            && compiled <= 1024
            && (table != 0 || compiled == 0)
            && (table == 0 || lies_inside((table - 1, compiled), set.compiler.len()))
            && (place == 0 || slots <= 1024)
    };
    let member_is_named = |member: &MemberRecord| is_name(&set.text, member.name) && is_name(&set.text, member.descriptor);
    if !set.classes.iter().enumerate().all(class_is_right) {
        return false;
    }
    let mut names = HashSet::new();
    set.methods.iter().all(|method| member_is_named(method) && method.flags | 0x1DFF == 0x1DFF)
        && set.fields.iter().all(|field| member_is_named(field) && field.flags <= 0xFFFF)
        && set.interfaces.iter().all(|&number| (1..=set.classes.len()).contains(&(number as usize)))
        && (1..=set.classes.len() as u32).all(|number| names.insert(set.name(number)))
        && lists_are_apart(set, class_word::METHODS, set.methods.len())
        && lists_are_apart(set, class_word::FIELDS, set.fields.len())
}

fn abi_follows_row_4(abi: &Abi) -> bool {
    let member_is_right =
        |member: &AbiMember, most: u32| is_name(&abi.text, member.name) && is_name(&abi.text, member.descriptor) && member.index <= most;
    abi.classes.iter().all(|class| {
        is_name(&abi.text, class.name)
            && class.size_plus_1.saturating_sub(1) <= 1024
            && class.words_plus_1.saturating_sub(1) <= 4096
            && lies_inside(class.slots, abi.slots.len())
            && lies_inside(class.fields, abi.fields.len())
    }) && abi.slots.iter().all(|slot| member_is_right(slot, 1023))
        && abi.fields.iter().all(|field| member_is_right(field, 4095))
}

fn set_follows_row_5(set: &Set) -> bool {
    set.methods.iter().all(|method| descriptors::is_method(set.part(method.descriptor).as_bytes(), method.flags))
        && set.fields.iter().all(|field| descriptors::is_field(set.part(field.descriptor).as_bytes()))
}

fn abi_follows_row_5(abi: &Abi) -> bool {
    abi.slots.iter().all(|slot| descriptors::is_method(abi.part(slot.descriptor).as_bytes(), 0))
        && abi.fields.iter().all(|field| descriptors::is_field(abi.part(field.descriptor).as_bytes()))
}

fn linked_class(set: &Set, number: u32) -> bool {
    number.checked_sub(1).and_then(|position| set.classes.get(position as usize)).is_some_and(ClassRecord::is_linked)
}

/// Row 6 of a link.
pub fn link_class(set: &Set, number: u32) -> Result<(), u32> {
    let class = number.checked_sub(1).and_then(|position| set.classes.get(position as usize)).ok_or(6u32)?;
    let parent = class.get(class_word::PARENT);
    let is_ready = !class.is_linked() && (parent == 0 || linked_class(set, parent));
    let is_bare = class.span(class_word::METHODS).1 == 0 && class.span(class_word::FIELDS).1 == 0;
    let is_array = class.get(class_word::KIND) == 2;
    let array_is_right = is_bare && parent != 0 && set.name(parent) == "java/lang/Object";
    if is_ready && (!is_array || array_is_right) { Ok(()) } else { Err(6) }
}

/// Row 6 of an ask.
pub fn ask_classes(set: &Set, class: u32, interface: u32) -> Result<(), u32> {
    if linked_class(set, class) && linked_class(set, interface) { Ok(()) } else { Err(6) }
}

/// Row 7, but for the walk.
pub fn area(set: &Set, area: &[u32]) -> Result<(), u32> {
    let next = *area.first().ok_or(7u32)? as usize;
    let tables_lie_below = set.classes.iter().filter(|class| class.is_linked()).all(|class| {
        let (place, slots) = class.span(class_word::PLACE);
        place as usize + slots as usize + 2 <= next
    });
    if next != 0 && next <= area.len() && tables_lie_below { Ok(()) } else { Err(7) }
}

/// Where a linked class's list head lies in the area.
pub fn head(set: &Set, class: u32) -> usize {
    let (place, slots) = set.class(class).span(class_word::PLACE);
    place as usize + slots as usize + 1
}

/// The nodes of a class's list up to the asked interface's, or all of them; row 7's walk.
pub fn nodes(set: &Set, class: u32, interface: u32, area: &[u32]) -> Result<Vec<u32>, u32> {
    let mut nodes = Vec::new();
    let mut link = area[head(set, class)];
    while link != 0 {
        if nodes.len() == 64 || link as usize + 1 >= area[0] as usize {
            return Err(7);
        }
        nodes.push(link);
        if area[link as usize + 1] == interface {
            break;
        }
        link = area[link as usize];
    }
    Ok(nodes)
}
