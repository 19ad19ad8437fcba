//! The buckets that the end of a link reaches: what is written, and rows 14 and 15.

use crate::model::argument_words;
use crate::model::parts::{built_fields, eligible};
use crate::sheet::{class_word, class_word_at};
use crate::side::SheetsMut;

use super::{Bucket, Hits, View, hit};

pub fn accepted(view: &View, class: u32, hits: &mut Hits) {
    let (sheet, before, after) = (&view.sheet, view.step.before, view.step.after);
    let record = sheet.class(class);
    let is_interface = record.flags & 0x0200 != 0;
    hits.push(match (record.kind, record.compiler_table) {
        (0, _) if is_interface => Bucket::BuiltInterface,
        (0, _) => Bucket::Built,
        (1, 0) if is_interface => Bucket::GeneratedInterface,
        (1, 0) => Bucket::Generated,
        (1, _) => Bucket::Compiled,
        _ => Bucket::Array,
    });
    hit(hits, Bucket::CompiledNoSlots, record.kind == 1 && record.compiler_table != 0 && record.compiler_slots == 0);
    hit(hits, Bucket::BuiltWithCompiler, record.kind == 0 && record.compiler_slots != 0);
    hit(hits, Bucket::LinkedSlotCount, record.slots != 0);
    hit(hits, Bucket::StateKept, record.link_state != 0);
    if record.kind == 2 {
        hit(hits, Bucket::ArrayAbi, view.abi.class_named(sheet.name(class)).is_some());
        hit(hits, Bucket::ArrayFlag, is_interface);
        hit(hits, Bucket::ArrayInterfaces, record.interface_count != 0);
        hit(hits, Bucket::ArrayGeneratedObject, sheet.class(record.parent).kind == 1);
    }
    hit(hits, Bucket::ArrayParent, record.parent != 0 && sheet.class(record.parent).kind == 2);
    hit(hits, Bucket::Classes64, sheet.class_count() == 64);
    hit(hits, Bucket::Methods512, sheet.method_count() == 512);
    hit(hits, Bucket::Fields512, sheet.field_count() == 512);
    hit(hits, Bucket::Text8192, sheet.text.len() == 8192);
    argument_limit(view, hits);
    let start = view.step.case.area.first().copied();
    hit(hits, Bucket::AcceptedByHand, start != Some(1) && (1..=sheet.class_count()).any(|class| sheet.is_linked(class)));

    let (place, slots) = (view.step.answer.first as usize, view.step.answer.second as usize);
    hit(hits, Bucket::Slots0, slots == 0);
    hit(hits, Bucket::Slots1024, slots == 1024);
    hit(hits, Bucket::StubsExact, slots > 0 && slots == view.stubs.len());
    hit(hits, Bucket::AreaExact, after.area[0] as usize == after.area.len());
    hit(hits, Bucket::AreaJunk, before.area[place..place + slots + 2].iter().any(|&word| word != 0));
    let table = &after.area[place + 1..][..slots];
    let targets: Vec<u32> = sheet.methods().map(|method| method.last).collect();
    for (index, &word) in table.iter().enumerate() {
        if word == view.stubs[index] {
            hits.push(Bucket::StubEmpty);
            hit(hits, Bucket::StubZero, word == 0);
            hit(hits, Bucket::StubIsTarget, targets.contains(&word));
        }
    }
    hit(hits, Bucket::StubZeroTarget, record.kind != 2 && sheet.methods_of(class).any(|method| eligible(&method) && method.target == 0));
    statics(view, class, hits);
    growth(view, hits);
}

fn statics(view: &View, class: u32, hits: &mut Hits) {
    let record = view.sheet.class(class);
    let (before, after) = (record.static_words, view.step.after.set[class_word_at(class, class_word::STATIC_WORDS)]);
    hit(hits, Bucket::StaticsCounted, record.kind == 0 && after != 0);
    hit(hits, Bucket::StaticsOverwritten, record.kind == 0 && before != 0 && after != before);
    hit(hits, Bucket::StaticsArray, record.kind == 2 && before != 0);
    hit(hits, Bucket::StaticsBrought, record.kind == 1 && before != 0);
    hit(hits, Bucket::StaticsUnread, record.kind == 1 && before > 4096);
    hit(hits, Bucket::StaticsOther, view.sheet.classes().zip(1..).any(|(other, number)| number != class && other.static_words != 0));
}

fn growth(view: &View, hits: &mut Hits) {
    let (before, after) = (&view.step.before.set, &view.step.after.set);
    let content = |words: &[u32]| {
        class_word_at(words[0] + 1, 0) + 6 * (words[1] + words[2]) as usize + (words[3] + words[4] + words[5].div_ceil(4)) as usize
    };
    let (old, new) = (content(before), content(after));
    let text_junk = before[5] % 4 != 0 && before[old - 1] >> (8 * (before[5] % 4)) != 0;
    if old == new && before[5] == after[5] {
        hit(hits, Bucket::KeptTextJunk, text_junk);
        return;
    }
    hit(hits, Bucket::GrownFields, before[2] != after[2]);
    hit(hits, Bucket::GrownMethods, before[1] != after[1]);
    hit(hits, Bucket::GrownTo512Fields, before[2] != after[2] && after[2] == 512);
    hit(hits, Bucket::GrownTo512Methods, before[1] != after[1] && after[1] == 512);
    hit(hits, Bucket::GrownTo8192Text, before[5] != after[5] && after[5] == 8192);
    hit(hits, Bucket::GrownSlackJunk, before[old..new].iter().any(|&word| word != 0));
    hit(hits, Bucket::GrownTextJunk, text_junk);
    hit(hits, Bucket::GrownExact, new == after.len());
}

pub fn row_14(view: &View, class: u32, hits: &mut Hits) {
    let (sheet, record) = (&view.sheet, view.sheet.class(class));
    if record.kind == 0 {
        let added = built_fields(sheet, &view.abi, class).added;
        let count = sheet.field_count() as usize + record.field_count as usize + added.len();
        let text: usize = added.iter().map(|field| field.name.len() + field.descriptor.len()).sum();
        hit(hits, Bucket::Row14Fields, count > 512);
        hit(hits, Bucket::Row14TextByFields, count <= 512 && sheet.text.len() + text > 8192);
    } else {
        // Methods alone grow here; if they would fit, it is the text that does not.
        let least = sheet.method_count() + record.method_count + 1;
        hits.push(if least > 512 { Bucket::Row14Methods } else { Bucket::Row14TextByMethods });
    }
}

pub fn row_15(view: &View, class: u32, hits: &mut Hits) {
    let area = &view.step.before.area;
    let free = area.len() - area[0] as usize;
    // The slots are those of the same link with stubs and room enough.
    let (mut set, mut area) = (view.step.before.set.clone(), area.clone());
    set.resize(set.len().max(11_684), 0);
    area.resize(area.len() + 2048, 0);
    let stubs = vec![1; 1024];
    let (mut missing, mut numbers) = (vec![0; 33 * 64], view.step.before.numbers.clone());
    let sheets = SheetsMut { set: &mut set, abi: view.abi.words, numbers: &mut numbers };
    let Ok((_, slots)) = crate::model::link(sheets, class, &mut area, &stubs, &mut missing) else { return };
    let slots = slots as usize;
    hit(hits, Bucket::Row15Stubs, view.stubs.len() < slots);
    let place = area[0] as usize - slots - 2;
    let needed = area[place + 1..][..slots].contains(&1);
    hit(hits, Bucket::Row15StubsUnneeded, view.stubs.len() < slots && !needed);
    hit(hits, Bucket::Row15Area, free < slots + 2);
    let has_room = view.stubs.len() >= slots && free >= slots + 2;
    let is_short = view.step.before.missing.len() < 33 * view.sheet.class_count() as usize;
    hit(hits, Bucket::Row15Set, has_room && !is_short);
    hit(hits, Bucket::Row15Missing, has_room && is_short);
    hit(hits, Bucket::Row15MissingByOne, has_room && view.step.before.missing.len() + 1 == 33 * view.sheet.class_count() as usize);
}

/// Methods and ABI slots at the limit of argument words.
fn argument_limit(view: &View, hits: &mut Hits) {
    let words = |part: &[u8], flags| argument_words(part, flags).ok();
    for method in view.sheet.methods() {
        let words = words(view.sheet.part(method.descriptor_start, method.descriptor_length), method.flags);
        hit(hits, Bucket::Words254, words == Some(254));
        hit(hits, if method.flags & 0x0008 == 0 { Bucket::Words255 } else { Bucket::Static255 }, words == Some(255));
    }
    let mut slots = view.abi.classes().flat_map(|class| view.abi.slots_of(class));
    hit(hits, Bucket::Slot255, slots.any(|slot| words(slot.descriptor, 0) == Some(255)));
}
