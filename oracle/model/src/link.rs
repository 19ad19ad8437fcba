//! Linking a class.

use super::fields::{BuiltFields, built_fields, generated_fields};
use super::missing::{counted, row_15_of_list, write_counted};
use super::numbers::write_numbers;
use super::packages::{build_packages, row_26};
use super::rules::after_row_5;
use super::sheets::{
    ARRAY, AbiSheet, BUILT, CLASS_WORDS, ClassSheet, GENERATED, INTERFACE, MEMBER_WORDS, PACKAGED, class_content, pack, record,
    text_of_class_words,
};
use super::side::{Sheets, SheetsMut};
use super::tables::{Entry, Rule, build_interface_methods, build_methods, clash, compiler_table, eligible, parent_entries};
use super::why::{Refused, Why};
use super::{Because, refuse};

/// What a link comes to, before anything is written.
struct Linked {
    /// The table's slot targets, 0 where a stub stands in, and whether each slot counts as missing.
    targets: Vec<u32>,
    counted: Vec<bool>,
    /// The class record's new instance words and static words, "unless generated".
    instance_words: Option<u32>,
    static_words: Option<u32>,
    /// The new word index of each declared field.
    indices: Option<Vec<u32>>,
    added_fields: Vec<NewRecord>,
    added_methods: Vec<NewRecord>,
    /// The numbers of the signatures that the added methods took.
    taken: Vec<u32>,
}

/// A method or field to add.
struct NewRecord {
    name: Vec<u8>,
    descriptor: Vec<u8>,
    flags: u32,
    last: u32,
}

/// Links class `class`: answers its table's place and slots.
pub fn link(sheets: SheetsMut, class: u32, area: &mut [u32], stubs: &[u32], missing: &mut [u32]) -> Result<(u32, u32), Refused> {
    link_by(Rule::Today, sheets, class, area, stubs, missing)
}

/// The same by the rule before.
pub fn link_before(sheets: SheetsMut, class: u32, area: &mut [u32], stubs: &[u32], missing: &mut [u32]) -> Result<(u32, u32), Refused> {
    link_by(Rule::Before, sheets, class, area, stubs, missing)
}

/// Whether a link of the class comes to its table and relays there what it inherits, and two known inherited signatures have one fixed
/// index. On other links the two rules are one.
pub fn link_clashes(sheets: Sheets, class: u32, area: &[u32]) -> bool {
    after_row_26(sheets, class, area, |sheet, abi| Ok(clashes(sheet, abi, area, class))).unwrap_or(false)
}

/// The same of a link that rows 3 to 7 and 26 accept.
fn clashes(sheet: &ClassSheet, abi: &AbiSheet, area: &[u32], class: u32) -> bool {
    let record = sheet.class(class);
    let relays = abi.class_named(sheet.name(class)).is_some()
        && match record.kind {
            BUILT => record.flags & INTERFACE == 0,
            GENERATED => sheet.compiler_table_of(class).is_none(),
            _ => false,
        };
    relays && fields_pass(sheet, abi, class) && clash(sheet, abi, area, class)
}

/// The signatures, names and descriptors, that give way in a link of the class that clashes.
pub fn moved(sheets: Sheets, class: u32, area: &[u32]) -> Vec<(Vec<u8>, Vec<u8>)> {
    let moved = after_row_26(sheets, class, area, |sheet, abi| match clashes(sheet, abi, area, class) {
        true => Ok(super::tables::moved(sheet, abi, area, class)),
        false => Ok(Vec::new()),
    });
    moved.unwrap_or_default()
}

/// Whether an eligible method of the class, of a valid set, has a signature of this kind.
pub fn declares(set: &[u32], numbers: &[u32], class: u32, is_one: &dyn Fn(&[u8], &[u8]) -> bool) -> bool {
    let text = text_of_class_words(set);
    let sheet = ClassSheet { words: set, text: &text, numbers };
    sheet.methods_of(class).any(|method| eligible(&method) && is_one(method.name, method.descriptor))
}

/// Rows 8 to 10 do not refuse.
fn fields_pass(sheet: &ClassSheet, abi: &AbiSheet, class: u32) -> bool {
    match sheet.class(class).kind {
        BUILT => built_words(sheet, abi, class).is_ok(),
        _ => generated_fields(sheet, class).is_ok(),
    }
}

fn link_by(rule: Rule, sheets: SheetsMut, class: u32, area: &mut [u32], stubs: &[u32], missing: &mut [u32]) -> Result<(u32, u32), Refused> {
    let (linked, grown, methods, own) = after_row_26(sheets.read(), class, area, |sheet, abi| {
        let linked = prepare(sheet, abi, class, area, missing, rule)?;
        let grown = row_14(sheet, class, &linked)?;
        row_15(&linked, sheet.words.len(), area, stubs, &grown)?;
        row_15_of_list(sheet.class_count(), missing)?;
        let record = sheet.class(class);
        Ok((linked, grown, sheet.method_count(), (record.first_method, record.method_count)))
    })?;

    let (place, slots) = (area[0], linked.targets.len() as u32);
    if !linked.taken.is_empty() {
        write_numbers(sheets.numbers, methods, own, &linked.taken);
    }
    write_set(sheets.set, class, place, &linked, grown);
    write_table(area, class, &linked.targets, stubs);
    write_counted(missing, class, &linked.counted);
    Ok((place, slots))
}

/// Rows 3 to 7 and 26 of a link; then what follows.
fn after_row_26<T>(
    sheets: Sheets,
    class: u32,
    area: &[u32],
    then: impl FnOnce(&ClassSheet, &AbiSheet) -> Result<T, Refused>,
) -> Result<T, Refused> {
    after_row_5(sheets, |sheet, abi| {
        row_6(sheet, class)?;
        row_7(sheet, area)?;
        row_26(sheet, abi, class)?;
        then(sheet, abi)
    })
}

/// Row 6: "number 0 or above the count; link: already linked, parent unlinked, or an array
/// class with members, no parent or a parent not named `java/lang/Object`".
fn row_6(sheet: &ClassSheet, class: u32) -> Result<(), Refused> {
    let no_class = || Why::NoClass { number: class, count: sheet.class_count() };
    refuse(6, class == 0 || class > sheet.class_count()).because(no_class)?;
    let record = sheet.class(class);
    let parent = record.parent;
    refuse(6, record.place != 0).because(|| Why::LinkedAlready)?;
    refuse(6, parent != 0 && !sheet.is_linked(parent)).because(|| Why::ParentUnlinked { parent })?;
    let members = record.method_count != 0 || record.field_count != 0;
    let under_object = parent != 0 && sheet.name(parent) == b"java/lang/Object";
    let why = || match members {
        true => Why::ArrayMembers { methods: record.method_count, fields: record.field_count },
        false => Why::ArrayParent { parent },
    };
    refuse(6, record.kind == ARRAY && (members || !under_object)).because(why)
}

/// Row 7 but for walks: "area empty or above 4,294,967,295 words; word 0 is 0 or above the
/// area's length; a linked table's end lies above word 0".
pub fn row_7(sheet: &ClassSheet, area: &[u32]) -> Result<(), Refused> {
    let length = area.len();
    refuse(7, area.is_empty() || area.len() > 4_294_967_295).because(|| Why::AreaLength { length })?;
    let next = u64::from(area[0]);
    refuse(7, next == 0 || next > area.len() as u64).because(|| Why::NextFree { next, length })?;
    let end_above = |place: u32, slots: u32| place != 0 && u64::from(place) + u64::from(slots) + 2 > next;
    match sheet.classes().zip(1..).find(|(class, _)| end_above(class.place, class.slots)) {
        None => Ok(()),
        Some((record, class)) => {
            let end = u64::from(record.place) + u64::from(record.slots) + 2;
            Err(Refused { row: 7, why: Why::TableEnd { class, end, next } })
        }
    }
}

/// Rows 8 to 13, kind by kind.
fn prepare(sheet: &ClassSheet, abi: &AbiSheet, class: u32, area: &[u32], missing: &[u32], rule: Rule) -> Result<Linked, Refused> {
    let linked = match sheet.class(class).kind {
        BUILT | PACKAGED => prepare_built(sheet, abi, class, area, missing, rule)?,
        GENERATED => prepare_generated(sheet, abi, class, area, missing, rule)?,
        _ => prepare_array(sheet, abi, class, area, missing),
    };
    // "more than 1,024 slots"
    refuse(13, linked.targets.len() > 1024).because(|| Why::ManySlots { slots: linked.targets.len() })?;
    Ok(linked)
}

/// Row 10 of a built class: "built: instance words, or chain runtime words, would exceed 65,535". Answers its fields.
fn built_words<'a>(sheet: &ClassSheet<'a>, abi: &AbiSheet<'a>, class: u32) -> Result<BuiltFields<'a>, Refused> {
    let fields = built_fields(sheet, abi, class);
    let why = || match fields.instance_words > 65535 {
        true => Why::InstanceWords { words: fields.instance_words },
        false => Why::RuntimeWords { words: fields.runtime_words },
    };
    refuse(10, fields.instance_words > 65535 || fields.runtime_words > 65535).because(why)?;
    Ok(fields)
}

fn prepare_built(sheet: &ClassSheet, abi: &AbiSheet, class: u32, area: &[u32], missing: &[u32], rule: Rule) -> Result<Linked, Refused> {
    let fields = built_words(sheet, abi, class)?;
    let table = table_by(sheet, abi, area, missing, class, rule)?;
    // "added after the declared ones, flags 0x0002"
    let added = fields.added.iter().map(|field| NewRecord {
        name: field.name.to_vec(),
        descriptor: field.descriptor.to_vec(),
        flags: 0x0002,
        last: field.index,
    });
    Ok(Linked {
        targets: targets(&table),
        counted: counted(&table),
        instance_words: Some(fields.instance_words as u32),
        static_words: Some(fields.static_words as u32),
        added_fields: added.collect(),
        indices: Some(fields.indices),
        added_methods: Vec::new(),
        taken: Vec::new(),
    })
}

/// A class's entries as its link makes them, of whatever kind.
pub fn table_of<'a>(
    sheet: &ClassSheet<'a>,
    abi: &AbiSheet<'a>,
    area: &[u32],
    missing: &[u32],
    class: u32,
) -> Result<Vec<Entry<'a>>, Refused> {
    table_by(sheet, abi, area, missing, class, Rule::Today)
}

fn table_by<'a>(
    sheet: &ClassSheet<'a>,
    abi: &AbiSheet<'a>,
    area: &[u32],
    missing: &[u32],
    class: u32,
    rule: Rule,
) -> Result<Vec<Entry<'a>>, Refused> {
    let record = sheet.class(class);
    match (record.kind, sheet.compiler_table_of(class)) {
        (PACKAGED, _) => Ok(build_packages(sheet, abi, area, missing, class)),
        (BUILT, _) if record.flags & INTERFACE != 0 => Ok(build_interface_methods(sheet, class)),
        (GENERATED, Some(compiled)) => Ok(compiler_table(sheet, abi, area, missing, class, compiled).0),
        (BUILT | GENERATED, _) => build_methods(sheet, abi, area, missing, class, rule),
        _ => Ok(parent_entries(sheet, abi, area, missing, class)),
    }
}

/// "Generated without a compiler table: `build_methods`, interface or not." "a generated class
/// brings its own" static words
fn prepare_generated(sheet: &ClassSheet, abi: &AbiSheet, class: u32, area: &[u32], missing: &[u32], rule: Rule) -> Result<Linked, Refused> {
    let indices = generated_fields(sheet, class)?;
    let (table, added) = match sheet.compiler_table_of(class) {
        None => (build_methods(sheet, abi, area, missing, class, rule)?, Vec::new()),
        Some(compiled) => compiler_table(sheet, abi, area, missing, class, compiled),
    };
    let records = added.iter().map(|method| NewRecord {
        name: method.name.to_vec(),
        descriptor: method.descriptor.to_vec(),
        flags: method.flags,
        last: method.target,
    });
    Ok(Linked {
        targets: targets(&table),
        counted: counted(&table),
        instance_words: None,
        static_words: None,
        indices,
        added_fields: Vec::new(),
        added_methods: records.collect(),
        taken: added.iter().map(|method| method.number).collect(),
    })
}

/// "Array: the parent's entries." "An array class has 0" instance words, and "0 for an array
/// class" static words.
fn prepare_array(sheet: &ClassSheet, abi: &AbiSheet, class: u32, area: &[u32], missing: &[u32]) -> Linked {
    let table = parent_entries(sheet, abi, area, missing, class);
    Linked {
        targets: targets(&table),
        counted: counted(&table),
        instance_words: Some(0),
        static_words: Some(0),
        indices: None,
        added_fields: Vec::new(),
        added_methods: Vec::new(),
        taken: Vec::new(),
    }
}

fn targets(table: &[Entry]) -> Vec<u32> {
    table.iter().map(|entry| entry.target).collect()
}

/// The sections of a set that grows.
struct Grown {
    methods: Vec<u32>,
    fields: Vec<u32>,
    text: Vec<u8>,
}

impl Grown {
    fn content(&self, set: &[u32]) -> usize {
        let others = set[0] as usize * CLASS_WORDS + set[3] as usize + set[4] as usize;
        6 + others + self.methods.len() + self.fields.len() + self.text.len().div_ceil(4)
    }
}

/// Row 14: "a grown section exceeds 512 methods, 512 fields or 8,192 text bytes". Answers the
/// grown sections if anything is added.
fn row_14(sheet: &ClassSheet, class: u32, linked: &Linked) -> Result<Option<(Grown, usize)>, Refused> {
    if linked.added_fields.is_empty() && linked.added_methods.is_empty() {
        return Ok(None);
    }
    let record = sheet.class(class);
    let mut text = sheet.text.to_vec();
    let mut methods = sheet.words[sheet.method_at(0)..sheet.method_at(sheet.method_count())].to_vec();
    let mut fields = sheet.words[sheet.field_at(0)..sheet.field_at(sheet.field_count())].to_vec();
    if linked.added_fields.is_empty() {
        set_indices(&mut fields[record.first_field as usize * MEMBER_WORDS..], linked);
    } else {
        let copied = copy_list(&mut fields, record.first_field, record.field_count);
        set_indices(&mut fields[copied..], linked);
        append(&mut fields, &mut text, &linked.added_fields);
    }
    if !linked.added_methods.is_empty() {
        copy_list(&mut methods, record.first_method, record.method_count);
        append(&mut methods, &mut text, &linked.added_methods);
    }
    let why = || Why::Grown { methods: methods.len() / MEMBER_WORDS, fields: fields.len() / MEMBER_WORDS, text: text.len() };
    refuse(14, methods.len() > 512 * MEMBER_WORDS || fields.len() > 512 * MEMBER_WORDS || text.len() > 8192).because(why)?;
    let grown = Grown { methods, fields, text };
    let content = grown.content(sheet.words);
    Ok(Some((grown, content)))
}

/// "A list that grows is copied whole to the end of its section, the old records left
/// unowned". Answers where the copy begins.
fn copy_list(section: &mut Vec<u32>, first: u32, count: u32) -> usize {
    let copied = section.len();
    let first = first as usize * MEMBER_WORDS;
    section.extend_from_within(first..first + count as usize * MEMBER_WORDS);
    copied
}

/// "each new name, then descriptor, is appended to the text"
fn append(section: &mut Vec<u32>, text: &mut Vec<u8>, added: &[NewRecord]) {
    for new in added {
        for part in [&new.name, &new.descriptor] {
            section.extend([text.len() as u32, part.len() as u32]);
            text.extend_from_slice(part);
        }
        section.extend([new.flags, new.last]);
    }
}

/// Puts the declared fields' new indices into their records, which start `records`.
fn set_indices(records: &mut [u32], linked: &Linked) {
    let indices = linked.indices.iter().flatten();
    for (record, &index) in records.chunks_exact_mut(MEMBER_WORDS).zip(indices) {
        record[MEMBER_WORDS - 1] = index;
    }
}

/// Row 15: "the stub list is shorter than the table to write, the area has too few free
/// words, or the set's slice too few for the grown sections".
fn row_15(linked: &Linked, set_length: usize, area: &[u32], stubs: &[u32], grown: &Option<(Grown, usize)>) -> Result<(), Refused> {
    row_15_of_area(linked.targets.len(), area, stubs)?;
    let why = || Why::FewClassWords { content: grown.as_ref().map_or(0, |(_, content)| *content), lent: set_length };
    refuse(15, grown.as_ref().is_some_and(|(_, content)| *content > set_length)).because(why)
}

/// Row 15 of a table of `slots`, but for the set.
pub fn row_15_of_area(slots: usize, area: &[u32], stubs: &[u32]) -> Result<(), Refused> {
    let why = || match stubs.len() < slots {
        true => Why::FewStubs { slots, stubs: stubs.len() },
        false => Why::FewAreaWords { slots, free: area.len() - area[0] as usize },
    };
    refuse(15, lacks_room(slots, area, stubs)).because(why)
}

/// The stub list is shorter than a table of `slots`, or the area has too few free words.
fn lacks_room(slots: usize, area: &[u32], stubs: &[u32]) -> bool {
    stubs.len() < slots || area.len() - (area[0] as usize) < slots + 2
}

/// "Linking sets table place and slot count, its answer, and, unless generated, instance
/// words" and static words; "never link state."
fn write_set(set: &mut [u32], class: u32, place: u32, linked: &Linked, grown: Option<(Grown, usize)>) {
    let at = ClassSheet::class_at(class);
    set[at + record::PLACE] = place;
    set[at + record::SLOTS] = linked.targets.len() as u32;
    if let Some(words) = linked.instance_words {
        set[at + record::INSTANCE_WORDS] = words;
    }
    if let Some(words) = linked.static_words {
        set[at + record::STATIC_WORDS] = words;
    }
    match grown {
        Some((grown, content)) => write_grown(set, at, linked, &grown, content),
        None => {
            let fields = 6 + set[0] as usize * CLASS_WORDS + set[1] as usize * MEMBER_WORDS;
            let first = fields + set[at + record::FIRST_FIELD] as usize * MEMBER_WORDS;
            set_indices(&mut set[first..], linked);
        }
    }
}

/// Lays the grown sections out; the words after the content stay.
fn write_grown(set: &mut [u32], at: usize, linked: &Linked, grown: &Grown, content: usize) {
    let old_content = class_content(set).expect("row 3 holds");
    let text_words = set[5].div_ceil(4) as usize;
    let lists = set[3] as usize + set[4] as usize;
    let between = set[old_content - text_words - lists..old_content - text_words].to_vec();
    if !linked.added_methods.is_empty() {
        set[at + record::FIRST_METHOD] = set[1];
        set[at + record::METHOD_COUNT] += linked.added_methods.len() as u32;
    }
    if !linked.added_fields.is_empty() {
        set[at + record::FIRST_FIELD] = set[2];
        set[at + record::FIELD_COUNT] += linked.added_fields.len() as u32;
    }
    set[1] = (grown.methods.len() / MEMBER_WORDS) as u32;
    set[2] = (grown.fields.len() / MEMBER_WORDS) as u32;
    set[5] = grown.text.len() as u32;
    let moved = [&grown.methods[..], &grown.fields, &between, &pack(&grown.text)].concat();
    set[content - moved.len()..content].copy_from_slice(&moved);
}

/// "Written: class number, slots, then a zero list head, into the part of the area from the
/// next free word on."
fn write_table(area: &mut [u32], class: u32, targets: &[u32], stubs: &[u32]) {
    let place = area[0] as usize;
    area[place] = class;
    write_slots(&mut area[place + 1..], targets, stubs);
    area[place + 1 + targets.len()] = 0;
    // "Word 0 is that next place"
    area[0] = (place + targets.len() + 2) as u32;
}

/// "A slot that is empty or of target 0 takes the stub word at its index."
pub fn write_slots(part: &mut [u32], targets: &[u32], stubs: &[u32]) {
    for ((slot, &target), &stub) in part.iter_mut().zip(targets).zip(stubs) {
        *slot = if target == 0 { stub } else { target };
    }
}
