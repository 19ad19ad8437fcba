//! The oracle: the Rust judges tables, indices, lists and rows 8, 9, 11, 12 and 16; the
//! harness itself decides the added rows, the places and how grown sections are laid out, which slots count as
//! missing (`missing`), the list of the signatures' numbers (`numbers`), and all of class kind 3, which is never given to the Rust
//! (`packages`). From a link on that inherits two signatures of one fixed index, of which the Rust keeps one, a case is judged by the
//! model; so is a call by a list of numbers that does not tell the signatures apart as their bytes do.

pub mod class_files;
mod descriptors;
mod layout;
mod machine;
mod missing;
pub mod numbers;
pub mod packages;
mod references;
mod rows;

use crate::model::{self, Model};
use crate::sheet::{Abi, MemberRecord, Set, class_word};
use crate::side::{Answer, FileAnswer, Linker, Sheets, SheetsMut};

use machine::{Linked, Machine, Member};
use references::Bitmaps;

pub use machine::{Declared, Slot};

/// Makes a call into the original that it is handed: whoever measures gives its own.
pub type Watch = fn(&mut dyn FnMut());

/// The Rust over its emulated machine, behind the rows that the harness adds.
#[derive(Default)]
pub struct Oracle {
    machine: Machine,
    bitmaps: Bitmaps,
    rebuilds: bool,
    clashed: bool,
}

impl Oracle {
    /// Begins a case. If `rebuilds`, every call lays the linked classes out anew from the
    /// words it is lent; else the machine keeps what the Rust itself built in the case's
    /// calls, which must hand on their memory; from a call that has kind 3 on, it is laid out anew, too.
    pub fn new_case(&mut self, rebuilds: bool) {
        self.machine.clear();
        self.rebuilds = rebuilds;
        self.clashed = false;
    }

    /// Whether a link of this case inherited two signatures of one fixed index: from there on the model alone judges its calls, as the original loses the entry.
    pub fn has_clashed(&self) -> bool {
        self.clashed
    }

    /// Links every class of an unlinked set by the original, in number order; `watch` makes the
    /// calls, one a class, and nothing else is inside it. Answers each table's slots, or the row that
    /// refuses the sheets or, by the original, a class.
    pub fn link_all(&mut self, words: &[u32], abi_words: &[u32], stubs: &[u32], watch: Watch) -> Result<Vec<Vec<u32>>, u32> {
        let (set, abi) = rows::sheets(words, abi_words)?;
        self.new_case(false);
        self.machine.install_abi(abi_words, &abi);
        self.machine.watch = Some(watch);
        let tables = (1..=set.classes.len() as u32).map(|class| {
            let (definition, linked) = self.machine.link(&set, class, &[], stubs)?;
            self.machine.keep(class, definition);
            Ok(linked.table)
        });
        let tables = tables.collect();
        self.machine.watch = None;
        tables
    }

    /// Asks the original, of classes that `link_all` linked; `watch` makes the call, any number of
    /// times. Whether a table was built; unless `keeps`, its node is taken off the list again.
    pub fn ask_alone(&mut self, class: u32, interface: u32, keeps: bool, watch: Watch) -> bool {
        self.machine.ask_alone(class, interface, keeps, watch)
    }

    /// The slots of a class that a call of this case linked, as the original's `vtable_entries` has them, each method with its declaring class.
    pub fn slots(&self, class: u32) -> Vec<Slot> {
        self.machine.slots(class)
    }

    fn fresh_call(&mut self) {
        if self.rebuilds {
            self.machine.clear();
        }
    }

    /// Whether the model alone judges a call: after a clash, or by a list that does not tell the signatures apart as their bytes do; from
    /// such a call on the classes are laid out anew.
    fn is_by_model(&mut self, (set, abi): &(Set, Abi), numbers: &[u32]) -> bool {
        let by_bytes = numbers::is_faithful(set, abi, numbers);
        self.rebuilds |= !by_bytes;
        self.clashed || !by_bytes
    }

    fn try_link(
        &mut self,
        (set, abi): (Set, Abi),
        sheets: SheetsMut,
        class: u32,
        area: &mut [u32],
        stubs: &[u32],
        list: &mut [u32],
    ) -> Result<Answer, u32> {
        let SheetsMut { set: words, abi: abi_words, numbers } = sheets;
        rows::link_class(&set, class)?;
        rows::area(&set, area)?;
        packages::row_26(&set, &abi, class)?;
        let (definition, linked, copies) = if packages::has_packages(&set, class) {
            let (linked, copies) = packages::link(&set, &abi, class, area, stubs)?;
            (None, linked, copies)
        } else {
            self.fresh_call();
            self.machine.install_abi(abi_words, &abi);
            let (definition, linked) = self.machine.link(&set, class, area, stubs)?;
            let copies = missing::copies(&set, &abi, area, class, &linked);
            (Some(definition), linked, copies)
        };
        let (classes, parent) = (set.classes.len(), packages::parent(&set, class));

        let slots = linked.table.len();
        if slots > 1024 {
            return Err(13);
        }
        let written = written_set(words, set.clone(), class, &linked, area[0])?;
        let free = area.len() - area[0] as usize;
        let is_short = list.len() < missing::WORDS * classes;
        if stubs.len() < slots || free < slots + 2 || written.len() > words.len() || is_short {
            return Err(15);
        }

        words[..written.len()].copy_from_slice(&written);
        numbers::write(numbers, &set, &abi, &Set::decode(words).expect("a link leaves sections"));
        let place = area[0] as usize;
        area[place] = class;
        area[place + 1..][..slots].copy_from_slice(&linked.table);
        area[place + 1 + slots] = 0;
        area[0] += slots as u32 + 2;
        missing::write(list, class, parent, &linked.stubbed, &copies);
        match definition {
            Some(definition) => self.machine.keep(class, definition),
            None => self.rebuilds = true,
        }
        Ok(Answer::accepted(place as u32, slots as u32))
    }

    fn try_ask(
        &mut self,
        (set, abi): (Set, Abi),
        abi_words: &[u32],
        class: u32,
        interface: u32,
        area: &mut [u32],
        stubs: &[u32],
    ) -> Result<Answer, u32> {
        rows::ask_classes(&set, class, interface)?;
        rows::area(&set, area)?;
        let nodes = rows::nodes(&set, class, interface, area)?;
        let is_own = packages::has_packages(&set, class) || packages::has_packages(&set, interface);
        let asked = if is_own {
            self.rebuilds = true;
            packages::ask(&set, &abi, class, interface, area, &nodes, stubs)?
        } else {
            self.fresh_call();
            self.machine.install_abi(abi_words, &abi);
            self.machine.ask(&set, class, interface, area, &nodes, stubs)?
        };
        let Some(table) = asked.built else {
            return Ok(Answer::accepted(asked.found, asked.nodes));
        };

        let free = area.len() - area[0] as usize;
        if stubs.len() < table.len() || free < table.len() + 2 {
            if !is_own {
                self.machine.forget_built();
            }
            return Err(15);
        }
        let node = area[0];
        let head = rows::head(&set, class);
        area[node as usize] = area[head];
        area[node as usize + 1] = interface;
        area[node as usize + 2..][..table.len()].copy_from_slice(&table);
        area[head] = node;
        area[0] += table.len() as u32 + 2;
        if !is_own {
            self.machine.keep_built(node + 1);
        }
        Ok(Answer::accepted(node + 1, asked.nodes))
    }
}

impl Linker for Oracle {
    fn read_class_sheet(&mut self, bytes: &[u8], words: &mut [u32]) -> Answer {
        rows::read_class_sheet(bytes, words).map_or_else(Answer::refused, |count| Answer::accepted(count, 0))
    }

    fn read_abi_sheet(&mut self, bytes: &[u8], words: &mut [u32]) -> Answer {
        rows::read_abi_sheet(bytes, words).map_or_else(Answer::refused, |count| Answer::accepted(count, 0))
    }

    fn write_class_sheet(&mut self, set: &[u32], bytes: &mut [u8]) -> Answer {
        rows::write_class_sheet(set, bytes).map_or_else(Answer::refused, |count| Answer::accepted(count, 0))
    }

    fn widen_class_sheet(&mut self, bytes: &[u8], out: &mut [u8]) -> Answer {
        rows::widen_class_sheet(bytes, out).map_or_else(Answer::refused, |count| Answer::accepted(count, 0))
    }

    fn narrow_class_sheet(&mut self, bytes: &[u8], out: &mut [u8]) -> Answer {
        rows::narrow_class_sheet(bytes, out).map_or_else(Answer::refused, |count| Answer::accepted(count, 0))
    }

    fn read_unordered_sheet(&mut self, bytes: &[u8], words: &mut [u32]) -> Answer {
        rows::read_unordered_sheet(bytes, words).map_or_else(Answer::refused, |count| Answer::accepted(count, 0))
    }

    fn renumber_classes(&mut self, set: &mut [u32], order: &mut [u32]) -> Answer {
        rows::renumber_classes(set, order).map_or_else(Answer::refused, |count| Answer::accepted(count, 0))
    }

    fn number_signatures(&mut self, set: &[u32], abi: &[u32], numbers: &mut [u32]) -> Answer {
        let filling = rows::numbered_sheets(set, abi, numbers).map(|(set, abi)| numbers::filling(&set, &abi));
        filling.map_or_else(Answer::refused, |filling| {
            numbers[..filling.len()].copy_from_slice(&filling);
            Answer::accepted(0, 0)
        })
    }

    fn link(&mut self, sheets: SheetsMut, class: u32, area: &mut [u32], stubs: &[u32], missing: &mut [u32]) -> Answer {
        self.clashed = self.clashed || model::link_clashes(sheets.read(), class, area);
        match rows::numbered_sheets(sheets.set, sheets.abi, sheets.numbers) {
            Err(row) => Answer::refused(row),
            Ok(read) if self.is_by_model(&read, sheets.numbers) => Model.link(sheets, class, area, stubs, missing),
            Ok(read) => self.try_link(read, sheets, class, area, stubs, missing).unwrap_or_else(Answer::refused),
        }
    }

    fn missing_slots(&mut self, set: &[u32], abi: &[u32], missing: &[u32], class: u32) -> Answer {
        let count = rows::sheets(set, abi).and_then(|(set, _)| missing::ask(&set, missing, class));
        count.map_or_else(Answer::refused, |count| Answer::accepted(count, 0))
    }

    fn ask(&mut self, sheets: Sheets, class: u32, interface: u32, area: &mut [u32], stubs: &[u32]) -> Answer {
        match rows::numbered_sheets(sheets.set, sheets.abi, sheets.numbers) {
            Err(row) => Answer::refused(row),
            Ok(read) if self.is_by_model(&read, sheets.numbers) => Model.ask(sheets, class, interface, area, stubs),
            Ok(read) => self.try_ask(read, sheets.abi, class, interface, area, stubs).unwrap_or_else(Answer::refused),
        }
    }

    fn argument_words(&mut self, descriptor: &[u8], flags: u32) -> Answer {
        descriptors::argument_words(descriptor, flags).map_or(Answer::refused(5), |words| Answer::accepted(words, 0))
    }

    fn reference_words(&mut self, bitmap: &[u8], words: u32, list: &mut [u32]) -> Answer {
        let Some(marked) = self.bitmaps.marked(bitmap, words) else { return Answer::refused(24) };
        let Some(lent) = list.get_mut(..marked.len()) else { return Answer::refused(25) };
        lent.copy_from_slice(&marked);
        Answer::accepted(marked.len() as u32, 0)
    }

    fn reference_count(&mut self, bitmap: &[u8], words: u32) -> Answer {
        self.bitmaps.marked(bitmap, words).map_or(Answer::refused(24), |marked| Answer::accepted(marked.len() as u32, 0))
    }

    /// Pair by pair from the far end; the first that differs is read, too.
    fn compare_names(&mut self, a: &[u8], b: &[u8]) -> Answer {
        if a.len() != b.len() {
            return Answer::accepted(0, 0);
        }
        let alike = a.iter().rev().zip(b.iter().rev()).take_while(|(x, y)| x == y).count() as u32;
        if a == b { Answer::accepted(1, alike) } else { Answer::accepted(0, alike + 1) }
    }

    fn read_class_file(&mut self, bytes: &[u8], targets: &[u32], fields: &mut [u32], methods: &mut [u32], text: &mut [u32]) -> FileAnswer {
        class_files::call(bytes, targets, fields, methods, text).unwrap_or_else(|(row, _)| FileAnswer::refused(row))
    }

    fn class_file_head(&mut self, bytes: &[u8]) -> FileAnswer {
        class_files::head(bytes).unwrap_or_else(|(row, _)| FileAnswer::refused(row))
    }
}

/// The content words of the set after a link, with the lists that the Rust left; row 14.
fn written_set(words: &[u32], mut set: Set, class: u32, linked: &Linked, place: u32) -> Result<Vec<u32>, u32> {
    let junk = last_text_word(words, &set);
    let mut record = *set.class(class);
    record.0[class_word::PLACE] = place;
    record.0[class_word::SLOTS] = linked.table.len() as u32;
    if let Some(instance_words) = linked.instance_words {
        record.0[class_word::INSTANCE_WORDS] = instance_words;
    }
    record.0[class_word::STATIC_WORDS] = linked.static_words;
    let grown_methods = write_list(&mut set.methods, &mut set.text, record.span(class_word::METHODS), &linked.methods);
    let grown_fields = write_list(&mut set.fields, &mut set.text, record.span(class_word::FIELDS), &linked.fields);
    for (word, list) in [(class_word::METHODS, grown_methods), (class_word::FIELDS, grown_fields)] {
        if let Some((first, count)) = list {
            record.0[word] = first;
            record.0[word + 1] = count;
        }
    }
    *set.class_mut(class) = record;
    let grown = grown_methods.is_some() || grown_fields.is_some();
    if grown && (set.methods.len() > 512 || set.fields.len() > 512 || set.text.len() > 8192) {
        return Err(14);
    }
    let mut content = set.encode();
    if let (false, Some(last), Some(junk)) = (grown, content.last_mut(), junk) {
        *last = junk;
    }
    Ok(content)
}

/// The last word of the text as it is lent, with whatever follows the text in it.
fn last_text_word(words: &[u32], set: &Set) -> Option<u32> {
    (!set.text.is_empty()).then(|| words[set.content() - 1])
}

/// Writes the list that the Rust left: in place, or, if it is longer, whole at the end of
/// its section with new text for what was added. Answers a grown list's place.
fn write_list(section: &mut Vec<MemberRecord>, text: &mut Vec<u8>, (first, count): (u32, u32), list: &[Member]) -> Option<(u32, u32)> {
    let (declared, added) = list.split_at(count as usize);
    let old = &section[first as usize..][..count as usize];
    let mut records: Vec<MemberRecord> =
        old.iter().zip(declared).map(|(record, member)| MemberRecord { flags: member.flags, last: member.last, ..*record }).collect();
    if added.is_empty() {
        section[first as usize..][..count as usize].copy_from_slice(&records);
        return None;
    }
    for member in added {
        let mut part = |bytes: &str| {
            let start = text.len() as u32;
            text.extend_from_slice(bytes.as_bytes());
            (start, bytes.len() as u32)
        };
        let name = part(&member.name);
        let descriptor = part(&member.descriptor);
        records.push(MemberRecord { name, descriptor, flags: member.flags, last: member.last });
    }
    let place = (section.len() as u32, records.len() as u32);
    section.extend(records);
    Some(place)
}

/// The ABI that the original reads, from the sheet's sections.
fn java_abi(abi: &Abi) -> linker::runtime::java::abi::JavaAbi {
    use linker::runtime::java::abi::{JavaAbi, JavaClassAbi, JavaFieldIndex, JavaVtableIndex};
    let text = |part| abi.part(part).to_owned();
    let class = abi.classes.iter().map(|class| JavaClassAbi {
        name: text(class.name),
        vtable_size: class.size_plus_1.checked_sub(1).map(|size| size as usize),
        instance_field_word_count: class.words_plus_1.checked_sub(1).map(|words| words as usize),
        vtable: abi.slots[crate::sheet::range(class.slots)]
            .iter()
            .map(|slot| JavaVtableIndex { name: text(slot.name), descriptor: text(slot.descriptor), index: slot.index as usize })
            .collect(),
        field: abi.fields[crate::sheet::range(class.fields)]
            .iter()
            .map(|field| JavaFieldIndex { name: text(field.name), descriptor: text(field.descriptor), index: field.index })
            .collect(),
    });
    JavaAbi { class: class.collect() }
}
