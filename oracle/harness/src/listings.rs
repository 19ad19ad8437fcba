//! Listings by the original: the classes of two sheets linked by the Rust, every slot as its `vtable_entries` reads it, the declaring class by the
//! method's `ptr_class`. The harness adds what it adds to every call (`oracle.rs`), the name of a slot that the Rust does not know, and the lines.

use std::collections::BTreeMap;
use std::fmt::Write;

use crate::generate;
use crate::oracle::{Declared, Oracle, Slot, numbers};
use crate::readings::unlinked;
use crate::sheet::{Abi, Set, blocks, class_word, range};
use crate::side::{Linker, SheetsMut};

/// What the listing lends: words for both sheets, an area, stub words, a list of missing slots.
const CLASS_WORDS: usize = 11_684;
const ABI_WORDS: usize = 6_477;
const AREA_WORDS: usize = 4_096;
const STUBS: u32 = 1_024;
const FIRST_STUB: u32 = 4_026_531_840;
const MISSING_WORDS: usize = 2_112;

const INTERFACE: u32 = 0x0200;
const PRIVATE_OR_STATIC: u32 = 0x000A;

/// Both sheets' blocks, and their listing.
pub struct Folder {
    pub abi: Vec<u8>,
    pub classes: Vec<u8>,
    pub listing: String,
}

/// The sheets of a case, as if no class were linked; none of a case whose words are no sections, or have a class of kind 3, or one that inherits two
/// signatures of one fixed index, which are not the original's to list.
pub fn folder(oracle: &mut Oracle, seed: u64, number: u64, counts: &mut Counts) -> Option<Folder> {
    let case = generate::case(seed, number);
    if Set::decode(&case.set)?.classes.iter().any(|class| class.get(class_word::KIND) == 3) {
        return None;
    }
    let (abi, classes) = (blocks(&Abi::decode(&case.abi)?.encode()), blocks(&unlinked(&case.set)?));
    let listing = listing(oracle, &abi, &classes, counts)?;
    Some(Folder { abi, classes, listing })
}

/// The listing of both sheets.
fn listing(oracle: &mut Oracle, abi_sheet: &[u8], class_sheet: &[u8], counts: &mut Counts) -> Option<String> {
    let (mut set, mut abi, mut area) = (vec![0; CLASS_WORDS], vec![0; ABI_WORDS], vec![0; AREA_WORDS]);
    area[0] = 1;
    let stubs: Vec<u32> = (0..STUBS).map(|index| FIRST_STUB + index).collect();
    let (mut numbers, mut missing) = (vec![0; numbers::WORDS], vec![0; MISSING_WORDS]);
    let read = [("abi", oracle.read_abi_sheet(abi_sheet, &mut abi)), ("classes", oracle.read_class_sheet(class_sheet, &mut set))];
    if let Some((sheet, answer)) = read.iter().find(|(_, answer)| answer.refusal != 0) {
        counts.hit("a sheet refused");
        return Some(format!("{sheet} refused {}\n", answer.refusal));
    }
    oracle.number_signatures(&set, &abi, &mut numbers);
    oracle.new_case(false);
    let (before, abi_sections) = (decoded(&set), Abi::decode(&abi).expect("the sheet is read"));
    let mut lines = String::new();
    for class in 1..=before.classes.len() as u32 {
        let sheets = SheetsMut { set: &mut set, abi: &abi, numbers: &mut numbers };
        let answer = oracle.link(sheets, class, &mut area, &stubs, &mut missing);
        if oracle.has_clashed() {
            return None;
        }
        if answer.refusal != 0 {
            counts.hit("a class refused");
            lines += &format!("class {class} refused {}\n", answer.refusal);
            continue;
        }
        let table = Table { before: &before, after: &decoded(&set), abi: &abi_sections, class, slots: oracle.slots(class) };
        counts.observe(&table);
        lines += &table.lines();
    }
    Some(lines)
}

fn decoded(words: &[u32]) -> Set {
    Set::decode(words).expect("the sheet is read")
}

/// A class that was linked: the set as its sheet has it and as the link left it.
struct Table<'a> {
    before: &'a Set,
    after: &'a Set,
    abi: &'a Abi,
    class: u32,
    slots: Vec<Slot>,
}

impl Table<'_> {
    fn lines(&self) -> String {
        let (set, class) = (self.after, self.class);
        let words = set.class(class).get(class_word::INSTANCE_WORDS);
        let mut lines = format!("class {class} {} words {words} slots {}\n", set.name(class), self.slots.len());
        for (slot, index) in self.slots.iter().zip(0..) {
            let (name, descriptor, declaring) = match &slot.method {
                Some(method) => (method.name.as_str(), method.descriptor.as_str(), method.class),
                None => self.fixed(index).map_or(("-", "-", 0), |(name, descriptor)| (name, descriptor, 0)),
            };
            writeln!(lines, "{index} {name} {descriptor} {} {declaring}", slot.word).expect("a string takes all");
        }
        lines
    }

    /// The class and its ancestors.
    fn chain(&self) -> impl Iterator<Item = u32> {
        let parent = |&class: &u32| Some(self.after.class(class).get(class_word::PARENT)).filter(|&parent| parent != 0);
        std::iter::successors(Some(self.class), parent)
    }

    /// The signature that a class's ABI entry fixes at an index, by its first row.
    fn fixed_by(&self, class: u32, index: u32) -> Option<(&str, &str)> {
        let entry = self.abi.classes.iter().find(|entry| self.abi.part(entry.name) == self.after.name(class))?;
        let row = self.abi.slots[range(entry.slots)].iter().find(|row| row.index == index)?;
        Some((self.abi.part(row.name), self.abi.part(row.descriptor)))
    }

    /// What the nearest chain class whose ABI entry fixes the index has there.
    fn fixed(&self, index: u32) -> Option<(&str, &str)> {
        self.chain().find_map(|class| self.fixed_by(class, index))
    }

    /// What the table as a whole reaches.
    fn buckets(&self) -> [(&'static str, bool); 6] {
        let record = self.after.class(self.class);
        let (kind, has_slots) = (record.get(class_word::KIND), !self.slots.is_empty());
        let has_compiler_table = record.get(class_word::COMPILER) != 0;
        [
            ("a table of a built class", has_slots && kind == 0),
            ("a table of a generated class without a compiler table", has_slots && kind == 1 && !has_compiler_table),
            ("a table of a generated class with a compiler table", has_slots && kind == 1 && has_compiler_table),
            ("a table of an array class", has_slots && kind == 2),
            ("a table of an interface", has_slots && record.get(class_word::FLAGS) & INTERFACE != 0),
            ("a method list that grew", self.after.methods_of(self.class).len() > self.before.methods_of(self.class).len()),
        ]
    }

    /// What a slot whose method the Rust knows reaches.
    fn known_buckets(&self, index: u32, word: u32, method: &Declared) -> [(&'static str, bool); 10] {
        let is_by_target = method.target == word;
        let is_stub = word == FIRST_STUB + index;
        let of_target = |class: u32| self.after.methods_of(class).iter().filter(|method| method.last == word).count();
        let counts: Vec<usize> = self.chain().map(of_target).filter(|&count| count > 0).collect();
        let mut nearer = self.chain().take_while(|&class| class != method.class);
        let is_passed_over =
            nearer.any(|class| self.fixed_by(class, index).is_some_and(|signature| declares(self.after, class, signature)));
        [
            ("a method of the table's class", method.class == self.class),
            ("a method of an ancestor", method.class != self.class),
            ("two methods of one class have the slot's target", counts.iter().any(|&count| count > 1)),
            ("methods of two classes have the slot's target", counts.len() > 1),
            ("known by the ABI rule alone, a stub in the slot", !is_by_target && is_stub),
            ("known by the ABI rule alone, a foreign target in the slot", !is_by_target && !is_stub),
            ("known by the ABI rule alone, an ancestor's method", !is_by_target && method.class != self.class),
            ("known by its target, though a nearer class has the method that its ABI entry fixes there", is_by_target && is_passed_over),
            ("a method that a link added", !declares(self.before, method.class, (&method.name, &method.descriptor))),
            ("a static or private method", method.flags & PRIVATE_OR_STATIC != 0),
        ]
    }
}

/// Whether a class's own list has a method of this name and descriptor.
fn declares(set: &Set, class: u32, signature: (&str, &str)) -> bool {
    set.methods_of(class).iter().any(|method| (set.part(method.name), set.part(method.descriptor)) == signature)
}

/// What a run must reach.
const BUCKETS: [&str; 20] = [
    "a sheet refused",
    "a class refused",
    "a table of a built class",
    "a table of a generated class without a compiler table",
    "a table of a generated class with a compiler table",
    "a table of an array class",
    "a table of an interface",
    "a method list that grew",
    "a method of the table's class",
    "a method of an ancestor",
    "two methods of one class have the slot's target",
    "methods of two classes have the slot's target",
    "known by the ABI rule alone, a stub in the slot",
    "known by the ABI rule alone, a foreign target in the slot",
    "known by the ABI rule alone, an ancestor's method",
    "known by its target, though a nearer class has the method that its ABI entry fixes there",
    "a method that a link added",
    "a static or private method",
    "unknown, named by the ABI",
    "unknown, without a name",
];

/// Counts over a run.
pub struct Counts {
    classes: u64,
    slots: u64,
    buckets: BTreeMap<&'static str, u64>,
}

impl Default for Counts {
    fn default() -> Self {
        Self { classes: 0, slots: 0, buckets: BUCKETS.iter().map(|bucket| (*bucket, 0)).collect() }
    }
}

impl Counts {
    fn hit(&mut self, bucket: &str) {
        *self.buckets.get_mut(bucket).expect("every bucket is listed") += 1;
    }

    fn observe(&mut self, table: &Table) {
        self.classes += 1;
        self.slots += table.slots.len() as u64;
        self.hit_all(&table.buckets());
        for (slot, index) in table.slots.iter().zip(0..) {
            match &slot.method {
                Some(method) => self.hit_all(&table.known_buckets(index, slot.word, method)),
                None => self.hit(if table.fixed(index).is_some() { "unknown, named by the ABI" } else { "unknown, without a name" }),
            }
        }
    }

    fn hit_all(&mut self, buckets: &[(&str, bool)]) {
        buckets.iter().filter(|(_, reached)| *reached).for_each(|(bucket, _)| self.hit(bucket));
    }

    /// The summary, and whether every bucket was reached.
    pub fn summary(&self) -> (String, bool) {
        let lines = BUCKETS.iter().map(|bucket| (self.buckets[bucket], bucket));
        let missed = lines.clone().filter(|(count, _)| *count == 0).count();
        let shown = lines.map(|(count, bucket)| format!("{count:>10}  {bucket}{}\n", if count == 0 { "   NEVER REACHED" } else { "" }));
        let total = format!("{} linked classes, {} slots, {} buckets, {missed} never reached", self.classes, self.slots, BUCKETS.len());
        (shown.collect::<String>() + &total, missed == 0)
    }
}
