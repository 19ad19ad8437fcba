//! Class sets and ABI sheets made of Rust values, laid out as `tools/sheet make` does and read by the library.

use alloc::collections::BTreeMap;
use alloc::string::String;
use alloc::vec;
use alloc::vec::Vec;
use core::fmt;

use crate::layout::{BLOCK_BYTES, BLOCK_WORDS, abi, abi_class, class, flags, set};
use crate::refusal::Refusal;
use crate::set::{AbiSheet, ClassSet};
use crate::view::Kind;

/// Why a builder made nothing.
#[derive(Clone, Debug, PartialEq, Eq)]
#[non_exhaustive]
pub enum BuildError {
    /// A class names a parent or an interface that is none of the set's.
    NoSuchClass {
        /// The class that names it.
        class: String,
        /// The name that no class has.
        named: String,
    },
    /// The library refuses what was laid out, by rows 1 to 5.
    Refused(Refusal),
}

impl fmt::Display for BuildError {
    fn fmt(&self, f: &mut fmt::Formatter<'_>) -> fmt::Result {
        match self {
            BuildError::NoSuchClass { class, named } => write!(f, "class {class} names {named}, which is no class of the set"),
            BuildError::Refused(refusal) => refusal.fmt(f),
        }
    }
}

impl core::error::Error for BuildError {}

impl From<Refusal> for BuildError {
    fn from(refusal: Refusal) -> BuildError {
        BuildError::Refused(refusal)
    }
}

/// A method, a field or an ABI row: name, descriptor, and its further words.
#[derive(Clone, Debug, PartialEq, Eq)]
struct Member {
    name: String,
    descriptor: String,
    words: Vec<u32>,
}

fn member(name: &str, descriptor: &str, words: &[u32]) -> Member {
    Member { name: name.into(), descriptor: descriptor.into(), words: words.to_vec() }
}

/// A length or a number as a word; one that does not fit is above every limit, and the library refuses it.
fn word(number: usize) -> u32 {
    u32::try_from(number).unwrap_or(u32::MAX)
}

/// A number that may be missing, as an ABI class's record has it.
fn plus_1(given: Option<u32>) -> u32 {
    given.map_or(0, |number| number.saturating_add(1))
}

/// A sheet's sections as they grow. Each different name or descriptor is stored once, at its first mention.
struct Laid {
    /// How many records each section has, and their words.
    sections: Vec<(usize, Vec<u32>)>,
    text: Vec<u8>,
    places: BTreeMap<String, u32>,
}

impl Laid {
    fn new(sections: usize) -> Laid {
        Laid { sections: vec![(0, Vec::new()); sections], text: Vec::new(), places: BTreeMap::new() }
    }

    /// Start and length of a text part.
    fn part(&mut self, name: &str) -> [u32; 2] {
        let start = *self.places.entry(name.into()).or_insert_with(|| {
            self.text.extend(name.bytes());
            word(self.text.len() - name.len())
        });
        [start, word(name.len())]
    }

    fn record(&mut self, section: usize, words: &[u32]) {
        self.sections[section].0 += 1;
        self.sections[section].1.extend(words);
    }

    /// Appends members; answers the first's number and their count.
    fn members(&mut self, section: usize, members: &[Member]) -> [u32; 2] {
        let first = self.sections[section].0;
        for member in members {
            let [name, descriptor] = [self.part(&member.name), self.part(&member.descriptor)];
            self.record(section, &[&name[..], &descriptor, &member.words].concat());
        }
        [word(first), word(members.len())]
    }

    /// Appends records of one word; answers the first's number and their count.
    fn list(&mut self, section: usize, words: &[u32]) -> [u32; 2] {
        let first = self.sections[section].0;
        words.iter().for_each(|&word| self.record(section, &[word]));
        [word(first), word(words.len())]
    }

    /// The sheet: counts, sections, text, in blocks with their checks.
    fn blocks(self) -> Vec<u8> {
        let mut words: Vec<u32> = self.sections.iter().map(|section| word(section.0)).collect();
        words.push(word(self.text.len()));
        words.extend(self.sections.into_iter().flat_map(|section| section.1));
        words.extend(self.text.chunks(4).map(|bytes| bytes.iter().rev().fold(0, |word, &byte| word << 8 | u32::from(byte))));
        let mut blocks = Vec::with_capacity(words.len().div_ceil(BLOCK_WORDS) * BLOCK_BYTES);
        for (number, content) in (1..).zip(words.chunks(BLOCK_WORDS)) {
            let mut block = [0; BLOCK_WORDS];
            block[..content.len()].copy_from_slice(content);
            let check = block.iter().fold(number, |sum: u32, word| sum.wrapping_add(*word));
            blocks.extend(block.iter().chain([&check]).flat_map(|word| word.to_le_bytes()));
        }
        blocks
    }
}

/// A class to be: its values, with what a sheet's text form has where nothing is said.
#[derive(Clone, Debug, PartialEq, Eq)]
#[must_use = "a class is given to a SetBuilder"]
pub struct ClassBuilder {
    name: String,
    parent: Option<String>,
    flags: u32,
    kind: Kind,
    methods: Vec<Member>,
    fields: Vec<Member>,
    interfaces: Vec<String>,
    link_state: u32,
    instance_words: u32,
    static_words: u32,
    compiler_table: Option<Vec<u32>>,
}

impl ClassBuilder {
    /// A built class without a parent and without members, public.
    ///
    /// ```
    /// # use lgt_linker::*;
    /// let set = SetBuilder::new().class(ClassBuilder::new("Card")).build()?;
    /// assert_eq!((set.class(1).unwrap().name(), set.class(1).unwrap().flags()), ("Card", 1));
    /// # Ok::<(), BuildError>(())
    /// ```
    pub fn new(name: &str) -> ClassBuilder {
        ClassBuilder {
            name: name.into(),
            parent: None,
            flags: flags::PUBLIC,
            kind: Kind::Built,
            methods: Vec::new(),
            fields: Vec::new(),
            interfaces: Vec::new(),
            link_state: 0,
            instance_words: 0,
            static_words: 0,
            compiler_table: None,
        }
    }

    /// Its parent, which comes before it in the set; where it does not, [`ClassSet::read_unordered`] puts it there.
    ///
    /// ```
    /// # use lgt_linker::*;
    /// let set = SetBuilder::new().class(ClassBuilder::new("Card")).class(ClassBuilder::new("VipCard").extends("Card")).build()?;
    /// assert_eq!(set.class(2).unwrap().parent().unwrap().name(), "Card");
    /// # Ok::<(), BuildError>(())
    /// ```
    pub fn extends(mut self, parent: &str) -> ClassBuilder {
        self.parent = Some(parent.into());
        self
    }

    /// Its access flags; [`layout::flags`](crate::layout::flags) names those that linking looks at.
    ///
    /// ```
    /// # use lgt_linker::*;
    /// let set = SetBuilder::new().class(ClassBuilder::new("Renewable").flags(layout::flags::INTERFACE)).build()?;
    /// assert!(set.class(1).unwrap().is_interface());
    /// # Ok::<(), BuildError>(())
    /// ```
    pub fn flags(mut self, flags: u32) -> ClassBuilder {
        self.flags = flags;
        self
    }

    /// Its kind.
    ///
    /// ```
    /// # use lgt_linker::*;
    /// let set = SetBuilder::new().class(ClassBuilder::new("[I").kind(Kind::Array)).build()?;
    /// assert_eq!(set.class(1).unwrap().kind(), Kind::Array);
    /// # Ok::<(), BuildError>(())
    /// ```
    pub fn kind(mut self, kind: Kind) -> ClassBuilder {
        self.kind = kind;
        self
    }

    /// A further method, public.
    ///
    /// ```
    /// # use lgt_linker::*;
    /// let set = SetBuilder::new().class(ClassBuilder::new("Card").method("open", "()V", 4096)).build()?;
    /// assert_eq!(set.class(1).unwrap().methods().next().unwrap().target, 4096);
    /// # Ok::<(), BuildError>(())
    /// ```
    pub fn method(self, name: &str, descriptor: &str, target: u32) -> ClassBuilder {
        self.method_with(name, descriptor, flags::PUBLIC, target)
    }

    /// A further method of these flags.
    ///
    /// ```
    /// # use lgt_linker::*;
    /// let set = SetBuilder::new().class(ClassBuilder::new("Card").method_with("main", "()V", 0x9, 4096)).build()?;
    /// assert_eq!(set.class(1).unwrap().methods().next().unwrap().flags, 0x9);
    /// # Ok::<(), BuildError>(())
    /// ```
    pub fn method_with(mut self, name: &str, descriptor: &str, flags: u32, target: u32) -> ClassBuilder {
        self.methods.push(member(name, descriptor, &[flags, target]));
        self
    }

    /// A further field, public, of word index 0: a link of a built class gives it its own.
    ///
    /// ```
    /// # use lgt_linker::*;
    /// let mut set = SetBuilder::new().class(ClassBuilder::new("Card").field("holder", "I").field("until", "J")).build()?;
    /// set.link(&AbiBuilder::new().build()?, 1, &mut Area::fresh(64), &[])?;
    /// assert_eq!(set.field_word_index(1, "until", "J", false), Some(1));
    /// # Ok::<(), BuildError>(())
    /// ```
    pub fn field(self, name: &str, descriptor: &str) -> ClassBuilder {
        self.field_with(name, descriptor, flags::PUBLIC, 0)
    }

    /// A further field of these flags and this word index.
    ///
    /// ```
    /// # use lgt_linker::*;
    /// let class = ClassBuilder::new("Made").kind(Kind::Generated).instance_words(3).field_with("a", "I", 1, 2);
    /// let set = SetBuilder::new().class(class).build()?;
    /// assert_eq!(set.field_word_index(1, "a", "I", false), Some(2));
    /// # Ok::<(), BuildError>(())
    /// ```
    pub fn field_with(mut self, name: &str, descriptor: &str, flags: u32, word_index: u32) -> ClassBuilder {
        self.fields.push(member(name, descriptor, &[flags, word_index]));
        self
    }

    /// A further interface, any class of the set.
    ///
    /// ```
    /// # use lgt_linker::*;
    /// let set = SetBuilder::new()
    ///     .class(ClassBuilder::new("Card").implements("Renewable"))
    ///     .class(ClassBuilder::new("Renewable").flags(layout::flags::INTERFACE))
    ///     .build()?;
    /// assert_eq!(set.class(1).unwrap().interfaces().next().unwrap().number(), 2);
    /// # Ok::<(), BuildError>(())
    /// ```
    pub fn implements(mut self, interface: &str) -> ClassBuilder {
        self.interfaces.push(interface.into());
        self
    }

    /// Its link state: [`layout::LINKED_BY_COMPILER`](crate::layout::LINKED_BY_COMPILER) marks classes that the compiler linked.
    ///
    /// ```
    /// # use lgt_linker::*;
    /// let set = SetBuilder::new().class(ClassBuilder::new("Made").link_state(layout::LINKED_BY_COMPILER)).build()?;
    /// assert_eq!(set.class(1).unwrap().link_state(), 3);
    /// # Ok::<(), BuildError>(())
    /// ```
    pub fn link_state(mut self, link_state: u32) -> ClassBuilder {
        self.link_state = link_state;
        self
    }

    /// Its instance words, which a generated class brings along.
    ///
    /// ```
    /// # use lgt_linker::*;
    /// let set = SetBuilder::new().class(ClassBuilder::new("Made").kind(Kind::Generated).instance_words(3)).build()?;
    /// assert_eq!(set.class(1).unwrap().instance_words(), 3);
    /// # Ok::<(), BuildError>(())
    /// ```
    pub fn instance_words(mut self, words: u32) -> ClassBuilder {
        self.instance_words = words;
        self
    }

    /// Its static words, which a generated class brings along, any number. Linking counts a built class's, so such a class has none before.
    ///
    /// ```
    /// # use lgt_linker::*;
    /// let set = SetBuilder::new().class(ClassBuilder::new("Made").kind(Kind::Generated).static_words(u32::MAX)).build()?;
    /// assert_eq!(set.class(1).unwrap().static_words(), u32::MAX);
    /// let wrong = SetBuilder::new().class(ClassBuilder::new("Built").static_words(1)).build();
    /// assert_eq!(wrong, Err(BuildError::Refused(Refusal::SheetCounts)));
    /// # Ok::<(), BuildError>(())
    /// ```
    pub fn static_words(mut self, words: u32) -> ClassBuilder {
        self.static_words = words;
        self
    }

    /// Its compiler table, a target for each slot, 0 where the parent's stays.
    ///
    /// ```
    /// # use lgt_linker::*;
    /// let set = SetBuilder::new().class(ClassBuilder::new("Made").kind(Kind::Generated).compiler_table(&[0, 9000])).build()?;
    /// assert_eq!(set.class(1).unwrap().compiler_table(), Some(&[0, 9000][..]));
    /// # Ok::<(), BuildError>(())
    /// ```
    pub fn compiler_table(mut self, targets: &[u32]) -> ClassBuilder {
        self.compiler_table = Some(targets.to_vec());
        self
    }
}

/// A class set to be: its classes in the order of their numbers, from 1.
#[derive(Clone, Debug, Default, PartialEq, Eq)]
#[must_use = "`build` makes the set"]
pub struct SetBuilder {
    classes: Vec<ClassBuilder>,
}

impl SetBuilder {
    /// A set without classes.
    ///
    /// ```
    /// assert_eq!(lgt_linker::SetBuilder::new().build()?.class_count(), 0);
    /// # Ok::<(), lgt_linker::BuildError>(())
    /// ```
    pub fn new() -> SetBuilder {
        SetBuilder::default()
    }

    /// A further class, which gets the next number. A set has at most 64.
    ///
    /// ```
    /// # use lgt_linker::*;
    /// let set = SetBuilder::new().class(ClassBuilder::new("A")).class(ClassBuilder::new("B")).build()?;
    /// assert_eq!(set.class_named("B").unwrap().number(), 2);
    /// # Ok::<(), BuildError>(())
    /// ```
    pub fn class(mut self, class: ClassBuilder) -> SetBuilder {
        self.classes.push(class);
        self
    }

    /// The class sheet, blocks of 512 bytes, as `tools/sheet make` lays it out. It may be one that the library refuses.
    ///
    /// # Errors
    ///
    /// A parent or an interface is no class of the set.
    ///
    /// ```
    /// # use lgt_linker::*;
    /// let card = ClassBuilder::new("Card").method("open", "()V", 4096).method("close", "()V", 4112);
    /// let vip = ClassBuilder::new("VipCard").extends("Card").method("close", "()V", 8192).method("mark", "()V", 8208);
    /// let sheet = SetBuilder::new().class(card).class(vip).sheet()?;
    /// assert_eq!(sheet, std::fs::read("../../examples/card/classes.bin").unwrap());
    /// # Ok::<(), BuildError>(())
    /// ```
    pub fn sheet(&self) -> Result<Vec<u8>, BuildError> {
        let mut laid = Laid::new(set::TEXT);
        for given in &self.classes {
            let number = |named: &String| {
                let found = self.classes.iter().position(|class| class.name == *named);
                let place = found.ok_or_else(|| BuildError::NoSuchClass { class: given.name.clone(), named: named.clone() })?;
                Ok::<u32, BuildError>(word(place + 1))
            };
            let parent = given.parent.as_ref().map_or(Ok(0), number)?;
            let interfaces = given.interfaces.iter().map(number).collect::<Result<Vec<_>, _>>()?;
            let name = laid.part(&given.name);
            let methods = laid.members(set::METHODS, &given.methods);
            let fields = laid.members(set::FIELDS, &given.fields);
            let interfaces = laid.list(set::INTERFACES, &interfaces);
            let compiler = given.compiler_table.as_ref().map_or([0, 0], |table| {
                let [first, count] = laid.list(set::COMPILERS, table);
                [first.saturating_add(1), count]
            });
            // An unlinked class has no table place and no slots.
            let mut record = [0; class::WIDTH];
            for (at, words) in [
                (class::NAME_START, name),
                (class::FIRST_METHOD, methods),
                (class::FIRST_FIELD, fields),
                (class::FIRST_INTERFACE, interfaces),
                (class::COMPILER_TABLE, compiler),
            ] {
                record[at..at + 2].copy_from_slice(&words);
            }
            record[class::PARENT] = parent;
            record[class::FLAGS] = given.flags;
            record[class::KIND] = given.kind.number();
            record[class::LINK_STATE] = given.link_state;
            record[class::INSTANCE_WORDS] = given.instance_words;
            record[class::STATIC_WORDS] = given.static_words;
            laid.record(set::CLASSES, &record);
        }
        Ok(laid.blocks())
    }

    /// The set, as the library reads its sheet.
    ///
    /// # Errors
    ///
    /// A parent or an interface is no class of the set, or the library refuses the sheet by rows 1 to 5: more than 64 classes, a parent
    /// after its child, a wrong name, flag or descriptor.
    ///
    /// ```
    /// # use lgt_linker::*;
    /// let wrong = SetBuilder::new().class(ClassBuilder::new("Card").method("open", "V()", 4096));
    /// assert_eq!(wrong.build(), Err(BuildError::Refused(Refusal::Descriptor)));
    /// let orphan = SetBuilder::new().class(ClassBuilder::new("VipCard").extends("Card"));
    /// assert_eq!(orphan.build().unwrap_err().to_string(), "class VipCard names Card, which is no class of the set");
    /// ```
    pub fn build(&self) -> Result<ClassSet, BuildError> {
        Ok(ClassSet::read(&self.sheet()?)?)
    }
}

/// An ABI class to be.
#[derive(Clone, Debug, PartialEq, Eq)]
#[must_use = "an ABI class is given to an AbiBuilder"]
pub struct AbiClassBuilder {
    name: String,
    table_size: Option<u32>,
    instance_words: Option<u32>,
    slots: Vec<Member>,
    fields: Vec<Member>,
}

impl AbiClassBuilder {
    /// An ABI class that fixes nothing yet, for classes of that name.
    ///
    /// ```
    /// # use lgt_linker::*;
    /// let abi = AbiBuilder::new().class(AbiClassBuilder::new("Base")).build()?;
    /// assert_eq!(abi.class_named("Base").unwrap().table_size(), None);
    /// # Ok::<(), BuildError>(())
    /// ```
    pub fn new(name: &str) -> AbiClassBuilder {
        AbiClassBuilder { name: name.into(), table_size: None, instance_words: None, slots: Vec::new(), fields: Vec::new() }
    }

    /// The least slots of its table.
    ///
    /// ```
    /// # use lgt_linker::*;
    /// let abi = AbiBuilder::new().class(AbiClassBuilder::new("Base").table_size(4)).build()?;
    /// assert_eq!(abi.class_named("Base").unwrap().table_size(), Some(4));
    /// # Ok::<(), BuildError>(())
    /// ```
    pub fn table_size(mut self, slots: u32) -> AbiClassBuilder {
        self.table_size = Some(slots);
        self
    }

    /// Its instance words.
    ///
    /// ```
    /// # use lgt_linker::*;
    /// let abi = AbiBuilder::new().class(AbiClassBuilder::new("View").instance_words(0)).build()?;
    /// assert_eq!(abi.class_named("View").unwrap().instance_words(), Some(0));
    /// # Ok::<(), BuildError>(())
    /// ```
    pub fn instance_words(mut self, words: u32) -> AbiClassBuilder {
        self.instance_words = Some(words);
        self
    }

    /// A further fixed slot.
    ///
    /// ```
    /// # use lgt_linker::*;
    /// let abi = AbiBuilder::new().class(AbiClassBuilder::new("Base").slot("show", "()V", 2)).build()?;
    /// assert_eq!(abi.class_named("Base").unwrap().slots().next().unwrap().index, 2);
    /// # Ok::<(), BuildError>(())
    /// ```
    pub fn slot(mut self, name: &str, descriptor: &str, index: u32) -> AbiClassBuilder {
        self.slots.push(member(name, descriptor, &[index]));
        self
    }

    /// A further fixed field.
    ///
    /// ```
    /// # use lgt_linker::*;
    /// let abi = AbiBuilder::new().class(AbiClassBuilder::new("Base").field("hash", "I", 1)).build()?;
    /// assert_eq!(abi.class_named("Base").unwrap().fields().next().unwrap().name, "hash");
    /// # Ok::<(), BuildError>(())
    /// ```
    pub fn field(mut self, name: &str, descriptor: &str, index: u32) -> AbiClassBuilder {
        self.fields.push(member(name, descriptor, &[index]));
        self
    }
}

/// An ABI sheet to be: its ABI classes in order, of which the first of a name counts.
#[derive(Clone, Debug, Default, PartialEq, Eq)]
#[must_use = "`build` makes the sheet"]
pub struct AbiBuilder {
    classes: Vec<AbiClassBuilder>,
}

impl AbiBuilder {
    /// An ABI sheet without classes: nothing is fixed.
    ///
    /// ```
    /// assert_eq!(lgt_linker::AbiBuilder::new().build()?.classes().count(), 0);
    /// # Ok::<(), lgt_linker::BuildError>(())
    /// ```
    pub fn new() -> AbiBuilder {
        AbiBuilder::default()
    }

    /// A further ABI class.
    ///
    /// ```
    /// # use lgt_linker::*;
    /// let abi = AbiBuilder::new().class(AbiClassBuilder::new("A")).class(AbiClassBuilder::new("B")).build()?;
    /// assert_eq!(abi.classes().count(), 2);
    /// # Ok::<(), BuildError>(())
    /// ```
    pub fn class(mut self, class: AbiClassBuilder) -> AbiBuilder {
        self.classes.push(class);
        self
    }

    /// The ABI sheet, blocks of 512 bytes, as `tools/sheet make` lays it out. It may be one that the library refuses.
    ///
    /// ```
    /// # use lgt_linker::*;
    /// let base = AbiClassBuilder::new("Base").table_size(4).slot("show", "()V", 2).slot("hide", "()V", 3).field("hash", "I", 1);
    /// let sheet = AbiBuilder::new().class(base).class(AbiClassBuilder::new("View").instance_words(3)).sheet();
    /// assert_eq!(sheet, std::fs::read("../../examples/abi/abi.bin").unwrap());
    /// ```
    #[must_use]
    pub fn sheet(&self) -> Vec<u8> {
        let mut laid = Laid::new(abi::TEXT);
        for given in &self.classes {
            let name = laid.part(&given.name);
            let slots = laid.members(abi::SLOTS, &given.slots);
            let fields = laid.members(abi::FIELDS, &given.fields);
            let mut record = [0; abi_class::WIDTH];
            for (at, words) in [(abi_class::NAME_START, name), (abi_class::FIRST_SLOT, slots), (abi_class::FIRST_FIELD, fields)] {
                record[at..at + 2].copy_from_slice(&words);
            }
            record[abi_class::TABLE_SIZE_PLUS_1] = plus_1(given.table_size);
            record[abi_class::INSTANCE_WORDS_PLUS_1] = plus_1(given.instance_words);
            laid.record(abi::CLASSES, &record);
        }
        laid.blocks()
    }

    /// The ABI sheet, as the library reads it.
    ///
    /// # Errors
    ///
    /// The library refuses it by rows 1 to 5: an index or a size above its limit, a wrong name or descriptor.
    ///
    /// ```
    /// # use lgt_linker::*;
    /// let far = AbiBuilder::new().class(AbiClassBuilder::new("Base").slot("show", "()V", 1024));
    /// assert_eq!(far.build(), Err(BuildError::Refused(Refusal::Record)));
    /// ```
    pub fn build(&self) -> Result<AbiSheet, BuildError> {
        Ok(AbiSheet::read(&self.sheet())?)
    }
}
