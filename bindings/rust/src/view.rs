//! What stands in a set and in an ABI sheet: views of their words, which were judged by rows 3 to 5 when they came here.

use core::iter::successors;
use core::ops::Range;

use crate::calls::Linked;
use crate::layout::{abi, abi_class, abi_row, class, flags, member, set};

/// The words of a sheet, with the widths of its sections.
#[derive(Clone, Copy)]
pub(crate) struct Words<'a> {
    pub words: &'a [u32],
    pub widths: &'static [usize],
}

impl<'a> Words<'a> {
    /// Where a section starts; the text has no width of its own and comes last.
    fn start(self, section: usize) -> usize {
        let before = self.widths.iter().zip(self.words).take(section);
        self.widths.len() + 1 + before.map(|(width, &count)| width * count as usize).sum::<usize>()
    }

    /// A record of a section, counted from 0.
    fn record(self, section: usize, record: usize) -> &'a [u32] {
        let width = self.widths[section];
        let at = self.start(section) + width * record;
        &self.words[at..at + width]
    }

    /// A part of the text, four bytes a word, lowest byte first.
    fn text(self, start: u32, length: u32) -> &'a str {
        text_part(&self.words[self.start(self.widths.len())..], start, length)
    }
}

/// The same of the words of a text.
pub(crate) fn text_part(words: &[u32], start: u32, length: u32) -> &str {
    // SAFETY: a word is four bytes, any of which is a u8, and this target has the lowest first.
    let bytes: &[u8] = unsafe { core::slice::from_raw_parts(words.as_ptr().cast(), size_of_val(words)) };
    let part = start as usize..start as usize + length as usize;
    // Row 4 has seen to it that names and descriptors are of the bytes 0x21 to 0x7E.
    core::str::from_utf8(&bytes[part]).unwrap_or_default()
}

/// How a class came to be, which decides how it is linked.
#[derive(Clone, Copy, Debug, Default, PartialEq, Eq, Hash)]
#[non_exhaustive]
pub enum Kind {
    /// The emulator builds it from a prototype.
    #[default]
    Built,
    /// The phone's compiler made it.
    Generated,
    /// An array class.
    Array,
    /// Built, and linked by the packages of the JVM Specification (5.4.5): all its ancestors are of this kind, and neither it nor one of
    /// them is an interface or has an ABI entry.
    Packaged,
    /// A number that this version of the crate has no name for.
    Unknown(u32),
}

impl Kind {
    /// The number in the class record.
    ///
    /// ```
    /// assert_eq!(lgt_linker::Kind::Array.number(), 2);
    /// ```
    #[must_use]
    pub fn number(self) -> u32 {
        match self {
            Kind::Built => 0,
            Kind::Generated => 1,
            Kind::Array => 2,
            Kind::Packaged => 3,
            Kind::Unknown(number) => number,
        }
    }

    /// The kind of that number.
    ///
    /// ```
    /// use lgt_linker::Kind;
    /// assert_eq!([Kind::of(1), Kind::of(7)], [Kind::Generated, Kind::Unknown(7)]);
    /// ```
    #[must_use]
    pub fn of(number: u32) -> Kind {
        match number {
            0 => Kind::Built,
            1 => Kind::Generated,
            2 => Kind::Array,
            3 => Kind::Packaged,
            _ => Kind::Unknown(number),
        }
    }
}

/// A method of a class.
#[derive(Clone, Copy, Debug, PartialEq, Eq)]
#[non_exhaustive]
pub struct Method<'a> {
    /// The number of the class that declares it.
    pub class: u32,
    /// Its name.
    pub name: &'a str,
    /// Its descriptor.
    pub descriptor: &'a str,
    /// Its access flags.
    pub flags: u32,
    /// Its target: the address of its code.
    pub target: u32,
}

/// A field of a class.
#[derive(Clone, Copy, Debug, PartialEq, Eq)]
#[non_exhaustive]
pub struct Field<'a> {
    /// The number of the class that declares it.
    pub class: u32,
    /// Its name.
    pub name: &'a str,
    /// Its descriptor.
    pub descriptor: &'a str,
    /// Its access flags.
    pub flags: u32,
    /// Its word index, which a link sets. A runtime field's is negative when read as a signed number.
    pub word_index: u32,
}

impl Field<'_> {
    /// Whether it is static: its index then counts in the class's static words.
    ///
    /// ```
    /// # use lgt_linker::*;
    /// let set = SetBuilder::new().class(ClassBuilder::new("A").field("i", "I").field_with("s", "J", 0x9, 0)).build()?;
    /// let [i, s] = set.class(1).unwrap().fields().collect::<Vec<_>>()[..] else { panic!() };
    /// assert!(!i.is_static() && s.is_static());
    /// assert_eq!([i.width(), s.width()], [1, 2]);
    /// # Ok::<(), BuildError>(())
    /// ```
    #[must_use]
    pub fn is_static(&self) -> bool {
        self.flags & flags::STATIC != 0
    }

    /// How many words it takes: two for `J` and `D`, else one.
    ///
    /// ```
    /// # use lgt_linker::*;
    /// let set = SetBuilder::new().class(ClassBuilder::new("A").field("d", "D")).build()?;
    /// assert_eq!(set.class(1).unwrap().fields().next().unwrap().width(), 2);
    /// # Ok::<(), BuildError>(())
    /// ```
    #[must_use]
    pub fn width(&self) -> u32 {
        if matches!(self.descriptor, "J" | "D") { 2 } else { 1 }
    }
}

/// A slot of a table, as Reading finds it (`docs/SPECIFICATION.md`, section 9).
#[derive(Clone, Copy, Debug, PartialEq, Eq)]
#[non_exhaustive]
pub struct Slot<'a> {
    /// Its index in the table.
    pub index: u32,
    /// The word that stands there: what a call through the slot runs.
    pub target: u32,
    /// The method that the slot is of; none where it is unknown.
    pub method: Option<Method<'a>>,
}

/// A class of a set.
#[derive(Clone, Copy)]
pub struct Class<'a> {
    set: Words<'a>,
    number: u32,
}

impl<'a> Class<'a> {
    pub(crate) fn of(words: &'a [u32], number: u32) -> Option<Class<'a>> {
        let set = Words { words, widths: &set::WIDTHS };
        (1..=words[set::CLASSES]).contains(&number).then_some(Class { set, number })
    }

    fn word(self, word: usize) -> u32 {
        self.set.record(set::CLASSES, self.number as usize - 1)[word]
    }

    /// The list whose first and count are this word of the record and the next.
    fn list(self, word: usize) -> Range<usize> {
        let first = self.word(word) as usize;
        first..first + self.word(word + 1) as usize
    }

    /// Its number, counted from 1.
    ///
    /// ```
    /// # use lgt_linker::*;
    /// let set = ClassSet::read(&std::fs::read("../../examples/card/classes.bin").unwrap())?;
    /// assert_eq!(set.class_named("VipCard").unwrap().number(), 2);
    /// # Ok::<(), Refusal>(())
    /// ```
    #[must_use]
    pub fn number(self) -> u32 {
        self.number
    }

    /// Its name.
    ///
    /// ```
    /// # use lgt_linker::*;
    /// let set = ClassSet::read(&std::fs::read("../../examples/card/classes.bin").unwrap())?;
    /// assert_eq!(set.class(1).unwrap().name(), "Card");
    /// # Ok::<(), Refusal>(())
    /// ```
    #[must_use]
    pub fn name(self) -> &'a str {
        self.set.text(self.word(class::NAME_START), self.word(class::NAME_LENGTH))
    }

    /// Its parent.
    ///
    /// ```
    /// # use lgt_linker::*;
    /// let set = ClassSet::read(&std::fs::read("../../examples/card/classes.bin").unwrap())?;
    /// assert_eq!(set.class(2).unwrap().parent().unwrap().name(), "Card");
    /// assert!(set.class(1).unwrap().parent().is_none());
    /// # Ok::<(), Refusal>(())
    /// ```
    #[must_use]
    pub fn parent(self) -> Option<Class<'a>> {
        Class::of(self.set.words, self.word(class::PARENT))
    }

    /// Its chain: the class, then its ancestors.
    ///
    /// ```
    /// # use lgt_linker::*;
    /// let set = ClassSet::read(&std::fs::read("../../examples/card/classes.bin").unwrap())?;
    /// let chain: Vec<u32> = set.class(2).unwrap().chain().map(|class| class.number()).collect();
    /// assert_eq!(chain, [2, 1]);
    /// # Ok::<(), Refusal>(())
    /// ```
    pub fn chain(self) -> impl Iterator<Item = Class<'a>> {
        successors(Some(self), |class| class.parent())
    }

    /// Its access flags.
    ///
    /// ```
    /// # use lgt_linker::*;
    /// let set = SetBuilder::new().class(ClassBuilder::new("A").flags(0x21)).build()?;
    /// assert_eq!(set.class(1).unwrap().flags(), 0x21);
    /// # Ok::<(), BuildError>(())
    /// ```
    #[must_use]
    pub fn flags(self) -> u32 {
        self.word(class::FLAGS)
    }

    /// Whether its flags mark an interface.
    ///
    /// ```
    /// # use lgt_linker::*;
    /// let set = ClassSet::read(&std::fs::read("../../examples/interface/classes.bin").unwrap())?;
    /// assert!(set.class_named("Openable").unwrap().is_interface());
    /// # Ok::<(), Refusal>(())
    /// ```
    #[must_use]
    pub fn is_interface(self) -> bool {
        self.flags() & flags::INTERFACE != 0
    }

    /// Its kind.
    ///
    /// ```
    /// # use lgt_linker::*;
    /// let set = ClassSet::read(&std::fs::read("../../examples/generated/classes.bin").unwrap())?;
    /// assert_eq!(set.class(2).unwrap().kind(), Kind::Generated);
    /// # Ok::<(), Refusal>(())
    /// ```
    #[must_use]
    pub fn kind(self) -> Kind {
        Kind::of(self.word(class::KIND))
    }

    /// Its link state: 3 where the compiler linked it. Linking leaves it as it is.
    ///
    /// ```
    /// # use lgt_linker::*;
    /// let set = ClassSet::read(&std::fs::read("../../examples/generated/classes.bin").unwrap())?;
    /// assert_eq!(set.class(2).unwrap().link_state(), layout::LINKED_BY_COMPILER);
    /// # Ok::<(), Refusal>(())
    /// ```
    #[must_use]
    pub fn link_state(self) -> u32 {
        self.word(class::LINK_STATE)
    }

    /// How many words an object of it has, which a link sets unless the class is generated.
    ///
    /// ```
    /// # use lgt_linker::*;
    /// let mut set = ClassSet::read(&std::fs::read("../../examples/interface/classes.bin").unwrap())?;
    /// let abi = AbiSheet::read(&std::fs::read("../../examples/interface/abi.bin").unwrap())?;
    /// set.link(&abi, 2, &mut Area::fresh(64), &[9; 8])?;
    /// assert_eq!(set.class(2).unwrap().instance_words(), 3); // Door: an I and a J
    /// # Ok::<(), Refusal>(())
    /// ```
    #[must_use]
    pub fn instance_words(self) -> u32 {
        self.word(class::INSTANCE_WORDS)
    }

    /// How many words its own static fields take, where their word indices end: a link counts a built class's and gives an array class 0,
    /// and a generated class brings its own, whatever its fields. As the Rust's `static_field_word_count`.
    ///
    /// ```
    /// # use lgt_linker::*;
    /// let made = ClassBuilder::new("Made").kind(Kind::Generated).static_words(7);
    /// let mut set = SetBuilder::new().class(ClassBuilder::new("A").field_with("s", "J", 0x9, 0)).class(made).build()?;
    /// assert_eq!([1, 2].map(|number| set.class(number).unwrap().static_words()), [0, 7]);
    /// set.link_all(&AbiBuilder::new().build()?, &mut Area::fresh(64), &[9; 8]);
    /// assert_eq!([1, 2].map(|number| set.class(number).unwrap().static_words()), [2, 7]);
    /// # Ok::<(), BuildError>(())
    /// ```
    #[must_use]
    pub fn static_words(self) -> u32 {
        self.word(class::STATIC_WORDS)
    }

    /// Its methods, in order; those that a link added come last.
    ///
    /// ```
    /// # use lgt_linker::*;
    /// let set = ClassSet::read(&std::fs::read("../../examples/card/classes.bin").unwrap())?;
    /// let names: Vec<&str> = set.class(2).unwrap().methods().map(|method| method.name).collect();
    /// assert_eq!(names, ["close", "mark"]);
    /// # Ok::<(), Refusal>(())
    /// ```
    pub fn methods(self) -> impl Iterator<Item = Method<'a>> {
        self.list(class::FIRST_METHOD).map(move |method| {
            let record = self.set.record(set::METHODS, method);
            Method {
                class: self.number,
                name: self.set.text(record[member::NAME_START], record[member::NAME_LENGTH]),
                descriptor: self.set.text(record[member::DESCRIPTOR_START], record[member::DESCRIPTOR_LENGTH]),
                flags: record[member::FLAGS],
                target: record[member::LAST],
            }
        })
    }

    /// Its fields, in order; those that a link added come last.
    ///
    /// ```
    /// # use lgt_linker::*;
    /// let mut set = ClassSet::read(&std::fs::read("../../examples/added/classes.bin").unwrap())?;
    /// let abi = AbiSheet::read(&std::fs::read("../../examples/added/abi.bin").unwrap())?;
    /// set.link(&abi, 1, &mut Area::fresh(64), &[9; 8])?;
    /// let found: Vec<(&str, u32)> = set.class(1).unwrap().fields().map(|field| (field.name, field.word_index)).collect();
    /// assert_eq!(found, [("size", 0), ("lock", 2)]); // the ABI's lock is added
    /// # Ok::<(), Refusal>(())
    /// ```
    pub fn fields(self) -> impl Iterator<Item = Field<'a>> {
        self.list(class::FIRST_FIELD).map(move |field| {
            let record = self.set.record(set::FIELDS, field);
            Field {
                class: self.number,
                name: self.set.text(record[member::NAME_START], record[member::NAME_LENGTH]),
                descriptor: self.set.text(record[member::DESCRIPTOR_START], record[member::DESCRIPTOR_LENGTH]),
                flags: record[member::FLAGS],
                word_index: record[member::LAST],
            }
        })
    }

    /// Its own interfaces, in order.
    ///
    /// ```
    /// # use lgt_linker::*;
    /// let set = ClassSet::read(&std::fs::read("../../examples/interface/classes.bin").unwrap())?;
    /// let names: Vec<&str> = set.class_named("Door").unwrap().interfaces().map(|class| class.name()).collect();
    /// assert_eq!(names, ["Openable"]);
    /// # Ok::<(), Refusal>(())
    /// ```
    pub fn interfaces(self) -> impl Iterator<Item = Class<'a>> {
        self.list(class::FIRST_INTERFACE).filter_map(move |word| Class::of(self.set.words, self.set.record(set::INTERFACES, word)[0]))
    }

    /// Its compiler table: a target for each slot, 0 where the parent's stays.
    ///
    /// ```
    /// # use lgt_linker::*;
    /// let set = ClassSet::read(&std::fs::read("../../examples/generated/classes.bin").unwrap())?;
    /// assert_eq!(set.class_named("Compiled").unwrap().compiler_table(), Some(&[0, 9000, 9016][..]));
    /// assert_eq!(set.class_named("Plain").unwrap().compiler_table(), None);
    /// # Ok::<(), Refusal>(())
    /// ```
    #[must_use]
    pub fn compiler_table(self) -> Option<&'a [u32]> {
        let first = (self.word(class::COMPILER_TABLE) as usize).checked_sub(1)?;
        let at = self.set.start(set::COMPILERS) + first;
        self.set.words.get(at..at + self.word(class::COMPILER_SLOTS) as usize)
    }

    /// Its table, if it is linked.
    ///
    /// ```
    /// # use lgt_linker::*;
    /// let mut set = ClassSet::read(&std::fs::read("../../examples/card/classes.bin").unwrap())?;
    /// assert_eq!(set.class(1).unwrap().linked(), None);
    /// let linked = set.link(&AbiBuilder::new().build().unwrap(), 1, &mut Area::fresh(64), &[9; 8])?;
    /// assert_eq!(set.class(1).unwrap().linked(), Some(linked));
    /// # Ok::<(), Refusal>(())
    /// ```
    #[must_use]
    pub fn linked(self) -> Option<Linked> {
        let place = self.word(class::TABLE_PLACE);
        (place != 0).then(|| Linked { place, slots: self.word(class::SLOT_COUNT) })
    }
}

impl core::fmt::Debug for Class<'_> {
    fn fmt(&self, f: &mut core::fmt::Formatter<'_>) -> core::fmt::Result {
        f.debug_struct("Class").field("number", &self.number).field("name", &self.name()).finish_non_exhaustive()
    }
}

/// A row of an ABI sheet: a fixed slot or a fixed field.
#[derive(Clone, Copy, Debug, PartialEq, Eq)]
#[non_exhaustive]
pub struct AbiRow<'a> {
    /// The member's name.
    pub name: &'a str,
    /// Its descriptor.
    pub descriptor: &'a str,
    /// The slot's index, or the field's word index.
    pub index: u32,
}

/// An ABI class: what the ABI fixes for a class of that name.
#[derive(Clone, Copy)]
pub struct AbiClass<'a> {
    abi: Words<'a>,
    /// Counted from 0.
    place: usize,
}

impl<'a> AbiClass<'a> {
    pub(crate) fn all(words: &'a [u32]) -> impl Iterator<Item = AbiClass<'a>> {
        let abi = Words { words, widths: &abi::WIDTHS };
        (0..words[abi::CLASSES] as usize).map(move |place| AbiClass { abi, place })
    }

    fn word(self, word: usize) -> u32 {
        self.abi.record(abi::CLASSES, self.place)[word]
    }

    fn rows(self, section: usize, word: usize) -> impl Iterator<Item = AbiRow<'a>> {
        let first = self.word(word) as usize;
        (first..first + self.word(word + 1) as usize).map(move |row| {
            let record = self.abi.record(section, row);
            AbiRow {
                name: self.abi.text(record[abi_row::NAME_START], record[abi_row::NAME_LENGTH]),
                descriptor: self.abi.text(record[abi_row::DESCRIPTOR_START], record[abi_row::DESCRIPTOR_LENGTH]),
                index: record[abi_row::INDEX],
            }
        })
    }

    /// Its name.
    ///
    /// ```
    /// # use lgt_linker::*;
    /// let abi = AbiSheet::read(&std::fs::read("../../examples/abi/abi.bin").unwrap())?;
    /// assert_eq!(abi.classes().next().unwrap().name(), "Base");
    /// # Ok::<(), Refusal>(())
    /// ```
    #[must_use]
    pub fn name(self) -> &'a str {
        self.abi.text(self.word(abi_class::NAME_START), self.word(abi_class::NAME_LENGTH))
    }

    /// The least slots of its table, if they are given.
    ///
    /// ```
    /// # use lgt_linker::*;
    /// let abi = AbiSheet::read(&std::fs::read("../../examples/abi/abi.bin").unwrap())?;
    /// assert_eq!(abi.class_named("Base").unwrap().table_size(), Some(4));
    /// # Ok::<(), Refusal>(())
    /// ```
    #[must_use]
    pub fn table_size(self) -> Option<u32> {
        self.word(abi_class::TABLE_SIZE_PLUS_1).checked_sub(1)
    }

    /// Its instance words, if they are given.
    ///
    /// ```
    /// # use lgt_linker::*;
    /// let abi = AbiSheet::read(&std::fs::read("../../examples/abi/abi.bin").unwrap())?;
    /// assert_eq!(abi.class_named("View").unwrap().instance_words(), Some(3));
    /// # Ok::<(), Refusal>(())
    /// ```
    #[must_use]
    pub fn instance_words(self) -> Option<u32> {
        self.word(abi_class::INSTANCE_WORDS_PLUS_1).checked_sub(1)
    }

    /// Its fixed slots.
    ///
    /// ```
    /// # use lgt_linker::*;
    /// let abi = AbiSheet::read(&std::fs::read("../../examples/abi/abi.bin").unwrap())?;
    /// let rows: Vec<(&str, u32)> = abi.class_named("Base").unwrap().slots().map(|row| (row.name, row.index)).collect();
    /// assert_eq!(rows, [("show", 2), ("hide", 3)]);
    /// # Ok::<(), Refusal>(())
    /// ```
    pub fn slots(self) -> impl Iterator<Item = AbiRow<'a>> {
        self.rows(abi::SLOTS, abi_class::FIRST_SLOT)
    }

    /// Its fixed fields.
    ///
    /// ```
    /// # use lgt_linker::*;
    /// let abi = AbiSheet::read(&std::fs::read("../../examples/abi/abi.bin").unwrap())?;
    /// let rows: Vec<(&str, u32)> = abi.class_named("Base").unwrap().fields().map(|row| (row.name, row.index)).collect();
    /// assert_eq!(rows, [("hash", 1)]);
    /// # Ok::<(), Refusal>(())
    /// ```
    pub fn fields(self) -> impl Iterator<Item = AbiRow<'a>> {
        self.rows(abi::FIELDS, abi_class::FIRST_FIELD)
    }
}

impl core::fmt::Debug for AbiClass<'_> {
    fn fmt(&self, f: &mut core::fmt::Formatter<'_>) -> core::fmt::Result {
        f.debug_struct("AbiClass").field("name", &self.name()).finish_non_exhaustive()
    }
}
