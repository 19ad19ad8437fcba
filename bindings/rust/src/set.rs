//! Sets, ABI sheets and areas that own their words.

use alloc::sync::Arc;
use alloc::vec;
use alloc::vec::Vec;
use core::fmt;

use crate::calls::{
    ABI_WORDS, Asked, CLASS_BYTES, CLASS_WORDS, Linked, MISSING_WORDS, NUMBERS, interface_dispatch_table, link, missing_slots,
    number_signatures, read_abi_sheet, read_class_sheet, read_unordered_sheet, reference_words, renumber_classes, write_class_sheet,
};
use crate::layout::{BLOCK_BYTES, abi, missing, set};
use crate::numbers::Numbers;
use crate::refusal::Refusal;
use crate::view::{AbiClass, Class, Method, Slot};

/// A class set that owns its words, as many as the largest sheet has, so that sections can grow, the list of missing slots that its
/// links fill, and the list of its signatures' numbers, which is filled when the set is made, and anew when it is lent another ABI sheet.
#[derive(Clone)]
pub struct ClassSet {
    words: Vec<u32>,
    numbers: Numbers,
    missing: Vec<u32>,
}

/// Two sets are equal by their words and their lists of missing slots.
impl PartialEq for ClassSet {
    fn eq(&self, other: &ClassSet) -> bool {
        self.words == other.words && self.missing == other.missing
    }
}

impl Eq for ClassSet {}

/// An ABI sheet that owns its words; a clone shares them.
#[derive(Clone, PartialEq, Eq)]
pub struct AbiSheet {
    words: Arc<[u32]>,
}

/// A table area that owns its words.
#[derive(Clone, PartialEq, Eq)]
pub struct Area {
    words: Vec<u32>,
}

/// The words, or as many of them as content can take, in a list of this length.
fn owned(words: &[u32], length: usize) -> Vec<u32> {
    let mut owned = vec![0; length];
    let kept = words.len().min(length);
    owned[..kept].copy_from_slice(&words[..kept]);
    owned
}

impl ClassSet {
    /// These words, judged by rows 3 to 5, with no missing slots counted yet.
    fn of(words: &[u32]) -> Result<ClassSet, Refusal> {
        let numbers = Numbers::filled(words, &Arc::from([0; abi::COUNTS]))?;
        Ok(ClassSet { words: owned(words, CLASS_WORDS), numbers, missing: vec![0; MISSING_WORDS] })
    }

    /// Reads a class sheet.
    ///
    /// # Errors
    ///
    /// Refusals 1 to 5; see [`read_class_sheet`].
    ///
    /// ```
    /// # use lgt_linker::*;
    /// let bytes = std::fs::read("../../examples/card/classes.bin").unwrap();
    /// assert_eq!(ClassSet::read(&bytes)?.class_count(), 2);
    /// assert_eq!(ClassSet::read(&bytes[..100]), Err(Refusal::SheetSize));
    /// # Ok::<(), Refusal>(())
    /// ```
    pub fn read(bytes: &[u8]) -> Result<ClassSet, Refusal> {
        let mut words = vec![0; CLASS_WORDS];
        read_class_sheet(bytes, &mut words)?;
        ClassSet::of(&words)
    }

    /// Reads a class sheet whose classes come in any order, a child before its parent, and renumbers them so that parents come first.
    /// Answers the set, and in its new order the old number of each class; see [`renumber_classes`].
    ///
    /// # Errors
    ///
    /// Refusals 1 to 3 of the reading, 4 and 19 of the renumbering, then 4 and 5 as of [`read`](ClassSet::read).
    ///
    /// ```
    /// # use lgt_linker::*;
    /// let bytes = std::fs::read("../../examples/alphabetical/unordered.bin").unwrap();
    /// let (set, order) = ClassSet::read_unordered(&bytes)?;
    /// assert_eq!(set.classes().map(|class| class.name()).collect::<Vec<_>>(), ["Card", "AccessCard", "Renewable", "VipCard", "StaffCard"]);
    /// assert_eq!(order, [2, 1, 3, 5, 4]);
    /// assert_eq!(set.write()?, std::fs::read("../../examples/alphabetical/classes.bin").unwrap()); // which `./list` lists
    /// # Ok::<(), Refusal>(())
    /// ```
    ///
    /// A builder's classes may come in any order, too:
    ///
    /// ```
    /// # use lgt_linker::*;
    /// let sheet = SetBuilder::new().class(ClassBuilder::new("Access").extends("Card")).class(ClassBuilder::new("Card")).sheet()?;
    /// assert_eq!(ClassSet::read_unordered(&sheet)?.1, [2, 1]);
    /// let ring = SetBuilder::new().class(ClassBuilder::new("A").extends("B")).class(ClassBuilder::new("B").extends("A")).sheet()?;
    /// assert_eq!(ClassSet::read_unordered(&ring), Err(Refusal::Ring));
    /// # Ok::<(), BuildError>(())
    /// ```
    pub fn read_unordered(bytes: &[u8]) -> Result<(ClassSet, Vec<u32>), Refusal> {
        let mut words = vec![0; CLASS_WORDS];
        read_unordered_sheet(bytes, &mut words)?;
        let mut order = vec![0; set::LIMITS[set::CLASSES]];
        let classes = renumber_classes(&mut words, &mut order)?;
        order.truncate(classes as usize);
        Ok((ClassSet::of(&words)?, order))
    }

    /// A set of words in the sheet's layout, as [`words`](ClassSet::words) gives them: of a sheet, or as links left them. Of links, the list
    /// of missing slots that they filled goes with them: [`with_missing`](ClassSet::with_missing).
    ///
    /// # Errors
    ///
    /// Refusals 3 to 5, as the library judges the words in every link.
    ///
    /// ```
    /// # use lgt_linker::*;
    /// let set = ClassSet::read(&std::fs::read("../../examples/card/classes.bin").unwrap())?;
    /// assert_eq!(ClassSet::from_words(set.words())?, set);
    /// assert_eq!(ClassSet::from_words(&[65, 0, 0, 0, 0, 0]), Err(Refusal::SheetCounts)); // above 64 classes
    /// # Ok::<(), Refusal>(())
    /// ```
    pub fn from_words(words: &[u32]) -> Result<ClassSet, Refusal> {
        ClassSet::of(words)
    }

    /// The class sheet of a set that no link has changed: the bytes that [`read`](ClassSet::read) gives back as the same set, and of a set
    /// that was read the very bytes that it was read from.
    ///
    /// # Errors
    ///
    /// Refusal 17: a class is linked, or the words that the set was [made of](ClassSet::from_words) have something behind their text or
    /// static words in a built or array class.
    ///
    /// ```
    /// # use lgt_linker::*;
    /// let bytes = std::fs::read("../../examples/card/classes.bin").unwrap();
    /// let mut set = ClassSet::read(&bytes)?;
    /// assert_eq!(set.write()?, bytes);
    /// set.link(&AbiBuilder::new().build().unwrap(), 1, &mut Area::fresh(64), &[9; 8])?;
    /// assert_eq!(set.write(), Err(Refusal::NotStorable));
    /// # Ok::<(), Refusal>(())
    /// ```
    ///
    /// A name is corrected in the words, whose text comes last: the new name goes to its end, and the class's record says where it is.
    ///
    /// ```
    /// # use lgt_linker::*;
    /// use lgt_linker::layout::{class, set};
    ///
    /// fn rename(words: &mut [u32], number: u32, name: &[u8]) {
    ///     let (text, end) = (set::text(words), words[set::TEXT] as usize);
    ///     for (&byte, at) in name.iter().zip(end..) {
    ///         words[text + at / 4] |= u32::from(byte) << (8 * (at % 4));
    ///     }
    ///     words[class::record(number) + class::NAME_START] = end as u32;
    ///     words[class::record(number) + class::NAME_LENGTH] = name.len() as u32;
    ///     words[set::TEXT] += name.len() as u32;
    /// }
    ///
    /// let mut words = ClassSet::read(&std::fs::read("../../examples/card/classes.bin").unwrap())?.words().to_vec();
    /// rename(&mut words, 2, b"GoldCard");
    /// let stored = ClassSet::from_words(&words)?.write()?;
    /// assert_eq!(ClassSet::read(&stored)?.class(2).unwrap().name(), "GoldCard");
    /// # Ok::<(), Refusal>(())
    /// ```
    pub fn write(&self) -> Result<Vec<u8>, Refusal> {
        let mut bytes = vec![0; CLASS_BYTES];
        let blocks = write_class_sheet(&self.words, &mut bytes)?;
        bytes.truncate(blocks as usize * BLOCK_BYTES);
        Ok(bytes)
    }

    /// The class words, in the sheet's layout ([`layout`](crate::layout)).
    ///
    /// ```
    /// # use lgt_linker::*;
    /// let set = ClassSet::read(&std::fs::read("../../examples/card/classes.bin").unwrap())?;
    /// assert_eq!(set.words()[layout::set::METHODS], 4);
    /// # Ok::<(), Refusal>(())
    /// ```
    #[must_use]
    pub fn words(&self) -> &[u32] {
        &self.words
    }

    /// The list of missing slots, as its links left it ([`layout::missing`](crate::layout::missing)).
    ///
    /// ```
    /// # use lgt_linker::*;
    /// let mut set = ClassSet::read(&std::fs::read("../../examples/interface/classes.bin").unwrap())?;
    /// set.link(&AbiBuilder::new().build().unwrap(), 1, &mut Area::fresh(64), &[9; 8])?;
    /// assert_eq!(set.missing_words()[..3], [1, 0b10, 0]);
    /// # Ok::<(), Refusal>(())
    /// ```
    #[must_use]
    pub fn missing_words(&self) -> &[u32] {
        &self.missing
    }

    /// The set with this list of missing slots, as [`missing_words`](ClassSet::missing_words) gives it, in place of its own: of as many words
    /// as are lent at most, zeros after them.
    ///
    /// ```
    /// # use lgt_linker::*;
    /// let mut set = ClassSet::read(&std::fs::read("../../examples/interface/classes.bin").unwrap())?;
    /// set.link(&AbiBuilder::new().build().unwrap(), 1, &mut Area::fresh(64), &[9; 8])?;
    /// let again = ClassSet::from_words(set.words())?.with_missing(set.missing_words());
    /// assert_eq!(again, set);
    /// # Ok::<(), Refusal>(())
    /// ```
    #[must_use]
    pub fn with_missing(self, missing: &[u32]) -> ClassSet {
        ClassSet { missing: owned(missing, MISSING_WORDS), ..self }
    }

    /// How many classes the set has; they are numbered from 1.
    ///
    /// ```
    /// # use lgt_linker::*;
    /// assert_eq!(ClassSet::read(&std::fs::read("../../examples/card/classes.bin").unwrap())?.class_count(), 2);
    /// # Ok::<(), Refusal>(())
    /// ```
    #[must_use]
    pub fn class_count(&self) -> u32 {
        self.words[set::CLASSES]
    }

    /// The class of that number.
    ///
    /// ```
    /// # use lgt_linker::*;
    /// let set = ClassSet::read(&std::fs::read("../../examples/card/classes.bin").unwrap())?;
    /// assert_eq!(set.class(2).unwrap().name(), "VipCard");
    /// assert!(set.class(0).is_none() && set.class(3).is_none());
    /// # Ok::<(), Refusal>(())
    /// ```
    #[must_use]
    pub fn class(&self, number: u32) -> Option<Class<'_>> {
        Class::of(&self.words, number)
    }

    /// The class of that name.
    ///
    /// ```
    /// # use lgt_linker::*;
    /// let set = ClassSet::read(&std::fs::read("../../examples/card/classes.bin").unwrap())?;
    /// assert_eq!(set.class_named("VipCard").unwrap().number(), 2);
    /// assert!(set.class_named("Vip").is_none());
    /// # Ok::<(), Refusal>(())
    /// ```
    #[must_use]
    pub fn class_named(&self, name: &str) -> Option<Class<'_>> {
        self.classes().find(|class| class.name() == name)
    }

    /// All classes, in the order of the numbers.
    ///
    /// ```
    /// # use lgt_linker::*;
    /// let set = ClassSet::read(&std::fs::read("../../examples/card/classes.bin").unwrap())?;
    /// assert_eq!(set.classes().map(|class| class.name()).collect::<Vec<_>>(), ["Card", "VipCard"]);
    /// # Ok::<(), Refusal>(())
    /// ```
    pub fn classes(&self) -> impl Iterator<Item = Class<'_>> {
        (1..=self.class_count()).filter_map(|number| self.class(number))
    }

    /// The table of a class that is linked, as its record has it.
    ///
    /// ```
    /// # use lgt_linker::*;
    /// let mut set = ClassSet::read(&std::fs::read("../../examples/card/classes.bin").unwrap())?;
    /// let linked = set.link(&AbiBuilder::new().build().unwrap(), 1, &mut Area::fresh(64), &[9; 8])?;
    /// assert_eq!((set.linked(1), set.linked(2)), (Some(linked), None));
    /// # Ok::<(), Refusal>(())
    /// ```
    #[must_use]
    pub fn linked(&self, class: u32) -> Option<Linked> {
        self.class(class)?.linked()
    }

    /// Links a class; see [`link`]. The set keeps the list of missing slots.
    ///
    /// # Errors
    ///
    /// Refusals 6, 7, 26 and 8 to 15; set and area are then as they were.
    ///
    /// ```
    /// # use lgt_linker::*;
    /// let mut set = ClassSet::read(&std::fs::read("../../examples/card/classes.bin").unwrap())?;
    /// let abi = AbiSheet::read(&std::fs::read("../../examples/card/abi.bin").unwrap())?;
    /// let mut area = Area::fresh(64);
    /// assert_eq!(set.link(&abi, 2, &mut area, &[9; 8]), Err(Refusal::Class)); // its parent comes first
    /// assert_eq!(set.link(&abi, 1, &mut area, &[9; 8]), Ok(Linked { place: 1, slots: 2 }));
    /// # Ok::<(), Refusal>(())
    /// ```
    pub fn link(&mut self, abi: &AbiSheet, class: u32, area: &mut Area, stubs: &[u32]) -> Result<Linked, Refusal> {
        let numbers = self.numbers.for_link(&self.words, &abi.words)?;
        link(&mut self.words, &abi.words, numbers, class, &mut area.words, stubs, &mut self.missing)
    }

    /// Links every class in the order of the numbers, and says what became of each.
    ///
    /// ```
    /// # use lgt_linker::*;
    /// let mut set = ClassSet::read(&std::fs::read("../../examples/refused/classes.bin").unwrap())?;
    /// let abi = AbiSheet::read(&std::fs::read("../../examples/refused/abi.bin").unwrap())?;
    /// let answers = set.link_all(&abi, &mut Area::fresh(64), &[9; 8]);
    /// assert_eq!(answers[2], Err(Refusal::MovedSlot));
    /// # Ok::<(), Refusal>(())
    /// ```
    pub fn link_all(&mut self, abi: &AbiSheet, area: &mut Area, stubs: &[u32]) -> Vec<Result<Linked, Refusal>> {
        (1..=self.class_count()).map(|class| self.link(abi, class, area, stubs)).collect()
    }

    /// How many slots of a linked class hold no real method; see [`missing_slots`].
    ///
    /// # Errors
    ///
    /// Refusal 6: the class is not linked, or there is none of that number.
    ///
    /// ```
    /// # use lgt_linker::*;
    /// let mut set = SetBuilder::new()
    ///     .class(ClassBuilder::new("Card").method("open", "()V", 0).method("close", "()V", 4112))
    ///     .class(ClassBuilder::new("VipCard").extends("Card").method("mark", "()V", 0))
    ///     .build()?;
    /// let abi = AbiBuilder::new().build()?;
    /// set.link_all(&abi, &mut Area::fresh(64), &[9, 8, 7]);
    /// assert_eq!((set.missing_slots(&abi, 1), set.missing_slots(&abi, 2)), (Ok(1), Ok(2))); // open's stub, its copy, mark's stub
    /// assert_eq!(set.missing_indices(2), [0, 2]);
    /// assert_eq!(set.missing_slots(&abi, 3), Err(Refusal::Class));
    /// # Ok::<(), BuildError>(())
    /// ```
    pub fn missing_slots(&self, abi: &AbiSheet, class: u32) -> Result<u32, Refusal> {
        missing_slots(&self.words, &abi.words, &self.missing, class)
    }

    /// The slots of a linked class that its count of missing slots includes, in rising order: the bits of the list. None of a class that is
    /// not linked.
    ///
    /// ```
    /// # use lgt_linker::*;
    /// let mut set = ClassSet::read(&std::fs::read("../../examples/interface/classes.bin").unwrap())?;
    /// set.link(&AbiBuilder::new().build().unwrap(), 1, &mut Area::fresh(64), &[9; 8])?;
    /// assert_eq!((set.missing_indices(1), set.missing_indices(2)), (vec![1], vec![]));
    /// # Ok::<(), Refusal>(())
    /// ```
    #[must_use]
    pub fn missing_indices(&self, class: u32) -> Vec<u32> {
        let slots = self.linked(class).map_or(0, |linked| linked.slots);
        let bits = |slot: u32| self.missing.get(missing::words(class) + missing::BITS + slot as usize / 32);
        (0..slots).filter(|&slot| bits(slot).is_some_and(|word| word >> (slot % 32) & 1 == 1)).collect()
    }

    /// The class's table for an interface; see [`interface_dispatch_table`], also for how long its place may be kept.
    ///
    /// # Errors
    ///
    /// Refusals 6, 7, 16 and 15; the area is then as it was.
    ///
    /// ```
    /// # use lgt_linker::*;
    /// let mut set = ClassSet::read(&std::fs::read("../../examples/mistakes/classes.bin").unwrap())?;
    /// let abi = AbiSheet::read(&std::fs::read("../../examples/mistakes/abi.bin").unwrap())?;
    /// let mut area = Area::fresh(64);
    /// set.link_all(&abi, &mut area, &[9; 8]);
    /// let (door, openable) = (set.class_named("Door").unwrap().number(), set.class_named("Openable").unwrap().number());
    /// // Door has no lock.
    /// assert_eq!(set.interface_dispatch_table(&abi, door, openable, &mut area, &[9; 8]), Err(Refusal::NoImplementation));
    /// # Ok::<(), Refusal>(())
    /// ```
    pub fn interface_dispatch_table(
        &self,
        abi: &AbiSheet,
        class: u32,
        interface: u32,
        area: &mut Area,
        stubs: &[u32],
    ) -> Result<Asked, Refusal> {
        let numbers = self.numbers.for_ask(&self.words, &abi.words)?;
        interface_dispatch_table(&self.words, &abi.words, &numbers, class, interface, &mut area.words, stubs)
    }

    /// The slots of a linked class's table in this area, with the methods that they are of; none of a class that is not linked.
    ///
    /// ```
    /// # use lgt_linker::*;
    /// let mut set = ClassSet::read(&std::fs::read("../../examples/card/classes.bin").unwrap())?;
    /// let abi = AbiSheet::read(&std::fs::read("../../examples/card/abi.bin").unwrap())?;
    /// let mut area = Area::fresh(64);
    /// set.link_all(&abi, &mut area, &[9; 8]);
    /// let close = set.slots(&abi, &area, 2)[1];
    /// assert_eq!((close.target, close.method.unwrap().name), (8192, "close"));
    /// # Ok::<(), Refusal>(())
    /// ```
    #[must_use]
    pub fn slots(&self, abi: &AbiSheet, area: &Area, class: u32) -> Vec<Slot<'_>> {
        let Some(class) = self.class(class) else { return Vec::new() };
        let targets = class.linked().map_or(&[][..], |linked| area.slots(linked));
        (0..).zip(targets).map(|(index, &target)| Slot { index, target, method: known(class, abi, index, target) }).collect()
    }

    /// The slots of an interface table that was asked for: the interface's own methods, and what a call through each runs.
    ///
    /// ```
    /// # use lgt_linker::*;
    /// let mut set = ClassSet::read(&std::fs::read("../../examples/interface/classes.bin").unwrap())?;
    /// let abi = AbiSheet::read(&std::fs::read("../../examples/interface/abi.bin").unwrap())?;
    /// let mut area = Area::fresh(64);
    /// set.link_all(&abi, &mut area, &[9; 8]);
    /// let asked = set.interface_dispatch_table(&abi, 2, 1, &mut area, &[9; 8])?;
    /// let open = set.interface_slots(&abi, &area, 1, asked)[0];
    /// assert_eq!((open.method.unwrap().name, open.target), ("open", 8192)); // Door's
    /// # Ok::<(), Refusal>(())
    /// ```
    #[must_use]
    pub fn interface_slots(&self, abi: &AbiSheet, area: &Area, interface: u32, asked: Asked) -> Vec<Slot<'_>> {
        let mut slots = self.slots(abi, area, interface);
        let targets = area.slots(Linked { place: asked.place, slots: slots.len() as u32 });
        slots.truncate(targets.len());
        for (slot, &target) in slots.iter_mut().zip(targets) {
            slot.target = target;
        }
        slots
    }

    /// The index of the first slot of a linked class's table that is of a method of this name and descriptor, as the emulator's
    /// `virtual_method_index` asks.
    ///
    /// ```
    /// # use lgt_linker::*;
    /// let mut set = ClassSet::read(&std::fs::read("../../examples/card/classes.bin").unwrap())?;
    /// let abi = AbiSheet::read(&std::fs::read("../../examples/card/abi.bin").unwrap())?;
    /// let mut area = Area::fresh(64);
    /// set.link_all(&abi, &mut area, &[9; 8]);
    /// assert_eq!(set.virtual_method_index(&abi, &area, 2, "mark", "()V"), Some(2));
    /// assert_eq!(set.virtual_method_index(&abi, &area, 1, "mark", "()V"), None);
    /// # Ok::<(), Refusal>(())
    /// ```
    #[must_use]
    pub fn virtual_method_index(&self, abi: &AbiSheet, area: &Area, class: u32, name: &str, descriptor: &str) -> Option<u32> {
        let is_it = |method: &Method| method.name == name && method.descriptor == descriptor;
        self.slots(abi, area, class).iter().find(|slot| slot.method.as_ref().is_some_and(is_it)).map(|slot| slot.index)
    }

    /// The word index of the field of this name and descriptor, class first, then its ancestors, as the emulator's `field_word_index`
    /// asks. A runtime field's is above 65,535, which the emulator refuses there.
    ///
    /// ```
    /// # use lgt_linker::*;
    /// let mut set = ClassSet::read(&std::fs::read("../../examples/abi/classes.bin").unwrap())?;
    /// let abi = AbiSheet::read(&std::fs::read("../../examples/abi/abi.bin").unwrap())?;
    /// set.link_all(&abi, &mut Area::fresh(64), &[9; 8]);
    /// assert_eq!(set.field_word_index(2, "size", "J", false), Some(2)); // Base's
    /// assert_eq!(set.field_word_index(2, "colour", "I", false), Some(u32::MAX)); // a runtime field, -1
    /// assert_eq!(set.field_word_index(2, "size", "J", true), None); // it is not static
    /// # Ok::<(), Refusal>(())
    /// ```
    #[must_use]
    pub fn field_word_index(&self, class: u32, name: &str, descriptor: &str, is_static: bool) -> Option<u32> {
        let mut fields = self.class(class)?.chain().flat_map(Class::fields);
        let found = fields.find(|field| field.name == name && field.descriptor == descriptor && field.is_static() == is_static);
        found.map(|field| field.word_index)
    }

    /// The static words of a class, [as its record has them](Class::static_words): what to allocate for its static fields, once it is
    /// linked. None where there is no class of that number.
    ///
    /// ```
    /// # use lgt_linker::*;
    /// let mut set = ClassSet::read(&std::fs::read("../../examples/interface/classes.bin").unwrap())?;
    /// let abi = AbiSheet::read(&std::fs::read("../../examples/interface/abi.bin").unwrap())?;
    /// assert_eq!(set.static_words(2), Some(0));
    /// set.link(&abi, 2, &mut Area::fresh(64), &[9; 8])?;
    /// assert_eq!(set.static_words(2), Some(1)); // Door: a static I
    /// assert_eq!(set.static_words(0), None);
    /// # Ok::<(), Refusal>(())
    /// ```
    #[must_use]
    pub fn static_words(&self, class: u32) -> Option<u32> {
        Some(self.class(class)?.static_words())
    }

    /// The instance words of a linked class that hold references, by its instance reference bitmap: [`reference_words`] with as many words
    /// as the class's record says. The bitmap is the caller's, as a set holds none.
    ///
    /// # Errors
    ///
    /// Refusal 6: there is no class of that number. Refusal 24: the bitmap has fewer bytes than the words take.
    ///
    /// ```
    /// # use lgt_linker::*;
    /// let class = ClassBuilder::new("Made").kind(Kind::Generated).instance_words(9);
    /// let mut set = SetBuilder::new().class(class).build()?;
    /// set.link(&AbiBuilder::new().build()?, 1, &mut Area::fresh(64), &[9; 8])?;
    /// assert_eq!(set.reference_words(1, &[0xA1, 0xFF]), Ok(vec![0, 2, 7, 8])); // 7 of the last byte's bits are beyond the words
    /// assert_eq!(set.reference_words(1, &[0xA1]), Err(Refusal::BitmapBytes));
    /// assert_eq!(set.reference_words(2, &[0xA1]), Err(Refusal::Class));
    /// # Ok::<(), BuildError>(())
    /// ```
    pub fn reference_words(&self, class: u32, bitmap: &[u8]) -> Result<Vec<u32>, Refusal> {
        reference_words(bitmap, self.class(class).ok_or(Refusal::Class)?.instance_words())
    }
}

/// Reading (`docs/SPECIFICATION.md`, section 9): the first method of the chain with the slot's word for its target; failing that, of the
/// first chain class whose ABI entry fixes the index and which itself has a method of the row's signature, that method.
fn known<'a>(class: Class<'a>, abi: &AbiSheet, index: u32, target: u32) -> Option<Method<'a>> {
    let fixed = |class: Class<'a>| {
        let row = abi.class_named(class.name())?.slots().find(|row| row.index == index)?;
        class.methods().find(|method| method.name == row.name && method.descriptor == row.descriptor)
    };
    class.chain().flat_map(Class::methods).find(|method| method.target == target).or_else(|| class.chain().find_map(fixed))
}

impl AbiSheet {
    /// Reads an ABI sheet.
    ///
    /// # Errors
    ///
    /// Refusals 1 to 5; see [`read_abi_sheet`].
    ///
    /// ```
    /// # use lgt_linker::*;
    /// let abi = AbiSheet::read(&std::fs::read("../../examples/abi/abi.bin").unwrap())?;
    /// assert_eq!(abi.classes().count(), 2);
    /// # Ok::<(), Refusal>(())
    /// ```
    pub fn read(bytes: &[u8]) -> Result<AbiSheet, Refusal> {
        let mut words = vec![0; ABI_WORDS];
        read_abi_sheet(bytes, &mut words)?;
        Ok(AbiSheet { words: words.into() })
    }

    /// An ABI sheet of words in its layout, as [`words`](AbiSheet::words) gives them.
    ///
    /// # Errors
    ///
    /// Refusals 3 to 5, as the library judges the words in every link.
    ///
    /// ```
    /// # use lgt_linker::*;
    /// let abi = AbiSheet::read(&std::fs::read("../../examples/abi/abi.bin").unwrap())?;
    /// assert_eq!(AbiSheet::from_words(abi.words())?, abi);
    /// assert_eq!(AbiSheet::from_words(&[]), Err(Refusal::SheetCounts));
    /// # Ok::<(), Refusal>(())
    /// ```
    pub fn from_words(words: &[u32]) -> Result<AbiSheet, Refusal> {
        number_signatures(&[0; set::COUNTS], words, &mut [0; NUMBERS])?;
        Ok(AbiSheet { words: owned(words, ABI_WORDS).into() })
    }

    /// The ABI words, in the sheet's layout.
    ///
    /// ```
    /// # use lgt_linker::*;
    /// let abi = AbiSheet::read(&std::fs::read("../../examples/abi/abi.bin").unwrap())?;
    /// assert_eq!(abi.words()[layout::abi::SLOTS], 2);
    /// # Ok::<(), Refusal>(())
    /// ```
    #[must_use]
    pub fn words(&self) -> &[u32] {
        &self.words
    }

    /// All ABI classes, in order.
    ///
    /// ```
    /// # use lgt_linker::*;
    /// let abi = AbiSheet::read(&std::fs::read("../../examples/abi/abi.bin").unwrap())?;
    /// assert_eq!(abi.classes().map(|class| class.name()).collect::<Vec<_>>(), ["Base", "View"]);
    /// # Ok::<(), Refusal>(())
    /// ```
    pub fn classes(&self) -> impl Iterator<Item = AbiClass<'_>> {
        AbiClass::all(&self.words)
    }

    /// The ABI class that counts for a class of that name: the first.
    ///
    /// ```
    /// # use lgt_linker::*;
    /// let abi = AbiSheet::read(&std::fs::read("../../examples/abi/abi.bin").unwrap())?;
    /// assert!(abi.class_named("View").is_some() && abi.class_named("Card").is_none());
    /// # Ok::<(), Refusal>(())
    /// ```
    #[must_use]
    pub fn class_named(&self, name: &str) -> Option<AbiClass<'_>> {
        self.classes().find(|class| class.name() == name)
    }
}

impl Area {
    /// A fresh area: word 0, the next free place, is 1.
    ///
    /// ```
    /// assert_eq!(lgt_linker::Area::fresh(3).words(), [1, 0, 0]);
    /// ```
    #[must_use]
    pub fn fresh(words: usize) -> Area {
        let mut words = vec![0; words];
        if let Some(next) = words.first_mut() {
            *next = 1;
        }
        Area { words }
    }

    /// An area of these words, as earlier calls left them. Each call judges them (row 7).
    ///
    /// ```
    /// # use lgt_linker::*;
    /// let area = Area::fresh(64);
    /// assert_eq!(Area::from_words(area.clone().into_words()), area);
    /// ```
    #[must_use]
    pub fn from_words(words: Vec<u32>) -> Area {
        Area { words }
    }

    /// The area's words; word 0 is the next free place.
    ///
    /// ```
    /// assert_eq!(lgt_linker::Area::fresh(64).words().len(), 64);
    /// ```
    #[must_use]
    pub fn words(&self) -> &[u32] {
        &self.words
    }

    /// The area's words, given away.
    ///
    /// ```
    /// assert_eq!(lgt_linker::Area::fresh(2).into_words(), [1, 0]);
    /// ```
    #[must_use]
    pub fn into_words(self) -> Vec<u32> {
        self.words
    }

    /// The slot words of a table that a link has put here; none where this is another area.
    ///
    /// ```
    /// # use lgt_linker::*;
    /// let mut set = ClassSet::read(&std::fs::read("../../examples/card/classes.bin").unwrap())?;
    /// let mut area = Area::fresh(64);
    /// let card = set.link(&AbiBuilder::new().build().unwrap(), 1, &mut area, &[9; 8])?;
    /// assert_eq!(area.slots(card), [4096, 4112]);
    /// # Ok::<(), Refusal>(())
    /// ```
    #[must_use]
    pub fn slots(&self, linked: Linked) -> &[u32] {
        let start = linked.place as usize + 1;
        self.words.get(start..start + linked.slots as usize).unwrap_or_default()
    }
}

impl fmt::Debug for ClassSet {
    fn fmt(&self, f: &mut fmt::Formatter<'_>) -> fmt::Result {
        f.debug_struct("ClassSet").field("classes", &self.class_count()).finish_non_exhaustive()
    }
}

impl fmt::Debug for AbiSheet {
    fn fmt(&self, f: &mut fmt::Formatter<'_>) -> fmt::Result {
        f.debug_struct("AbiSheet").field("classes", &self.words[abi::CLASSES]).finish_non_exhaustive()
    }
}

impl fmt::Debug for Area {
    fn fmt(&self, f: &mut fmt::Formatter<'_>) -> fmt::Result {
        f.debug_struct("Area").field("words", &self.words.len()).field("next_free", &self.words.first()).finish_non_exhaustive()
    }
}
