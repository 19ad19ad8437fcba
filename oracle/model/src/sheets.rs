//! The words of both sheets, read by name.

use super::numbers::FIRST_SLOT;

/// Class sheet: "six counts (classes ≤ 64, methods ≤ 512, fields ≤ 512, interface words ≤
/// 256, compiler words ≤ 2,048, text bytes ≤ 8,192), then those sections".
pub const CLASS_LIMITS: [u32; 6] = [64, 512, 512, 256, 2048, 8192];
/// ABI sheet: "four counts (classes ≤ 64, slots ≤ 512, fields ≤ 256, text bytes ≤ 8,192)".
pub const ABI_LIMITS: [u32; 4] = [64, 512, 256, 8192];

/// "Class record, 18 words"
pub const CLASS_WORDS: usize = 18;
/// "Method and field records, 6 words"
pub const MEMBER_WORDS: usize = 6;
/// "Class, 8 words"
pub const ABI_CLASS_WORDS: usize = 8;
/// "Slot or field, 5 words"
pub const ABI_RECORD_WORDS: usize = 5;

/// "name start, name length, parent number (0 none), access flags, kind (0 built, 1
/// generated, 2 array)", with kind 3 added, "first method, method count, first field, field count, first
/// interface word, interface count, link state, instance words, compiler table (0 none,
/// else first word counted from 1), compiler slots, table place (0 unlinked), slot count,
/// static words"
pub mod record {
    pub const FIRST_METHOD: usize = 5;
    pub const METHOD_COUNT: usize = 6;
    pub const FIRST_FIELD: usize = 7;
    pub const FIELD_COUNT: usize = 8;
    pub const INSTANCE_WORDS: usize = 12;
    pub const PLACE: usize = 15;
    pub const SLOTS: usize = 16;
    pub const STATIC_WORDS: usize = 17;
}

pub const BUILT: u32 = 0;
pub const GENERATED: u32 = 1;
pub const ARRAY: u32 = 2;
/// "Add class kind 3 ...: a built class, not an interface, linked by JVMS 5.4.5, in all else as kind 0."
pub const PACKAGED: u32 = 3;

pub const PUBLIC: u32 = 0x0001;
pub const PRIVATE: u32 = 0x0002;
pub const PROTECTED: u32 = 0x0004;
pub const STATIC: u32 = 0x0008;
pub const ABSTRACT: u32 = 0x0400;
pub const INTERFACE: u32 = 0x0200;

/// One class record's words.
#[derive(Clone, Copy)]
pub struct Class {
    pub name_start: u32,
    pub name_length: u32,
    pub parent: u32,
    pub flags: u32,
    pub kind: u32,
    pub first_method: u32,
    pub method_count: u32,
    pub first_field: u32,
    pub field_count: u32,
    pub first_interface: u32,
    pub interface_count: u32,
    pub link_state: u32,
    pub instance_words: u32,
    pub compiler_table: u32,
    pub compiler_slots: u32,
    pub place: u32,
    pub slots: u32,
    pub static_words: u32,
}

/// One method or field record's words: "name start and length, descriptor start and length,
/// flags, then target or word index".
#[derive(Clone, Copy)]
pub struct Member {
    pub name_start: u32,
    pub name_length: u32,
    pub descriptor_start: u32,
    pub descriptor_length: u32,
    pub flags: u32,
    pub last: u32,
}

/// A method as the tables see it: its signature as parts of a text, its flags, its target, the class whose list holds it, and its
/// signature's number. "Slots are matched by these numbers."
#[derive(Clone, Copy, PartialEq, Eq)]
pub struct Method<'a> {
    pub name: &'a [u8],
    pub descriptor: &'a [u8],
    pub flags: u32,
    pub target: u32,
    pub owner: u32,
    pub number: u32,
}

/// A field as the numbering sees it.
#[derive(Clone, Copy)]
pub struct Field<'a> {
    pub name: &'a [u8],
    pub descriptor: &'a [u8],
    pub flags: u32,
    pub index: u32,
}

impl Field<'_> {
    pub fn is_static(&self) -> bool {
        self.flags & STATIC != 0
    }
}

/// The class words of a call, whose counts and content fit (row 3), and the list of the signatures' numbers; a call that compares no
/// signatures has none.
#[derive(Clone, Copy)]
pub struct ClassSheet<'a> {
    pub words: &'a [u32],
    pub text: &'a [u8],
    pub numbers: &'a [u32],
}

impl<'a> ClassSheet<'a> {
    pub fn unnumbered(words: &'a [u32], text: &'a [u8]) -> Self {
        Self { words, text, numbers: &[] }
    }

    pub fn class_count(&self) -> u32 {
        self.words[0]
    }

    pub fn method_count(&self) -> u32 {
        self.words[1]
    }

    pub fn field_count(&self) -> u32 {
        self.words[2]
    }

    pub fn class_at(class: u32) -> usize {
        6 + (class as usize - 1) * CLASS_WORDS
    }

    pub fn method_at(&self, method: u32) -> usize {
        6 + self.words[0] as usize * CLASS_WORDS + method as usize * MEMBER_WORDS
    }

    pub fn field_at(&self, field: u32) -> usize {
        self.method_at(self.words[1]) + field as usize * MEMBER_WORDS
    }

    /// Class `class`, numbered from 1.
    pub fn class(&self, class: u32) -> Class {
        let at = Self::class_at(class);
        let [
            name_start,
            name_length,
            parent,
            flags,
            kind,
            first_method,
            method_count,
            first_field,
            field_count,
            first_interface,
            interface_count,
            link_state,
            instance_words,
            compiler_table,
            compiler_slots,
            place,
            slots,
            static_words,
        ] = self.words[at..at + CLASS_WORDS].try_into().unwrap();
        Class {
            name_start,
            name_length,
            parent,
            flags,
            kind,
            first_method,
            method_count,
            first_field,
            field_count,
            first_interface,
            interface_count,
            link_state,
            instance_words,
            compiler_table,
            compiler_slots,
            place,
            slots,
            static_words,
        }
    }

    pub fn classes(&self) -> impl Iterator<Item = Class> {
        (1..=self.class_count()).map(|class| self.class(class))
    }

    pub fn methods(&self) -> impl Iterator<Item = Member> {
        (0..self.method_count()).map(|method| member(self.words, self.method_at(method)))
    }

    pub fn fields(&self) -> impl Iterator<Item = Member> {
        (0..self.field_count()).map(|field| member(self.words, self.field_at(field)))
    }

    pub fn interface_words(&self) -> &'a [u32] {
        let at = self.field_at(self.words[2]);
        &self.words[at..at + self.words[3] as usize]
    }

    pub fn compiler_words(&self) -> &'a [u32] {
        let at = self.field_at(self.words[2]) + self.words[3] as usize;
        &self.words[at..at + self.words[4] as usize]
    }

    /// "A name is handed on as its part of the text."
    pub fn part(&self, start: u32, length: u32) -> &'a [u8] {
        &self.text[start as usize..][..length as usize]
    }

    pub fn name(&self, class: u32) -> &'a [u8] {
        let class = self.class(class);
        self.part(class.name_start, class.name_length)
    }

    pub fn is_linked(&self, class: u32) -> bool {
        self.class(class).place != 0
    }

    /// "A method belongs to the class whose list holds it".
    pub fn methods_of(&self, class: u32) -> impl Iterator<Item = Method<'a>> + use<'a> {
        let sheet = *self;
        let record = self.class(class);
        (record.first_method..record.first_method + record.method_count).map(move |method| {
            let member = member(sheet.words, sheet.method_at(method));
            Method {
                name: sheet.part(member.name_start, member.name_length),
                descriptor: sheet.part(member.descriptor_start, member.descriptor_length),
                flags: member.flags,
                target: member.last,
                owner: class,
                number: sheet.numbers[method as usize],
            }
        })
    }

    pub fn fields_of(&self, class: u32) -> impl Iterator<Item = Field<'a>> + use<'a> {
        let sheet = *self;
        let record = self.class(class);
        (record.first_field..record.first_field + record.field_count).map(move |field| {
            let member = member(sheet.words, sheet.field_at(field));
            Field {
                name: sheet.part(member.name_start, member.name_length),
                descriptor: sheet.part(member.descriptor_start, member.descriptor_length),
                flags: member.flags,
                index: member.last,
            }
        })
    }

    pub fn interfaces_of(&self, class: u32) -> &'a [u32] {
        let record = self.class(class);
        &self.interface_words()[record.first_interface as usize..][..record.interface_count as usize]
    }

    /// The compiler table of a class that has one: "0 none, else first word counted from 1".
    pub fn compiler_table_of(&self, class: u32) -> Option<&'a [u32]> {
        let record = self.class(class);
        let first = record.compiler_table.checked_sub(1)?;
        Some(&self.compiler_words()[first as usize..][..record.compiler_slots as usize])
    }

    /// The class and its ancestors, class first; parents' numbers fall.
    pub fn chain(&self, class: u32) -> Vec<u32> {
        std::iter::successors((class != 0).then_some(class), |&class| {
            let parent = self.class(class).parent;
            (parent != 0).then_some(parent)
        })
        .collect()
    }
}

fn member(words: &[u32], at: usize) -> Member {
    let [name_start, name_length, descriptor_start, descriptor_length, flags, last] = words[at..at + MEMBER_WORDS].try_into().unwrap();
    Member { name_start, name_length, descriptor_start, descriptor_length, flags, last }
}

/// An ABI class: "name start and length, table size plus 1 (0 none), instance words plus 1
/// (0 none), first slot and count, first field and count".
#[derive(Clone, Copy)]
pub struct AbiClass {
    pub name_start: u32,
    pub name_length: u32,
    pub size_plus_1: u32,
    pub instance_words_plus_1: u32,
    pub first_slot: u32,
    pub slot_count: u32,
    pub first_field: u32,
    pub field_count: u32,
}

impl AbiClass {
    pub fn table_size(&self) -> Option<u32> {
        self.size_plus_1.checked_sub(1)
    }

    pub fn instance_words(&self) -> Option<u32> {
        self.instance_words_plus_1.checked_sub(1)
    }
}

/// An ABI slot or field: "name, descriptor, index"; of a slot its signature's number, of a field 0.
#[derive(Clone, Copy)]
pub struct AbiRecord<'a> {
    pub name: &'a [u8],
    pub descriptor: &'a [u8],
    pub index: u32,
    pub number: u32,
}

/// The ABI words of a call, whose counts and content fit (row 3), and the list of the signatures' numbers likewise.
#[derive(Clone, Copy)]
pub struct AbiSheet<'a> {
    pub words: &'a [u32],
    pub text: &'a [u8],
    pub numbers: &'a [u32],
}

impl<'a> AbiSheet<'a> {
    pub fn unnumbered(words: &'a [u32], text: &'a [u8]) -> Self {
        Self { words, text, numbers: &[] }
    }

    pub fn class_count(&self) -> u32 {
        self.words[0]
    }

    pub fn slot_at(&self, slot: u32) -> usize {
        4 + self.words[0] as usize * ABI_CLASS_WORDS + slot as usize * ABI_RECORD_WORDS
    }

    pub fn field_at(&self, field: u32) -> usize {
        self.slot_at(self.words[1]) + field as usize * ABI_RECORD_WORDS
    }

    pub fn class(&self, position: u32) -> AbiClass {
        let at = 4 + position as usize * ABI_CLASS_WORDS;
        let [name_start, name_length, size_plus_1, instance_words_plus_1, first_slot, slot_count, first_field, field_count] =
            self.words[at..at + ABI_CLASS_WORDS].try_into().unwrap();
        AbiClass { name_start, name_length, size_plus_1, instance_words_plus_1, first_slot, slot_count, first_field, field_count }
    }

    pub fn classes(&self) -> impl Iterator<Item = AbiClass> {
        (0..self.class_count()).map(|position| self.class(position))
    }

    pub fn part(&self, start: u32, length: u32) -> &'a [u8] {
        &self.text[start as usize..][..length as usize]
    }

    /// "The first ABI class of a name ... counts."
    pub fn class_named(&self, name: &[u8]) -> Option<AbiClass> {
        self.classes().find(|class| self.part(class.name_start, class.name_length) == name)
    }

    pub fn slots_of(&self, class: AbiClass) -> impl Iterator<Item = AbiRecord<'a>> + use<'a> {
        let sheet = *self;
        let slot = move |slot| AbiRecord { number: sheet.numbers[FIRST_SLOT + slot as usize], ..sheet.record(sheet.slot_at(slot)) };
        (class.first_slot..class.first_slot + class.slot_count).map(slot)
    }

    pub fn slots(&self) -> impl Iterator<Item = AbiRecord<'a>> + use<'a> {
        let sheet = *self;
        (0..self.words[1]).map(move |slot| sheet.record(sheet.slot_at(slot)))
    }

    pub fn fields_of(&self, class: AbiClass) -> impl Iterator<Item = AbiRecord<'a>> + use<'a> {
        let sheet = *self;
        (class.first_field..class.first_field + class.field_count).map(move |field| sheet.record(sheet.field_at(field)))
    }

    fn record(&self, at: usize) -> AbiRecord<'a> {
        let [name_start, name_length, descriptor_start, descriptor_length, index] =
            self.words[at..at + ABI_RECORD_WORDS].try_into().unwrap();
        AbiRecord { name: self.part(name_start, name_length), descriptor: self.part(descriptor_start, descriptor_length), index, number: 0 }
    }
}

/// The words that the counts ask for, if the counts are there and within their limits.
fn content<const N: usize>(words: &[u32], limits: [u32; N], widths: [usize; N]) -> Option<usize> {
    let counts: &[u32; N] = words.first_chunk()?;
    if counts.iter().zip(limits).any(|(count, limit)| *count > limit) {
        return None;
    }
    let text_words = counts[N - 1].div_ceil(4) as usize;
    Some(N + counts.iter().zip(widths).map(|(count, width)| *count as usize * width).sum::<usize>() + text_words)
}

/// The length of a class sheet's content, if no count is above its limit.
pub fn class_content(words: &[u32]) -> Option<usize> {
    content_by(CLASS_WORDS, words)
}

/// The same of class records of so many words.
pub fn content_by(width: usize, words: &[u32]) -> Option<usize> {
    content(words, CLASS_LIMITS, [width, MEMBER_WORDS, MEMBER_WORDS, 1, 1, 0])
}

/// The length of an ABI sheet's content, if no count is above its limit.
pub fn abi_content(words: &[u32]) -> Option<usize> {
    content(words, ABI_LIMITS, [ABI_CLASS_WORDS, ABI_RECORD_WORDS, ABI_RECORD_WORDS, 0])
}

/// "text is four bytes a word, lowest byte first"
pub fn unpack(words: &[u32], bytes: u32) -> Vec<u8> {
    words.iter().flat_map(|word| word.to_le_bytes()).take(bytes as usize).collect()
}

/// The same in the other direction; zeros fill the last word.
pub fn pack(bytes: &[u8]) -> Vec<u32> {
    let word = |bytes: &[u8]| {
        let mut word = [0; 4];
        word[..bytes.len()].copy_from_slice(bytes);
        u32::from_le_bytes(word)
    };
    bytes.chunks(4).map(word).collect()
}

/// The text bytes of class words that pass row 3.
pub fn text_of_class_words(words: &[u32]) -> Vec<u8> {
    let content = class_content(words).expect("row 3 holds");
    unpack(&words[content - words[5].div_ceil(4) as usize..content], words[5])
}

/// The text bytes of ABI words that pass row 3.
pub fn text_of_abi_words(words: &[u32]) -> Vec<u8> {
    let content = abi_content(words).expect("row 3 holds");
    unpack(&words[content - words[3].div_ceil(4) as usize..content], words[3])
}
