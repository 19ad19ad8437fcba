//! Both sheets as sections of records, read from words and laid back into words. The oracle
//! and the generator use this form; the model has its own.

use std::ops::Range;

/// The words of a class record, and of one made before there were static words.
pub const CLASS_WORDS: usize = 18;
pub const OLD_CLASS_WORDS: usize = 17;

/// A class record, word by word.
#[derive(Clone, Copy, Debug, PartialEq, Eq)]
pub struct ClassRecord(pub [u32; CLASS_WORDS]);

/// Names of a class record's words.
pub mod class_word {
    pub const NAME: usize = 0;
    pub const PARENT: usize = 2;
    pub const FLAGS: usize = 3;
    pub const KIND: usize = 4;
    pub const METHODS: usize = 5;
    pub const FIELDS: usize = 7;
    pub const INTERFACES: usize = 9;
    pub const LINK_STATE: usize = 11;
    pub const INSTANCE_WORDS: usize = 12;
    pub const COMPILER: usize = 13;
    pub const PLACE: usize = 15;
    pub const SLOTS: usize = 16;
    pub const STATIC_WORDS: usize = 17;
}

impl ClassRecord {
    pub fn get(&self, word: usize) -> u32 {
        self.0[word]
    }

    /// The list or part whose first and count are words `word` and `word + 1`.
    pub fn span(&self, word: usize) -> (u32, u32) {
        (self.0[word], self.0[word + 1])
    }

    /// The same as a range of positions; only for spans that lie inside their section.
    pub fn range(&self, word: usize) -> Range<usize> {
        range(self.span(word))
    }

    pub fn is_linked(&self) -> bool {
        self.get(class_word::PLACE) != 0
    }

    /// Whether linking has not written it: no table place, no slot count, and no static words but a generated class's own. Of a kind that
    /// there is not, nothing is asked of the static words.
    pub fn is_untouched(&self) -> bool {
        let is_counted = matches!(self.get(class_word::KIND), 0 | 2 | 3) && self.get(class_word::STATIC_WORDS) != 0;
        self.span(class_word::PLACE) == (0, 0) && !is_counted
    }
}

/// The index of a word of class `number`'s record in class words.
pub fn class_word_at(number: u32, word: usize) -> usize {
    6 + CLASS_WORDS * (number as usize - 1) + word
}

/// A method or field record: name, descriptor, flags, target or index.
#[derive(Clone, Copy, Debug, PartialEq, Eq)]
pub struct MemberRecord {
    pub name: (u32, u32),
    pub descriptor: (u32, u32),
    pub flags: u32,
    pub last: u32,
}

/// An ABI slot or field record.
#[derive(Clone, Copy, Debug, PartialEq, Eq)]
pub struct AbiMember {
    pub name: (u32, u32),
    pub descriptor: (u32, u32),
    pub index: u32,
}

/// An ABI class record: name, size and words plus 1, slot list, field list.
#[derive(Clone, Copy, Debug, PartialEq, Eq)]
pub struct AbiClassRecord {
    pub name: (u32, u32),
    pub size_plus_1: u32,
    pub words_plus_1: u32,
    pub slots: (u32, u32),
    pub fields: (u32, u32),
}

/// A class set's sections.
#[derive(Clone, Debug, Default, PartialEq, Eq)]
pub struct Set {
    pub classes: Vec<ClassRecord>,
    pub methods: Vec<MemberRecord>,
    pub fields: Vec<MemberRecord>,
    pub interfaces: Vec<u32>,
    pub compiler: Vec<u32>,
    pub text: Vec<u8>,
}

/// An ABI sheet's sections.
#[derive(Clone, Debug, Default, PartialEq, Eq)]
pub struct Abi {
    pub classes: Vec<AbiClassRecord>,
    pub slots: Vec<AbiMember>,
    pub fields: Vec<AbiMember>,
    pub text: Vec<u8>,
}

pub fn range((first, count): (u32, u32)) -> Range<usize> {
    first as usize..first as usize + count as usize
}

/// Words taken from the front of a slice.
struct Words<'a>(&'a [u32]);

impl<'a> Words<'a> {
    fn take(&mut self, count: usize) -> Option<&'a [u32]> {
        let (taken, rest) = self.0.split_at_checked(count)?;
        self.0 = rest;
        Some(taken)
    }

    fn counts<const N: usize>(&mut self, limits: [u32; N]) -> Option<[usize; N]> {
        let counts = self.take(N)?;
        let within = counts.iter().zip(limits).all(|(&count, limit)| count <= limit);
        within.then(|| std::array::from_fn(|position| counts[position] as usize))
    }

    fn text(&mut self, bytes: usize) -> Option<Vec<u8>> {
        let mut text = Vec::with_capacity(bytes + 3);
        for word in self.take(bytes.div_ceil(4))? {
            text.extend(word.to_le_bytes());
        }
        text.truncate(bytes);
        Some(text)
    }
}

impl Set {
    /// The sections of class words, unless a count is above its limit or they do not fit.
    pub fn decode(words: &[u32]) -> Option<Self> {
        let mut words = Words(words);
        let [classes, methods, fields, interfaces, compiler, text] = words.counts([64, 512, 512, 256, 2048, 8192])?;
        let member = |record: &[u32]| MemberRecord {
            name: (record[0], record[1]),
            descriptor: (record[2], record[3]),
            flags: record[4],
            last: record[5],
        };
        Some(Self {
            classes: words
                .take(CLASS_WORDS * classes)?
                .chunks_exact(CLASS_WORDS)
                .map(|record| ClassRecord(record.try_into().unwrap()))
                .collect(),
            methods: words.take(6 * methods)?.chunks_exact(6).map(member).collect(),
            fields: words.take(6 * fields)?.chunks_exact(6).map(member).collect(),
            interfaces: words.take(interfaces)?.to_vec(),
            compiler: words.take(compiler)?.to_vec(),
            text: words.text(text)?,
        })
    }

    pub fn encode(&self) -> Vec<u32> {
        let counts =
            [self.classes.len(), self.methods.len(), self.fields.len(), self.interfaces.len(), self.compiler.len(), self.text.len()];
        let mut words: Vec<u32> = counts.iter().map(|&count| count as u32).collect();
        words.extend(self.classes.iter().flat_map(|class| class.0));
        for member in self.methods.iter().chain(&self.fields) {
            words.extend([member.name.0, member.name.1, member.descriptor.0, member.descriptor.1, member.flags, member.last]);
        }
        words.extend(&self.interfaces);
        words.extend(&self.compiler);
        words.extend(packed(&self.text));
        words
    }

    /// The sections of words of the old form, every class with static words 0.
    pub fn decode_old(words: &[u32]) -> Option<Self> {
        let classes = words.first().filter(|&&classes| classes <= 64)?;
        let (front, rest) = words.split_at_checked(6 + OLD_CLASS_WORDS * *classes as usize)?;
        let mut new = front[..6].to_vec();
        for record in front[6..].chunks_exact(OLD_CLASS_WORDS) {
            new.extend(record);
            new.push(0);
        }
        new.extend(rest);
        Self::decode(&new)
    }

    /// The words of the old form, without the static words.
    pub fn encode_old(&self) -> Vec<u32> {
        let mut words = self.encode();
        for number in (1..=self.classes.len() as u32).rev() {
            words.remove(class_word_at(number, class_word::STATIC_WORDS));
        }
        words
    }

    /// Gives each generated class the sum of its static field widths, and leaves the others.
    pub fn bring_static_words(&mut self) {
        for number in 0..self.classes.len() {
            if self.classes[number].get(class_word::KIND) == 1 {
                self.classes[number].0[class_word::STATIC_WORDS] = self.static_words(self.classes[number].span(class_word::FIELDS));
            }
        }
    }

    /// The sum of the widths of the static fields in a list, as far as it lies in its section.
    fn static_words(&self, (first, count): (u32, u32)) -> u32 {
        let fields = self.fields.iter().skip(first as usize).take(count as usize).filter(|field| field.flags & 8 != 0);
        fields.map(|field| if matches!(self.text.get(range(field.descriptor)), Some(b"J" | b"D")) { 2 } else { 1 }).sum()
    }

    /// The number of content words.
    pub fn content(&self) -> usize {
        let records = CLASS_WORDS * self.classes.len() + 6 * self.methods.len() + 6 * self.fields.len();
        6 + records + self.interfaces.len() + self.compiler.len() + self.text.len().div_ceil(4)
    }

    /// Class `number`, from 1.
    pub fn class(&self, number: u32) -> &ClassRecord {
        &self.classes[number as usize - 1]
    }

    pub fn class_mut(&mut self, number: u32) -> &mut ClassRecord {
        &mut self.classes[number as usize - 1]
    }

    pub fn part(&self, part: (u32, u32)) -> &str {
        std::str::from_utf8(&self.text[range(part)]).expect("row 4 admits ASCII alone")
    }

    pub fn name(&self, number: u32) -> &str {
        self.part(self.class(number).span(class_word::NAME))
    }

    pub fn methods_of(&self, number: u32) -> &[MemberRecord] {
        &self.methods[self.class(number).range(class_word::METHODS)]
    }

    pub fn fields_of(&self, number: u32) -> &[MemberRecord] {
        &self.fields[self.class(number).range(class_word::FIELDS)]
    }

    pub fn interfaces_of(&self, number: u32) -> &[u32] {
        &self.interfaces[self.class(number).range(class_word::INTERFACES)]
    }
}

impl Abi {
    /// The sections of ABI words, unless a count is above its limit or they do not fit.
    pub fn decode(words: &[u32]) -> Option<Self> {
        let mut words = Words(words);
        let [classes, slots, fields, text] = words.counts([64, 512, 256, 8192])?;
        let class = |record: &[u32]| AbiClassRecord {
            name: (record[0], record[1]),
            size_plus_1: record[2],
            words_plus_1: record[3],
            slots: (record[4], record[5]),
            fields: (record[6], record[7]),
        };
        let member = |record: &[u32]| AbiMember { name: (record[0], record[1]), descriptor: (record[2], record[3]), index: record[4] };
        Some(Self {
            classes: words.take(8 * classes)?.chunks_exact(8).map(class).collect(),
            slots: words.take(5 * slots)?.chunks_exact(5).map(member).collect(),
            fields: words.take(5 * fields)?.chunks_exact(5).map(member).collect(),
            text: words.text(text)?,
        })
    }

    pub fn encode(&self) -> Vec<u32> {
        let counts = [self.classes.len(), self.slots.len(), self.fields.len(), self.text.len()];
        let mut words: Vec<u32> = counts.iter().map(|&count| count as u32).collect();
        for class in &self.classes {
            words.extend([class.name.0, class.name.1, class.size_plus_1, class.words_plus_1]);
            words.extend([class.slots.0, class.slots.1, class.fields.0, class.fields.1]);
        }
        for member in self.slots.iter().chain(&self.fields) {
            words.extend([member.name.0, member.name.1, member.descriptor.0, member.descriptor.1, member.index]);
        }
        words.extend(packed(&self.text));
        words
    }

    pub fn part(&self, part: (u32, u32)) -> &str {
        std::str::from_utf8(&self.text[range(part)]).expect("row 4 admits ASCII alone")
    }
}

/// Bytes four a word, lowest byte first, the last word filled with zeros.
pub fn packed(bytes: &[u8]) -> Vec<u32> {
    bytes.chunks(4).map(|part| part.iter().rev().fold(0, |word, &byte| word << 8 | u32::from(byte))).collect()
}

/// A word list as blocks of 512 bytes with their checks.
pub fn blocks(content: &[u32]) -> Vec<u8> {
    let mut bytes = Vec::new();
    for (part, number) in content.chunks(127).zip(1u32..) {
        let mut words = part.to_vec();
        words.resize(127, 0);
        words.push(words.iter().fold(number, |sum, word| sum.wrapping_add(*word)));
        bytes.extend(words.iter().flat_map(|word| word.to_le_bytes()));
    }
    bytes
}
