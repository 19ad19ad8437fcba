//! The words of class sheets and ABI sheets: every number of their form, once.
//!
//! A set's words are its counts, then its sections one after the other (`docs/SPECIFICATION.md`, sections 2 to 4). These are the names
//! for who lends slices and reads them; [`ClassSet`](crate::ClassSet) and [`AbiSheet`](crate::AbiSheet) read them for you.
//!
//! ```
//! use lgt_linker::layout::{class, set};
//!
//! let mut words = [0; lgt_linker::CLASS_WORDS];
//! lgt_linker::read_class_sheet(&std::fs::read("../../examples/card/classes.bin").unwrap(), &mut words)?;
//! assert_eq!(words[set::CLASSES], 2);
//! assert_eq!(words[class::record(2) + class::PARENT], 1); // VipCard's parent is class 1, Card
//! # Ok::<(), lgt_linker::Refusal>(())
//! ```

/// Bytes of a block.
pub const BLOCK_BYTES: usize = 512;
/// Words of content in a block; one more is its check, the sum of the others and the block's number, counted from 1.
pub const BLOCK_WORDS: usize = 127;
/// The most blocks of a class sheet.
pub const CLASS_BLOCKS: usize = 92;
/// The most blocks of an ABI sheet.
pub const ABI_BLOCKS: usize = 51;
/// The most slots of a table.
pub const MOST_SLOTS: usize = 1024;
/// Words of a table, or of an interface table's node, beside its slots.
pub const TABLE_EXTRA: usize = 2;

/// The counts of a class set, in the order of the sections that they count; the sections follow them.
pub mod set {
    /// The index of the count of classes.
    pub const CLASSES: usize = 0;
    /// The index of the count of methods.
    pub const METHODS: usize = 1;
    /// The index of the count of fields.
    pub const FIELDS: usize = 2;
    /// The index of the count of interface words.
    pub const INTERFACES: usize = 3;
    /// The index of the count of compiler words.
    pub const COMPILERS: usize = 4;
    /// The index of the count of text bytes, four a word.
    pub const TEXT: usize = 5;
    /// How many counts there are.
    pub const COUNTS: usize = 6;
    /// The words of one element of each section but the text.
    pub const WIDTHS: [usize; COUNTS - 1] = [super::class::WIDTH, super::member::WIDTH, super::member::WIDTH, 1, 1];
    /// The most elements of each section.
    pub const LIMITS: [usize; COUNTS] = [64, 512, 512, 256, 2048, 8192];

    /// Where the text begins in a set's words, whose counts are all there: it is the last section, four bytes a word, lowest first.
    ///
    /// ```
    /// use lgt_linker::{ClassSet, layout::set};
    /// let set = ClassSet::read(&std::fs::read("../../examples/card/classes.bin").unwrap())?;
    /// assert_eq!(set.words()[set::text(set.words())].to_le_bytes(), *b"Card");
    /// # Ok::<(), lgt_linker::Refusal>(())
    /// ```
    #[must_use]
    pub fn text(words: &[u32]) -> usize {
        COUNTS + WIDTHS.iter().zip(words).map(|(width, &count)| width * count as usize).sum::<usize>()
    }
}

/// The words of a class record.
pub mod class {
    /// Where the name starts in the text.
    pub const NAME_START: usize = 0;
    /// The bytes of the name.
    pub const NAME_LENGTH: usize = 1;
    /// The parent's class number, 0 for none.
    pub const PARENT: usize = 2;
    /// Access flags.
    pub const FLAGS: usize = 3;
    /// The kind: 0 built, 1 generated, 2 array, 3 built and linked by packages.
    pub const KIND: usize = 4;
    /// The class's first method; the count of its methods follows.
    pub const FIRST_METHOD: usize = 5;
    /// How many methods it has.
    pub const METHOD_COUNT: usize = 6;
    /// Its first field.
    pub const FIRST_FIELD: usize = 7;
    /// How many fields it has.
    pub const FIELD_COUNT: usize = 8;
    /// Its first interface word.
    pub const FIRST_INTERFACE: usize = 9;
    /// How many interface words it has.
    pub const INTERFACE_COUNT: usize = 10;
    /// The link state; 3 marks classes that the compiler linked.
    pub const LINK_STATE: usize = 11;
    /// How many words an object has.
    pub const INSTANCE_WORDS: usize = 12;
    /// Its compiler table: 0 for none, else its first compiler word counted from 1.
    pub const COMPILER_TABLE: usize = 13;
    /// How many compiler words it has.
    pub const COMPILER_SLOTS: usize = 14;
    /// The place of its table in the area, 0 while it is not linked.
    pub const TABLE_PLACE: usize = 15;
    /// How many slots that table has.
    pub const SLOT_COUNT: usize = 16;
    /// Its static words: 0 in a built or array class until a link counts them; a generated class brings its own.
    pub const STATIC_WORDS: usize = 17;
    /// How many words a class record has. Sheets of 17-word records are another form, and cannot be told from these by their bytes.
    pub const WIDTH: usize = 18;

    /// Where the record of a class begins, which is counted from 1.
    ///
    /// ```
    /// use lgt_linker::layout::class;
    /// assert_eq!([class::record(1), class::record(2)], [6, 6 + class::WIDTH]);
    /// ```
    #[must_use]
    pub const fn record(number: u32) -> usize {
        super::set::COUNTS + WIDTH * (number as usize).saturating_sub(1)
    }
}

/// The words of a method's record and of a field's.
pub mod member {
    /// Where the name starts in the text.
    pub const NAME_START: usize = 0;
    /// The bytes of the name.
    pub const NAME_LENGTH: usize = 1;
    /// Where the descriptor starts in the text.
    pub const DESCRIPTOR_START: usize = 2;
    /// The bytes of the descriptor.
    pub const DESCRIPTOR_LENGTH: usize = 3;
    /// Access flags.
    pub const FLAGS: usize = 4;
    /// A method's target, a field's word index.
    pub const LAST: usize = 5;
    /// How many words the record has.
    pub const WIDTH: usize = 6;
}

/// The counts of an ABI sheet, in the order of its sections.
pub mod abi {
    /// The index of the count of ABI classes.
    pub const CLASSES: usize = 0;
    /// The index of the count of slot rows.
    pub const SLOTS: usize = 1;
    /// The index of the count of field rows.
    pub const FIELDS: usize = 2;
    /// The index of the count of text bytes.
    pub const TEXT: usize = 3;
    /// How many counts there are.
    pub const COUNTS: usize = 4;
    /// The words of one element of each section but the text.
    pub const WIDTHS: [usize; COUNTS - 1] = [super::abi_class::WIDTH, super::abi_row::WIDTH, super::abi_row::WIDTH];
    /// The most elements of each section.
    pub const LIMITS: [usize; COUNTS] = [64, 512, 256, 8192];
}

/// The words of an ABI class's record.
pub mod abi_class {
    /// Where the name starts in the text.
    pub const NAME_START: usize = 0;
    /// The bytes of the name.
    pub const NAME_LENGTH: usize = 1;
    /// The table size plus 1, 0 where none is given.
    pub const TABLE_SIZE_PLUS_1: usize = 2;
    /// The instance words plus 1, 0 where none are given.
    pub const INSTANCE_WORDS_PLUS_1: usize = 3;
    /// Its first slot row.
    pub const FIRST_SLOT: usize = 4;
    /// How many slot rows it has.
    pub const SLOT_COUNT: usize = 5;
    /// Its first field row.
    pub const FIRST_FIELD: usize = 6;
    /// How many field rows it has.
    pub const FIELD_COUNT: usize = 7;
    /// How many words the record has.
    pub const WIDTH: usize = 8;
}

/// The words of a slot row and of a field row.
pub mod abi_row {
    /// Where the name starts in the text.
    pub const NAME_START: usize = 0;
    /// The bytes of the name.
    pub const NAME_LENGTH: usize = 1;
    /// Where the descriptor starts in the text.
    pub const DESCRIPTOR_START: usize = 2;
    /// The bytes of the descriptor.
    pub const DESCRIPTOR_LENGTH: usize = 3;
    /// The fixed index.
    pub const INDEX: usize = 4;
    /// How many words the row has.
    pub const WIDTH: usize = 5;
}

/// The words of a class in a list of missing slots.
pub mod missing {
    /// How many of its slots are missing.
    pub const COUNT: usize = 0;
    /// The first word of the bits, one for each slot, set if it is counted, the first slot's lowest.
    pub const BITS: usize = 1;
    /// How many words a class has.
    pub const WIDTH: usize = BITS + super::MOST_SLOTS / 32;

    /// Where the words of a class begin, which is counted from 1.
    ///
    /// ```
    /// use lgt_linker::layout::missing;
    /// assert_eq!([missing::words(1), missing::words(2)], [0, 33]);
    /// ```
    #[must_use]
    pub const fn words(number: u32) -> usize {
        WIDTH * (number as usize).saturating_sub(1)
    }
}

/// The access flags that linking looks at.
pub mod flags {
    /// Public, which a builder gives where no flags are said.
    pub const PUBLIC: u32 = 0x0001;
    /// A private method has no slot.
    pub const PRIVATE: u32 = 0x0002;
    /// A protected method is overridden from every package.
    pub const PROTECTED: u32 = 0x0004;
    /// A static method has no slot and no receiver, a static field no instance word.
    pub const STATIC: u32 = 0x0008;
    /// Marks an interface.
    pub const INTERFACE: u32 = 0x0200;
    /// An abstract method.
    pub const ABSTRACT: u32 = 0x0400;
}

/// The link state of a class that the compiler linked.
pub const LINKED_BY_COMPILER: u32 = 3;
