//! Why a call was refused.

use core::fmt;

/// Why a call was refused: a row of the specification's table (`docs/REFUSALS.md`).
///
/// `Display` says what is wrong, [`mend`](Refusal::mend) what to do about it. Later versions have further refusals: match with a last
/// arm, or by [`number`](Refusal::number), which stays.
///
/// ```
/// use lgt_linker::{ClassSet, Refusal};
///
/// let refusal = ClassSet::read(b"not a sheet").unwrap_err();
/// assert_eq!(refusal, Refusal::SheetSize);
/// assert_eq!(refusal.number(), 1);
/// println!("{refusal}. {}", refusal.mend());
/// ```
#[derive(Clone, Copy, Debug, PartialEq, Eq, Hash)]
#[non_exhaustive]
pub enum Refusal {
    /// 1: the file's size, or too few words lent
    SheetSize,
    /// 2: a block's check differs
    BlockCheck,
    /// 3: counts, blocks or the words after the content, or a short list of numbers
    SheetCounts,
    /// 4: a record breaks a rule
    Record,
    /// 5: a descriptor
    Descriptor,
    /// 6: the class
    Class,
    /// 7: the table area
    Area,
    /// 26, between 7 and 8: a chain in part of kind 3, or one of kind 3 with an ABI entry or an interface in it
    Packages,
    /// 8: a generated class's own words exceed its total
    GeneratedWords,
    /// 9: a generated class's indices are neither all relative nor all absolute
    GeneratedIndices,
    /// 10: too many instance or runtime words
    InstanceWords,
    /// 11: a fixed index differs from the inherited one
    MovedSlot,
    /// 12: the fixed slot holds another signature
    TakenSlot,
    /// 13: more than 1,024 slots
    SlotCount,
    /// 14: a grown section, or a class file's members, exceed a limit or what was lent
    SectionFull,
    /// 15: stubs, area, class or list words too few
    NoRoom,
    /// 16: an interface method has no implementation
    NoImplementation,
    /// 17: a set that cannot be stored: linked, with static words that linking counts, or with something behind its text
    NotStorable,
    /// 18: too few bytes lent for the sheet
    SheetRoom,
    /// 19: a class is its own ancestor
    Ring,
    /// 20: not a class file of major version 45 to 48
    FileVersion,
    /// 21: a class file that ends early, or goes on after its end
    FileBytes,
    /// 22: a class file's constant pool
    ConstantPool,
    /// 23: static words of a generated class that the old form of class sheets would lose
    LostStatics,
    /// 24: a reference bitmap has too few bytes for its words
    BitmapBytes,
    /// 25: the lent list is shorter than the count of reference words
    ReferenceList,
    /// A number that this version of the crate has no name for, as an archive of a later version may answer; [`Refusal::of`] makes it.
    Unknown(u32),
}

/// A refusal that has a name: its number, what is wrong and what to mend.
struct Row {
    number: u32,
    refusal: Refusal,
    wrong: &'static str,
    mend: &'static str,
}

/// The refusals that have a name. Numbers may be left out: `of` and `number` look for them.
const REFUSALS: &[Row] = &[
    Row {
        number: 1,
        refusal: Refusal::SheetSize,
        wrong: "the sheet's size is not that of 1 to 92 (ABI: 51) whole blocks of 512 bytes, or fewer than 127 words a block were lent",
        mend: "Fetch the file again whole: a sheet is at least one block of 512 bytes, has no part of a block, and at most 92 blocks (class \
         sheet) or 51 (ABI sheet). A caller lends at least 127 words for each block.",
    },
    Row {
        number: 2,
        refusal: Refusal::BlockCheck,
        wrong: "a block's check word does not fit its content: the file was damaged or changed",
        mend: "The file was damaged or changed by hand, as a block's check word does not fit its content: fetch it again, or make it again \
         from its text form.",
    },
    Row {
        number: 3,
        refusal: Refusal::SheetCounts,
        wrong: "a count is above its limit, the content does not fit, something follows it that should be zero, a class holds what only \
         a link writes, or the list of numbers is too short",
        mend: "Keep the counts within their limits and the file as short as its content allows, with zeros after the content, and store \
         only an unlinked set: every table place and slot count 0, and the static words of every built or array class. A link, an \
         interface table or a write asks, of each sheet, only that its counts keep their limits and that the lent words hold all \
         of its content: lend as many words as the counts and their sections take. A filling of the list of numbers asks the same \
         of both sheets. A filling, a link and an interface table ask for a list of 1,024 words. A renumbering asks the same of the \
         class sheet, and every table place and slot count 0, and those static words.",
    },
    Row {
        number: 4,
        refusal: Refusal::Record,
        wrong: "a record breaks a rule: a list or name outside its section, a name used twice, a parent after its child, or a number above \
         its limit",
        mend: "Mend the record named: lists and text parts lie inside their sections, two classes share no method or field record, \
         names and descriptors have 1 to 255 bytes from 0x21 to 0x7E, a parent comes before its child (`tools/sheet order` puts \
         parents first), an interface is a class of the sheet, no two classes have one name, and each flag, kind, size and index \
         keeps its limit. A renumbering asks of all this only that each parent number and each interface word is that of a class \
         of the sheet (a parent may be 0).",
    },
    Row {
        number: 5,
        refusal: Refusal::Descriptor,
        wrong: "a descriptor is not one of the JVM Specification's, or a method has more than 255 words of arguments",
        mend: "Write the descriptor as the JVM Specification has it: a field's is one type such as `I`, `[J` or `Ljava/lang/String;`; a \
         method's is its parameters in parentheses and then its result, such as `(IJ)V`. A method has at most 255 words of arguments, \
         two for each J and D and one for the receiver unless it is static; a slot of the ABI sheet counts as an instance method.",
    },
    Row {
        number: 6,
        refusal: Refusal::Class,
        wrong: "no such class, already linked, its parent not linked yet, or an array class with members or another parent than \
         java/lang/Object; for an interface table, one of the two is not linked; for a count of missing slots, the class is not",
        mend: "Ask for a class that is in the set, from 1 to the number of classes, and not yet linked; link its parent first. An array \
         class has no methods or fields and the parent `java/lang/Object`. For an interface table, link both classes first; for a count \
         of missing slots, the class.",
    },
    Row {
        number: 7,
        refusal: Refusal::Area,
        wrong: "the area is not as a call left it: word 0, a linked table's end or a list of nodes does not fit",
        mend: "Lend the area as the last call left it, or a fresh one: word 0 holds the next free place (1 in a fresh area), which is at \
         most the area's length; no linked table and no node of the class's list reaches past it, and the list has at most 64 nodes.",
    },
    Row {
        number: 26,
        refusal: Refusal::Packages,
        wrong: "a class of kind 3 has an ABI entry, an interface or another kind in its chain, or a class of another kind has kind 3 above it",
        mend: "A class of kind 3 is linked by the packages of the JVM Specification, and so must be all its ancestors: give the whole chain \
         kind 3, with no interface and no ABI entry among them, or none of it.",
    },
    Row {
        number: 8,
        refusal: Refusal::GeneratedWords,
        wrong: "a generated class's own instance words exceed its total",
        mend: "A generated class says too few instance words: raise its total to at least the words that its own instance fields take.",
    },
    Row {
        number: 9,
        refusal: Refusal::GeneratedIndices,
        wrong: "a generated class's field indices are neither all relative nor all absolute",
        mend: "A generated class's instance fields must all count from 0 (relative) or all from the end of the inherited words (absolute): \
         mend the field indices that do not fit the others.",
    },
    Row {
        number: 10,
        refusal: Refusal::InstanceWords,
        wrong: "the class would have more than 65,535 instance words, or its chain more than 65,535 runtime words",
        mend: "The class would have more than 65,535 instance words, or its chain more than 65,535 runtime words: take fields out of the \
         class or its ancestors.",
    },
    Row {
        number: 11,
        refusal: Refusal::MovedSlot,
        wrong: "the ABI fixes another index for a method than the one that the class inherits",
        mend: "The ABI sheet fixes another index for this method than the one that the class inherits, or the class inherits it behind \
         the fixed slots, where another signature holds the index: give both the same index, or drop the ABI entry.",
    },
    Row {
        number: 12,
        refusal: Refusal::TakenSlot,
        wrong: "the ABI fixes a slot for a method that another method holds",
        mend: "The ABI sheet fixes for this method a slot that another method already holds: give one of the two another index.",
    },
    Row {
        number: 13,
        refusal: Refusal::SlotCount,
        wrong: "the table would have more than 1,024 slots",
        mend: "The table would have more than 1,024 slots: take methods out of the class or its ancestors, or lower the ABI's indices or \
         table size.",
    },
    Row {
        number: 14,
        refusal: Refusal::SectionFull,
        wrong: "what linking adds, or a class file has, exceeds 512 methods, 512 fields or 8,192 text bytes, or the lists lent for it",
        mend: "The methods, fields or names that linking adds, or that a class file has, do not fit: a set holds at most 512 methods, 512 \
         fields and 8,192 text bytes. Take some out of the set, the ABI sheet or the class. For a class file lend also 6 words a field, 6 \
         words a method, a word for each 4 text bytes, and exactly one target for each method, as `lgt_class_file_head` counts them.",
    },
    Row {
        number: 15,
        refusal: Refusal::NoRoom,
        wrong: "too few stubs, free area words, class words or list words were lent",
        mend: "Lend more memory: a stub word for each slot of the table, free words in the area for the table and two more, class words for \
         the sections that grow, and 33 words of the list of missing slots for each class of the set; for a renumbering, a list word for \
         each class.",
    },
    Row {
        number: 16,
        refusal: Refusal::NoImplementation,
        wrong: "the class has no method that implements one of the interface's",
        mend: "The class has no method that implements one of the interface's methods: declare it, not static and not private, in the class \
         or an ancestor.",
    },
    Row {
        number: 17,
        refusal: Refusal::NotStorable,
        wrong: "a class of the set is linked, a built or array class has static words, or a byte after the text in its last word is not 0",
        mend: "Store the set as it was before its first link, with every table place and slot count 0, and the static words of every built \
         or array class, and with zeros in the bytes that follow the text in its last word.",
    },
    Row {
        number: 18,
        refusal: Refusal::SheetRoom,
        wrong: "fewer bytes were lent than the sheet's blocks take",
        mend: "Lend 512 bytes for each block of the sheet that is written, 127 words of content a block: 47,104 bytes are enough for \
         every sheet. One of 17-word class records can take a block more with 18 words a record.",
    },
    Row {
        number: 19,
        refusal: Refusal::Ring,
        wrong: "a class is its own ancestor",
        mend: "A class is its own ancestor: mend the parent numbers of the classes in the ring, which `tools/sheet order` names, so that \
         each chain of parents ends at a class without one.",
    },
    Row {
        number: 20,
        refusal: Refusal::FileVersion,
        wrong: "the bytes are no class file of major version 45 to 48",
        mend: "This is no class file, or not one of the versions that are read: it begins with the bytes CA FE BA BE, and its major version \
         is 45 to 48. Compile for 1.1 to 1.4.",
    },
    Row {
        number: 21,
        refusal: Refusal::FileBytes,
        wrong: "the class file ends early, or something follows its last attribute",
        mend: "The class file is cut short, or something follows its last attribute: fetch it again whole.",
    },
    Row {
        number: 22,
        refusal: Refusal::ConstantPool,
        wrong: "the class file's constant pool has a wrong tag, or not what the class, its parent or a member refers to",
        mend: "The class file's constant pool does not hold what the class uses: a tag is none of these versions', or the class, its parent, \
         or a member's name or descriptor refers to no constant of its kind. Compile it again.",
    },
    Row {
        number: 23,
        refusal: Refusal::LostStatics,
        wrong: "a generated class has other static words than the sum of its static field widths, which a sheet of 17-word class records \
         cannot say",
        mend: "The old form cannot hold this class's static words: a generated class of a sheet with 17-word class records has the sum \
         of its static field widths, J and D two words and others one. Give it that sum, or keep the sheet in the new form.",
    },
    Row {
        number: 24,
        refusal: Refusal::BitmapBytes,
        wrong: "the reference bitmap has fewer bytes than its instance words take",
        mend: "Lend the whole bitmap, a byte for each 8 instance words.",
    },
    Row {
        number: 25,
        refusal: Refusal::ReferenceList,
        wrong: "the list that was lent is shorter than the count of reference words",
        mend: "Lend a list as long as the count, which `lgt_reference_count` tells.",
    },
];

impl Refusal {
    /// The refusal of a number that a call answered; none for 0, which accepts.
    ///
    /// ```
    /// use lgt_linker::Refusal;
    /// assert_eq!(Refusal::of(0), None);
    /// assert_eq!(Refusal::of(11), Some(Refusal::MovedSlot));
    /// assert_eq!(Refusal::of(4711), Some(Refusal::Unknown(4711)));
    /// ```
    #[must_use]
    pub fn of(number: u32) -> Option<Refusal> {
        match number {
            0 => None,
            _ => Some(REFUSALS.iter().find(|row| row.number == number).map_or(Refusal::Unknown(number), |row| row.refusal)),
        }
    }

    /// The row's number in the table.
    ///
    /// ```
    /// assert_eq!(lgt_linker::Refusal::NoImplementation.number(), 16);
    /// ```
    #[must_use]
    pub fn number(self) -> u32 {
        match self {
            Refusal::Unknown(number) => number,
            _ => self.row().map_or(0, |row| row.number),
        }
    }

    /// What is wrong, in a sentence.
    ///
    /// ```
    /// assert_eq!(lgt_linker::Refusal::SlotCount.sentence(), "the table would have more than 1,024 slots");
    /// ```
    #[must_use]
    pub fn sentence(self) -> &'static str {
        self.row().map_or("a refusal that this version of lgt-linker does not know", |row| row.wrong)
    }

    /// What to mend: the sentence that `docs/REFUSALS.md` has for the number.
    ///
    /// ```
    /// assert!(lgt_linker::Refusal::NoRoom.mend().starts_with("Lend more memory"));
    /// ```
    #[must_use]
    pub fn mend(self) -> &'static str {
        self.row().map_or("See docs/REFUSALS.md of the library's version.", |row| row.mend)
    }

    fn row(self) -> Option<&'static Row> {
        REFUSALS.iter().find(|row| row.refusal == self)
    }
}

impl fmt::Display for Refusal {
    fn fmt(&self, f: &mut fmt::Formatter<'_>) -> fmt::Result {
        write!(f, "refusal {}: {}", self.number(), self.sentence())
    }
}

impl core::error::Error for Refusal {}

/// The answer of an accepted call, or why it was refused.
pub(crate) fn accepted<T>(row: u32, answer: T) -> Result<T, Refusal> {
    Refusal::of(row).map_or(Ok(answer), Err)
}
