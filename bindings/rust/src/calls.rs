//! The library's functions over lent slices. But for [`reference_words`], which makes what it answers, they allocate nothing.

use alloc::vec;
use alloc::vec::Vec;

use crate::layout::{ABI_BLOCKS, BLOCK_BYTES, BLOCK_WORDS, CLASS_BLOCKS, abi, missing, set};
use crate::refusal::{Refusal, accepted};
use crate::sys;

/// Words that hold every class sheet, and every set after any links.
pub const CLASS_WORDS: usize = CLASS_BLOCKS * BLOCK_WORDS;

/// Bytes that hold every class sheet.
pub const CLASS_BYTES: usize = CLASS_BLOCKS * BLOCK_BYTES;

/// Words that hold every ABI sheet.
pub const ABI_WORDS: usize = ABI_BLOCKS * BLOCK_WORDS;

/// Words of a list of missing slots that is long enough for every set.
pub const MISSING_WORDS: usize = missing::WIDTH * set::LIMITS[set::CLASSES];

/// Words of a list of numbers: one for each method that there may be, then one for each ABI slot.
pub const NUMBERS: usize = set::LIMITS[set::METHODS] + abi::LIMITS[abi::SLOTS];

/// Where a link has put a class's table: the class number stands at `place`, `slots` slot words follow, then the head of the class's list
/// of interface tables.
#[derive(Clone, Copy, Debug, PartialEq, Eq)]
pub struct Linked {
    /// The place of the table in the area.
    pub place: u32,
    /// How many slots it has.
    pub slots: u32,
}

/// Where an interface table is: the interface's number stands at `place`, its slot words follow, as many as the interface's table has.
#[derive(Clone, Copy, Debug, PartialEq, Eq)]
pub struct Asked {
    /// The place of the interface table in the area.
    pub place: u32,
    /// How many nodes of the class's list were read on the way.
    pub nodes: u32,
}

/// What a comparison of two names found.
#[derive(Clone, Copy, Debug, PartialEq, Eq)]
pub struct Compared {
    /// Whether they are the same bytes.
    pub same: bool,
    /// How many pairs of bytes were read to see it.
    pub pairs: usize,
}

/// What a class file holds, as a reading answers it: the lengths and counts by which its lists are read.
#[derive(Clone, Copy, Debug, PartialEq, Eq)]
pub struct FileHead {
    /// The bytes of the class's name, from the text's first on.
    pub name_length: u32,
    /// The bytes of the parent's name, which follow; 0 without a parent.
    pub parent_length: u32,
    /// The class's access flags.
    pub flags: u32,
    /// How many fields it has.
    pub fields: u32,
    /// How many methods it has.
    pub methods: u32,
    /// The bytes of all its strings, class and parent first, then each member's name and descriptor, fields first.
    pub text_bytes: u32,
}

impl From<[u32; 6]> for FileHead {
    fn from([name_length, parent_length, flags, fields, methods, text_bytes]: [u32; 6]) -> FileHead {
        FileHead { name_length, parent_length, flags, fields, methods, text_bytes }
    }
}

/// Reads a class sheet into the lent words and answers how many were filled (127 a block).
///
/// # Errors
///
/// Refusals 1 to 5: the bytes are no class sheet, or fewer than 127 words a block are lent. The words are then as they were.
///
/// ```
/// let bytes = std::fs::read("../../examples/card/classes.bin").unwrap();
/// let mut words = [0; lgt_linker::CLASS_WORDS];
/// assert_eq!(lgt_linker::read_class_sheet(&bytes, &mut words), Ok(127));
/// assert_eq!(words[0], 2); // two classes
/// ```
pub fn read_class_sheet(bytes: &[u8], words: &mut [u32]) -> Result<u32, Refusal> {
    let mut answer = [0];
    // SAFETY: both slices are whole, the written one is lent exclusively, and the answer has its word.
    let row = unsafe { sys::lgt_read_class_sheet(bytes.as_ptr(), bytes.len(), words.as_mut_ptr(), words.len(), &mut answer) };
    accepted(row, answer[0])
}

/// Reads an ABI sheet likewise.
///
/// # Errors
///
/// Refusals 1 to 5, as of [`read_class_sheet`].
///
/// ```
/// let bytes = std::fs::read("../../examples/abi/abi.bin").unwrap();
/// let mut words = [0; lgt_linker::ABI_WORDS];
/// assert_eq!(lgt_linker::read_abi_sheet(&bytes, &mut words), Ok(127));
/// assert_eq!(lgt_linker::read_abi_sheet(&bytes[1..], &mut words), Err(lgt_linker::Refusal::SheetSize));
/// ```
pub fn read_abi_sheet(bytes: &[u8], words: &mut [u32]) -> Result<u32, Refusal> {
    let mut answer = [0];
    // SAFETY: as in `read_class_sheet`.
    let row = unsafe { sys::lgt_read_abi_sheet(bytes.as_ptr(), bytes.len(), words.as_mut_ptr(), words.len(), &mut answer) };
    accepted(row, answer[0])
}

/// Writes an unlinked set as the blocks of a class sheet, as few as hold its content, and answers how many they are, 512 bytes each. The
/// bytes after them stay as they were; [`read_class_sheet`] gives the same content back.
///
/// # Errors
///
/// Refusals 3 to 5 as of a link, 17 where a class is linked, a built or array class has static words or a byte behind the text is not
/// 0, then 18: too few bytes are lent, which [`CLASS_BYTES`] never are. The bytes are then as they were.
///
/// ```
/// # use lgt_linker::*;
/// let stored = std::fs::read("../../examples/card/classes.bin").unwrap();
/// let mut set = [0; CLASS_WORDS];
/// read_class_sheet(&stored, &mut set)?;
/// let mut bytes = [7; CLASS_BYTES];
/// assert_eq!(write_class_sheet(&set, &mut bytes), Ok(1));
/// assert_eq!(bytes[..512], stored);
/// assert_eq!(bytes[512..], [7; CLASS_BYTES - 512]);
/// assert_eq!(write_class_sheet(&set, &mut bytes[..511]), Err(Refusal::SheetRoom));
/// # Ok::<(), Refusal>(())
/// ```
pub fn write_class_sheet(set: &[u32], bytes: &mut [u8]) -> Result<u32, Refusal> {
    let mut answer = [0];
    // SAFETY: both slices are whole, the written one is lent exclusively, and the answer has its word.
    let row = unsafe { sys::lgt_write_class_sheet(set.as_ptr(), set.len(), bytes.as_mut_ptr(), bytes.len(), &mut answer) };
    accepted(row, answer[0])
}

/// Makes a class sheet of the old form, with 17-word class records, one of the new form, with 18, and answers how many blocks it has: as
/// many as the old one or one more. A generated class gets the sum of its static field widths, every other class 0. The bytes after the
/// blocks stay as they were. [`widen`](crate::widen) does it with memory of its own.
///
/// The form of a sheet cannot be seen from its bytes: a sheet converted twice can be accepted and say something else.
///
/// # Errors
///
/// Refusals 1 to 5, as a reading of the old form judges (a child before its parent is 4), and 18: too few bytes are lent, which
/// [`CLASS_BYTES`] never are. The bytes are then as they were.
///
/// ```
/// # use lgt_linker::*;
/// let old = std::fs::read("../../examples/card/old.bin").unwrap();
/// let mut bytes = [7; CLASS_BYTES];
/// assert_eq!(widen_class_sheet(&old, &mut bytes), Ok(1));
/// assert_eq!(ClassSet::read(&bytes[..512])?.class(1).unwrap().name(), "Card");
/// assert_eq!(bytes[512..], [7; CLASS_BYTES - 512]);
/// # Ok::<(), Refusal>(())
/// ```
pub fn widen_class_sheet(bytes: &[u8], out: &mut [u8]) -> Result<u32, Refusal> {
    let mut answer = [0];
    // SAFETY: both slices are whole, the written one is lent exclusively, and the answer has its word.
    let row = unsafe { sys::lgt_widen_class_sheet(bytes.as_ptr(), bytes.len(), out.as_mut_ptr(), out.len(), &mut answer) };
    accepted(row, answer[0])
}

/// Makes a class sheet of the new form one of the old likewise, for a terminal that reads no other: as many blocks or one fewer. The static
/// words are dropped, and [`widen_class_sheet`] gives the sheet back.
///
/// # Errors
///
/// Refusals 1 to 5 as of [`read_class_sheet`], 23 where a generated class has other static words than the sum of its static field widths,
/// then 18. The bytes are then as they were.
///
/// ```
/// # use lgt_linker::*;
/// let new = std::fs::read("../../examples/card/classes.bin").unwrap();
/// let (mut old, mut again) = ([0; 512], [0; 512]);
/// assert_eq!(narrow_class_sheet(&new, &mut old), Ok(1));
/// assert_eq!(widen_class_sheet(&old, &mut again), Ok(1));
/// assert_eq!(again[..], new);
/// assert_eq!(narrow_class_sheet(&new, &mut old[..511]), Err(Refusal::SheetRoom));
/// ```
pub fn narrow_class_sheet(bytes: &[u8], out: &mut [u8]) -> Result<u32, Refusal> {
    let mut answer = [0];
    // SAFETY: as in `widen_class_sheet`.
    let row = unsafe { sys::lgt_narrow_class_sheet(bytes.as_ptr(), bytes.len(), out.as_mut_ptr(), out.len(), &mut answer) };
    accepted(row, answer[0])
}

/// Reads a class sheet whose classes come in any order, a child before its parent, and answers how many words were filled. It judges
/// neither records nor descriptors: [`renumber_classes`] puts parents first, and a link judges the rest.
///
/// # Errors
///
/// Refusals 1 to 3; the words are then as they were.
///
/// ```
/// # use lgt_linker::*;
/// let bytes = std::fs::read("../../examples/alphabetical/unordered.bin").unwrap();
/// let mut words = [0; CLASS_WORDS];
/// assert_eq!(read_class_sheet(&bytes, &mut words), Err(Refusal::Record)); // AccessCard comes before its parent Card
/// assert_eq!(read_unordered_sheet(&bytes, &mut words), Ok(254));
/// ```
pub fn read_unordered_sheet(bytes: &[u8], words: &mut [u32]) -> Result<u32, Refusal> {
    let mut answer = [0];
    // SAFETY: as in `read_class_sheet`.
    let row = unsafe { sys::lgt_read_unordered_sheet(bytes.as_ptr(), bytes.len(), words.as_mut_ptr(), words.len(), &mut answer) };
    accepted(row, answer[0])
}

/// Renumbers the classes of an unlinked set so that parents come first; among those ready the smallest old number goes next. Parent
/// numbers and interface words follow. Fills the list with each class's old number, in new order, and answers how many classes there are.
///
/// # Errors
///
/// Refusals 3, 4 (a parent number or an interface word that names no class), 19 (a class is its own ancestor) and 15: the list has fewer
/// words than there are classes, at most 64. Set and list are then as they were.
///
/// ```
/// # use lgt_linker::*;
/// let mut set = [0; CLASS_WORDS];
/// read_unordered_sheet(&std::fs::read("../../examples/alphabetical/unordered.bin").unwrap(), &mut set)?;
/// let mut order = [0; 64];
/// assert_eq!(renumber_classes(&mut set, &mut order), Ok(5));
/// assert_eq!(order[..6], [2, 1, 3, 5, 4, 0]); // class 1 is now the one that was 2
/// assert_eq!(renumber_classes(&mut set, &mut order[..4]), Err(Refusal::NoRoom));
/// # Ok::<(), Refusal>(())
/// ```
pub fn renumber_classes(set: &mut [u32], order: &mut [u32]) -> Result<u32, Refusal> {
    let mut answer = [0];
    // SAFETY: both slices are whole and lent exclusively, and the answer has its word.
    let row = unsafe { sys::lgt_renumber_classes(set.as_mut_ptr(), set.len(), order.as_mut_ptr(), order.len(), &mut answer) };
    accepted(row, answer[0])
}

/// Fills a list with the numbers of the signatures, name and descriptor, of both sheets, by which links and asks tell them apart: word m is of
/// method m, word 512 + s of ABI slot s. Each holds the place of the first record whose name and whose descriptor are the same, a word without
/// a record 0, so that two records have one number exactly if both parts are the same. Words after the first [`NUMBERS`] stay as they
/// were. Fill the list after reading, and again after the set was changed by anything but a link. A [`ClassSet`](crate::ClassSet) does it
/// for itself.
///
/// # Errors
///
/// Refusals 3 to 5; 3 also where the list has fewer than [`NUMBERS`] words. It is then as it was.
///
/// ```
/// # use lgt_linker::*;
/// # let mut set = [0; CLASS_WORDS];
/// # let mut abi = [0; ABI_WORDS];
/// # read_class_sheet(&std::fs::read("../../examples/card/classes.bin").unwrap(), &mut set)?;
/// # read_abi_sheet(&std::fs::read("../../examples/card/abi.bin").unwrap(), &mut abi)?;
/// let mut numbers = [7; NUMBERS];
/// number_signatures(&set, &abi, &mut numbers)?; // Card has open and close, VipCard close and mark
/// assert_eq!(numbers[..5], [0, 1, 1, 3, 0]);
/// assert_eq!(number_signatures(&set, &abi, &mut numbers[1..]), Err(Refusal::SheetCounts));
/// # Ok::<(), Refusal>(())
/// ```
pub fn number_signatures(set: &[u32], abi: &[u32], numbers: &mut [u32]) -> Result<(), Refusal> {
    // SAFETY: the slices are whole, and the one that is written is lent exclusively.
    let row = unsafe { sys::lgt_number_signatures(set.as_ptr(), set.len(), abi.as_ptr(), abi.len(), numbers.as_mut_ptr(), numbers.len()) };
    accepted(row, ())
}

/// Links a class of the set: its table goes to the area's next free word (word 0 of the area), its record and fields into the set, and the
/// count of its missing slots, with a bit for each slot, into the list `missing` ([`layout::missing`](crate::layout::missing)), which has 33
/// words for each class. Lend one list, which nobody else writes, from the first link on; it may hold anything before. The list `numbers`
/// is filled by [`number_signatures`] from this very set and these ABI words, and as the last link left it: one that adds methods gives
/// each the number of the signature that it took.
///
/// # Errors
///
/// Refusals 3 to 7, 26 and 8 to 15; set, area and lists are then as they were.
///
/// ```
/// # use lgt_linker::*;
/// let mut set = [0; CLASS_WORDS];
/// let mut abi = [0; ABI_WORDS];
/// read_class_sheet(&std::fs::read("../../examples/card/classes.bin").unwrap(), &mut set).unwrap();
/// read_abi_sheet(&std::fs::read("../../examples/card/abi.bin").unwrap(), &mut abi).unwrap();
/// let mut area = [0; 64];
/// area[0] = 1; // a fresh area
/// let (mut numbers, mut missing) = ([0; NUMBERS], [0; MISSING_WORDS]);
/// number_signatures(&set, &abi, &mut numbers).unwrap();
/// assert_eq!(link(&mut set, &abi, &mut numbers, 1, &mut area, &[9; 8], &mut missing), Ok(Linked { place: 1, slots: 2 }));
/// assert_eq!(area[1..5], [1, 4096, 4112, 0]);
/// assert_eq!(link(&mut set, &abi, &mut numbers, 1, &mut area, &[9; 8], &mut missing), Err(Refusal::Class)); // it is linked
/// // two classes, 66 words
/// assert_eq!(link(&mut set, &abi, &mut numbers, 2, &mut area, &[9; 8], &mut missing[..65]), Err(Refusal::NoRoom));
/// ```
pub fn link(
    set: &mut [u32],
    abi: &[u32],
    numbers: &mut [u32],
    class: u32,
    area: &mut [u32],
    stubs: &[u32],
    missing: &mut [u32],
) -> Result<Linked, Refusal> {
    let mut answer = [0; 2];
    // SAFETY: the slices are whole; the four that are written are lent exclusively, and the answer has its words.
    let row = unsafe {
        sys::lgt_link(
            set.as_mut_ptr(),
            set.len(),
            abi.as_ptr(),
            abi.len(),
            numbers.as_mut_ptr(),
            numbers.len(),
            class,
            area.as_mut_ptr(),
            area.len(),
            stubs.as_ptr(),
            stubs.len(),
            missing.as_mut_ptr(),
            missing.len(),
            &mut answer,
        )
    };
    accepted(row, Linked { place: answer[0], slots: answer[1] })
}

/// How many slots of a linked class hold no real method: the count that its link left in the list, which took a stub word or are copies of
/// slots that the parent's count includes. Everything is only read.
///
/// # Errors
///
/// Refusals 3 to 5 as of [`link`], 6 where the class is not linked, and 15: the list has fewer than 33 words for each class, which
/// [`MISSING_WORDS`] never are.
///
/// ```
/// # use lgt_linker::*;
/// # let mut set = [0; CLASS_WORDS];
/// # let mut abi = [0; ABI_WORDS];
/// # read_class_sheet(&std::fs::read("../../examples/interface/classes.bin").unwrap(), &mut set).unwrap();
/// # read_abi_sheet(&std::fs::read("../../examples/interface/abi.bin").unwrap(), &mut abi).unwrap();
/// # let mut area = [0; 64];
/// # area[0] = 1;
/// # let mut numbers = [0; NUMBERS];
/// # number_signatures(&set, &abi, &mut numbers).unwrap();
/// // Class 1, Openable, has open and close; close has no target.
/// let mut missing = [0; MISSING_WORDS];
/// link(&mut set, &abi, &mut numbers, 1, &mut area, &[9; 8], &mut missing).unwrap();
/// assert_eq!(missing_slots(&set, &abi, &missing, 1), Ok(1));
/// assert_eq!(missing[..3], [1, 0b10, 0]); // the count, then a bit for each slot
/// assert_eq!(missing_slots(&set, &abi, &missing, 2), Err(Refusal::Class)); // it is not linked yet
/// ```
pub fn missing_slots(set: &[u32], abi: &[u32], missing: &[u32], class: u32) -> Result<u32, Refusal> {
    let mut answer = [0];
    // SAFETY: the slices are whole and only read, and the answer has its word.
    let row = unsafe {
        sys::lgt_missing_slots(set.as_ptr(), set.len(), abi.as_ptr(), abi.len(), missing.as_ptr(), missing.len(), class, &mut answer)
    };
    accepted(row, answer[0])
}

/// The class's table for an interface: found in the class's list, or built and put in front of it. The set and the list of numbers, which is
/// as a [`link`] is lent it, are only read.
///
/// A table once answered stays at its place, and stays the one that would be built at that moment, slot for slot, whatever links and asks
/// follow: a caller may keep the place. This is so where all calls began with an unlinked set and a list of numbers filled from it, each
/// gets set, numbers and area as the last one left them, and all lend the same ABI words and stubs, whatever list of missing slots a link is
/// lent. The nodes read are then at most as many as there are classes, whatever the stubs.
///
/// # Errors
///
/// Refusals 3 to 7, 16 and 15; the area is then as it was.
///
/// ```
/// # use lgt_linker::*;
/// # let mut set = [0; CLASS_WORDS];
/// # let mut abi = [0; ABI_WORDS];
/// # read_class_sheet(&std::fs::read("../../examples/interface/classes.bin").unwrap(), &mut set).unwrap();
/// # read_abi_sheet(&std::fs::read("../../examples/interface/abi.bin").unwrap(), &mut abi).unwrap();
/// # let mut area = [0; 64];
/// # area[0] = 1;
/// // Classes 1, Openable, and 2, Door, are linked; Door's table as an Openable is asked for.
/// # let (mut numbers, mut missing) = ([0; NUMBERS], [0; MISSING_WORDS]);
/// # number_signatures(&set, &abi, &mut numbers).unwrap();
/// # link(&mut set, &abi, &mut numbers, 1, &mut area, &[9; 8], &mut missing).unwrap();
/// # link(&mut set, &abi, &mut numbers, 2, &mut area, &[9; 8], &mut missing).unwrap();
/// let asked = interface_dispatch_table(&set, &abi, &numbers, 2, 1, &mut area, &[9; 8]).unwrap();
/// assert_eq!(asked, Asked { place: 10, nodes: 0 });
/// assert_eq!(area[10..13], [1, 8192, 9]); // the interface's number, Door's open, a stub
/// ```
pub fn interface_dispatch_table(
    set: &[u32],
    abi: &[u32],
    numbers: &[u32],
    class: u32,
    interface: u32,
    area: &mut [u32],
    stubs: &[u32],
) -> Result<Asked, Refusal> {
    let mut answer = [0; 2];
    // SAFETY: the slices are whole; the one that is written is lent exclusively, and the answer has its words.
    let row = unsafe {
        sys::lgt_interface_dispatch_table(
            set.as_ptr(),
            set.len(),
            abi.as_ptr(),
            abi.len(),
            numbers.as_ptr(),
            numbers.len(),
            class,
            interface,
            area.as_mut_ptr(),
            area.len(),
            stubs.as_ptr(),
            stubs.len(),
            &mut answer,
        )
    };
    accepted(row, Asked { place: answer[0], nodes: answer[1] })
}

/// The words that a call's arguments take by a method's descriptor and flags, at most 255: a receiver unless static (0x0008), then the
/// parameters, J and D two each.
///
/// # Errors
///
/// Refusal 5: the descriptor is no method descriptor, or takes more than 255 words.
///
/// ```
/// use lgt_linker::{Refusal, argument_words};
/// assert_eq!(argument_words(b"(IJ)V", 0), Ok(4));
/// assert_eq!(argument_words(b"(IJ)V", 8), Ok(3));
/// assert_eq!(argument_words(b"(V)V", 0), Err(Refusal::Descriptor));
/// let longs = format!("({}I)V", "J".repeat(127));
/// assert_eq!(argument_words(longs.as_bytes(), 8), Ok(255));
/// assert_eq!(argument_words(longs.as_bytes(), 0), Err(Refusal::Descriptor)); // 256 with the receiver
/// ```
pub fn argument_words(descriptor: &[u8], flags: u32) -> Result<u64, Refusal> {
    let mut answer = [0];
    // SAFETY: the slice is whole, and the answer has its word.
    let row = unsafe { sys::lgt_argument_words(descriptor.as_ptr(), descriptor.len(), flags, &mut answer) };
    accepted(row, answer[0])
}

/// Compares two names, or any bytes, as the library compares all names: lengths first, then names of one length from the last byte back, up
/// to the first pair of bytes that differs. It refuses nothing.
///
/// ```
/// use lgt_linker::{Compared, compare_names};
/// assert_eq!(compare_names(b"Card", b"VipCard"), Compared { same: false, pairs: 0 }); // unequal lengths
/// assert_eq!(compare_names(b"Card", b"Card"), Compared { same: true, pairs: 4 });
/// assert_eq!(compare_names(b"java/lang/Objecu", b"java/lang/Object"), Compared { same: false, pairs: 1 });
/// assert_eq!(compare_names(b"Card", b"Cord"), Compared { same: false, pairs: 3 }); // 4 minus place 1
/// ```
#[must_use]
pub fn compare_names(a: &[u8], b: &[u8]) -> Compared {
    let mut answer = [0; 2];
    // SAFETY: both slices are whole, and the answer has its words.
    let row = unsafe { sys::lgt_compare_names(a.as_ptr(), a.len(), b.as_ptr(), b.len(), &mut answer) };
    debug_assert_eq!(row, 0);
    Compared { same: answer[0] != 0, pairs: answer[1] as usize }
}

/// The instance words that hold references, by a class's instance reference bitmap, in rising order: word i of `words` is marked if byte
/// i / 8 has the bit 0x80 shifted right by i modulo 8. Bits beyond the words are ignored. The list is made as long as [`reference_count`]
/// tells.
///
/// # Errors
///
/// Refusal 24: the bitmap has fewer bytes than the words take, one for each 8.
///
/// ```
/// use lgt_linker::{Refusal, reference_words};
/// assert_eq!(reference_words(&[0xA1], 8), Ok(vec![0, 2, 7]));
/// assert_eq!(reference_words(&[0xA1], 7), Ok(vec![0, 2]));
/// assert_eq!(reference_words(&[0xA1], 9), Err(Refusal::BitmapBytes));
/// ```
pub fn reference_words(bitmap: &[u8], words: u32) -> Result<Vec<u32>, Refusal> {
    let mut list = vec![0; reference_count(bitmap, words)? as usize];
    let mut answer = [0];
    // SAFETY: both slices are whole, the written one is lent exclusively, and the answer has its word.
    let row = unsafe { sys::lgt_reference_words(bitmap.as_ptr(), bitmap.len(), words, list.as_mut_ptr(), list.len(), &mut answer) };
    accepted(row, list)
}

/// How many instance words hold references, by the same bitmap.
///
/// # Errors
///
/// Refusal 24, as of [`reference_words`].
///
/// ```
/// use lgt_linker::{Refusal, reference_count};
/// assert_eq!(reference_count(&[0xA1], 8), Ok(3));
/// assert_eq!(reference_count(&[0xFF], 0), Ok(0));
/// assert_eq!(reference_count(&[], 1), Err(Refusal::BitmapBytes));
/// ```
pub fn reference_count(bitmap: &[u8], words: u32) -> Result<u32, Refusal> {
    let mut answer = [0];
    // SAFETY: the slice is whole, and the answer has its word.
    let row = unsafe { sys::lgt_reference_count(bitmap.as_ptr(), bitmap.len(), words, &mut answer) };
    accepted(row, answer[0])
}

/// Reads the members of a class file (JVM Specification, chapter 4) of major version 45 to 48 into three lists: a
/// record of 6 words for each field and for each method ([`layout::member`](crate::layout::member)), in the file's
/// order, and the text, four bytes a word. A field's word index is 0, a method's target the word of `targets`. Words
/// after what is written stay. [`ClassFile`](crate::ClassFile) owns the lists.
///
/// # Errors
///
/// Refusal 20 where the bytes are no class file of these versions; 21 where it is cut or continued and 22 where its
/// pool is wrong, as they are met from the front; then 4 and 5 of a name, a descriptor or flags, and 14 where a sheet
/// or a list cannot hold it, or the targets are not as many as the methods, which [`class_file_head`] tells. The lists
/// are then as they were.
///
/// ```
/// # use lgt_linker::*;
/// let bytes = std::fs::read("../../examples/supplied/Card.class").unwrap();
/// let (mut fields, mut methods, mut text) = ([7; 12], [7; 24], [0; 32]);
/// let head = read_class_file(&bytes, &[0x1000, 0x1010, 0x1020], &mut fields, &mut methods, &mut text)?;
/// assert_eq!((head.name_length, head.parent_length, head.fields, head.methods), (4, 16, 1, 3));
/// assert_eq!(text[0].to_le_bytes(), *b"Card");
/// assert_eq!((methods[5], methods[11], methods[18]), (0x1000, 0x1010, 7)); // a target is a record's last word
/// // three targets are asked for
/// assert_eq!(read_class_file(&bytes, &[], &mut fields, &mut methods, &mut text), Err(Refusal::SectionFull));
/// # Ok::<(), Refusal>(())
/// ```
pub fn read_class_file(
    bytes: &[u8],
    targets: &[u32],
    fields: &mut [u32],
    methods: &mut [u32],
    text: &mut [u32],
) -> Result<FileHead, Refusal> {
    let mut answer = [0; 6];
    // SAFETY: the slices are whole; the three that are written are lent exclusively, and the answer has its words.
    let row = unsafe {
        sys::lgt_read_class_file(
            bytes.as_ptr(),
            bytes.len(),
            targets.as_ptr(),
            targets.len(),
            fields.as_mut_ptr(),
            fields.len(),
            methods.as_mut_ptr(),
            methods.len(),
            text.as_mut_ptr(),
            text.len(),
            &mut answer,
        )
    };
    accepted(row, answer.into())
}

/// The same answer without lists: how many words and targets a reading takes.
///
/// # Errors
///
/// As of [`read_class_file`]; 14 only where a sheet cannot hold the class.
///
/// ```
/// # use lgt_linker::*;
/// let head = class_file_head(&std::fs::read("../../examples/supplied/Card.class").unwrap())?;
/// assert_eq!((head.flags, head.methods), (0x21, 3));
/// assert_eq!(class_file_head(b"PK\x03\x04\0\0\0\0"), Err(Refusal::FileVersion));
/// # Ok::<(), Refusal>(())
/// ```
pub fn class_file_head(bytes: &[u8]) -> Result<FileHead, Refusal> {
    let mut answer = [0; 6];
    // SAFETY: the slice is whole, and the answer has its words.
    let row = unsafe { sys::lgt_class_file_head(bytes.as_ptr(), bytes.len(), &mut answer) };
    accepted(row, answer.into())
}
