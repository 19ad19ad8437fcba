//! What is compared: a linker as its callers see it.

/// An answer's words: the refusal's number (0 if accepted), then the two result words.
#[derive(Clone, Copy, Debug, Default, PartialEq, Eq)]
pub struct Answer {
    pub refusal: u32,
    /// Link: the table's place. Ask: the interface table's place. Reading: words filled. Writing and conversion: blocks. Renumbering: classes.
    /// Argument words: their number. Reference words: their number. Missing slots: their number. Names: 1 if they are the same, else 0.
    pub first: u32,
    /// Link: slots. Ask: nodes read. Names: pairs of bytes read. Else 0.
    pub second: u32,
}

impl Answer {
    pub fn accepted(first: u32, second: u32) -> Self {
        Self { refusal: 0, first, second }
    }

    /// "a refused one gives its number, zero in every other answer word"
    pub fn refused(refusal: u32) -> Self {
        Self { refusal, first: 0, second: 0 }
    }
}

/// The answer to a class file: the refusal's number (0 if accepted), then the six result words: the lengths of the
/// class's and the parent's name, the flags, fields, methods, text bytes.
#[derive(Clone, Copy, Debug, Default, PartialEq, Eq)]
pub struct FileAnswer {
    pub refusal: u32,
    pub words: [u32; 6],
}

impl FileAnswer {
    pub fn accepted(words: [u32; 6]) -> Self {
        Self { refusal: 0, words }
    }

    pub fn refused(refusal: u32) -> Self {
        Self { refusal, words: [0; 6] }
    }
}

/// The words of both sheets, and the list of the signatures' numbers, lent to be read.
#[derive(Clone, Copy)]
pub struct Sheets<'a> {
    pub set: &'a [u32],
    pub abi: &'a [u32],
    pub numbers: &'a [u32],
}

/// The same as a link is lent them, which may write class words and numbers.
pub struct SheetsMut<'a> {
    pub set: &'a mut [u32],
    pub abi: &'a [u32],
    pub numbers: &'a mut [u32],
}

impl SheetsMut<'_> {
    pub fn read(&self) -> Sheets<'_> {
        Sheets { set: self.set, abi: self.abi, numbers: self.numbers }
    }
}

/// One side of the comparison. All memory is lent; a refused call leaves it as it was.
pub trait Linker {
    fn read_class_sheet(&mut self, bytes: &[u8], words: &mut [u32]) -> Answer;

    fn read_abi_sheet(&mut self, bytes: &[u8], words: &mut [u32]) -> Answer;

    fn write_class_sheet(&mut self, set: &[u32], bytes: &mut [u8]) -> Answer;

    fn widen_class_sheet(&mut self, bytes: &[u8], out: &mut [u8]) -> Answer;

    fn narrow_class_sheet(&mut self, bytes: &[u8], out: &mut [u8]) -> Answer;

    fn read_unordered_sheet(&mut self, bytes: &[u8], words: &mut [u32]) -> Answer;

    fn renumber_classes(&mut self, set: &mut [u32], order: &mut [u32]) -> Answer;

    fn number_signatures(&mut self, set: &[u32], abi: &[u32], numbers: &mut [u32]) -> Answer;

    /// `missing` is the list of missing slots, 33 words a class.
    fn link(&mut self, sheets: SheetsMut, class: u32, area: &mut [u32], stubs: &[u32], missing: &mut [u32]) -> Answer;

    fn missing_slots(&mut self, set: &[u32], abi: &[u32], missing: &[u32], class: u32) -> Answer;

    fn ask(&mut self, sheets: Sheets, class: u32, interface: u32, area: &mut [u32], stubs: &[u32]) -> Answer;

    fn argument_words(&mut self, descriptor: &[u8], flags: u32) -> Answer;

    fn reference_words(&mut self, bitmap: &[u8], words: u32, list: &mut [u32]) -> Answer;

    fn reference_count(&mut self, bitmap: &[u8], words: u32) -> Answer;

    fn compare_names(&mut self, a: &[u8], b: &[u8]) -> Answer;

    fn read_class_file(&mut self, bytes: &[u8], targets: &[u32], fields: &mut [u32], methods: &mut [u32], text: &mut [u32]) -> FileAnswer;

    fn class_file_head(&mut self, bytes: &[u8]) -> FileAnswer;
}
