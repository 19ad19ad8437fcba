//! The compiled Rattle library as a side of the comparison.

pub mod guarded;
pub mod malformed;

use std::ptr;

use harness::side::{Answer, FileAnswer, Linker, Sheets, SheetsMut};

// As include/lgt_linker.h declares them.
unsafe extern "C" {
    fn lgt_read_class_sheet(bytes: *const u8, bytes_len: usize, words: *mut u32, words_len: usize, answer: *mut u32) -> u32;

    fn lgt_read_abi_sheet(bytes: *const u8, bytes_len: usize, words: *mut u32, words_len: usize, answer: *mut u32) -> u32;

    fn lgt_write_class_sheet(set: *const u32, set_len: usize, bytes: *mut u8, bytes_len: usize, answer: *mut u32) -> u32;

    fn lgt_widen_class_sheet(bytes: *const u8, bytes_len: usize, out: *mut u8, out_len: usize, answer: *mut u32) -> u32;

    fn lgt_narrow_class_sheet(bytes: *const u8, bytes_len: usize, out: *mut u8, out_len: usize, answer: *mut u32) -> u32;

    fn lgt_read_unordered_sheet(bytes: *const u8, bytes_len: usize, words: *mut u32, words_len: usize, answer: *mut u32) -> u32;

    fn lgt_renumber_classes(set: *mut u32, set_len: usize, order: *mut u32, order_len: usize, answer: *mut u32) -> u32;

    fn lgt_number_signatures(
        set: *const u32,
        set_len: usize,
        abi: *const u32,
        abi_len: usize,
        numbers: *mut u32,
        numbers_len: usize,
    ) -> u32;

    fn lgt_link(
        set: *mut u32,
        set_len: usize,
        abi: *const u32,
        abi_len: usize,
        numbers: *mut u32,
        numbers_len: usize,
        class_number: u32,
        area: *mut u32,
        area_len: usize,
        stubs: *const u32,
        stubs_len: usize,
        missing: *mut u32,
        missing_len: usize,
        answer: *mut u32,
    ) -> u32;

    fn lgt_missing_slots(
        set: *const u32,
        set_len: usize,
        abi: *const u32,
        abi_len: usize,
        missing: *const u32,
        missing_len: usize,
        class_number: u32,
        answer: *mut u32,
    ) -> u32;

    fn lgt_interface_dispatch_table(
        set: *const u32,
        set_len: usize,
        abi: *const u32,
        abi_len: usize,
        numbers: *const u32,
        numbers_len: usize,
        class_number: u32,
        interface_number: u32,
        area: *mut u32,
        area_len: usize,
        stubs: *const u32,
        stubs_len: usize,
        answer: *mut u32,
    ) -> u32;

    fn lgt_argument_words(descriptor: *const u8, descriptor_len: usize, flags: u32, answer: *mut u64) -> u32;

    fn lgt_reference_words(bitmap: *const u8, bitmap_len: usize, words: u32, list: *mut u32, list_len: usize, answer: *mut u32) -> u32;

    fn lgt_reference_count(bitmap: *const u8, bitmap_len: usize, words: u32, answer: *mut u32) -> u32;

    fn lgt_compare_names(a: *const u8, a_len: usize, b: *const u8, b_len: usize, answer: *mut u64) -> u32;

    fn lgt_read_class_file(
        bytes: *const u8,
        bytes_len: usize,
        targets: *const u32,
        targets_len: usize,
        fields: *mut u32,
        fields_len: usize,
        methods: *mut u32,
        methods_len: usize,
        text: *mut u32,
        text_len: usize,
        answer: *mut u32,
    ) -> u32;

    fn lgt_class_file_head(bytes: *const u8, bytes_len: usize, answer: *mut u32) -> u32;
}

/// What an answer array holds before a call, so that a word that is not written shows.
const UNWRITTEN: u32 = 0xDEAD_BEEF;

/// The compiled Rattle library.
#[derive(Clone, Copy, Default)]
pub struct Library {
    /// Whether an empty slice is handed on as a null pointer.
    pub null_where_empty: bool,
}

impl Library {
    fn read_only<T>(self, slice: &[T]) -> *const T {
        if slice.is_empty() && self.null_where_empty { ptr::null() } else { slice.as_ptr() }
    }

    fn lent<T>(self, slice: &mut [T]) -> *mut T {
        if slice.is_empty() && self.null_where_empty { ptr::null_mut() } else { slice.as_mut_ptr() }
    }
}

/// Makes a call with an answer array of `words` words, and sees that no word after them is written.
fn made<const ROOM: usize>(words: usize, call: impl FnOnce(*mut u32) -> u32) -> (u32, [u32; ROOM]) {
    let mut answer = [UNWRITTEN; ROOM];
    let refusal = call(answer.as_mut_ptr());
    assert!(answer[words..].iter().all(|&word| word == UNWRITTEN), "a word after the answer is written");
    (refusal, answer)
}

fn answered(words: usize, call: impl FnOnce(*mut u32) -> u32) -> Answer {
    let (refusal, [first, second, _, _]) = made(words, call);
    Answer { refusal, first, second: if words > 1 { second } else { 0 } }
}

fn file_answered(call: impl FnOnce(*mut u32) -> u32) -> FileAnswer {
    let (refusal, [words @ .., _, _]) = made::<8>(6, call);
    FileAnswer { refusal, words }
}

// Each call hands on whole slices of this program; none that is written overlaps another.
impl Linker for Library {
    fn read_class_sheet(&mut self, bytes: &[u8], words: &mut [u32]) -> Answer {
        answered(1, |answer| unsafe { lgt_read_class_sheet(self.read_only(bytes), bytes.len(), self.lent(words), words.len(), answer) })
    }

    fn read_abi_sheet(&mut self, bytes: &[u8], words: &mut [u32]) -> Answer {
        answered(1, |answer| unsafe { lgt_read_abi_sheet(self.read_only(bytes), bytes.len(), self.lent(words), words.len(), answer) })
    }

    fn write_class_sheet(&mut self, set: &[u32], bytes: &mut [u8]) -> Answer {
        answered(1, |answer| unsafe { lgt_write_class_sheet(self.read_only(set), set.len(), self.lent(bytes), bytes.len(), answer) })
    }

    fn widen_class_sheet(&mut self, bytes: &[u8], out: &mut [u8]) -> Answer {
        answered(1, |answer| unsafe { lgt_widen_class_sheet(self.read_only(bytes), bytes.len(), self.lent(out), out.len(), answer) })
    }

    fn narrow_class_sheet(&mut self, bytes: &[u8], out: &mut [u8]) -> Answer {
        answered(1, |answer| unsafe { lgt_narrow_class_sheet(self.read_only(bytes), bytes.len(), self.lent(out), out.len(), answer) })
    }

    fn read_unordered_sheet(&mut self, bytes: &[u8], words: &mut [u32]) -> Answer {
        answered(1, |answer| unsafe { lgt_read_unordered_sheet(self.read_only(bytes), bytes.len(), self.lent(words), words.len(), answer) })
    }

    fn renumber_classes(&mut self, set: &mut [u32], order: &mut [u32]) -> Answer {
        let (set_len, order_len) = (set.len(), order.len());
        answered(1, |answer| unsafe { lgt_renumber_classes(self.lent(set), set_len, self.lent(order), order_len, answer) })
    }

    fn number_signatures(&mut self, set: &[u32], abi: &[u32], numbers: &mut [u32]) -> Answer {
        let (set_words, abi_words, numbers_len) = (self.read_only(set), self.read_only(abi), numbers.len());
        let numbers = self.lent(numbers);
        let refusal = unsafe { lgt_number_signatures(set_words, set.len(), abi_words, abi.len(), numbers, numbers_len) };
        Answer { refusal, first: 0, second: 0 }
    }

    fn link(&mut self, sheets: SheetsMut, class: u32, area: &mut [u32], stubs: &[u32], missing: &mut [u32]) -> Answer {
        let SheetsMut { set, abi, numbers } = sheets;
        let [set_len, numbers_len, area_len, missing_len] = [set.len(), numbers.len(), area.len(), missing.len()];
        let [set, numbers, area, missing] = [set, numbers, area, missing].map(|slice| self.lent(slice));
        let (abi_words, stub_words) = (self.read_only(abi), self.read_only(stubs));
        answered(2, |answer| unsafe {
            lgt_link(
                set,
                set_len,
                abi_words,
                abi.len(),
                numbers,
                numbers_len,
                class,
                area,
                area_len,
                stub_words,
                stubs.len(),
                missing,
                missing_len,
                answer,
            )
        })
    }

    fn missing_slots(&mut self, set: &[u32], abi: &[u32], missing: &[u32], class: u32) -> Answer {
        let (set_words, abi_words, list) = (self.read_only(set), self.read_only(abi), self.read_only(missing));
        answered(1, |answer| unsafe { lgt_missing_slots(set_words, set.len(), abi_words, abi.len(), list, missing.len(), class, answer) })
    }

    fn ask(&mut self, sheets: Sheets, class: u32, interface: u32, area: &mut [u32], stubs: &[u32]) -> Answer {
        let Sheets { set, abi, numbers } = sheets;
        let [set_words, abi_words, number_words, stub_words] = [set, abi, numbers, stubs].map(|slice| self.read_only(slice));
        let area_len = area.len();
        let area = self.lent(area);
        answered(2, |answer| unsafe {
            lgt_interface_dispatch_table(
                set_words,
                set.len(),
                abi_words,
                abi.len(),
                number_words,
                numbers.len(),
                class,
                interface,
                area,
                area_len,
                stub_words,
                stubs.len(),
                answer,
            )
        })
    }

    fn argument_words(&mut self, descriptor: &[u8], flags: u32) -> Answer {
        let mut answer = [u64::from(UNWRITTEN), u64::from(UNWRITTEN)];
        let refusal = unsafe { lgt_argument_words(self.read_only(descriptor), descriptor.len(), flags, answer.as_mut_ptr()) };
        assert_eq!(answer[1], u64::from(UNWRITTEN), "a word after the answer is written");
        Answer { refusal, first: answer[0].try_into().unwrap_or(u32::MAX), second: 0 }
    }

    fn reference_words(&mut self, bitmap: &[u8], words: u32, list: &mut [u32]) -> Answer {
        answered(1, |answer| unsafe {
            lgt_reference_words(self.read_only(bitmap), bitmap.len(), words, self.lent(list), list.len(), answer)
        })
    }

    fn reference_count(&mut self, bitmap: &[u8], words: u32) -> Answer {
        answered(1, |answer| unsafe { lgt_reference_count(self.read_only(bitmap), bitmap.len(), words, answer) })
    }

    fn compare_names(&mut self, a: &[u8], b: &[u8]) -> Answer {
        let mut answer = [u64::from(UNWRITTEN); 3];
        let refusal = unsafe { lgt_compare_names(self.read_only(a), a.len(), self.read_only(b), b.len(), answer.as_mut_ptr()) };
        assert_eq!(answer[2], u64::from(UNWRITTEN), "a word after the answer is written");
        let [first, second, _] = answer.map(|word| word.try_into().unwrap_or(u32::MAX));
        Answer { refusal, first, second }
    }

    fn read_class_file(&mut self, bytes: &[u8], targets: &[u32], fields: &mut [u32], methods: &mut [u32], text: &mut [u32]) -> FileAnswer {
        let (fields_len, methods_len, text_len) = (fields.len(), methods.len(), text.len());
        let (fields, methods, text) = (self.lent(fields), self.lent(methods), self.lent(text));
        let (file, target_words) = (self.read_only(bytes), self.read_only(targets));
        file_answered(|answer| unsafe {
            lgt_read_class_file(
                file,
                bytes.len(),
                target_words,
                targets.len(),
                fields,
                fields_len,
                methods,
                methods_len,
                text,
                text_len,
                answer,
            )
        })
    }

    fn class_file_head(&mut self, bytes: &[u8]) -> FileAnswer {
        file_answered(|answer| unsafe { lgt_class_file_head(self.read_only(bytes), bytes.len(), answer) })
    }
}
