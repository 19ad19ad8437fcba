//! The library with every slice beside pages that may not be touched. Each call is made twice, with
//! slices that begin where such a page ends and with slices that end where one begins; what is
//! only lent for reading may not be written. Empty slices are null pointers the first way. An access
//! outside ends the program by a signal.

use std::ffi::{c_int, c_void};
use std::fmt::Debug;
use std::slice;

use harness::side::{Answer, FileAnswer, Linker, Sheets, SheetsMut};

use crate::Library;

// The C library, as Linux has it.
unsafe extern "C" {
    fn mmap(place: *mut c_void, length: usize, access: c_int, flags: c_int, file: c_int, offset: i64) -> *mut c_void;
    fn munmap(place: *mut c_void, length: usize) -> c_int;
    fn mprotect(place: *mut c_void, length: usize, access: c_int) -> c_int;
}

const NO_ACCESS: c_int = 0;
const READ: c_int = 1;
const READ_AND_WRITE: c_int = 3;
const PRIVATE_AND_ANONYMOUS: c_int = 0x22;
const PAGE: usize = 4096;
/// The bytes on each side that may not be touched.
const GUARD: usize = 1 << 30;

/// On which side of a slice the forbidden page lies.
#[derive(Clone, Copy, PartialEq, Eq)]
enum Guard {
    Before,
    After,
}

/// Whole pages between pages that may not be touched.
pub struct Pages {
    start: *mut u8,
    length: usize,
}

impl Pages {
    pub fn new(length: usize) -> Self {
        let length = length.next_multiple_of(PAGE);
        let whole = unsafe { mmap(std::ptr::null_mut(), length + 2 * GUARD, NO_ACCESS, PRIVATE_AND_ANONYMOUS, -1, 0) };
        assert_ne!(whole as isize, -1, "no pages");
        let pages = Self { start: unsafe { whole.cast::<u8>().add(GUARD) }, length };
        pages.allow(READ_AND_WRITE);
        pages
    }

    /// All bytes; only while they may be written.
    pub fn bytes(&mut self) -> &mut [u8] {
        unsafe { slice::from_raw_parts_mut(self.start, self.length) }
    }

    fn allow(&self, access: c_int) {
        assert_eq!(unsafe { mprotect(self.start.cast(), self.length, access) }, 0, "mprotect");
    }

    /// Copies a slice in, next to the guard; there is room for it.
    fn put<T: Copy>(&self, content: &[T], guard: Guard) -> *mut T {
        let free = self.length - size_of_val(content);
        let place: *mut T = unsafe { self.start.add(if guard == Guard::After { free } else { 0 }) }.cast();
        unsafe { place.copy_from_nonoverlapping(content.as_ptr(), content.len()) };
        place
    }
}

impl Drop for Pages {
    fn drop(&mut self) {
        unsafe { munmap(self.start.sub(GUARD).cast(), self.length + 2 * GUARD) };
    }
}

/// A slice that may be written, in pages of its own.
struct Lent {
    pages: Pages,
}

impl Lent {
    fn new() -> Self {
        Self { pages: Pages::new(PAGE) }
    }

    fn put<T: Copy>(&mut self, content: &[T], guard: Guard) -> &'static mut [T] {
        if size_of_val(content) > self.pages.length {
            self.pages = Pages::new(size_of_val(content));
        }
        unsafe { slice::from_raw_parts_mut(self.pages.put(content, guard), content.len()) }
    }

    /// The same, for reading only, until `release`.
    fn put_fixed<T: Copy>(&mut self, content: &[T], guard: Guard) -> &'static [T] {
        let place = self.put(content, guard);
        self.pages.allow(READ);
        place
    }

    fn release(&self) {
        self.pages.allow(READ_AND_WRITE);
    }
}

/// The library behind guards, with pages for what may be written and for what may not.
pub struct Guarded {
    library: Library,
    written: [Lent; 4],
    fixed: [Lent; 4],
}

impl Default for Guarded {
    fn default() -> Self {
        let lent = || std::array::from_fn(|_| Lent::new());
        Self { library: Library::default(), written: lent(), fixed: lent() }
    }
}

type Words<'a, const W: usize, const R: usize> = &'a mut dyn FnMut(&mut Library, [&mut [u32]; W], [&[u32]; R]) -> Answer;

type Reads<'a, R, W, A> = &'a mut dyn FnMut(&mut Library, &[R], &mut [W]) -> A;

type ReadsBoth<'a, R> = &'a mut dyn FnMut(&mut Library, &[R], &[R]) -> Answer;

/// Makes a call with either guard. Both must give the same: the answer, and what was written.
fn twice<A: Debug + PartialEq, W: PartialEq>(mut once: impl FnMut(Guard) -> (A, W)) -> (A, W) {
    let (before, after) = (once(Guard::Before), once(Guard::After));
    assert!(before == after, "the two placements differ: {:?} and {:?}", before.0, after.0);
    after
}

impl Guarded {
    /// A call on words that may be written and on words that may not.
    fn words<const W: usize, const R: usize>(&mut self, written: [&mut [u32]; W], read: [&[u32]; R], make: Words<W, R>) -> Answer {
        let (answer, after) = twice(|guard| {
            self.library.null_where_empty = guard == Guard::Before;
            let mut lent: [&mut [u32]; W] = std::array::from_fn(|at| self.written[at].put(&*written[at], guard));
            let fixed = self.put_fixed(read, guard);
            let answer = make(&mut self.library, lent.each_mut().map(|slice| &mut **slice), fixed);
            self.release();
            (answer, lent.map(|slice| slice.to_vec()))
        });
        for (slice, found) in written.into_iter().zip(&after) {
            slice.copy_from_slice(found);
        }
        answer
    }

    fn put_fixed<T: Copy + 'static, const R: usize>(&mut self, read: [&[T]; R], guard: Guard) -> [&'static [T]; R] {
        std::array::from_fn(|at| self.fixed[at].put_fixed(read[at], guard))
    }

    fn release(&self) {
        self.fixed.iter().for_each(Lent::release);
    }

    /// A call on a slice that may not be written and one that may.
    fn read<R, W, A>(&mut self, read: &[R], written: &mut [W], make: Reads<R, W, A>) -> A
    where
        R: Copy + 'static,
        W: Copy + PartialEq + 'static,
        A: Debug + PartialEq,
    {
        let (answer, after) = twice(|guard| {
            self.library.null_where_empty = guard == Guard::Before;
            let ([lent_read], lent_written) = (self.put_fixed([read], guard), self.written[0].put(written, guard));
            let answer = make(&mut self.library, lent_read, lent_written);
            self.release();
            (answer, lent_written.to_vec())
        });
        written.copy_from_slice(&after);
        answer
    }

    /// A call on two slices that may not be written.
    fn read_both<R: Copy + 'static>(&mut self, a: &[R], b: &[R], make: ReadsBoth<R>) -> Answer {
        let once = |guard| {
            self.library.null_where_empty = guard == Guard::Before;
            let [a, b] = self.put_fixed([a, b], guard);
            let answer = make(&mut self.library, a, b);
            self.release();
            (answer, ())
        };
        twice(once).0
    }
}

impl Linker for Guarded {
    fn read_class_sheet(&mut self, bytes: &[u8], words: &mut [u32]) -> Answer {
        self.read(bytes, words, &mut |library, bytes, words| library.read_class_sheet(bytes, words))
    }

    fn read_abi_sheet(&mut self, bytes: &[u8], words: &mut [u32]) -> Answer {
        self.read(bytes, words, &mut |library, bytes, words| library.read_abi_sheet(bytes, words))
    }

    fn write_class_sheet(&mut self, set: &[u32], bytes: &mut [u8]) -> Answer {
        self.read(set, bytes, &mut |library, set, bytes| library.write_class_sheet(set, bytes))
    }

    fn widen_class_sheet(&mut self, bytes: &[u8], out: &mut [u8]) -> Answer {
        self.read(bytes, out, &mut |library, bytes, out| library.widen_class_sheet(bytes, out))
    }

    fn narrow_class_sheet(&mut self, bytes: &[u8], out: &mut [u8]) -> Answer {
        self.read(bytes, out, &mut |library, bytes, out| library.narrow_class_sheet(bytes, out))
    }

    fn read_unordered_sheet(&mut self, bytes: &[u8], words: &mut [u32]) -> Answer {
        self.read(bytes, words, &mut |library, bytes, words| library.read_unordered_sheet(bytes, words))
    }

    fn renumber_classes(&mut self, set: &mut [u32], order: &mut [u32]) -> Answer {
        self.words([set, order], [], &mut |library, [set, order], []| library.renumber_classes(set, order))
    }

    fn number_signatures(&mut self, set: &[u32], abi: &[u32], numbers: &mut [u32]) -> Answer {
        self.words([numbers], [set, abi], &mut |library, [numbers], [set, abi]| library.number_signatures(set, abi, numbers))
    }

    fn link(&mut self, sheets: SheetsMut, class: u32, area: &mut [u32], stubs: &[u32], missing: &mut [u32]) -> Answer {
        let SheetsMut { set, abi, numbers } = sheets;
        self.words([set, numbers, area, missing], [abi, stubs], &mut |library, [set, numbers, area, missing], [abi, stubs]| {
            library.link(SheetsMut { set, abi, numbers }, class, area, stubs, missing)
        })
    }

    fn missing_slots(&mut self, set: &[u32], abi: &[u32], missing: &[u32], class: u32) -> Answer {
        self.words([], [set, abi, missing], &mut |library, [], [set, abi, missing]| library.missing_slots(set, abi, missing, class))
    }

    fn ask(&mut self, sheets: Sheets, class: u32, interface: u32, area: &mut [u32], stubs: &[u32]) -> Answer {
        let Sheets { set, abi, numbers } = sheets;
        self.words([area], [set, abi, numbers, stubs], &mut |library, [area], [set, abi, numbers, stubs]| {
            library.ask(Sheets { set, abi, numbers }, class, interface, area, stubs)
        })
    }

    fn argument_words(&mut self, descriptor: &[u8], flags: u32) -> Answer {
        self.read(descriptor, &mut [0u32; 0], &mut |library, descriptor, _| library.argument_words(descriptor, flags))
    }

    fn reference_words(&mut self, bitmap: &[u8], words: u32, list: &mut [u32]) -> Answer {
        self.read(bitmap, list, &mut |library, bitmap, list| library.reference_words(bitmap, words, list))
    }

    fn reference_count(&mut self, bitmap: &[u8], words: u32) -> Answer {
        self.read(bitmap, &mut [0u32; 0], &mut |library, bitmap, _| library.reference_count(bitmap, words))
    }

    fn compare_names(&mut self, a: &[u8], b: &[u8]) -> Answer {
        self.read_both(a, b, &mut |library, a, b| library.compare_names(a, b))
    }

    fn read_class_file(&mut self, bytes: &[u8], targets: &[u32], fields: &mut [u32], methods: &mut [u32], text: &mut [u32]) -> FileAnswer {
        let (answer, written) = twice(|guard| {
            self.library.null_where_empty = guard == Guard::Before;
            let [first, second, third, _] = &mut self.written;
            let lent = (first.put(fields, guard), second.put(methods, guard), third.put(text, guard));
            let (file, lent_targets) = (self.fixed[0].put_fixed(bytes, guard), self.fixed[1].put_fixed(targets, guard));
            let answer = self.library.read_class_file(file, lent_targets, lent.0, lent.1, lent.2);
            self.release();
            (answer, [lent.0.to_vec(), lent.1.to_vec(), lent.2.to_vec()])
        });
        for (list, found) in [fields, methods, text].into_iter().zip(&written) {
            list.copy_from_slice(found);
        }
        answer
    }

    fn class_file_head(&mut self, bytes: &[u8]) -> FileAnswer {
        self.read(bytes, &mut [0u32; 0], &mut |library, bytes, _| library.class_file_head(bytes))
    }
}

#[cfg(test)]
mod tests {
    use std::env;
    use std::os::unix::process::ExitStatusExt;
    use std::process::Command;

    use super::{Guard, Lent};

    /// Each of these touches ends a program by signal 11, invalid access.
    #[test]
    fn guards_bite() {
        for touch in ["before", "after", "fixed"] {
            let program = env::current_exe().expect("the test has a path");
            let run = Command::new(program).args(["--exact", "guarded::tests::touched"]).env("TOUCH", touch).output();
            assert_eq!(run.expect("the test runs itself").status.signal(), Some(11), "{touch}");
        }
    }

    /// Touches what the variable TOUCH says, nothing without it.
    #[test]
    fn touched() {
        let Ok(touch) = env::var("TOUCH") else { return };
        let words = [1u32, 2, 3];
        let mut lent = Lent::new();
        unsafe {
            match touch.as_str() {
                "before" => _ = lent.put(&words, Guard::Before).as_ptr().sub(1).read_volatile(),
                "after" => _ = lent.put(&words, Guard::After).as_ptr().add(3).read_volatile(),
                _ => lent.put_fixed(&words, Guard::After).as_ptr().cast_mut().write_volatile(0),
            }
        }
    }
}
