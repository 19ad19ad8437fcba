//! How much stack each exported function takes: every call runs on a painted stack of its function's own.

use std::arch::asm;

use harness::compare::State;
use harness::compare::{compare, perform};
use harness::generate;
use harness::oracle::Oracle;
use harness::random::Random;
use harness::readings::{self, ReadingCounts};
use harness::side::{Answer, FileAnswer, Linker, Sheets, SheetsMut};
use library::Library;
use library::guarded::Pages;

use crate::sets::{self, ClassSet};

/// The bytes of a painted stack; right below it lies a page that may not be touched.
const SIZE: usize = 1 << 20;
const PAINT: u8 = 0xA5;

/// The exported functions, in the order of `Painted`'s stacks.
const FUNCTIONS: [&str; 17] = [
    "lgt_read_class_sheet",
    "lgt_read_abi_sheet",
    "lgt_link",
    "lgt_interface_dispatch_table",
    "lgt_argument_words",
    "lgt_reference_words",
    "lgt_reference_count",
    "lgt_write_class_sheet",
    "lgt_read_unordered_sheet",
    "lgt_renumber_classes",
    "lgt_compare_names",
    "lgt_widen_class_sheet",
    "lgt_narrow_class_sheet",
    "lgt_read_class_file",
    "lgt_class_file_head",
    "lgt_missing_slots",
    "lgt_number_signatures",
];

/// A stack whose touched bytes show.
struct Stack(Pages);

impl Stack {
    fn new() -> Self {
        let mut pages = Pages::new(SIZE);
        pages.bytes().fill(PAINT);
        Self(pages)
    }

    /// Makes a call on this stack; it may not panic.
    fn run<R>(&mut self, call: impl FnOnce() -> R) -> R {
        let (mut call, mut result) = (Some(call), None);
        let mut body: &mut dyn FnMut() = &mut || result = call.take().map(|call| call());
        let top = self.0.bytes().as_mut_ptr_range().end;
        // SAFETY: the stack is aligned, large enough or else guarded, and used by nobody else; r12 is kept by `enter`.
        unsafe {
            asm!(
                "mov r12, rsp",
                "mov rsp, {top}",
                "call {enter}",
                "mov rsp, r12",
                top = in(reg) top,
                enter = sym enter,
                in("rdi") &raw mut body,
                out("r12") _,
                clobber_abi("C"),
            );
        }
        result.expect("the call was made")
    }

    /// The bytes from the deepest one that changed up to the top.
    fn depth(&mut self) -> usize {
        SIZE - self.0.bytes().iter().position(|&byte| byte != PAINT).unwrap_or(SIZE)
    }
}

extern "C" fn enter(body: *mut &mut dyn FnMut()) {
    // SAFETY: `run` lends it for the call.
    unsafe { (*body)() }
}

/// The library on painted stacks.
struct Painted {
    library: Library,
    stacks: [Stack; FUNCTIONS.len()],
}

impl Painted {
    fn new() -> Self {
        Self { library: Library::default(), stacks: std::array::from_fn(|_| Stack::new()) }
    }

    fn depths(&mut self) -> [usize; FUNCTIONS.len()] {
        self.stacks.each_mut().map(Stack::depth)
    }
}

impl Linker for Painted {
    fn read_class_sheet(&mut self, bytes: &[u8], words: &mut [u32]) -> Answer {
        self.stacks[0].run(|| self.library.read_class_sheet(bytes, words))
    }

    fn read_abi_sheet(&mut self, bytes: &[u8], words: &mut [u32]) -> Answer {
        self.stacks[1].run(|| self.library.read_abi_sheet(bytes, words))
    }

    fn number_signatures(&mut self, set: &[u32], abi: &[u32], numbers: &mut [u32]) -> Answer {
        self.stacks[16].run(|| self.library.number_signatures(set, abi, numbers))
    }

    fn link(&mut self, sheets: SheetsMut, class: u32, area: &mut [u32], stubs: &[u32], missing: &mut [u32]) -> Answer {
        self.stacks[2].run(|| self.library.link(sheets, class, area, stubs, missing))
    }

    fn missing_slots(&mut self, set: &[u32], abi: &[u32], missing: &[u32], class: u32) -> Answer {
        self.stacks[15].run(|| self.library.missing_slots(set, abi, missing, class))
    }

    fn ask(&mut self, sheets: Sheets, class: u32, interface: u32, area: &mut [u32], stubs: &[u32]) -> Answer {
        self.stacks[3].run(|| self.library.ask(sheets, class, interface, area, stubs))
    }

    fn argument_words(&mut self, descriptor: &[u8], flags: u32) -> Answer {
        self.stacks[4].run(|| self.library.argument_words(descriptor, flags))
    }

    fn reference_words(&mut self, bitmap: &[u8], words: u32, list: &mut [u32]) -> Answer {
        self.stacks[5].run(|| self.library.reference_words(bitmap, words, list))
    }

    fn reference_count(&mut self, bitmap: &[u8], words: u32) -> Answer {
        self.stacks[6].run(|| self.library.reference_count(bitmap, words))
    }

    fn write_class_sheet(&mut self, set: &[u32], bytes: &mut [u8]) -> Answer {
        self.stacks[7].run(|| self.library.write_class_sheet(set, bytes))
    }

    fn read_unordered_sheet(&mut self, bytes: &[u8], words: &mut [u32]) -> Answer {
        self.stacks[8].run(|| self.library.read_unordered_sheet(bytes, words))
    }

    fn renumber_classes(&mut self, set: &mut [u32], order: &mut [u32]) -> Answer {
        self.stacks[9].run(|| self.library.renumber_classes(set, order))
    }

    fn compare_names(&mut self, a: &[u8], b: &[u8]) -> Answer {
        self.stacks[10].run(|| self.library.compare_names(a, b))
    }

    fn widen_class_sheet(&mut self, bytes: &[u8], out: &mut [u8]) -> Answer {
        self.stacks[11].run(|| self.library.widen_class_sheet(bytes, out))
    }

    fn narrow_class_sheet(&mut self, bytes: &[u8], out: &mut [u8]) -> Answer {
        self.stacks[12].run(|| self.library.narrow_class_sheet(bytes, out))
    }

    fn read_class_file(&mut self, bytes: &[u8], targets: &[u32], fields: &mut [u32], methods: &mut [u32], text: &mut [u32]) -> FileAnswer {
        self.stacks[13].run(|| self.library.read_class_file(bytes, targets, fields, methods, text))
    }

    fn class_file_head(&mut self, bytes: &[u8]) -> FileAnswer {
        self.stacks[14].run(|| self.library.class_file_head(bytes))
    }
}

/// Reads a set's sheets and makes its calls.
fn run_set(painted: &mut Painted, set: &ClassSet) {
    let mut state = State::of(&set.case);
    let mut words = state.set.clone();
    painted.read_class_sheet(&set.class_sheet, &mut words);
    painted.read_abi_sheet(&set.abi_sheet, &mut words);
    for &call in &set.case.calls {
        perform(painted, &set.case, call, &mut state);
    }
}

/// Makes at least `count` calls of the harness's generator, which the original judges, and those of as many cases of kind 3, which the
/// harness judges.
fn run_generated(painted: &mut Painted, seed: u64, count: u64) -> Result<(), String> {
    let (mut oracle, mut counts) = (Oracle::default(), ReadingCounts::default());
    let (mut calls, mut number) = (0, 0);
    while calls < count {
        let case = generate::case(seed, number);
        let compared = compare(&mut oracle, painted, &case, &mut |_| calls += 1);
        compared.map_err(|found| format!("seed {seed}, case {number}: {}", found.difference))?;
        let compared = compare(&mut oracle, painted, &generate::packages(seed, number), &mut |_| {});
        compared.map_err(|found| format!("seed {seed}, case {number} of kind 3: {}", found.difference))?;
        readings::compare(&mut oracle, painted, &mut Random::for_case(!seed, number), &case, &mut counts)?;
        number += 1;
    }
    Ok(())
}

/// Prints the bytes of stack that each function took, on the sets and on generated calls; an error if one took
/// more than `limit`.
pub fn print(seed: &str, count: &str, limit: Option<&str>) -> Result<(), String> {
    let number = |text: &str| text.parse::<u64>().map_err(|error| format!("{text}: {error}"));
    let (seed, count, limit) = (number(seed)?, number(count)?, limit.map(number).transpose()?);
    let mut on_sets = Painted::new();
    sets::all().iter().chain([&sets::packaged()]).for_each(|set| run_set(&mut on_sets, set));
    let mut on_generated = Painted::new();
    run_generated(&mut on_generated, seed, count)?;
    println!("function,sets,generated");
    let depths = on_sets.depths().into_iter().zip(on_generated.depths());
    let mut deepest = 0;
    for (function, (first, second)) in FUNCTIONS.iter().zip(depths) {
        println!("{function},{first},{second}");
        deepest = deepest.max(first).max(second);
    }
    match limit {
        Some(limit) if deepest as u64 > limit => Err(format!("{deepest} bytes of stack are more than {limit}")),
        _ => Ok(()),
    }
}
