//! The jobs that are measured, on both sides.

use harness::oracle::{Oracle, Watch};
use harness::side::{Linker, Sheets, SheetsMut};
use library::Library;

use crate::sets::ClassSet;
use crate::watch::plain;

#[derive(Clone, Copy, PartialEq, Eq)]
pub enum Job {
    /// Every class in number order, from the unlinked set in a fresh area.
    Link,
    /// One ask whose table is on the class's list.
    Found,
    /// One ask whose table is built; its node is taken off the list again afterwards.
    Built,
    ReadClasses,
    ReadAbi,
    /// The list of the signatures' numbers filled from the unlinked set.
    Fill,
}

impl Job {
    pub const ALL: [Self; 6] = [Self::Link, Self::Found, Self::Built, Self::ReadClasses, Self::ReadAbi, Self::Fill];

    pub fn name(self) -> &'static str {
        match self {
            Self::Link => "link all",
            Self::Found => "ask found",
            Self::Built => "ask built",
            Self::ReadClasses => "read classes",
            Self::ReadAbi => "read ABI",
            Self::Fill => "fill numbers",
        }
    }

    /// Whether the original has it too.
    pub fn is_shared(self) -> bool {
        matches!(self, Self::Link | Self::Found | Self::Built)
    }
}

/// One side, ready for any job on one set. `watch` makes the calls, and nothing else is inside it.
pub trait Side {
    fn run(&mut self, job: Job, watch: Watch);
}

/// This linker, through its static library.
pub struct Ours<'a> {
    set: &'a ClassSet,
    /// The memory of the links.
    words: Vec<u32>,
    numbers: Vec<u32>,
    area: Vec<u32>,
    missing: Vec<u32>,
    /// The list of numbers as it is filled; no link of these sets adds a method, so links leave it.
    filled: Vec<u32>,
    /// Linked words, the area before any ask and after all asks.
    linked: Vec<u32>,
    unasked: Vec<u32>,
    asked: Vec<u32>,
    /// The place in the area of the asked class's list head.
    head: usize,
    /// Where sheets are read to.
    read: Vec<u32>,
}

impl<'a> Ours<'a> {
    pub fn new(set: &'a ClassSet) -> Self {
        let case = &set.case;
        let mut ours = Self {
            set,
            words: case.set.clone(),
            numbers: case.numbers.clone(),
            area: case.area.clone(),
            missing: case.missing.clone(),
            filled: case.numbers.clone(),
            linked: Vec::new(),
            unasked: Vec::new(),
            asked: Vec::new(),
            head: 0,
            read: vec![0; case.set.len()],
        };
        ours.fill(plain);
        ours.link(plain);
        ours.linked = ours.words.clone();
        ours.unasked = ours.area.clone();
        ours.asked = ours.area.clone();
        for &interface in &set.interfaces {
            ours.ask_found(interface, plain);
        }
        let below = ours.unasked[0] as usize;
        let changed = |place: &usize| ours.asked[*place] != ours.unasked[*place];
        ours.head = (1..below).find(changed).expect("an ask moves the list head");
        ours
    }

    fn link(&mut self, watch: Watch) {
        let (case, words, area, missing) = (&self.set.case, &mut self.words, &mut self.area, &mut self.missing);
        words.copy_from_slice(&case.set);
        self.numbers.copy_from_slice(&self.filled);
        area[0] = 1;
        for class in 1..=words[0] {
            watch(&mut || {
                let sheets = SheetsMut { set: words, abi: &case.abi, numbers: &mut self.numbers };
                assert_eq!(Library::default().link(sheets, class, area, &case.stubs[0], missing).refusal, 0);
            });
        }
    }

    fn fill(&mut self, watch: Watch) {
        let (case, filled) = (&self.set.case, &mut self.filled);
        watch(&mut || assert_eq!(Library::default().number_signatures(&case.set, &case.abi, filled).refusal, 0));
    }

    fn ask_found(&mut self, interface: u32, watch: Watch) {
        let sheets = Sheets { set: &self.linked, abi: &self.set.case.abi, numbers: &self.filled };
        ask(self.set, interface, sheets, &mut self.asked, watch);
    }

    fn ask_built(&mut self, watch: Watch) {
        let (next, list) = (self.unasked[0], self.unasked[self.head]);
        let sheets = Sheets { set: &self.linked, abi: &self.set.case.abi, numbers: &self.filled };
        ask(self.set, self.set.interfaces[0], sheets, &mut self.unasked, watch);
        assert_ne!(self.unasked[0], next, "a table is built");
        self.unasked[0] = next;
        self.unasked[self.head] = list;
    }

    fn read(&mut self, is_class_sheet: bool, watch: Watch) {
        let (set, words, library) = (self.set, &mut self.read, &mut Library::default());
        watch(&mut || {
            let answer = if is_class_sheet {
                library.read_class_sheet(&set.class_sheet, words)
            } else {
                library.read_abi_sheet(&set.abi_sheet, words)
            };
            assert_eq!(answer.refusal, 0);
        });
    }
}

/// Asks the set's class for an interface.
fn ask(set: &ClassSet, interface: u32, sheets: Sheets, area: &mut [u32], watch: Watch) {
    watch(&mut || assert_eq!(Library::default().ask(sheets, set.class, interface, area, &set.case.stubs[0]).refusal, 0));
}

impl Side for Ours<'_> {
    fn run(&mut self, job: Job, watch: Watch) {
        match job {
            Job::Link => self.link(watch),
            Job::Found => self.ask_found(self.set.interfaces[0], watch),
            Job::Built => self.ask_built(watch),
            Job::ReadClasses => self.read(true, watch),
            Job::ReadAbi => self.read(false, watch),
            Job::Fill => self.fill(watch),
        }
    }
}

/// The original Rust, over its emulated memory.
pub struct Original<'a> {
    set: &'a ClassSet,
    linking: Oracle,
    /// All classes linked, no ask made.
    unasked: Oracle,
    /// All classes linked, all asks made.
    asked: Oracle,
}

impl<'a> Original<'a> {
    pub fn new(set: &'a ClassSet) -> Self {
        let mut original = Self { set, linking: Oracle::default(), unasked: Oracle::default(), asked: Oracle::default() };
        for oracle in [&mut original.unasked, &mut original.asked] {
            link(oracle, set, plain);
        }
        for &interface in &set.interfaces {
            assert!(original.asked.ask_alone(set.class, interface, true, plain), "a table is built");
        }
        original
    }
}

fn link(oracle: &mut Oracle, set: &ClassSet, watch: Watch) -> Vec<Vec<u32>> {
    oracle.link_all(&set.case.set, &set.case.abi, &set.case.stubs[0], watch).expect("every link is accepted")
}

impl Side for Original<'_> {
    fn run(&mut self, job: Job, watch: Watch) {
        let (class, interface) = (self.set.class, self.set.interfaces[0]);
        match job {
            Job::Link => drop(link(&mut self.linking, self.set, watch)),
            Job::Found => assert!(!self.asked.ask_alone(class, interface, false, watch), "the table is found"),
            Job::Built => assert!(self.unasked.ask_alone(class, interface, false, watch), "a table is built"),
            Job::ReadClasses | Job::ReadAbi | Job::Fill => unreachable!("the original has neither sheets nor numbers"),
        }
    }
}

/// The counts before the sections of a class set.
const COUNTS: usize = 6;

/// Runs a set's calls on both sides and compares every answer and every word of memory; each must be
/// accepted and add no member. Then sees that the original's tables are the same where it is measured. Answers the largest
/// table's slots.
pub fn check(set: &ClassSet) -> Result<usize, String> {
    let fail = |message: String| Err(format!("{}: {message}", set.name));
    let mut refused = None;
    let mut oracle = Oracle::default();
    let compared = harness::compare::compare(&mut oracle, &mut Library::default(), &set.case, &mut |step| {
        if step.answer.refusal != 0 {
            refused = refused.or(Some((step.call, step.answer.refusal)));
        }
    });
    let state = match compared {
        Err(disagreement) => return fail(format!("call {}: {}", disagreement.call + 1, disagreement.difference)),
        Ok(state) => state,
    };
    if let Some((call, row)) = refused {
        return fail(format!("{call} is refused by {row}"));
    }
    if state.set[..COUNTS] != set.case.set[..COUNTS] {
        return fail("a link added a member".to_owned());
    }
    let mut place = 1;
    let tables = link(&mut oracle, set, plain);
    for (table, class) in tables.iter().zip(1..) {
        let words = &state.area[place..][..table.len() + 1];
        if words[0] != class || words[1..] != *table {
            return fail(format!("the table of class {class} differs where it is measured"));
        }
        place += table.len() + 2;
    }
    Ok(tables.iter().map(Vec::len).max().unwrap_or(0))
}
