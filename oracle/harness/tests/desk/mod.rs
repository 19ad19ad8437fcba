//! A desk for small cases: every call is made on the oracle and on the model, and both must
//! agree on the answer and on all memory.

#![allow(dead_code)]

use harness::generate::{AbiClassDraft, AbiMemberDraft, ClassDraft, Draft, MemberDraft};
use harness::model::Model;
use harness::oracle::Oracle;
use harness::sheet::{Set, class_word};
use harness::side::{Answer, Linker, Sheets, SheetsMut};

pub const FIRST_STUB: u32 = 0xF000_0000;

/// A class without members.
pub fn class(name: &str, parent: u32) -> ClassDraft {
    ClassDraft { name: name.to_owned(), parent, flags: 1, ..ClassDraft::default() }
}

pub fn generated(name: &str, parent: u32) -> ClassDraft {
    ClassDraft { kind: 1, link_state: 3, ..class(name, parent) }
}

pub fn array(name: &str, parent: u32) -> ClassDraft {
    ClassDraft { kind: 2, ..class(name, parent) }
}

/// A public method `name()V`.
pub fn method(name: &str, target: u32) -> MemberDraft {
    MemberDraft { name: name.to_owned(), descriptor: "()V".to_owned(), flags: 1, last: target }
}

pub fn method_with(name: &str, flags: u32, target: u32) -> MemberDraft {
    MemberDraft { flags, ..method(name, target) }
}

/// An instance field.
pub fn field(name: &str, descriptor: &str, index: u32) -> MemberDraft {
    MemberDraft { name: name.to_owned(), descriptor: descriptor.to_owned(), flags: 0, last: index }
}

pub fn static_field(name: &str, descriptor: &str, index: u32) -> MemberDraft {
    MemberDraft { flags: 8, ..field(name, descriptor, index) }
}

/// An ABI class with slots `name()V` and fields.
pub fn abi(name: &str, slots: &[(&str, u32)], fields: &[(&str, &str, u32)]) -> AbiClassDraft {
    let slot = |&(name, index): &(&str, u32)| AbiMemberDraft { name: name.to_owned(), descriptor: "()V".to_owned(), index };
    let field =
        |&(name, descriptor, index): &(&str, &str, u32)| AbiMemberDraft { name: name.to_owned(), descriptor: descriptor.to_owned(), index };
    AbiClassDraft {
        name: name.to_owned(),
        slots: slots.iter().map(slot).collect(),
        fields: fields.iter().map(field).collect(),
        ..AbiClassDraft::default()
    }
}

/// What is lent to the calls.
pub struct Desk {
    oracle: Oracle,
    pub set: Vec<u32>,
    pub abi: Vec<u32>,
    pub numbers: Vec<u32>,
    pub area: Vec<u32>,
    pub stubs: Vec<u32>,
    pub missing: Vec<u32>,
}

impl Desk {
    /// 400 words behind the content, a fresh area of 2,000 words, 1,024 stubs.
    pub fn new(classes: Vec<ClassDraft>, abi: Vec<AbiClassDraft>) -> Self {
        let mut draft = Draft { classes, abi, ..Draft::default() };
        draft.shape.slack = 400;
        Self::of(&draft)
    }

    pub fn of(draft: &Draft) -> Self {
        let mut oracle = Oracle::default();
        oracle.new_case(true);
        let mut area = vec![0; 2000];
        area[0] = 1;
        let stubs = (0..1024).map(|index| FIRST_STUB + index).collect();
        let (set, abi, mut numbers) = (draft.set_words(), draft.abi_words(), vec![7; 1024]);
        oracle.number_signatures(&set, &abi, &mut numbers);
        Self { oracle, set, abi, numbers, area, stubs, missing: vec![7; 33 * 64] }
    }

    pub fn link(&mut self, class: u32) -> Answer {
        let (mut set, mut area) = (self.set.clone(), self.area.clone());
        let (mut numbers, mut missing) = (self.numbers.clone(), self.missing.clone());
        let sheets = SheetsMut { set: &mut set, abi: &self.abi, numbers: &mut numbers };
        let by_model = Model.link(sheets, class, &mut area, &self.stubs, &mut missing);
        let sheets = SheetsMut { set: &mut self.set, abi: &self.abi, numbers: &mut self.numbers };
        let answer = self.oracle.link(sheets, class, &mut self.area, &self.stubs, &mut self.missing);
        assert_eq!(self.missing, missing, "oracle and model leave the same list of missing slots");
        assert_eq!(self.numbers, numbers, "oracle and model leave the same list of numbers");
        self.agree(answer, by_model, &set, &area)
    }

    pub fn ask(&mut self, class: u32, interface: u32) -> Answer {
        let (set, mut area) = (self.set.clone(), self.area.clone());
        let sheets = Sheets { set: &set, abi: &self.abi, numbers: &self.numbers };
        let by_model = Model.ask(sheets, class, interface, &mut area, &self.stubs);
        let answer = self.oracle.ask(sheets, class, interface, &mut self.area, &self.stubs);
        self.agree(answer, by_model, &set, &area)
    }

    fn agree(&self, answer: Answer, by_model: Answer, set: &[u32], area: &[u32]) -> Answer {
        assert_eq!(answer, by_model, "oracle and model answer alike");
        assert_eq!(self.set, set, "oracle and model leave the same class words");
        assert_eq!(self.area, area, "oracle and model leave the same area");
        answer
    }

    /// Links classes 1 to `count`, all accepted.
    pub fn link_all(&mut self, count: u32) {
        for class in 1..=count {
            assert_eq!(self.link(class).refusal, 0, "class {class} links");
        }
    }

    /// Links classes in order; the refusal of the last, whose forerunners are accepted.
    pub fn refusal_of(&mut self, class: u32) -> u32 {
        self.link_all(class - 1);
        self.link(class).refusal
    }

    pub fn sections(&self) -> Set {
        Set::decode(&self.set).expect("the class words have their sections")
    }

    /// The slots of a linked class.
    pub fn table(&self, class: u32) -> Vec<u32> {
        let (place, slots) = self.sections().class(class).span(class_word::PLACE);
        self.area[place as usize + 1..][..slots as usize].to_vec()
    }

    /// The word indices of a class's fields.
    pub fn indices(&self, class: u32) -> Vec<u32> {
        self.sections().fields_of(class).iter().map(|field| field.last).collect()
    }

    pub fn instance_words(&self, class: u32) -> u32 {
        self.sections().class(class).get(class_word::INSTANCE_WORDS)
    }

    /// Name, flags and target of a class's methods.
    pub fn methods(&self, class: u32) -> Vec<(String, u32, u32)> {
        let set = self.sections();
        set.methods_of(class).iter().map(|method| (set.part(method.name).to_owned(), method.flags, method.last)).collect()
    }
}
