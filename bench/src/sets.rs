//! The class sets that are linked. All but Card are made here, so that every link of theirs is accepted
//! and adds no member: the largest sets have no room for one.

use harness::case::{Call, Case};
use harness::generate::{AbiClassDraft, AbiMemberDraft, ClassDraft, Draft, MemberDraft, Shape};
use harness::sheet::{blocks, class_word, class_word_at};
use harness::side::Linker;
use library::Library;

/// Words that hold every set, as include/lgt_linker.h has them.
const CLASS_WORDS: usize = 11684;
const ABI_WORDS: usize = 6477;
const NUMBERS: usize = 1024;
const STUBS: u32 = 1024;
const MISSING_WORDS: usize = 2112;
/// Room for 64 tables of 1,024 slots, and nodes.
const AREA_WORDS: usize = 70_000;

const STATIC: u32 = 0x0008;
const INTERFACE: u32 = 0x0200;
const OBJECT: &str = "java/lang/Object";

/// A set, its sheets, and the ask that is measured on it.
pub struct ClassSet {
    pub name: String,
    /// Unlinked words, a list of numbers, a fresh area, stubs, a list of missing slots; a filling of the list of numbers, links of all
    /// classes in number order, then the asks, then the first ask again, then a question for the class's missing slots.
    pub case: Case,
    pub class_sheet: Vec<u8>,
    pub abi_sheet: Vec<u8>,
    pub class: u32,
    /// The interfaces that the class is asked for; the first is measured.
    pub interfaces: Vec<u32>,
}

/// How large a set is made.
#[derive(Clone, Copy)]
pub struct Size {
    pub classes: u32,
    /// Classes from a leaf to the root, both counted.
    pub chain: u32,
    pub interfaces: u32,
    pub arrays: u32,
    pub methods: u32,
    pub fields: u32,
    pub abi_slots: u32,
    /// The root's table size by the ABI; 0 if it gives none.
    pub table_size: u32,
    /// Whether some classes are generated.
    pub is_mixed: bool,
    /// What the names of classes begin with.
    pub package: &'static str,
}

const LARGEST: Size = Size {
    classes: 64,
    chain: 8,
    interfaces: 3,
    arrays: 4,
    methods: 512,
    fields: 512,
    abi_slots: 512,
    table_size: 0,
    is_mixed: true,
    package: "app/",
};
const LARGEST_CHAIN: Size = Size { chain: 64, interfaces: 0, arrays: 0, ..LARGEST };
const MIDDLE: Size = Size { classes: 16, chain: 5, interfaces: 2, arrays: 1, methods: 128, fields: 128, abi_slots: 128, ..LARGEST };
/// As many classes and ABI classes as there may be, of whose names only the last two bytes differ.
const LONG_NAMES: Size =
    Size { interfaces: 0, arrays: 0, methods: 128, fields: 128, abi_slots: 128, package: "com/example/phone/games/card/ui/", ..LARGEST };

/// The sets by their names.
pub fn all() -> Vec<ClassSet> {
    vec![card(), made("middle", MIDDLE), made("chains of 8", LARGEST), made("chain of 64", LARGEST_CHAIN), made("long names", LONG_NAMES)]
}

/// The chain of 64 classes as kind 3, without ABI classes; the original does not link it.
pub fn packaged() -> ClassSet {
    let mut set = made("packaged chain of 64", LARGEST_CHAIN);
    for class in 1..=set.case.set[0] {
        set.case.set[class_word_at(class, class_word::KIND)] = 3;
    }
    set.case.abi = vec![0; 4];
    set
}

/// The example of the specification; VipCard is asked for Card's table.
fn card() -> ClassSet {
    let class_sheet = include_bytes!("../../examples/card/classes.bin").to_vec();
    let abi_sheet = include_bytes!("../../examples/card/abi.bin").to_vec();
    let (mut set, mut abi) = (vec![0; CLASS_WORDS], vec![0; ABI_WORDS]);
    assert_eq!(Library::default().read_class_sheet(&class_sheet, &mut set).refusal, 0);
    let read = Library::default().read_abi_sheet(&abi_sheet, &mut abi);
    assert_eq!(read.refusal, 0);
    abi.truncate(read.first as usize);
    class_set("Card", set, abi, class_sheet, abi_sheet, 2, vec![1])
}

/// A set of this size.
pub fn made(name: &str, size: Size) -> ClassSet {
    let classes = (1..=size.classes).map(|number| size.class(number)).collect();
    let abi = (1..=size.classes).map(|number| size.abi_class(number)).collect();
    let draft = Draft { classes, abi, shape: Shape { shares_text: true, ..Shape::default() } };
    let (mut set, abi) = (draft.set_words(), draft.abi_words());
    let (class_sheet, abi_sheet) = (blocks(&set), blocks(&abi));
    set.resize(CLASS_WORDS, 0);
    let interfaces = if size.interfaces == 0 { vec![1] } else { size.interface_numbers().collect() };
    class_set(name, set, abi, class_sheet, abi_sheet, size.chain, interfaces)
}

fn class_set(
    name: &str,
    set: Vec<u32>,
    abi: Vec<u32>,
    class_sheet: Vec<u8>,
    abi_sheet: Vec<u8>,
    class: u32,
    interfaces: Vec<u32>,
) -> ClassSet {
    let links = (1..=set[0]).map(|class| Call::Link { class, stubs: 0 });
    let asked = interfaces.iter().chain(&interfaces[..1]);
    let asks = asked.map(|&interface| Call::Ask { class, interface, stubs: 0 });
    let mut area = vec![0; AREA_WORDS];
    area[0] = 1;
    let case = Case {
        calls: std::iter::once(Call::Fill).chain(links).chain(asks).chain([Call::Missing { class }]).collect(),
        set,
        abi,
        numbers: vec![0; NUMBERS],
        area,
        missing: vec![0; MISSING_WORDS],
        stubs: vec![(0..STUBS).map(|index| 0xF000_0000 + index).collect()],
        ..Case::default()
    };
    ClassSet { name: name.to_owned(), case, class_sheet, abi_sheet, class, interfaces }
}

/// What a class of a made set is.
#[derive(PartialEq, Eq)]
enum Role {
    Built,
    Generated,
    /// Generated, with a compiler table.
    Compiled,
    Interface,
    Array,
}

/// Part `part` (from 0) of `total` things shared out evenly.
fn share(total: u32, parts: u32, part: u32) -> u32 {
    (part + 1) * total / parts - part * total / parts
}

/// Words of a field by its descriptor.
fn width(descriptor: &str) -> u32 {
    if matches!(descriptor, "J" | "D") { 2 } else { 1 }
}

impl Size {
    /// Classes in the chains: they come first, then interfaces, then arrays.
    fn chained(&self) -> u32 {
        self.classes - self.interfaces - self.arrays
    }

    fn interface_numbers(&self) -> impl Iterator<Item = u32> {
        self.chained() + 1..=self.chained() + self.interfaces
    }

    fn role(&self, number: u32) -> Role {
        match number {
            _ if number > self.chained() + self.interfaces => Role::Array,
            _ if number > self.chained() => Role::Interface,
            _ if self.is_mixed && number % 26 == 11 => Role::Compiled,
            _ if self.is_mixed && number % 8 == 5 => Role::Generated,
            _ => Role::Built,
        }
    }

    /// Class 1 is the root of all chains, each of which is counted down from its leaf to it.
    fn parent(&self, number: u32) -> u32 {
        match number {
            1 => 0,
            _ if number > self.chained() => u32::from(self.role(number) == Role::Array),
            _ if (number - 2).is_multiple_of(self.chain - 1) => 1,
            _ => number - 1,
        }
    }

    fn name(&self, number: u32) -> String {
        match self.role(number) {
            _ if number == 1 => OBJECT.to_owned(),
            Role::Array => format!("[L{}Class{number:02};", self.package),
            Role::Interface => format!("{}Face{number:02}", self.package),
            _ => format!("{}Class{number:02}", self.package),
        }
    }

    fn class(&self, number: u32) -> ClassDraft {
        let role = self.role(number);
        let is_generated = matches!(role, Role::Generated | Role::Compiled);
        let mut class = ClassDraft {
            name: self.name(number),
            parent: self.parent(number),
            flags: if role == Role::Interface { INTERFACE | 0x0401 } else { 1 },
            kind: if role == Role::Array { 2 } else { u32::from(is_generated) },
            link_state: if is_generated { 3 } else { 0 },
            ..ClassDraft::default()
        };
        if role == Role::Array {
            return class;
        }
        class.methods = (0..self.methods_of(number)).map(|position| self.method(number, position)).collect();
        class.fields = fields(share(self.fields, self.classes - self.arrays, number - 1), is_generated);
        if number % 4 == 1 && role != Role::Interface {
            class.interfaces = self.interface_numbers().collect();
        }
        if is_generated {
            class.instance_words = 4 * number + own_words(&class.fields);
        }
        class.compiler = (role == Role::Compiled).then(|| self.compiler_table(number, &class.methods));
        class
    }

    fn methods_of(&self, number: u32) -> u32 {
        share(self.methods, self.classes - self.arrays, number - 1)
    }

    fn method(&self, number: u32, position: u32) -> MemberDraft {
        let (name, descriptor) = self.signature(number, position);
        let is_static = number.is_multiple_of(4) && position == 3;
        let flags = if self.role(number) == Role::Interface { 0x0401 } else { 1 + if is_static { STATIC } else { 0 } };
        MemberDraft { name, descriptor, flags, last: 0x1000 + 0x400 * number + 4 * position }
    }

    /// Position 0 is a constructor, 1 overrides a parent's method; 2 is the class's own and in no ABI, but a
    /// generated class, whose methods the compiler knows, overrides another there. The ABI fixes those from 3
    /// on, as far as its slots reach. An interface has methods of the first chain.
    fn signature(&self, number: u32, position: u32) -> (String, String) {
        if self.role(number) == Role::Interface {
            return self.signature(1 + position % self.chain, 4 + position / self.chain);
        }
        let parent = self.parent(number);
        if position == 0 {
            return ("<init>".to_owned(), "()V".to_owned());
        }
        let is_generated = self.role(number) != Role::Built;
        if position == 1 && parent != 0 {
            let is_unfixed = !is_generated && self.role(parent) == Role::Built && number.is_multiple_of(3);
            return self.signature(parent, if is_unfixed { 2 } else { 4 });
        }
        if position == 2 && is_generated {
            return self.signature(parent, 5);
        }
        const VERBS: [&str; 8] = ["get", "set", "draw", "move", "read", "write", "open", "close"];
        const DESCRIPTORS: [&str; 5] = ["()V", "(I)V", "()Ljava/lang/String;", "([BII)I", "(Ljava/lang/String;J)Z"];
        let verb = VERBS[(number + position) as usize % VERBS.len()];
        let descriptor = DESCRIPTORS[(number + 3 * position) as usize % DESCRIPTORS.len()];
        (format!("{verb}{number:02}{position}"), descriptor.to_owned())
    }

    fn slots_of(&self, number: u32) -> u32 {
        share(self.abi_slots, self.classes, number - 1)
    }

    /// The first index that the class's own ABI entry fixes: after those of its ancestors.
    fn first_index(&self, number: u32) -> u32 {
        match self.parent(number) {
            0 => 0,
            parent => self.first_index(parent) + self.slots_of(parent),
        }
    }

    /// The ABI's entry of a class: its slots, and two fields that the class declares.
    fn abi_class(&self, number: u32) -> AbiClassDraft {
        let slots = (0..self.slots_of(number)).map(|slot| {
            let (name, descriptor) = match self.role(number) {
                Role::Interface => (format!("face{number:02}{slot}"), "()V".to_owned()),
                _ => self.signature(number, 3 + slot),
            };
            AbiMemberDraft { name, descriptor, index: self.first_index(number) + slot }
        });
        let fields = self.class(number).fields.into_iter().take(2);
        let fixed = fields.zip(0..).map(|(field, position)| AbiMemberDraft {
            name: field.name,
            descriptor: field.descriptor,
            index: 4 * number + 2 * position,
        });
        AbiClassDraft {
            name: self.name(number),
            size: (number == 1 && self.table_size != 0).then_some(self.table_size),
            words: (number % 4 == 2).then_some(4 * number + 4),
            slots: slots.collect(),
            fields: fixed.collect(),
        }
    }

    /// A compiler table that adds no method: the class's own targets at their fixed indices, zeros elsewhere.
    fn compiler_table(&self, number: u32, methods: &[MemberDraft]) -> Vec<u32> {
        let first = self.first_index(number) as usize;
        let mut table = vec![0; first + self.slots_of(number) as usize];
        let fixed = methods.iter().skip(3).filter(|method| method.flags & STATIC == 0);
        for method in fixed {
            let position = (method.last / 4 % 0x100) as usize;
            if let Some(slot) = table.get_mut(first + position - 3) {
                *slot = method.last;
            }
        }
        table
    }
}

/// A class's fields: every fourth is static. A generated class's are numbered from 0.
fn fields(count: u32, is_generated: bool) -> Vec<MemberDraft> {
    const DESCRIPTORS: [&str; 6] = ["I", "J", "Ljava/lang/String;", "[B", "Z", "D"];
    let mut next = 0;
    let field = |position: u32| {
        let descriptor = DESCRIPTORS[position as usize % DESCRIPTORS.len()];
        let is_static = position % 4 == 3;
        let last = if is_generated && !is_static { next } else { 0 };
        next += if is_static { 0 } else { width(descriptor) };
        MemberDraft { name: format!("value{position}"), descriptor: descriptor.to_owned(), flags: if is_static { 8 } else { 2 }, last }
    };
    (0..count).map(field).collect()
}

fn own_words(fields: &[MemberDraft]) -> u32 {
    fields.iter().filter(|field| field.flags & STATIC == 0).map(|field| width(&field.descriptor)).sum()
}
