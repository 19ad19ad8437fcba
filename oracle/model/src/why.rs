//! Why a call is refused, in a sentence with the names of the sheets.

use std::fmt::Write;

use crate::sheets::{AbiClass, AbiSheet, ClassSheet, Field, Method, text_of_class_words};

/// A refusal: its row, and what of the call the row's condition holds of.
#[derive(Clone, Debug, PartialEq, Eq)]
pub struct Refused {
    pub row: u32,
    pub why: Why,
}

impl From<u32> for Refused {
    fn from(row: u32) -> Self {
        Self { row, why: Why::Sheets }
    }
}

/// A method or a field as a message names it.
#[derive(Clone, Debug, PartialEq, Eq)]
pub struct Signature {
    name: Vec<u8>,
    descriptor: Vec<u8>,
    /// The class whose list holds a method; 0 for a field.
    owner: u32,
}

impl From<&Method<'_>> for Signature {
    fn from(method: &Method) -> Self {
        Self { name: method.name.to_vec(), descriptor: method.descriptor.to_vec(), owner: method.owner }
    }
}

impl From<&Field<'_>> for Signature {
    fn from(field: &Field) -> Self {
        Self { name: field.name.to_vec(), descriptor: field.descriptor.to_vec(), owner: 0 }
    }
}

/// A slot that the ABI fixes for a method, the ABI class that fixes it, and a slot of the table that is against it.
#[derive(Clone, Debug, PartialEq, Eq)]
pub struct Fixed {
    method: Signature,
    index: u32,
    abi_class: Vec<u8>,
    slot: usize,
    held: Signature,
}

impl Fixed {
    pub fn new(method: &Method, (index, class): (u32, AbiClass), abi: &AbiSheet, slot: usize, held: &Method) -> Box<Self> {
        let abi_class = abi.part(class.name_start, class.name_length).to_vec();
        Box::new(Self { method: method.into(), index, abi_class, slot, held: held.into() })
    }
}

/// A field whose index is not the one that its class's other fields ask for.
#[derive(Clone, Debug, PartialEq, Eq)]
pub struct Index {
    pub field: Signature,
    pub found: u32,
    pub expected: u64,
}

/// What a refusal is about. The class is the call's own where none is named.
#[derive(Clone, Debug, PartialEq, Eq)]
pub enum Why {
    /// Rows 1 to 5: the sheets themselves, whose records and bytes `tools/sheet check` names.
    Sheets,
    NoClass {
        number: u32,
        count: u32,
    },
    LinkedAlready,
    ParentUnlinked {
        parent: u32,
    },
    ArrayMembers {
        methods: u32,
        fields: u32,
    },
    ArrayParent {
        parent: u32,
    },
    Unlinked {
        class: u32,
    },
    Uncounted,
    AreaLength {
        length: usize,
    },
    NextFree {
        next: u64,
        length: usize,
    },
    TableEnd {
        class: u32,
        end: u64,
        next: u64,
    },
    ManyNodes,
    NodeOutside {
        node: u32,
        next: u32,
    },
    /// Row 26: the chain of a class of kind 3 has a class with an ABI entry, with the interface flag, or of another kind.
    PackagesEntry {
        class: u32,
    },
    PackagesInterface {
        class: u32,
    },
    PackagesKind {
        class: u32,
        kind: u32,
    },
    /// Row 26: a class of another kind has one of kind 3 above it.
    PackagesAbove {
        class: u32,
    },
    OwnWords {
        own: u64,
        total: u64,
    },
    Indices {
        relative: Box<Index>,
        absolute: Box<Index>,
    },
    InstanceWords {
        words: u64,
    },
    RuntimeWords {
        words: u64,
    },
    Moved(Box<Fixed>),
    Taken(Box<Fixed>),
    ManySlots {
        slots: usize,
    },
    Unimplemented {
        interface: u32,
        method: Box<Signature>,
    },
    Grown {
        methods: usize,
        fields: usize,
        text: usize,
    },
    FewStubs {
        slots: usize,
        stubs: usize,
    },
    FewAreaWords {
        slots: usize,
        free: usize,
    },
    FewClassWords {
        content: usize,
        lent: usize,
    },
    FewMissingWords {
        words: usize,
        lent: usize,
    },
    /// Row 3 of the list of numbers.
    FewNumbers {
        words: usize,
        lent: usize,
    },
}

/// Names of classes, methods and fields as the sentences have them.
struct Names<'a>(ClassSheet<'a>);

impl Names<'_> {
    fn class(&self, number: u32) -> String {
        match number {
            0 => "class 0".to_owned(),
            _ if number > self.0.class_count() => format!("class {number}"),
            _ => format!("class {number} {}", shown(self.0.name(number))),
        }
    }

    fn method(&self, method: &Signature) -> String {
        format!("`{}{}`", shown(&method.name), shown(&method.descriptor))
    }

    /// A method and the class that has it.
    fn owned(&self, method: &Signature) -> String {
        format!("{} of {}", self.method(method), self.class(method.owner))
    }

    fn fixed(&self, fixed: &Fixed) -> String {
        format!("{} is fixed at {} by ABI class {}", self.method(&fixed.method), fixed.index, shown(&fixed.abi_class))
    }
}

pub fn shown(name: &[u8]) -> String {
    String::from_utf8_lossy(name).into_owned()
}

fn index(index: &Index) -> String {
    let Index { field, found, expected } = index;
    format!("`{} {}` has index {found} and not {expected}", shown(&field.name), shown(&field.descriptor))
}

/// "1 slot", "2 slots"
fn count(number: usize, word: &str) -> String {
    format!("{number} {word}{}", if number == 1 { "" } else { "s" })
}

impl Refused {
    /// The refusal of a call on `class` in a sentence, by the class words that the call was lent.
    pub fn sentence(&self, set: &[u32], class: u32) -> String {
        if self.why == Why::Sheets {
            return format!("the words break row {} of the sheets' own rules: `tools/sheet check` names the record", self.row);
        }
        if let Why::FewNumbers { words, lent } = self.why {
            return format!("the list of numbers takes {words} words, and {} lent", were(lent, "word"));
        }
        // Row 3 holds, as every later row is judged after it.
        let text = text_of_class_words(set);
        let names = Names(ClassSheet::unnumbered(set, &text));
        let mut sentence = names.class(class);
        write!(sentence, ": {}", self.about(&names)).expect("a string takes all");
        sentence
    }

    fn about(&self, names: &Names) -> String {
        match &self.why {
            Why::Sheets | Why::FewNumbers { .. } => String::new(),
            Why::NoClass { number, count } => format!("the set has no class {number}, its classes are 1 to {count}"),
            Why::LinkedAlready => "it is linked already".to_owned(),
            Why::ParentUnlinked { parent } => format!("its parent {} is not linked", names.class(*parent)),
            Why::ArrayMembers { methods, fields } => {
                let (methods, fields) = (count(*methods as usize, "method"), count(*fields as usize, "field"));
                format!("an array class has no members, and this one has {methods} and {fields}")
            }
            Why::ArrayParent { parent: 0 } => "an array class has the parent java/lang/Object, and this one has none".to_owned(),
            Why::ArrayParent { parent } => {
                format!("an array class has the parent java/lang/Object, and this one has {}", names.class(*parent))
            }
            Why::Unlinked { class } => format!("an interface table needs both classes linked, and {} is not", names.class(*class)),
            Why::Uncounted => "its missing slots are counted by its link, and it is not linked".to_owned(),
            Why::AreaLength { length } => format!("the area has {length} words, and it needs 1 to 4294967295"),
            Why::NextFree { next, length } => {
                format!("word 0 of the area, the next free place, is {next}, and the area has {}", count(*length, "word"))
            }
            Why::TableEnd { class, end, next } => {
                format!("the table of {} ends at {end}, past the area's next free place {next}", names.class(*class))
            }
            Why::ManyNodes => "its list of interface tables has more than 64 nodes".to_owned(),
            Why::NodeOutside { node, next } => {
                format!("its list of interface tables leads to place {node}, whose two words are not below the next free place {next}")
            }
            Why::PackagesEntry { class } => {
                format!("it is of kind 3, linked by packages, and in its chain {} has an ABI entry", names.class(*class))
            }
            Why::PackagesInterface { class } => {
                format!("it is of kind 3, linked by packages, and in its chain {} is an interface", names.class(*class))
            }
            Why::PackagesKind { class, kind } => {
                format!("it is of kind 3, linked by packages, and in its chain {} is of kind {kind}", names.class(*class))
            }
            Why::PackagesAbove { class } => {
                format!("it is not of kind 3, and in its chain {} is, which is linked by packages", names.class(*class))
            }
            Why::OwnWords { own, total } => format!("its instance fields take {own} words, and it says {total} in all"),
            Why::Indices { relative, absolute } => {
                let (relative, absolute) = (index(relative), index(absolute));
                format!("its field indices are not all relative, as {relative}, nor all absolute, as {absolute}")
            }
            Why::InstanceWords { words } => format!("its fields would end at word {words}, above 65535 instance words"),
            Why::RuntimeWords { words } => format!("its chain would have {words} runtime words, above 65535"),
            Why::Moved(fixed) => {
                format!("{}; it is inherited at slot {}, from {}", names.fixed(fixed), fixed.slot, names.class(fixed.held.owner))
            }
            Why::Taken(fixed) => format!("{}; slot {} holds {}", names.fixed(fixed), fixed.slot, names.owned(&fixed.held)),
            Why::ManySlots { slots } => format!("its table would have {slots} slots, above 1024"),
            Why::Unimplemented { interface, method } => {
                let of =
                    if method.owner == *interface { String::new() } else { format!(", which interface {} has", names.class(*interface)) };
                format!("neither it nor an ancestor implements {}{of}", names.owned(method))
            }
            Why::Grown { methods, fields, text } => format!(
                "with what linking adds the set would have {methods} methods, {fields} fields and {text} text bytes, \
                 and the most are 512, 512 and 8192"
            ),
            Why::FewStubs { slots, stubs } => {
                format!("the table to write has {}, and {} lent", count(*slots, "slot"), were(*stubs, "stub word"))
            }
            Why::FewAreaWords { slots, free } => {
                format!("a table of {} takes {} words, and the area has {free} free", count(*slots, "slot"), slots + 2)
            }
            Why::FewClassWords { content, lent } => {
                format!("with what linking adds the set takes {content} words, and {} lent", were(*lent, "word"))
            }
            Why::FewMissingWords { words, lent } => {
                format!("the list of missing slots takes {words} words, 33 for each class, and {} lent", were(*lent, "word"))
            }
        }
    }
}

/// "1 word was", "2 words were"
fn were(number: usize, word: &str) -> String {
    format!("{} {}", count(number, word), if number == 1 { "was" } else { "were" })
}
