//! Small class sets and ABI sheets by name, for the rows: classes and members laid out in order, the
//! texts one after the other, first the classes' names, then the methods', then the fields'.

use crate::generate::{AbiClassDraft, AbiMemberDraft, ClassDraft, MemberDraft};
use crate::sheet::{Abi, AbiClassRecord, AbiMember, ClassRecord, MemberRecord, Set};

// ---- members

/// A method `()V` of these flags.
pub fn flagged(flags: u32, name: &str, target: u32) -> MemberDraft {
    described(flags, name, "()V", target)
}

/// A method, or a field, with its descriptor.
pub fn described(flags: u32, name: &str, descriptor: &str, last: u32) -> MemberDraft {
    MemberDraft { name: name.to_owned(), descriptor: descriptor.to_owned(), flags, last }
}

/// A public method `()V`.
pub fn method(name: &str, target: u32) -> MemberDraft {
    flagged(1, name, target)
}

pub fn field(name: &str, descriptor: &str, index: u32) -> MemberDraft {
    described(0, name, descriptor, index)
}

pub fn static_field(name: &str, descriptor: &str, index: u32) -> MemberDraft {
    described(8, name, descriptor, index)
}

// ---- classes

pub fn built(name: &str, parent: u32, methods: &[MemberDraft], fields: &[MemberDraft]) -> ClassDraft {
    ClassDraft { name: name.to_owned(), parent, flags: 1, methods: methods.to_vec(), fields: fields.to_vec(), ..ClassDraft::default() }
}

/// A built class without members.
pub fn plain(name: &str, parent: u32) -> ClassDraft {
    built(name, parent, &[], &[])
}

/// A built class of one method.
pub fn having_method(name: &str, parent: u32, method_name: &str, target: u32) -> ClassDraft {
    built(name, parent, &[method(method_name, target)], &[])
}

/// A built class of one field x, an I.
pub fn having_field(name: &str, parent: u32, index: u32) -> ClassDraft {
    built(name, parent, &[], &[field("x", "I", index)])
}

/// A built interface.
pub fn interface(name: &str, methods: &[MemberDraft]) -> ClassDraft {
    ClassDraft { flags: 0x0201, ..built(name, 0, methods, &[]) }
}

/// A generated class, of link state 3, with its instance words.
pub fn generated(name: &str, parent: u32, methods: &[MemberDraft], fields: &[MemberDraft], words: u32) -> ClassDraft {
    ClassDraft { kind: 1, link_state: 3, instance_words: words, ..built(name, parent, methods, fields) }
}

/// A generated class with a compiler table.
pub fn compiled(name: &str, parent: u32, methods: &[MemberDraft], table: &[u32]) -> ClassDraft {
    ClassDraft { compiler: Some(table.to_vec()), ..generated(name, parent, methods, &[], 0) }
}

pub fn array(name: &str, parent: u32) -> ClassDraft {
    ClassDraft { kind: 2, ..plain(name, parent) }
}

impl ClassDraft {
    /// Linked at the place with so many slots, by hand.
    pub fn linked_at(self, place: u32, slots: u32) -> Self {
        Self { place, slots, ..self }
    }

    /// With these flags, link state and instance words.
    pub fn having(self, flags: u32, link_state: u32, instance_words: u32) -> Self {
        Self { flags, link_state, instance_words, ..self }
    }

    /// With these static words, whatever its kind.
    pub fn bringing(self, static_words: u32) -> Self {
        Self { static_words, ..self }
    }

    pub fn implementing(self, interfaces: &[u32]) -> Self {
        Self { interfaces: interfaces.to_vec(), ..self }
    }
}

// ---- ABI classes

pub fn fixed(name: &str, descriptor: &str, index: u32) -> AbiMemberDraft {
    AbiMemberDraft { name: name.to_owned(), descriptor: descriptor.to_owned(), index }
}

/// A method `()V` at its index.
pub fn slot(name: &str, index: u32) -> AbiMemberDraft {
    fixed(name, "()V", index)
}

pub fn abi(name: &str, slots: &[AbiMemberDraft], fields: &[AbiMemberDraft]) -> AbiClassDraft {
    AbiClassDraft { name: name.to_owned(), slots: slots.to_vec(), fields: fields.to_vec(), ..AbiClassDraft::default() }
}

/// An entry that fixes one method.
pub fn fixing(name: &str, method: &str, index: u32) -> AbiClassDraft {
    abi(name, &[slot(method, index)], &[])
}

pub fn empty_entry(name: &str) -> AbiClassDraft {
    abi(name, &[], &[])
}

impl AbiClassDraft {
    pub fn sized(self, size: u32) -> Self {
        Self { size: Some(size), ..self }
    }

    pub fn worded(self, words: u32) -> Self {
        Self { words: Some(words), ..self }
    }
}

// ---- words

/// The text so far.
struct Text(Vec<u8>);

impl Text {
    fn part(&mut self, part: &str) -> (u32, u32) {
        self.0.extend_from_slice(part.as_bytes());
        ((self.0.len() - part.len()) as u32, part.len() as u32)
    }

    fn members(&mut self, members: &[MemberDraft]) -> Vec<MemberRecord> {
        members
            .iter()
            .map(|member| MemberRecord {
                name: self.part(&member.name),
                descriptor: self.part(&member.descriptor),
                flags: member.flags,
                last: member.last,
            })
            .collect()
    }

    fn fixed(&mut self, members: &[AbiMemberDraft]) -> Vec<AbiMember> {
        members
            .iter()
            .map(|member| AbiMember { name: self.part(&member.name), descriptor: self.part(&member.descriptor), index: member.index })
            .collect()
    }
}

/// The list that `count` more make in a section of so many.
fn list(so_far: &mut u32, count: usize) -> (u32, u32) {
    *so_far += count as u32;
    (*so_far - count as u32, count as u32)
}

pub fn class_words(classes: &[ClassDraft]) -> Vec<u32> {
    let mut text = Text(Vec::new());
    let mut set = Set::default();
    let [mut methods, mut fields, mut interfaces, mut compiler] = [0; 4];
    for class in classes {
        let name = text.part(&class.name);
        let (method_list, field_list) = (list(&mut methods, class.methods.len()), list(&mut fields, class.fields.len()));
        let interface_list = list(&mut interfaces, class.interfaces.len());
        let slots = class.compiler.as_deref().unwrap_or_default();
        let table = list(&mut compiler, slots.len());
        let head = [name.0, name.1, class.parent, class.flags, class.kind];
        let lists = [method_list.0, method_list.1, field_list.0, field_list.1, interface_list.0, interface_list.1];
        let table = [class.compiler.as_ref().map_or(0, |_| table.0 + 1), table.1];
        let tail = [class.link_state, class.instance_words, table[0], table[1], class.place, class.slots, class.static_words];
        set.classes.push(ClassRecord([&head[..], &lists, &tail].concat().try_into().expect("18 words")));
        set.interfaces.extend(&class.interfaces);
        set.compiler.extend(slots);
    }
    set.methods = classes.iter().flat_map(|class| text.members(&class.methods)).collect();
    set.fields = classes.iter().flat_map(|class| text.members(&class.fields)).collect();
    set.text = text.0;
    set.encode()
}

pub fn abi_words(classes: &[AbiClassDraft]) -> Vec<u32> {
    let mut text = Text(Vec::new());
    let mut abi = Abi::default();
    let [mut slots, mut fields] = [0; 2];
    for class in classes {
        abi.classes.push(AbiClassRecord {
            name: text.part(&class.name),
            size_plus_1: class.size.map_or(0, |size| size + 1),
            words_plus_1: class.words.map_or(0, |words| words + 1),
            slots: list(&mut slots, class.slots.len()),
            fields: list(&mut fields, class.fields.len()),
        });
    }
    abi.slots = classes.iter().flat_map(|class| text.fixed(&class.slots)).collect();
    abi.fields = classes.iter().flat_map(|class| text.fixed(&class.fields)).collect();
    abi.text = text.0;
    abi.encode()
}
