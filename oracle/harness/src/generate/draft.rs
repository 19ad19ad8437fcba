//! A class set and an ABI before they are words: each class with its own lists.

use crate::sheet::{Abi, AbiClassRecord, AbiMember, ClassRecord, MemberRecord, Set};

#[derive(Clone, Debug, Default)]
pub struct MemberDraft {
    pub name: String,
    pub descriptor: String,
    pub flags: u32,
    /// Target or word index.
    pub last: u32,
}

#[derive(Clone, Debug, Default)]
pub struct ClassDraft {
    pub name: String,
    pub parent: u32,
    pub flags: u32,
    pub kind: u32,
    pub methods: Vec<MemberDraft>,
    pub fields: Vec<MemberDraft>,
    pub interfaces: Vec<u32>,
    pub link_state: u32,
    pub instance_words: u32,
    pub compiler: Option<Vec<u32>>,
    pub place: u32,
    pub slots: u32,
    pub static_words: u32,
}

#[derive(Clone, Debug, Default)]
pub struct AbiMemberDraft {
    pub name: String,
    pub descriptor: String,
    pub index: u32,
}

#[derive(Clone, Debug, Default)]
pub struct AbiClassDraft {
    pub name: String,
    pub size: Option<u32>,
    pub words: Option<u32>,
    pub slots: Vec<AbiMemberDraft>,
    pub fields: Vec<AbiMemberDraft>,
}

/// How the set is laid into its sections and slice.
#[derive(Clone, Debug, Default)]
pub struct Shape {
    /// Records that no class owns, before the lists.
    pub spare_methods: usize,
    pub spare_fields: usize,
    /// Text bytes that no part uses, before the parts.
    pub spare_text: usize,
    /// Equal names take one part of the text.
    pub shares_text: bool,
    /// The lists lie in the section last class first.
    pub lists_reversed: bool,
    /// Words lent after the content.
    pub slack: usize,
    /// Fills the bytes and words after the content.
    pub junk: Option<u32>,
}

#[derive(Clone, Debug, Default)]
pub struct Draft {
    pub classes: Vec<ClassDraft>,
    pub abi: Vec<AbiClassDraft>,
    pub shape: Shape,
}

/// Text that grows by parts.
struct Text {
    bytes: Vec<u8>,
    shares: bool,
}

impl Text {
    fn part(&mut self, part: &str) -> (u32, u32) {
        let bytes = part.as_bytes();
        let found = self.shares.then(|| self.bytes.windows(bytes.len()).position(|window| window == bytes)).flatten();
        let start = found.unwrap_or_else(|| {
            self.bytes.extend_from_slice(bytes);
            self.bytes.len() - bytes.len()
        });
        (start as u32, bytes.len() as u32)
    }
}

impl Draft {
    /// The class words, slack and junk included.
    pub fn set_words(&self) -> Vec<u32> {
        let mut words = self.set().encode();
        let shape = &self.shape;
        let text = words[5];
        let content = words.len();
        words.resize(content + shape.slack, 0);
        if let Some(junk) = shape.junk {
            words[content..].iter_mut().zip(1u32..).for_each(|(word, step)| *word = junk.wrapping_mul(step));
            if !text.is_multiple_of(4) {
                words[content - 1] |= junk << (8 * (text % 4));
            }
        }
        words
    }

    fn set(&self) -> Set {
        let shape = &self.shape;
        let filler = (0..shape.spare_text).map(|position| if position % 7 == 3 { 0x80 } else { b'!' + (position % 90) as u8 });
        let mut text = Text { bytes: filler.collect(), shares: shape.shares_text };
        let mut set = Set::default();
        let spare = |text: &mut Text, descriptor: &str, count: usize| -> Vec<MemberRecord> {
            let parts = (count != 0).then(|| (text.part("spare"), text.part(descriptor)));
            let record = |last| parts.map(|(name, descriptor)| MemberRecord { name, descriptor, flags: 1, last });
            (0..count as u32).filter_map(record).collect()
        };
        set.methods = spare(&mut text, "()V", shape.spare_methods);
        set.fields = spare(&mut text, "I", shape.spare_fields);
        let mut spans = vec![((0, 0), (0, 0)); self.classes.len()];
        let mut order: Vec<usize> = (0..self.classes.len()).collect();
        if shape.lists_reversed {
            order.reverse();
        }
        for position in order {
            let class = &self.classes[position];
            let methods = append_members(&mut set.methods, &mut text, &class.methods);
            let fields = append_members(&mut set.fields, &mut text, &class.fields);
            spans[position] = (methods, fields);
        }
        for (class, (methods, fields)) in self.classes.iter().zip(spans) {
            let name = text.part(&class.name);
            let first_interface = set.interfaces.len() as u32;
            set.interfaces.extend(&class.interfaces);
            let (table, slots) = match &class.compiler {
                None => (0, 0),
                Some(slots) => {
                    set.compiler.extend(slots);
                    ((set.compiler.len() - slots.len()) as u32 + 1, slots.len() as u32)
                }
            };
            set.classes.push(ClassRecord([
                name.0,
                name.1,
                class.parent,
                class.flags,
                class.kind,
                methods.0,
                methods.1,
                fields.0,
                fields.1,
                first_interface,
                class.interfaces.len() as u32,
                class.link_state,
                class.instance_words,
                table,
                slots,
                class.place,
                class.slots,
                class.static_words,
            ]));
        }
        set.text = text.bytes;
        set
    }

    pub fn abi_words(&self) -> Vec<u32> {
        let mut text = Text { bytes: Vec::new(), shares: true };
        let mut abi = Abi::default();
        for class in &self.abi {
            let name = text.part(&class.name);
            let slots = append_abi(&mut abi.slots, &mut text, &class.slots);
            let fields = append_abi(&mut abi.fields, &mut text, &class.fields);
            abi.classes.push(AbiClassRecord {
                name,
                size_plus_1: class.size.map_or(0, |size| size + 1),
                words_plus_1: class.words.map_or(0, |words| words + 1),
                slots,
                fields,
            });
        }
        abi.text = text.bytes;
        abi.encode()
    }
}

fn append_members(section: &mut Vec<MemberRecord>, text: &mut Text, members: &[MemberDraft]) -> (u32, u32) {
    let first = section.len() as u32;
    section.extend(members.iter().map(|member| MemberRecord {
        name: text.part(&member.name),
        descriptor: text.part(&member.descriptor),
        flags: member.flags,
        last: member.last,
    }));
    (first, members.len() as u32)
}

fn append_abi(section: &mut Vec<AbiMember>, text: &mut Text, members: &[AbiMemberDraft]) -> (u32, u32) {
    let first = section.len() as u32;
    section.extend(members.iter().map(|member| AbiMember {
        name: text.part(&member.name),
        descriptor: text.part(&member.descriptor),
        index: member.index,
    }));
    (first, members.len() as u32)
}
