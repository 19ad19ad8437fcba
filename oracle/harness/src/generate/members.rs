//! Methods, fields and ABI entries from small pools, so that signatures meet often.

use crate::random::Random;

use super::draft::{AbiClassDraft, AbiMemberDraft, ClassDraft, MemberDraft};

/// How a set's classes are drawn. Percentages unless said otherwise.
#[derive(Clone)]
pub struct Knobs {
    /// Fewest and most classes.
    pub classes: (u32, u32),
    /// Most methods and fields a class.
    pub methods: u32,
    pub fields: u32,
    /// Sizes of the pools of method names, method descriptors and field names.
    pub names: usize,
    pub descriptors: usize,
    pub field_names: usize,
    pub generated: u32,
    pub arrays: u32,
    pub interface_flag: u32,
    pub interface_words: u32,
    /// A class has a parent; it is the class just before.
    pub parents: u32,
    pub chains: u32,
    pub compiler_tables: u32,
    /// Most compiler slots.
    pub compiler_slots: u32,
    /// A class has an ABI entry; the largest fixed index and table size.
    pub abi: u32,
    pub abi_slots: u32,
    pub abi_fields: u32,
    pub largest_index: u32,
    /// An ABI's indices are handed out one signature each.
    pub orderly: u32,
    pub abi_words: u32,
    /// A method's target is 0, another's, a stub.
    pub zero_targets: u32,
    pub same_targets: u32,
    pub stub_targets: u32,
    /// Instance words near the limit.
    pub wide: u32,
    /// Fields, arrays and calls that a link refuses.
    pub faults: u32,
}

const METHOD_NAMES: [&str; 12] = ["a", "b", "c", "<init>", "d", "foo", "close", "open", "<", "mark", "withdrawCase", "withdrawCard"];
const METHOD_DESCRIPTORS: [&str; 6] = ["()V", "(I)V", "(IJ)V", "([[DLp/A;)[Lp/B;", "()J", "(Ljava/lang/Object;)Z"];
const FIELD_NAMES: [&str; 6] = ["x", "x[", "z", "count", "w", "serialNumber"];
const FIELD_DESCRIPTORS: [&str; 8] = ["I", "J", "D", "[I", "[J", "Ljava/lang/String;", "LD;", "S"];

/// A method descriptor of so many parameter words, in as few bytes as there are.
pub fn of_words(words: u32) -> String {
    format!("({}{})V", "J".repeat(words as usize / 2), "I".repeat(words as usize % 2))
}

/// The first word of an ordinary stub list.
pub const FIRST_STUB: u32 = 0xF000_0000;

/// Draws members of one case; targets are handed out one by one.
pub struct Members<'a> {
    pub random: &'a mut Random,
    pub knobs: Knobs,
    next_target: u32,
    targets: Vec<u32>,
}

impl<'a> Members<'a> {
    pub fn new(random: &'a mut Random, knobs: Knobs) -> Self {
        Self { random, knobs, next_target: 4096, targets: Vec::new() }
    }

    pub fn method_name(&mut self) -> String {
        self.random.pick(&METHOD_NAMES[..self.knobs.names]).to_owned()
    }

    pub fn method_descriptor(&mut self) -> String {
        self.random.pick(&METHOD_DESCRIPTORS[..self.knobs.descriptors]).to_owned()
    }

    pub fn field_name(&mut self) -> String {
        self.random.pick(&FIELD_NAMES[..self.knobs.field_names]).to_owned()
    }

    pub fn field_descriptor(&mut self) -> String {
        self.random.pick(&FIELD_DESCRIPTORS).to_owned()
    }

    pub fn target(&mut self) -> u32 {
        let random = &mut *self.random;
        if random.chance(self.knobs.zero_targets) {
            return 0;
        }
        if !self.targets.is_empty() && random.chance(self.knobs.same_targets) {
            return random.pick(&self.targets);
        }
        if random.chance(self.knobs.stub_targets) {
            return FIRST_STUB + random.below(6);
        }
        let target = if random.chance(3) { random.word() } else { self.next_target };
        self.next_target += 16;
        self.targets.push(target);
        target
    }

    pub fn method_flags(&mut self) -> u32 {
        match self.random.below(100) {
            0..66 => 0x0001,
            66..74 => 0x0009,
            74..80 => 0x0002,
            80..88 => 0x0401,
            88..92 => 0,
            92..94 => 0x000A,
            _ => self.random.word() & 0x1DFF,
        }
    }

    pub fn field_flags(&mut self) -> u32 {
        match self.random.below(100) {
            0..60 => 0x0002,
            60..80 => 0x0008,
            80..90 => 0,
            _ => self.random.below(0x1_0000),
        }
    }

    pub fn methods(&mut self) -> Vec<MemberDraft> {
        let count = self.random.below(self.knobs.methods + 1);
        (0..count).map(|_| self.method()).collect()
    }

    pub fn method(&mut self) -> MemberDraft {
        MemberDraft { name: self.method_name(), descriptor: self.method_descriptor(), flags: self.method_flags(), last: self.target() }
    }

    pub fn fields(&mut self) -> Vec<MemberDraft> {
        let count = self.random.below(self.knobs.fields + 1);
        let field = |_| MemberDraft {
            name: self.field_name(),
            descriptor: self.field_descriptor(),
            flags: self.field_flags(),
            last: if self.random.chance(50) { self.random.below(8) } else { self.random.word() },
        };
        (0..count).map(field).collect()
    }

    /// Gives a generated class's fields indices that are relative, absolute or neither.
    pub fn number_generated(&mut self, class: &mut ClassDraft) {
        let width = |field: &MemberDraft| if matches!(field.descriptor.as_str(), "J" | "D") { 2 } else { 1 };
        let own: u32 = class.fields.iter().filter(|field| field.flags & 8 == 0).map(width).sum();
        let base = if self.random.chance(self.knobs.wide) { 65530 - own } else { self.random.below(5) };
        let short = self.random.chance(self.knobs.faults) && own > 0;
        class.instance_words = if short { self.random.below(own) } else { base + own };
        let mut next = if self.random.chance(50) { base } else { 0 };
        for field in class.fields.iter_mut().filter(|field| field.flags & 8 == 0) {
            field.last = next;
            next += width(field);
        }
        if self.random.chance(2 * self.knobs.faults)
            && let Some(field) = class.fields.last_mut()
        {
            field.last = field.last.wrapping_add(self.random.pick(&[1, 2, u32::MAX, base]));
        }
    }

    /// A compiler table over the chain's targets, zeros, stubs and foreign words.
    pub fn compiler_table(&mut self, own: &[MemberDraft]) -> Vec<u32> {
        let count = self.random.below(self.knobs.compiler_slots + 1);
        let slot = |_| match self.random.below(100) {
            0..35 => 0,
            35..55 if !own.is_empty() => self.random.pick(own).last,
            55..75 if !self.targets.is_empty() => self.random.pick(&self.targets),
            75..80 => FIRST_STUB + self.random.below(6),
            80..95 => 9000 + 8 * self.random.below(20),
            _ => self.random.word(),
        };
        (0..count).map(slot).collect()
    }

    /// The ABI: entries for some classes, some twice, and some for no class.
    pub fn abi(&mut self, classes: &[ClassDraft]) -> Vec<AbiClassDraft> {
        let orderly = self.random.chance(self.knobs.orderly);
        let mut fixed: Vec<(String, String, u32)> = Vec::new();
        let mut abi = Vec::new();
        for class in classes {
            if self.random.chance(self.knobs.abi) {
                abi.push(self.abi_class(class, orderly, &mut fixed));
                if self.random.chance(6) {
                    abi.push(self.abi_class(class, orderly, &mut fixed));
                }
            }
        }
        if self.random.chance(10) {
            let stranger = ClassDraft { name: "p/Stranger".to_owned(), ..ClassDraft::default() };
            abi.push(self.abi_class(&stranger, orderly, &mut fixed));
        }
        if self.random.chance(15) {
            abi.reverse();
        }
        abi.truncate(64);
        abi
    }

    fn abi_class(&mut self, class: &ClassDraft, orderly: bool, fixed: &mut Vec<(String, String, u32)>) -> AbiClassDraft {
        let largest = self.knobs.largest_index;
        let size = self.random.chance(30).then(|| self.random.below(largest + 2).min(1024));
        let words = self.random.chance(self.knobs.abi_words).then(|| if self.random.chance(5) { 4096 } else { self.random.below(8) });
        let slot_count = self.random.below(self.knobs.abi_slots + 1);
        let slots = (0..slot_count).map(|_| self.abi_slot(class, orderly, fixed)).collect();
        let field_count = self.random.below(self.knobs.abi_fields + 1);
        let fields = (0..field_count)
            .map(|_| match class.fields.as_slice() {
                fields if !fields.is_empty() && self.random.chance(45) => {
                    let field = self.random.pick(fields);
                    AbiMemberDraft { name: field.name, descriptor: field.descriptor, index: self.field_index() }
                }
                _ => AbiMemberDraft { name: self.field_name(), descriptor: self.field_descriptor(), index: self.field_index() },
            })
            .collect();
        AbiClassDraft { name: class.name.clone(), size, words, slots, fields }
    }

    fn field_index(&mut self) -> u32 {
        if self.random.chance(3) { 4095 } else { self.random.below(9) }
    }

    fn abi_slot(&mut self, class: &ClassDraft, orderly: bool, fixed: &mut Vec<(String, String, u32)>) -> AbiMemberDraft {
        let (name, descriptor) = match class.methods.as_slice() {
            methods if !methods.is_empty() && self.random.chance(45) => {
                let method = self.random.pick(methods);
                (method.name, method.descriptor)
            }
            _ => (self.method_name(), self.method_descriptor()),
        };
        let mut index = self.random.below(self.knobs.largest_index + 1);
        if orderly {
            let known = fixed.iter().find(|known| known.0 == name && known.1 == descriptor).map(|known| known.2);
            index = known.unwrap_or_else(|| {
                let free = (0..1024).map(|step| (index + step) % 1024).find(|free| fixed.iter().all(|known| known.2 != *free));
                free.expect("a sheet has fewer slots")
            });
            fixed.push((name.clone(), descriptor.clone(), index));
        }
        AbiMemberDraft { name, descriptor, index }
    }
}
