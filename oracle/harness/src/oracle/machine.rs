//! The emulated machine: calls of the original linker, and what they leave behind.

use std::collections::HashMap;
use std::pin::pin;
use std::task::{Context, Poll, Waker};

use jvm::{ClassDefinition, Field, Jvm, Method};
use jvm_class_proto::{JavaClassProto, JavaFieldProto, JavaMethodProto, NoBody};
use jvm_types::{ClassAccessFlags, FieldAccessFlags, MethodAccessFlags};
use linker::runtime::java::JavaSvcFunctions;
use linker::runtime::java::abi::{JAVA_ABI, JavaAbi};
use linker::runtime::java::jvm_support::{JavaClassDefinition, JavaField, JavaMethod};
use wie_core_arm::ArmCore;
use wie_util::{WieError, read_generic, write_generic};

use crate::sheet::{Abi, Set, class_word};

use super::Watch;
use super::layout::{Form, MOST_STATIC_WORDS, lay_out, words};

/// A method or field as the Rust left it. Only added ones have their name and descriptor.
pub struct Member {
    pub name: String,
    pub descriptor: String,
    pub flags: u32,
    pub last: u32,
}

/// What the Rust made of a class.
pub struct Linked {
    /// The slots' words, stubs in place.
    pub table: Vec<u32>,
    /// The slots that took a stub, in rising order.
    pub stubbed: Vec<usize>,
    /// The record's new instance words; none for a generated class.
    pub instance_words: Option<u32>,
    /// The record's new static words, as the Rust's descriptor has them after the link.
    pub static_words: u32,
    pub methods: Vec<Member>,
    pub fields: Vec<Member>,
}

/// A slot of a linked class as the Rust reads it.
pub struct Slot {
    pub word: u32,
    /// None where the Rust knows no method.
    pub method: Option<Declared>,
}

/// A method as the Rust hands it out, with the number of the class that its raw record points to.
pub struct Declared {
    pub name: String,
    pub descriptor: String,
    pub flags: u32,
    pub target: u32,
    pub class: u32,
}

/// What the Rust answered to an ask.
pub struct Asked {
    /// The place of the table found; 0 if it was built.
    pub found: u32,
    /// The nodes whose interface the Rust read.
    pub nodes: u32,
    /// The slots' words of a table built anew.
    pub built: Option<Vec<u32>>,
}

/// The head of a list before the Rust put a node in front, and the node's table.
struct Built {
    ptr_head: u32,
    head: u32,
    ptr_table: u32,
}

#[derive(Default)]
pub struct Machine {
    core: ArmCore,
    jvm: Jvm,
    /// The class definitions in memory, by class number.
    classes: HashMap<u32, JavaClassDefinition>,
    /// The places of the interface tables in memory, by their pointers.
    tables: HashMap<u32, u32>,
    built: Option<Built>,
    abi: Option<(Vec<u32>, JavaAbi)>,
    names: HashMap<String, &'static str>,
    /// Makes the calls into the original, if somebody measures them.
    pub watch: Option<Watch>,
}

impl Machine {
    pub fn clear(&mut self) {
        self.core.clear();
        self.jvm.clear();
        self.classes.clear();
        self.tables.clear();
    }

    /// Makes the sheet's ABI the one that the original reads.
    pub fn install_abi(&mut self, words: &[u32], abi: &Abi) {
        if self.abi.as_ref().is_none_or(|(installed, _)| installed != words) {
            self.abi = Some((words.to_vec(), super::java_abi(abi)));
        }
    }

    /// Links a class by the original: `new`, `prepare_generated` or `new_array`.
    pub fn link(&mut self, set: &Set, class: u32, area: &[u32], stubs: &[u32]) -> Result<(JavaClassDefinition, Linked), u32> {
        let parent = self.load(set, set.class(class).get(class_word::PARENT), area);
        match set.class(class).get(class_word::KIND) {
            0 => self.link_built(set, class, stubs),
            1 => self.link_generated(set, class, parent, stubs),
            2 => self.link_array(set, class, stubs),
            kind => unreachable!("the Rust is given kinds 0 to 2, not {kind}"),
        }
    }

    fn link_built(&mut self, set: &Set, class: u32, stubs: &[u32]) -> Result<(JavaClassDefinition, Linked), u32> {
        let result = self.build(set, class, true, stubs).map_err(row_of);
        // Row 10 stands above 11 and 12: it is judged on the Rust's own indices, which a run
        // without the methods gives where the run with them fails.
        let numbered = match &result {
            Ok(definition) => definition.clone(),
            Err(_) => self.build(set, class, false, stubs).expect("without methods nothing fails"),
        };
        let instance_words = self.instance_words(set, class, &numbered);
        if instance_words > 0xFFFF || numbered.runtime_field_word_count().unwrap() > 0xFFFF {
            return Err(10);
        }
        let definition = result?;
        let state = set.class(class).get(class_word::LINK_STATE);
        definition.set_link_state(state as u16).unwrap();
        let linked = self.linked(set, class, &definition, false);
        Ok((definition, linked))
    }

    /// `JavaClassDefinition::new`.
    fn build(&mut self, set: &Set, class: u32, with_methods: bool, stubs: &[u32]) -> wie_util::Result<JavaClassDefinition> {
        let record = *set.class(class);
        let parent = record.get(class_word::PARENT);
        let methods = if with_methods { set.methods_of(class) } else { &[] };
        let proto = JavaClassProto {
            name: self.static_name(set.name(class)),
            parent_class: (parent != 0).then(|| self.static_name(set.name(parent))),
            interfaces: set.interfaces_of(class).iter().map(|&interface| self.static_name(set.name(interface))).collect(),
            methods: methods
                .iter()
                .map(|method| JavaMethodProto {
                    name: set.part(method.name).to_owned(),
                    descriptor: set.part(method.descriptor).to_owned(),
                    access_flags: MethodAccessFlags::from_bits_truncate(method.flags as u16),
                    body: NoBody::default(),
                })
                .collect(),
            fields: set
                .fields_of(class)
                .iter()
                .map(|field| JavaFieldProto {
                    name: set.part(field.name).to_owned(),
                    descriptor: set.part(field.descriptor).to_owned(),
                    access_flags: FieldAccessFlags::from_bits_truncate(field.flags as u16),
                })
                .collect(),
            access_flags: ClassAccessFlags::from_bits_truncate(record.get(class_word::FLAGS) as u16),
        };
        self.core.set_stubs(methods.iter().map(|method| method.last), stubs);
        let (core, jvm) = (&mut self.core.clone(), &self.jvm);
        self.original(|| run(JavaClassDefinition::new(core, jvm, proto, Box::new(()), JavaSvcFunctions)))
    }

    /// Instance words before the Rust cuts them to 16 bits, by the indices it gave.
    fn instance_words(&self, set: &Set, class: u32, definition: &JavaClassDefinition) -> usize {
        let name = set.name(class);
        let given = self.abi().class(name).and_then(|class| class.instance_field_word_count);
        let parent = set.class(class).get(class_word::PARENT);
        let inherited = if parent == 0 { 0 } else { set.class(parent).get(class_word::INSTANCE_WORDS) as usize };
        let ends = raw_fields(definition).into_iter().filter(|field| !field.access_flags().contains(FieldAccessFlags::STATIC)).filter_map(
            |field| {
                let width = if matches!(&*field.descriptor(), "J" | "D") { 2 } else { 1 };
                let index = field.word_index().unwrap();
                (index as i32 >= 0).then_some(index as usize + width)
            },
        );
        given.unwrap_or_else(|| ends.fold(inherited, usize::max))
    }

    /// `JavaClassDefinition::prepare_generated`.
    fn link_generated(
        &mut self,
        set: &Set,
        class: u32,
        parent: Option<JavaClassDefinition>,
        stubs: &[u32],
    ) -> Result<(JavaClassDefinition, Linked), u32> {
        self.core.set_stubs(std::iter::empty(), stubs);
        let form = Form::Generated { parent_by_name: class.is_multiple_of(2) };
        let mut definition = lay_out(&mut self.core, set, class, parent.as_ref(), &form).unwrap();
        let (core, jvm) = (&mut self.core.clone(), &self.jvm);
        self.original(|| run(definition.prepare_generated(core, jvm, 0))).map_err(row_of)?;
        let linked = self.linked(set, class, &definition, true);
        Ok((definition, linked))
    }

    /// `JavaClassDefinition::new_array`.
    fn link_array(&mut self, set: &Set, class: u32, stubs: &[u32]) -> Result<(JavaClassDefinition, Linked), u32> {
        self.core.set_stubs(std::iter::empty(), stubs);
        let (core, jvm) = (&mut self.core.clone(), &self.jvm);
        let definition =
            self.original(|| run(JavaClassDefinition::new_array(core, jvm, set.name(class), JavaSvcFunctions))).map_err(row_of)?;
        let state = set.class(class).get(class_word::LINK_STATE);
        definition.set_link_state(state as u16).unwrap();
        let linked = self.linked(set, class, &definition, false);
        Ok((definition, linked))
    }

    /// What the Rust left of a linked class.
    fn linked(&self, set: &Set, class: u32, definition: &JavaClassDefinition, is_generated: bool) -> Linked {
        let descriptor = definition.descriptor().unwrap();
        let ptr_table = definition.ptr_vtable().unwrap();
        let slots = u32::from(descriptor.vtable_count);
        assert_eq!(self.word(ptr_table), definition.ptr_raw, "a table begins with its class");
        assert_eq!(self.word(ptr_table + 4 * (slots + 1)), 0, "a table ends with an empty list");

        let brought = set.class(class).get(class_word::STATIC_WORDS);
        let declared = set.methods_of(class).len();
        let methods = definition.methods().unwrap().into_iter().enumerate().map(|(position, method)| Member {
            name: if position < declared { String::new() } else { method.name().into_owned() },
            descriptor: if position < declared { String::new() } else { method.descriptor().into_owned() },
            flags: u32::from(method.access_flags().bits()),
            last: method.target().unwrap(),
        });
        let declared = set.fields_of(class).len();
        let fields = raw_fields(definition).into_iter().enumerate().map(|(position, field)| Member {
            name: if position < declared { String::new() } else { field.name().into_owned() },
            descriptor: if position < declared { String::new() } else { field.descriptor().into_owned() },
            flags: u32::from(field.access_flags().bits()),
            last: field.word_index().unwrap(),
        });
        Linked {
            table: (1..=slots).map(|slot| self.word(ptr_table + 4 * slot)).collect(),
            stubbed: self.core.stubbed().into_iter().map(|slot| slot as usize).collect(),
            instance_words: (!is_generated).then_some(u32::from(descriptor.instance_field_word_count)),
            static_words: if is_generated && brought > MOST_STATIC_WORDS { brought } else { descriptor.static_field_word_count },
            methods: methods.collect(),
            fields: fields.collect(),
        }
    }

    /// Keeps an accepted link's class for later calls.
    pub fn keep(&mut self, class: u32, definition: JavaClassDefinition) {
        self.jvm.register(definition.clone());
        self.classes.insert(class, definition);
    }

    /// The slots of a class in memory, by `vtable_entries`.
    pub fn slots(&self, class: u32) -> Vec<Slot> {
        let entries = self.original(|| run(self.classes[&class].vtable_entries(&self.jvm))).expect("a linked class is read");
        entries.into_iter().map(|entry| Slot { word: entry.target, method: entry.method.map(|method| self.declared(&method)) }).collect()
    }

    fn declared(&self, method: &JavaMethod) -> Declared {
        let ptr_class = method.raw().unwrap().ptr_class;
        let class = self.classes.iter().find(|(_, definition)| definition.ptr_raw == ptr_class);
        Declared {
            name: method.name().into_owned(),
            descriptor: method.descriptor().into_owned(),
            flags: u32::from(method.access_flags().bits()),
            target: method.target().unwrap(),
            class: *class.expect("a method points to a class in memory").0,
        }
    }

    /// Asks by `interface_dispatch_table`. `nodes` are the class's list as the area has it.
    pub fn ask(&mut self, set: &Set, class: u32, interface: u32, area: &[u32], nodes: &[u32], stubs: &[u32]) -> Result<Asked, u32> {
        let is_kept = self.classes.contains_key(&class);
        let definition = self.load(set, class, area).expect("row 6 holds");
        let asked = self.load(set, interface, area).expect("row 6 holds");
        let ptr_head = ptr_head(&definition);
        if !is_kept {
            self.lay_out_nodes(ptr_head, area, nodes, interface, asked.ptr_raw);
        }
        let head = self.word(ptr_head);

        self.core.set_stubs(std::iter::empty(), stubs);
        self.core.note_reads();
        let result = self.original(|| run(definition.interface_dispatch_table(&self.jvm, &asked)));
        let reads = self.core.noted_reads();
        let ptr_table = result.map_err(row_of)?;
        let nodes = reads.iter().filter(|&address| self.tables.contains_key(address)).count() as u32;
        if let Some(&found) = self.tables.get(&ptr_table) {
            return Ok(Asked { found, nodes, built: None });
        }

        assert_eq!(self.word(ptr_head), ptr_table - 4, "the node goes in front");
        assert_eq!(self.word(ptr_table - 4), head, "the node links to the old head");
        assert_eq!(self.word(ptr_table), asked.ptr_raw, "the node names its interface");
        let slots = u32::from(asked.descriptor().unwrap().vtable_count);
        let table = (1..=slots).map(|slot| self.word(ptr_table + 4 * slot)).collect();
        self.built = Some(Built { ptr_head, head, ptr_table });
        Ok(Asked { found: 0, nodes, built: Some(table) })
    }

    /// Asks the original alone, of classes that it has linked; `watch` makes the call, any number
    /// of times. Whether a table was built; unless `keeps`, its node is taken off the list again.
    pub fn ask_alone(&mut self, class: u32, interface: u32, keeps: bool, watch: Watch) -> bool {
        let (definition, asked) = (self.classes[&class].clone(), &self.classes[&interface]);
        let ptr_head = ptr_head(&definition);
        let head = self.word(ptr_head);
        let mut ask = || {
            run(definition.interface_dispatch_table(&self.jvm, asked)).expect("no interface method is missing");
        };
        JAVA_ABI::with(self.abi(), || watch(&mut ask));
        let is_built = self.word(ptr_head) != head;
        if is_built && !keeps {
            write_generic(&mut self.core, ptr_head, head).unwrap();
        }
        is_built
    }

    /// A class's list as the area has it; numbers of other classes become odd pointers, which
    /// no class has.
    fn lay_out_nodes(&mut self, ptr_head: u32, area: &[u32], nodes: &[u32], interface: u32, ptr_interface: u32) {
        let mut ptr_link = ptr_head;
        for &node in nodes {
            let number = area[node as usize + 1];
            let pointer = if number == interface { ptr_interface } else { number | 1 };
            let ptr_node = words(&mut self.core, 0, &[pointer]).unwrap();
            write_generic(&mut self.core, ptr_link, ptr_node).unwrap();
            self.tables.insert(ptr_node + 4, node + 1);
            ptr_link = ptr_node;
        }
    }

    /// Keeps the table that the last ask built, for later calls.
    pub fn keep_built(&mut self, place: u32) {
        let built = self.built.take().expect("the last ask built a table");
        self.tables.insert(built.ptr_table, place);
    }

    /// Takes the table that the last ask built off its list again.
    pub fn forget_built(&mut self) {
        let built = self.built.take().expect("the last ask built a table");
        write_generic(&mut self.core, built.ptr_head, built.head).unwrap();
    }

    /// The definition of a class and its ancestors, laid out from the words if the machine
    /// does not have them.
    fn load(&mut self, set: &Set, class: u32, area: &[u32]) -> Option<JavaClassDefinition> {
        if class == 0 {
            return None;
        }
        if let Some(definition) = self.classes.get(&class) {
            return Some(definition.clone());
        }
        let record = set.class(class);
        let parent = self.load(set, record.get(class_word::PARENT), area);
        let (place, slots) = record.span(class_word::PLACE);
        let form = match place {
            0 => Form::Unlinked,
            place => Form::Linked { slots: &area[place as usize + 1..][..slots as usize] },
        };
        let definition = lay_out(&mut self.core, set, class, parent.as_ref(), &form).unwrap();
        self.keep(class, definition.clone());
        Some(definition)
    }

    fn word(&self, address: u32) -> u32 {
        read_generic(&self.core, address).unwrap()
    }

    fn abi(&self) -> &JavaAbi {
        &self.abi.as_ref().expect("each call installs its ABI").1
    }

    /// Calls the original, by the case's ABI and through the watch.
    fn original<R>(&self, call: impl FnOnce() -> R) -> R {
        let Some(watch) = self.watch else { return JAVA_ABI::with(self.abi(), call) };
        let (mut call, mut result) = (Some(call), None);
        JAVA_ABI::with(self.abi(), || watch(&mut || result = call.take().map(|call| call())));
        result.expect("the watch makes the call once")
    }

    /// A name for the `'static` parts of a class's prototype; each is kept once.
    fn static_name(&mut self, name: &str) -> &'static str {
        if let Some(kept) = self.names.get(name) {
            return kept;
        }
        let kept: &'static str = Box::leak(name.to_owned().into_boxed_str());
        self.names.insert(name.to_owned(), kept);
        kept
    }
}

/// Where a class's list begins.
fn ptr_head(definition: &JavaClassDefinition) -> u32 {
    definition.ptr_vtable().unwrap() + 4 * (u32::from(definition.descriptor().unwrap().vtable_count) + 1)
}

fn raw_fields(definition: &JavaClassDefinition) -> Vec<JavaField> {
    let fields = ClassDefinition::fields(definition);
    fields.iter().map(|field| (**field).as_any().downcast_ref::<JavaField>().expect("no field but raw ones").clone()).collect()
}

/// The row that each FatalError of the Rust stands for.
fn row_of(error: WieError) -> u32 {
    const MESSAGES: [(&str, u32); 5] = [
        (" has more declared field words than total field words", 8),
        (" has invalid declared instance field word indices ", 9),
        ("Inherited vtable index does not match LGT Java ABI for ", 11),
        ("Fixed vtable index collision for ", 12),
        ("Unable to resolve interface method ", 16),
    ];
    let WieError::FatalError(message) = &error else { panic!("the Rust failed otherwise: {error}") };
    let row = MESSAGES.iter().find(|(part, _)| message.contains(part));
    row.unwrap_or_else(|| panic!("no row for: {message}")).1
}

/// Runs a future that never waits.
fn run<F: Future>(future: F) -> F::Output {
    match pin!(future).poll(&mut Context::from_waker(Waker::noop())) {
        Poll::Ready(value) => value,
        Poll::Pending => unreachable!("nothing in the oracle waits"),
    }
}
