//! What the original does where the specification asks for something else: each entry of
//! docs/DIFFERENCES.md that can be shown, shown on the original alone.

use std::pin::pin;
use std::task::{Context, Poll, Waker};

use jvm::{ClassDefinition, Jvm};
use jvm_class_proto::{JavaClassProto, JavaFieldProto, JavaMethodProto, NoBody};
use jvm_types::{ClassAccessFlags, FieldAccessFlags, MethodAccessFlags};
use linker::runtime::java::JavaSvcFunctions;
use linker::runtime::java::abi::{JAVA_ABI, JavaAbi, JavaClassAbi, JavaVtableIndex};
use linker::runtime::java::jvm_support::{JavaClassDefinition, JavaField};
use wie_core_arm::{Allocator, ArmCore};
use wie_util::{WieError, read_generic, write_generic, write_null_terminated_string_bytes};
use wipi_types::lgt::java::{LgtJavaClass, LgtJavaClassDescriptor};

/// A machine with an ABI, on which the original links.
struct Bench {
    core: ArmCore,
    jvm: Jvm,
    abi: JavaAbi,
}

impl Bench {
    fn new(abi: Vec<JavaClassAbi>) -> Self {
        let core = ArmCore::default();
        core.set_stubs(std::iter::empty(), &[]);
        Self { core, jvm: Jvm::default(), abi: JavaAbi { class: abi } }
    }

    /// Builds a class by `new` and registers it.
    fn build(
        &mut self,
        name: &'static str,
        parent: Option<&'static str>,
        methods: &[(&str, u32)],
        fields: &[&str],
    ) -> Result<JavaClassDefinition, WieError> {
        let method = |&(name, _): &(&str, u32)| JavaMethodProto {
            name: name.to_owned(),
            descriptor: "()V".to_owned(),
            access_flags: MethodAccessFlags::from_bits_truncate(0),
            body: NoBody::default(),
        };
        let field =
            |name: &&str| JavaFieldProto { name: (*name).to_owned(), descriptor: "I".to_owned(), access_flags: FieldAccessFlags::empty() };
        let proto = JavaClassProto {
            name,
            parent_class: parent,
            interfaces: Vec::new(),
            methods: methods.iter().map(method).collect(),
            fields: fields.iter().map(field).collect(),
            access_flags: ClassAccessFlags::PUBLIC,
        };
        self.register(proto, methods.iter().map(|&(_, target)| target))
    }

    /// The class of a proto, its methods with these targets.
    fn register(&mut self, proto: JavaClassProto<()>, targets: impl Iterator<Item = u32>) -> Result<JavaClassDefinition, WieError> {
        self.core.set_stubs(targets, &[]);
        let (core, jvm) = (&mut self.core.clone(), &self.jvm);
        let class = JAVA_ABI::with(&self.abi, || run(JavaClassDefinition::new(core, jvm, proto, Box::new(()), JavaSvcFunctions)))?;
        self.jvm.register(class.clone());
        Ok(class)
    }

    /// Lays a generated class out: one method, one field.
    fn generated(
        &mut self,
        parent: Option<&JavaClassDefinition>,
        words: u16,
        method: Option<(&str, u32)>,
        field_index: u32,
    ) -> (JavaClassDefinition, JavaField) {
        let core = &mut self.core;
        let ptr_raw = Allocator::alloc(core, size_of::<LgtJavaClass>() as u32).unwrap();
        let ptr_descriptor = Allocator::alloc(core, size_of::<LgtJavaClassDescriptor>() as u32).unwrap();
        let ptr_name = Allocator::alloc(core, 8).unwrap();
        write_null_terminated_string_bytes(core, ptr_name, b"G").unwrap();
        let ptr_fields = Allocator::alloc(core, 64).unwrap();
        write_generic(core, ptr_fields, 1u32).unwrap();
        let field = JavaField::new(core, ptr_fields + 4, ptr_raw, "x", "I", FieldAccessFlags::empty(), field_index).unwrap();
        let mut ptr_methods = 0;
        if let Some((name, target)) = method {
            ptr_methods = Allocator::alloc(core, 64).unwrap();
            write_generic(core, ptr_methods, 1u32).unwrap();
            let flags = MethodAccessFlags::PUBLIC;
            linker::runtime::java::jvm_support::JavaMethod::new_aot(core, ptr_methods + 4, ptr_raw, name, "()V", flags, target).unwrap();
        }
        let mut descriptor: LgtJavaClassDescriptor = wie_util::PlainBytes::zeroed();
        descriptor.ptr_name = ptr_name;
        descriptor.ptr_super_class = parent.map_or(0, |parent| parent.ptr_raw);
        descriptor.instance_field_word_count = words;
        (descriptor.ptr_methods, descriptor.ptr_fields) = (ptr_methods, ptr_fields);
        write_generic(core, ptr_descriptor, descriptor).unwrap();
        write_generic(core, ptr_raw, LgtJavaClass { unk1: 0, unk2: 0, ptr_descriptor }).unwrap();
        (JavaClassDefinition::from_raw(ptr_raw, core), field)
    }

    fn prepare(&mut self, class: &mut JavaClassDefinition) -> Result<(), WieError> {
        let (core, jvm) = (&mut self.core.clone(), &self.jvm);
        JAVA_ABI::with(&self.abi, || run(class.prepare_generated(core, jvm, 0)))
    }

    fn slot(&self, class: &JavaClassDefinition, index: u32) -> u32 {
        read_generic(&self.core, class.ptr_vtable().unwrap() + 4 * (index + 1)).unwrap()
    }
}

fn abi(name: &str, slots: &[(&str, usize)]) -> JavaClassAbi {
    let slot = |&(name, index): &(&str, usize)| JavaVtableIndex { name: name.to_owned(), descriptor: "()V".to_owned(), index };
    JavaClassAbi {
        name: name.to_owned(),
        vtable_size: None,
        instance_field_word_count: None,
        vtable: slots.iter().map(slot).collect(),
        field: Vec::new(),
    }
}

fn run<F: Future>(future: F) -> F::Output {
    match pin!(future).poll(&mut Context::from_waker(Waker::noop())) {
        Poll::Ready(value) => value,
        Poll::Pending => unreachable!(),
    }
}

#[test]
fn it_writes_before_it_fails() {
    let mut bench = Bench::new(vec![abi("P", &[("other", 0)])]);
    let parent = bench.build("P", None, &[("other", 9)], &[]).unwrap();
    bench.abi.class.push(abi("G", &[("k", 0)]));
    let (mut class, field) = bench.generated(Some(&parent), 3, Some(("k", 5)), 0);
    let error = bench.prepare(&mut class).unwrap_err();
    assert!(error.to_string().contains("Fixed vtable index collision"));
    assert_eq!(field.word_index().unwrap(), 2, "the relative index 0 is already made absolute");
}

#[test]
fn it_cuts_instance_words_to_16_bits() {
    let mut bench = Bench::new(Vec::new());
    let (mut parent, _) = bench.generated(None, 65535, None, 0);
    bench.prepare(&mut parent).unwrap();
    bench.jvm.register(parent.clone());
    let child = bench.build("C", Some("G"), &[], &["y"]).unwrap();
    assert_eq!(child.instance_field_word_count().unwrap(), 0, "65,536 in 16 bits");
}

#[test]
fn it_has_no_limit_on_slots() {
    let mut bench = Bench::new(vec![JavaClassAbi { vtable_size: Some(1024), ..abi("C", &[]) }]);
    let class = bench.build("C", None, &[("a", 5)], &[]).unwrap();
    assert_eq!(class.descriptor().unwrap().vtable_count, 1025);
}

#[test]
fn it_has_no_limit_on_argument_words() {
    let longs = JavaMethodProto {
        name: "k".to_owned(),
        descriptor: format!("({})V", "J".repeat(128)),
        access_flags: MethodAccessFlags::from_bits_truncate(8),
        body: NoBody::default(),
    };
    let proto = JavaClassProto {
        name: "C",
        parent_class: None,
        interfaces: Vec::new(),
        methods: vec![longs],
        fields: Vec::new(),
        access_flags: ClassAccessFlags::PUBLIC,
    };
    let class = Bench::new(Vec::new()).register(proto, std::iter::once(5)).unwrap();
    assert_eq!(class.descriptor().unwrap().vtable_count, 0);
}

#[test]
fn it_leaves_link_state_0_in_built_classes() {
    let mut bench = Bench::new(Vec::new());
    let class = bench.build("C", None, &[], &[]).unwrap();
    assert_eq!(class.descriptor().unwrap().link_state, 0);
}

#[test]
fn it_walks_lists_of_any_length() {
    let mut bench = Bench::new(Vec::new());
    let class = bench.build("C", None, &[], &[]).unwrap();
    let names: Vec<&'static str> = (0..70).map(|number| &*format!("I{number}").leak()).collect();
    for name in names {
        let interface = bench.build(name, None, &[], &[]).unwrap();
        let ask = || JAVA_ABI::with(&bench.abi, || run(class.interface_dispatch_table(&bench.jvm, &interface)));
        assert_eq!(ask().unwrap(), ask().unwrap(), "built, then found");
    }
}

#[test]
fn it_overrides_across_packages() {
    let mut bench = Bench::new(Vec::new());
    bench.build("p/P", None, &[("hidden", 5)], &[]).unwrap();
    let child = bench.build("q/C", Some("p/P"), &[("hidden", 6)], &[]).unwrap();
    assert_eq!(child.descriptor().unwrap().vtable_count, 1, "JVMS 5.4.5 keeps package-private methods apart");
    assert_eq!(bench.slot(&child, 0), 6);
}

#[test]
fn it_loses_an_inherited_method() {
    let mut bench = Bench::new(vec![abi("P", &[("a", 0)]), abi("Q", &[("b", 0)])]);
    bench.build("P", None, &[("a", 5), ("b", 6)], &[]).unwrap();
    let child = bench.build("Q", Some("P"), &[], &[]).unwrap();
    assert_eq!(child.descriptor().unwrap().vtable_count, 1, "a and b both have the index 0");
    assert_eq!(bench.slot(&child, 0), 6);
}

#[test]
fn it_gives_array_classes_interfaces_and_flags_of_its_own() {
    let mut bench = Bench::new(Vec::new());
    bench.build("java/lang/Object", None, &[], &[]).unwrap();
    let (core, jvm) = (&mut bench.core.clone(), &bench.jvm);
    let array = JAVA_ABI::with(&bench.abi, || run(JavaClassDefinition::new_array(core, jvm, "[I", JavaSvcFunctions))).unwrap();
    assert_eq!(array.interface_names(), ["java/lang/Cloneable", "java/io/Serializable"]);
    assert_eq!(ClassDefinition::access_flags(&array).bits(), 0x0011);
}
