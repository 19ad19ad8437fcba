//! Class records laid out in the emulated memory, as generated code or an earlier link
//! would have left them.

use jvm_types::{FieldAccessFlags, MethodAccessFlags};
use linker::runtime::java::jvm_support::{JavaClassDefinition, JavaField, JavaMethod};
use wie_core_arm::{Allocator, ArmCore};
use wie_util::{Result, write_generic, write_null_terminated_string_bytes};
use wipi_types::lgt::java::{
    LGT_JAVA_CLASS_SUPER_CLASS_IS_NAME, LgtJavaClass, LgtJavaClassDescriptor, LgtJavaClassField, LgtJavaClassFieldStorage,
    LgtJavaClassMethod,
};

use crate::sheet::{ClassRecord, MemberRecord, Set, class_word};

/// How a class lies in memory.
pub enum Form<'a> {
    /// As the compiler leaves it, not yet prepared; its parent by name or by pointer.
    Generated { parent_by_name: bool },
    /// Linked, with these slots.
    Linked { slots: &'a [u32] },
    /// An ancestor that was never linked.
    Unlinked,
}

/// Lays class `number` out under its parent's definition.
pub fn lay_out(
    core: &mut ArmCore,
    set: &Set,
    number: u32,
    parent: Option<&JavaClassDefinition>,
    form: &Form,
) -> Result<JavaClassDefinition> {
    let class = set.class(number);
    let ptr_raw = Allocator::alloc(core, size_of::<LgtJavaClass>() as u32)?;
    let ptr_descriptor = Allocator::alloc(core, size_of::<LgtJavaClassDescriptor>() as u32)?;
    let ptr_name = string(core, set.name(number))?;
    let ptr_methods = methods(core, set, ptr_raw, set.methods_of(number))?;
    let ptr_fields = fields(core, set, ptr_raw, set.fields_of(number))?;
    let ptr_class_fields = Allocator::alloc(core, size_of::<LgtJavaClassFieldStorage>() as u32)?;

    let mut flags = 0;
    let mut ptr_super_class = parent.map_or(0, |parent| parent.ptr_raw);
    let mut ptr_vtable = 0;
    let mut ptr_interface_names = 0;
    let mut ptr_linked_table = 0;
    let mut vtable_count = 0;
    match form {
        Form::Generated { parent_by_name } => {
            if *parent_by_name && parent.is_some() {
                flags = LGT_JAVA_CLASS_SUPER_CLASS_IS_NAME;
                ptr_super_class = string(core, set.name(class.get(class_word::PARENT)))?;
            }
            ptr_interface_names = interface_names(core, set, number)?;
            let (table, slots) = class.span(class_word::COMPILER);
            if table != 0 {
                ptr_vtable = words(core, 0, &set.compiler[table as usize - 1..][..slots as usize])?;
                vtable_count = slots as u16;
            }
        }
        Form::Linked { slots } => {
            let empty_list = [0];
            ptr_linked_table = words(core, ptr_raw, &[slots, &empty_list[..]].concat())?;
            vtable_count = slots.len() as u16;
        }
        Form::Unlinked => {}
    }

    let descriptor = LgtJavaClassDescriptor {
        access_flags: class.get(class_word::FLAGS),
        ptr_next_class: 0,
        ptr_name,
        ptr_vtable,
        ptr_super_class,
        ptr_interface_references: 0,
        instance_field_word_count: class.get(class_word::INSTANCE_WORDS) as u16,
        link_state: class.get(class_word::LINK_STATE) as u16,
        unk7: 0,
        ptr_instance_reference_bitmap: 0,
        flags,
        unk10: 0,
        vtable_count,
        ptr_interface_names,
        fn_link_members: 0,
        fn_get_initialized_class: 0,
        fn_get_class: 0,
        ptr_methods,
        ptr_fields,
        ptr_class_fields,
        unk14: 0,
        static_field_word_count: static_words(class),
    };
    write_generic(core, ptr_descriptor, descriptor)?;
    write_generic(core, ptr_raw, LgtJavaClass { unk1: ptr_linked_table, unk2: 0, ptr_descriptor })?;
    Ok(JavaClassDefinition::from_raw(ptr_raw, core))
}

/// The most static words that the Rust is handed. It allocates as many for a generated class, and from about 2^30 on its count of bytes is
/// cut to 32 bits: above this nothing of them is compared (docs/DIFFERENCES.md).
pub const MOST_STATIC_WORDS: u32 = 4096;

/// The static words that the Rust is handed of a class: its own, or 0 where they are too many.
fn static_words(class: &ClassRecord) -> u32 {
    let words = class.get(class_word::STATIC_WORDS);
    if words <= MOST_STATIC_WORDS { words } else { 0 }
}

/// A zero-terminated string.
fn string(core: &mut ArmCore, text: &str) -> Result<u32> {
    let address = Allocator::alloc(core, text.len() as u32 + 1)?;
    write_null_terminated_string_bytes(core, address, text.as_bytes())?;
    Ok(address)
}

/// One word, then others.
pub fn words(core: &mut ArmCore, first: u32, others: &[u32]) -> Result<u32> {
    let address = Allocator::alloc(core, 4 * (others.len() as u32 + 1))?;
    for (position, word) in (0..).zip(std::iter::once(&first).chain(others)) {
        write_generic(core, address + 4 * position, *word)?;
    }
    Ok(address)
}

/// The interface names: no list, or an empty one, if there is none.
fn interface_names(core: &mut ArmCore, set: &Set, number: u32) -> Result<u32> {
    let interfaces = set.interfaces_of(number);
    if interfaces.is_empty() && number.is_multiple_of(3) {
        return Ok(0);
    }
    let names = interfaces.iter().map(|&interface| string(core, set.name(interface))).collect::<Result<Vec<_>>>()?;
    words(core, names.len() as u32, &names)
}

fn methods(core: &mut ArmCore, set: &Set, ptr_class: u32, list: &[MemberRecord]) -> Result<u32> {
    if list.is_empty() {
        return Ok(0);
    }
    let size = size_of::<LgtJavaClassMethod>() as u32;
    let address = Allocator::alloc(core, 4 + size * list.len() as u32)?;
    write_generic(core, address, list.len() as u32)?;
    for (position, method) in (0..).zip(list) {
        let flags = MethodAccessFlags::from_bits_truncate(method.flags as u16);
        let (name, descriptor) = (set.part(method.name), set.part(method.descriptor));
        JavaMethod::new_aot(core, address + 4 + size * position, ptr_class, name, descriptor, flags, method.last)?;
    }
    Ok(address)
}

fn fields(core: &mut ArmCore, set: &Set, ptr_class: u32, list: &[MemberRecord]) -> Result<u32> {
    if list.is_empty() {
        return Ok(0);
    }
    let size = size_of::<LgtJavaClassField>() as u32;
    let address = Allocator::alloc(core, 4 + size * list.len() as u32)?;
    write_generic(core, address, list.len() as u32)?;
    for (position, field) in (0..).zip(list) {
        let flags = FieldAccessFlags::from_bits_truncate(field.flags as u16);
        let (name, descriptor) = (set.part(field.name), set.part(field.descriptor));
        JavaField::new(core, address + 4 + size * position, ptr_class, name, descriptor, flags, field.last)?;
    }
    Ok(address)
}
