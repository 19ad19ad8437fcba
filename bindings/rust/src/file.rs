//! Class files with owned members.

use alloc::string::String;
use alloc::vec;
use alloc::vec::Vec;

use crate::build::ClassBuilder;
use crate::calls::{class_file_head, read_class_file};
use crate::layout::member;
use crate::refusal::Refusal;
use crate::view::text_part;

/// What a class file holds: the class, its parent, its fields and methods in the file's order.
///
/// ```
/// # use lgt_linker::*;
/// let bytes = std::fs::read("../../examples/supplied/Card.class").unwrap();
/// let card = ClassFile::read(&bytes, &[0x1000, 0x1010, 0x1020])?;
/// assert_eq!((card.name.as_str(), card.parent.as_deref()), ("Card", Some("java/lang/Object")));
/// let open = &card.methods[1];
/// assert_eq!((open.name.as_str(), open.descriptor.as_str(), open.target), ("open", "()V", 0x1010));
/// # Ok::<(), Refusal>(())
/// ```
#[derive(Clone, Debug, PartialEq, Eq)]
pub struct ClassFile {
    /// The class's name.
    pub name: String,
    /// The parent's name.
    pub parent: Option<String>,
    /// The class's access flags.
    pub flags: u32,
    /// Its fields.
    pub fields: Vec<FileField>,
    /// Its methods.
    pub methods: Vec<FileMethod>,
}

/// A field of a class file.
#[derive(Clone, Debug, PartialEq, Eq)]
pub struct FileField {
    /// Its name.
    pub name: String,
    /// Its descriptor.
    pub descriptor: String,
    /// Its access flags.
    pub flags: u32,
}

/// A method of a class file.
#[derive(Clone, Debug, PartialEq, Eq)]
pub struct FileMethod {
    /// Its name.
    pub name: String,
    /// Its descriptor.
    pub descriptor: String,
    /// Its access flags.
    pub flags: u32,
    /// The target that was given for it.
    pub target: u32,
}

/// A record's name and descriptor.
fn signature(text: &[u32], record: &[u32]) -> (String, String) {
    let name = text_part(text, record[member::NAME_START], record[member::NAME_LENGTH]);
    (name.into(), text_part(text, record[member::DESCRIPTOR_START], record[member::DESCRIPTOR_LENGTH]).into())
}

impl ClassFile {
    /// Reads a class file with a target for each method, in the file's order; [`class_file_head`] tells how many there
    /// are.
    ///
    /// # Errors
    ///
    /// As of [`read_class_file`]: 20 to 22, 4, 5, and 14 where a sheet cannot hold the class or the targets are not as
    /// many as the methods.
    ///
    /// ```
    /// # use lgt_linker::*;
    /// let bytes = std::fs::read("../../examples/supplied/VipCard.class").unwrap();
    /// let targets: Vec<u32> = (0..class_file_head(&bytes)?.methods).map(|number| 0x2000 + 16 * number).collect();
    /// let vip = ClassFile::read(&bytes, &targets)?;
    /// assert_eq!(vip.parent.as_deref(), Some("Card"));
    /// assert_eq!(ClassFile::read(&bytes[1..], &targets), Err(Refusal::FileVersion));
    /// assert_eq!(ClassFile::read(&bytes[..99], &targets), Err(Refusal::FileBytes));
    /// # Ok::<(), Refusal>(())
    /// ```
    pub fn read(bytes: &[u8], targets: &[u32]) -> Result<ClassFile, Refusal> {
        let head = class_file_head(bytes)?;
        let mut fields = vec![0; member::WIDTH * head.fields as usize];
        let mut methods = vec![0; member::WIDTH * head.methods as usize];
        let mut text = vec![0; head.text_bytes.div_ceil(4) as usize];
        read_class_file(bytes, targets, &mut fields, &mut methods, &mut text)?;
        let field = |record: &[u32]| {
            let (name, descriptor) = signature(&text, record);
            FileField { name, descriptor, flags: record[member::FLAGS] }
        };
        let method = |record: &[u32]| {
            let (name, descriptor) = signature(&text, record);
            FileMethod { name, descriptor, flags: record[member::FLAGS], target: record[member::LAST] }
        };
        Ok(ClassFile {
            name: text_part(&text, 0, head.name_length).into(),
            parent: (head.parent_length > 0).then(|| text_part(&text, head.name_length, head.parent_length).into()),
            flags: head.flags,
            fields: fields.chunks_exact(member::WIDTH).map(field).collect(),
            methods: methods.chunks_exact(member::WIDTH).map(method).collect(),
        })
    }

    /// The class for a [`SetBuilder`](crate::SetBuilder): built, with its parent by name, its members, and no
    /// interfaces, which a class file's reading does not tell.
    ///
    /// ```
    /// # use lgt_linker::*;
    /// # fn main() -> Result<(), BuildError> {
    /// let read = |name: &str, first: u32| {
    ///     let bytes = std::fs::read(format!("../../examples/supplied/{name}.class")).unwrap();
    ///     let targets: Vec<u32> = (0..class_file_head(&bytes)?.methods).map(|number| first + 16 * number).collect();
    ///     ClassFile::read(&bytes, &targets)
    /// };
    /// let object = ClassBuilder::new("java/lang/Object");
    /// let (card, vip) = (read("Card", 0x1000)?.builder(), read("VipCard", 0x2000)?.builder());
    /// let set = SetBuilder::new().class(object).class(card).class(vip).build()?;
    /// assert_eq!(set.class(3).unwrap().parent().unwrap().name(), "Card");
    /// # Ok(())
    /// # }
    /// ```
    pub fn builder(&self) -> ClassBuilder {
        let mut builder = ClassBuilder::new(&self.name).flags(self.flags);
        if let Some(parent) = &self.parent {
            builder = builder.extends(parent);
        }
        for method in &self.methods {
            builder = builder.method_with(&method.name, &method.descriptor, method.flags, method.target);
        }
        for field in &self.fields {
            builder = builder.field_with(&field.name, &field.descriptor, field.flags, 0);
        }
        builder
    }
}
