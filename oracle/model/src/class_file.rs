//! Class files (JVMS chapter 4) of major versions 45 to 48: their members in the sheet's form. Places are bytes of the
//! file; numbers are big-endian. A refusal says what it is about.

use std::fmt;

use super::descriptors::{is_field_descriptor, is_method_descriptor};
use super::sheets::pack;
use super::why::shown;

/// A field or a method of a class file.
#[derive(Clone, Copy, Debug, PartialEq, Eq)]
pub struct Member<'a> {
    pub flags: u16,
    pub name: &'a [u8],
    pub descriptor: &'a [u8],
}

/// "the class name, parent name (none if its reference is 0), flags, fields and methods with their names and
/// descriptors, in file order"
#[derive(Clone, Debug, PartialEq, Eq)]
pub struct ClassFile<'a> {
    pub name: &'a [u8],
    pub parent: Option<&'a [u8]>,
    pub flags: u16,
    pub fields: Vec<Member<'a>>,
    pub methods: Vec<Member<'a>>,
}

/// A refusal of a class file: its row, and why.
#[derive(Clone, Debug, PartialEq, Eq)]
pub struct FileRefused {
    pub row: u32,
    pub why: FileWhy,
}

/// What of the file, or of what is lent, the row's condition holds of.
#[derive(Clone, Debug, PartialEq, Eq)]
pub enum FileWhy {
    Magic(u32),
    Version(u16),
    Short { item: &'static str, place: usize, needs: usize, left: usize },
    After { place: usize, bytes: usize },
    Tag { index: usize, place: usize, tag: u8 },
    LastPlace { index: usize, place: usize },
    Outside { what: &'static str, index: usize, count: usize },
    OtherTag { what: &'static str, index: usize, tag: Option<u8>, wanted: u8 },
    Length { what: String, bytes: usize },
    Byte { what: String, byte: u8 },
    Flags { what: String, flags: u16 },
    Descriptor { what: String },
    Count { what: &'static str, count: usize, most: usize },
    Lent { what: &'static str, needs: usize, lent: usize },
    Targets { methods: usize, targets: usize },
}

impl fmt::Display for FileWhy {
    fn fmt(&self, f: &mut fmt::Formatter<'_>) -> fmt::Result {
        match self {
            FileWhy::Magic(magic) => write!(f, "the file begins with 0x{magic:08X}, and a class file with 0xCAFEBABE"),
            FileWhy::Version(major) => write!(f, "the major version is {major}, and 45 to 48 are read"),
            FileWhy::Short { item, place, needs, left } => {
                write!(f, "{item} at byte {place} takes {needs} bytes, and the file has {left} more")
            }
            FileWhy::After { place, bytes } => write!(f, "the class ends at byte {place}, and {bytes} bytes follow"),
            FileWhy::Tag { index, place, tag } => {
                write!(f, "constant {index} at byte {place} has the tag {tag}, which these versions do not have")
            }
            FileWhy::LastPlace { index, place } => {
                write!(f, "constant {index} at byte {place} takes two places of the pool, and stands at the last")
            }
            FileWhy::Outside { what, index, count } => write!(f, "{what} is constant {index}, and the pool's count is {count}"),
            FileWhy::OtherTag { what, index, tag: Some(tag), wanted } => {
                write!(f, "{what} is constant {index}, whose tag is {tag} and not {wanted}")
            }
            FileWhy::OtherTag { what, index, tag: None, .. } => {
                write!(f, "{what} is constant {index}, the second place of a Long or Double")
            }
            FileWhy::Length { what, bytes } => write!(f, "{what} has {bytes} bytes, and a sheet's strings have 1 to 255"),
            FileWhy::Byte { what, byte } => write!(f, "{what} has the byte 0x{byte:02X}, outside 0x21 to 0x7E"),
            FileWhy::Flags { what, flags } => write!(f, "{what} has the flags 0x{flags:04X}, with bits outside 0x{METHOD_FLAGS:04X}"),
            FileWhy::Descriptor { what } => write!(f, "{what} is none by the JVM Specification"),
            FileWhy::Count { what, count, most } => write!(f, "the class has {count} {what}, and a sheet holds {most}"),
            FileWhy::Lent { what, needs, lent } => write!(f, "the {what} list takes {needs} words, and {lent} were lent"),
            FileWhy::Targets { methods, targets } => write!(f, "the class has {methods} methods, and {targets} targets were lent"),
        }
    }
}

const MAGIC: u32 = 0xCAFE_BABE;
const UTF8: u8 = 1;
const LONG: u8 = 5;
const DOUBLE: u8 = 6;
const CLASS: u8 = 7;
const METHOD_FLAGS: u16 = 0x1DFF;
const MOST_MEMBERS: usize = 512;
const MOST_TEXT: usize = 8192;
const RECORD: usize = 6;

fn refuse<T>(row: u32, why: FileWhy) -> Result<T, FileRefused> {
    Err(FileRefused { row, why })
}

// ---- rows 20 to 22, front to back: "Of 21 and 22 the one met first, front to back, is given."

/// A file, the place up to which its items have been taken, and the place of each constant's tag by its index; index 0
/// and the second places of Longs and Doubles have none.
struct Walk<'a> {
    bytes: &'a [u8],
    at: usize,
    constants: Vec<Option<usize>>,
}

impl<'a> Walk<'a> {
    fn u2(&self, place: usize) -> u16 {
        u16::from_be_bytes([self.bytes[place], self.bytes[place + 1]])
    }

    fn u4(&self, place: usize) -> u32 {
        u32::from(self.u2(place)) << 16 | u32::from(self.u2(place + 2))
    }

    /// Takes an item and answers its place: "21, if the bytes end early".
    fn item(&mut self, size: usize, item: &'static str) -> Result<usize, FileRefused> {
        let (place, left) = (self.at, self.bytes.len() - self.at);
        if left < size {
            return refuse(21, FileWhy::Short { item, place, needs: size, left });
        }
        self.at += size;
        Ok(place)
    }

    /// Takes a number of two bytes.
    fn number(&mut self, item: &'static str) -> Result<usize, FileRefused> {
        let place = self.item(2, item)?;
        Ok(self.u2(place).into())
    }

    /// "20, first, if eight bytes are there and magic or version is wrong"
    fn version(&mut self) -> Result<(), FileRefused> {
        self.item(8, "magic and version")?;
        let (magic, major) = (self.u4(0), self.u2(6));
        if magic != MAGIC {
            return refuse(20, FileWhy::Magic(magic));
        }
        if !(45..=48).contains(&major) {
            return refuse(20, FileWhy::Version(major));
        }
        Ok(())
    }

    /// "22, if a pool tag is none of JVMS 4.4's eleven for these versions"; "Long and Double constants take two pool
    /// places; one at the last place counts as a wrong tag."
    fn pool(&mut self) -> Result<(), FileRefused> {
        let count = self.number("the pool's count")?;
        self.constants = vec![None; count];
        let mut index = 1;
        while index < count {
            let place = self.item(1, "a constant's tag")?;
            let tag = self.bytes[place];
            if !matches!(tag, 1 | 3..=12) {
                return refuse(22, FileWhy::Tag { index, place, tag });
            }
            let is_wide = matches!(tag, LONG | DOUBLE);
            if is_wide && index == count - 1 {
                return refuse(22, FileWhy::LastPlace { index, place });
            }
            let size = match tag {
                UTF8 => self.number("a constant")?,
                CLASS | 8 => 2,
                LONG | DOUBLE => 8,
                _ => 4,
            };
            self.item(size, "a constant")?;
            self.constants[index] = Some(place);
            index += if is_wide { 2 } else { 1 };
        }
        Ok(())
    }

    /// The place of a constant's tag: "22, if .. a pool reference used for a name, descriptor or class is outside the
    /// pool or has the wrong tag"
    fn constant(&self, index: usize, wanted: u8, what: &'static str) -> Result<usize, FileRefused> {
        if index == 0 || index >= self.constants.len() {
            return refuse(22, FileWhy::Outside { what, index, count: self.constants.len() });
        }
        match self.constants[index] {
            Some(place) if self.bytes[place] == wanted => Ok(place),
            found => refuse(22, FileWhy::OtherTag { what, index, tag: found.map(|place| self.bytes[place]), wanted }),
        }
    }

    fn string(&self, index: usize, what: &'static str) -> Result<&'a [u8], FileRefused> {
        let place = self.constant(index, UTF8, what)?;
        Ok(&self.bytes[place + 3..][..self.u2(place + 1).into()])
    }

    fn class_name(&self, index: usize, what: &'static str, name: &'static str) -> Result<&'a [u8], FileRefused> {
        let place = self.constant(index, CLASS, what)?;
        self.string(self.u2(place + 1).into(), name)
    }

    /// "attributes are passed by their lengths"
    fn attributes(&mut self, item: &'static str) -> Result<(), FileRefused> {
        for _ in 0..self.number(item)? {
            self.item(2, item)?;
            let place = self.item(4, item)?;
            self.item(self.u4(place) as usize, item)?;
        }
        Ok(())
    }

    /// "Only the class's and parent's references and the members' names and descriptors are looked up, each when it is
    /// read."
    fn members(&mut self, items: &Items) -> Result<Vec<Member<'a>>, FileRefused> {
        let mut members = Vec::new();
        for _ in 0..self.number(items.count)? {
            let flags = self.number(items.flags)? as u16;
            let name = self.number(items.name)?;
            let name = self.string(name, items.name)?;
            let descriptor = self.number(items.descriptor)?;
            let descriptor = self.string(descriptor, items.descriptor)?;
            self.attributes(items.attributes)?;
            members.push(Member { flags, name, descriptor });
        }
        Ok(members)
    }

    fn file(mut self) -> Result<ClassFile<'a>, FileRefused> {
        self.version()?;
        self.pool()?;
        let flags = self.number("the class's flags")? as u16;
        let this = self.number("the class")?;
        let name = self.class_name(this, "the class", "the class's name")?;
        let parent = self.number("the parent")?;
        let parent = if parent == 0 { None } else { Some(self.class_name(parent, "the parent", "the parent's name")?) };
        for _ in 0..self.number("the interfaces' count")? {
            self.item(2, "an interface")?;
        }
        let fields = self.members(&FIELDS)?;
        let methods = self.members(&METHODS)?;
        self.attributes("an attribute of the class")?;
        // "or continue after the last attribute"
        let bytes = self.bytes.len() - self.at;
        if bytes > 0 {
            return refuse(21, FileWhy::After { place: self.at, bytes });
        }
        Ok(ClassFile { name, parent, flags, fields, methods })
    }
}

/// The names of a member's items.
struct Items {
    count: &'static str,
    flags: &'static str,
    name: &'static str,
    descriptor: &'static str,
    attributes: &'static str,
}

const FIELDS: Items = Items {
    count: "the fields' count",
    flags: "a field's flags",
    name: "a field's name",
    descriptor: "a field's descriptor",
    attributes: "an attribute of a field",
};

const METHODS: Items = Items {
    count: "the methods' count",
    flags: "a method's flags",
    name: "a method's name",
    descriptor: "a method's descriptor",
    attributes: "an attribute of a method",
};

/// The class file in the bytes, by rows 20 to 22.
fn read(bytes: &[u8]) -> Result<ClassFile<'_>, FileRefused> {
    Walk { bytes, at: 0, constants: Vec::new() }.file()
}

// ---- rows 4, 5 and 14: "Row 4's rules on names, descriptors and flags, row 5 and then row 14 are checked after the
// reading."

/// "names and descriptors have 1 to 255 bytes, each 0x21 to 0x7E"
fn string_rule(string: &[u8], what: impl Fn() -> String) -> Result<(), FileRefused> {
    if string.is_empty() || string.len() > 255 {
        return refuse(4, FileWhy::Length { what: what(), bytes: string.len() });
    }
    match string.iter().find(|byte| !(0x21..=0x7E).contains(*byte)) {
        Some(&byte) => refuse(4, FileWhy::Byte { what: what(), byte }),
        None => Ok(()),
    }
}

impl ClassFile<'_> {
    fn row_4(&self) -> Result<(), FileRefused> {
        string_rule(self.name, || "the class's name".to_owned())?;
        if let Some(parent) = self.parent {
            string_rule(parent, || "the parent's name".to_owned())?;
        }
        for (kind, members) in [("field", &self.fields), ("method", &self.methods)] {
            for (number, member) in members.iter().enumerate() {
                string_rule(member.name, || format!("the name of {kind} {number}"))?;
                string_rule(member.descriptor, || format!("the descriptor of {kind} {number} {}", shown(member.name)))?;
            }
        }
        // "method flags within 0x1DFF"
        match self.methods.iter().find(|method| method.flags & !METHOD_FLAGS != 0) {
            Some(method) => {
                let what = format!("method {}", shown(method.name));
                refuse(4, FileWhy::Flags { what, flags: method.flags })
            }
            None => Ok(()),
        }
    }

    fn row_5(&self) -> Result<(), FileRefused> {
        let wrong = |kind, member: &Member| {
            let what = format!("the descriptor {} of {kind} {}", shown(member.descriptor), shown(member.name));
            refuse(5, FileWhy::Descriptor { what })
        };
        if let Some(field) = self.fields.iter().find(|field| !is_field_descriptor(field.descriptor)) {
            return wrong("field", field);
        }
        // each method by its own flags
        match self.methods.iter().find(|method| !is_method_descriptor(method.descriptor, method.flags.into())) {
            Some(method) => wrong("method", method),
            None => Ok(()),
        }
    }

    /// "Row 14 also takes more members or text than a sheet .. holds"
    fn row_14(&self) -> Result<(), FileRefused> {
        for (what, count, most) in [
            ("fields", self.fields.len(), MOST_MEMBERS),
            ("methods", self.methods.len(), MOST_MEMBERS),
            ("text bytes", self.text().len(), MOST_TEXT),
        ] {
            if count > most {
                return refuse(14, FileWhy::Count { what, count, most });
            }
        }
        Ok(())
    }

    /// "or a lent list holds, and a target list whose length is not the method count"
    fn row_14_of(&self, targets: &[u32], fields: &[u32], methods: &[u32], text: &[u32]) -> Result<(), FileRefused> {
        let text_words = self.text().len().div_ceil(4);
        for (what, needs, lent) in [
            ("fields", RECORD * self.fields.len(), fields.len()),
            ("methods", RECORD * self.methods.len(), methods.len()),
            ("text", text_words, text.len()),
        ] {
            if needs > lent {
                return refuse(14, FileWhy::Lent { what, needs, lent });
            }
        }
        if targets.len() != self.methods.len() {
            return refuse(14, FileWhy::Targets { methods: self.methods.len(), targets: targets.len() });
        }
        Ok(())
    }

    /// "each string stored anew: class, parent, then each member's name and descriptor, fields first"
    fn text(&self) -> Vec<u8> {
        let members = self.fields.iter().chain(&self.methods).flat_map(|member| [member.name, member.descriptor]);
        let strings: Vec<&[u8]> = [self.name, self.parent.unwrap_or_default()].into_iter().chain(members).collect();
        strings.concat()
    }

    /// The six answer words: the lengths of the class's and the parent's name, the flags, fields, methods, text bytes.
    fn head(&self) -> [u32; 6] {
        let (name, parent) = (self.name.len(), self.parent.unwrap_or_default().len());
        let (fields, methods, text) = (self.fields.len(), self.methods.len(), self.text().len());
        [name, parent, self.flags.into(), fields, methods, text].map(|word| word as u32)
    }
}

/// Fills a list's front with records: "in the sheet's form", the first member's text at `place`. Answers the place
/// after the last one's.
fn put_records(list: &mut [u32], members: &[Member], place: usize, lasts: impl Iterator<Item = u32>) -> usize {
    let mut place = place;
    for ((record, member), last) in list.chunks_exact_mut(RECORD).zip(members).zip(lasts) {
        let (name, descriptor) = (member.name.len(), member.descriptor.len());
        let words = [place, name, place + name, descriptor, member.flags.into(), last as usize];
        record.copy_from_slice(&words.map(|word| word as u32));
        place += name + descriptor;
    }
    place
}

/// The class file in the bytes, by rows 20 to 22, 4, 5, and 14 by the sheet's limits alone.
pub fn class_file(bytes: &[u8]) -> Result<ClassFile<'_>, FileRefused> {
    let file = read(bytes)?;
    file.row_4()?;
    file.row_5()?;
    file.row_14()?;
    Ok(file)
}

/// The six answer words without lists.
pub fn class_file_head(bytes: &[u8]) -> Result<[u32; 6], FileRefused> {
    Ok(class_file(bytes)?.head())
}

/// "Fields, methods and text fill three lent word lists in the sheet's form, word indices 0"; "Targets come from a lent
/// list, one for each method."
pub fn read_class_file(
    bytes: &[u8],
    targets: &[u32],
    fields: &mut [u32],
    methods: &mut [u32],
    text: &mut [u32],
) -> Result<[u32; 6], FileRefused> {
    let file = class_file(bytes)?;
    file.row_14_of(targets, fields, methods, text)?;
    let place = file.name.len() + file.parent.unwrap_or_default().len();
    let place = put_records(fields, &file.fields, place, std::iter::repeat(0));
    put_records(methods, &file.methods, place, targets.iter().copied());
    let words = pack(&file.text());
    text[..words.len()].copy_from_slice(&words);
    Ok(file.head())
}
