//! The harness's own reading of class files, which no original file here judges: a cursor hands out the next bytes, and
//! the pool is a list of constants. A fault is a row with the bucket that it reaches.

use super::descriptors::{is_field, is_method};
use super::rows::is_string;
use crate::sheet::packed;
use crate::side::FileAnswer;

/// A row, and which of its conditions.
pub type Fault = (u32, &'static str);

/// A constant as far as it is looked at.
#[derive(Clone, Copy)]
enum Constant<'a> {
    Utf8(&'a [u8]),
    Class([u8; 2]),
    Other,
    /// No constant: index 0, and the second place of a Long or Double.
    None,
}

/// Flags, name, descriptor.
type Member<'a> = ([u8; 2], &'a [u8], &'a [u8]);

/// What a class file holds.
pub struct File<'a> {
    pub name: &'a [u8],
    pub parent: Option<&'a [u8]>,
    flags: [u8; 2],
    pub fields: Vec<Member<'a>>,
    pub methods: Vec<Member<'a>>,
}

/// What is left of the bytes.
struct Cursor<'a>(&'a [u8]);

impl<'a> Cursor<'a> {
    fn take(&mut self, length: u32, bucket: &'static str) -> Result<&'a [u8], Fault> {
        let (taken, rest) = self.0.split_at_checked(length as usize).ok_or((21, bucket))?;
        self.0 = rest;
        Ok(taken)
    }

    fn two(&mut self, bucket: &'static str) -> Result<[u8; 2], Fault> {
        Ok(self.take(2, bucket)?.try_into().expect("two were taken"))
    }

    fn count(&mut self, bucket: &'static str) -> Result<u16, Fault> {
        Ok(u16::from_be_bytes(self.two(bucket)?))
    }

    fn attributes(&mut self, bucket: &'static str) -> Result<(), Fault> {
        for _ in 0..self.count(bucket)? {
            self.take(2, bucket)?;
            let length = self.take(4, bucket)?.iter().fold(0, |length, &byte| length << 8 | u32::from(byte));
            self.take(length, bucket)?;
        }
        Ok(())
    }

    fn pool(&mut self) -> Result<Vec<Constant<'a>>, Fault> {
        let count = usize::from(self.count("file: cut in the pool's count")?);
        let mut pool = vec![Constant::None];
        while pool.len() < count {
            let tag = self.take(1, "file: cut at a tag")?[0];
            let bucket = "file: cut in a constant";
            match tag {
                1 => {
                    let length = self.count(bucket)?;
                    pool.push(Constant::Utf8(self.take(length.into(), bucket)?));
                }
                5 | 6 if pool.len() + 1 == count => return Err((22, "file: a Long or Double at the last place")),
                5 | 6 => {
                    self.take(8, bucket)?;
                    pool.extend([Constant::Other, Constant::None]);
                }
                7 => pool.push(Constant::Class(self.two(bucket)?)),
                8 => {
                    self.take(2, bucket)?;
                    pool.push(Constant::Other);
                }
                3 | 4 | 9 | 10 | 11 | 12 => {
                    self.take(4, bucket)?;
                    pool.push(Constant::Other);
                }
                _ => return Err((22, "file: a wrong tag")),
            }
        }
        Ok(pool)
    }
}

/// The buckets of a reference: outside the pool, at a wrong tag, at no constant.
type Missed = [&'static str; 3];

fn constant<'a>(pool: &[Constant<'a>], index: [u8; 2], missed: Missed) -> Result<Constant<'a>, Fault> {
    match pool.get(usize::from(u16::from_be_bytes(index))) {
        None => Err((22, missed[0])),
        Some(_) if index == [0, 0] => Err((22, missed[0])),
        Some(Constant::None) => Err((22, missed[2])),
        Some(&found) => Ok(found),
    }
}

fn utf8<'a>(pool: &[Constant<'a>], index: [u8; 2], missed: Missed) -> Result<&'a [u8], Fault> {
    match constant(pool, index, missed)? {
        Constant::Utf8(bytes) => Ok(bytes),
        _ => Err((22, missed[1])),
    }
}

fn class<'a>(pool: &[Constant<'a>], index: [u8; 2], missed: Missed, name: Missed) -> Result<&'a [u8], Fault> {
    match constant(pool, index, missed)? {
        Constant::Class(index) => utf8(pool, index, name),
        _ => Err((22, missed[1])),
    }
}

const CLASS: Missed = ["file: the class outside the pool", "file: the class at a wrong tag", "file: the class at a second place"];
const CLASS_NAME: Missed =
    ["file: the class's name outside the pool", "file: the class's name at a wrong tag", "file: the class's name at a second place"];
const PARENT: Missed = ["file: the parent outside the pool", "file: the parent at a wrong tag", "file: the parent at a second place"];
const PARENT_NAME: Missed =
    ["file: the parent's name outside the pool", "file: the parent's name at a wrong tag", "file: the parent's name at a second place"];

/// The buckets of a kind of member: cut in the count, in a member, in its attributes; its name, its descriptor.
struct Kind {
    cut: Missed,
    name: Missed,
    descriptor: Missed,
}

const FIELD: Kind = Kind {
    cut: ["file: cut in the field count", "file: cut in a field", "file: cut in a field's attributes"],
    name: ["file: a field's name outside the pool", "file: a field's name at a wrong tag", "file: a field's name at a second place"],
    descriptor: [
        "file: a field's descriptor outside the pool",
        "file: a field's descriptor at a wrong tag",
        "file: a field's descriptor at a second place",
    ],
};
const METHOD: Kind = Kind {
    cut: ["file: cut in the method count", "file: cut in a method", "file: cut in a method's attributes"],
    name: ["file: a method's name outside the pool", "file: a method's name at a wrong tag", "file: a method's name at a second place"],
    descriptor: [
        "file: a method's descriptor outside the pool",
        "file: a method's descriptor at a wrong tag",
        "file: a method's descriptor at a second place",
    ],
};

fn members<'a>(cursor: &mut Cursor<'a>, pool: &[Constant<'a>], kind: &Kind) -> Result<Vec<Member<'a>>, Fault> {
    let mut members = Vec::new();
    for _ in 0..cursor.count(kind.cut[0])? {
        let flags = cursor.two(kind.cut[1])?;
        let name = utf8(pool, cursor.two(kind.cut[1])?, kind.name)?;
        let descriptor = utf8(pool, cursor.two(kind.cut[1])?, kind.descriptor)?;
        cursor.attributes(kind.cut[2])?;
        members.push((flags, name, descriptor));
    }
    Ok(members)
}

/// Rows 20 to 22.
pub fn read(bytes: &[u8]) -> Result<File<'_>, Fault> {
    match bytes {
        [0xCA, 0xFE, 0xBA, 0xBE, _, _, 0, 45..=48, ..] => {}
        [0xCA, 0xFE, 0xBA, 0xBE, _, _, _, _, ..] => return Err((20, "file: a wrong version")),
        [_, _, _, _, _, _, _, _, ..] => return Err((20, "file: a wrong magic")),
        _ => return Err((21, "file: fewer than eight bytes")),
    }
    let mut cursor = Cursor(&bytes[8..]);
    let pool = cursor.pool()?;
    let flags = cursor.two("file: cut in the class")?;
    let name = class(&pool, cursor.two("file: cut in the class")?, CLASS, CLASS_NAME)?;
    let parent = match cursor.two("file: cut in the class")? {
        [0, 0] => None,
        index => Some(class(&pool, index, PARENT, PARENT_NAME)?),
    };
    let interfaces = cursor.count("file: cut in the interfaces")?;
    for _ in 0..interfaces {
        cursor.two("file: cut in the interfaces")?;
    }
    let fields = members(&mut cursor, &pool, &FIELD)?;
    let methods = members(&mut cursor, &pool, &METHOD)?;
    cursor.attributes("file: cut in the class's attributes")?;
    if !cursor.0.is_empty() {
        return Err((21, "file: bytes after the last attribute"));
    }
    Ok(File { name, parent, flags, fields, methods })
}

/// What an accepted file leaves in the lists' fronts.
pub struct Laid {
    pub fields: Vec<u32>,
    pub methods: Vec<u32>,
    pub text: Vec<u8>,
}

impl File<'_> {
    /// Rows 4 and 5.
    fn rules(&self) -> Result<(), Fault> {
        let is_bad = |string: &[u8]| !is_string(string);
        let any = |members: &[Member], is_wrong: &dyn Fn(&Member) -> bool| members.iter().any(is_wrong);
        for (bucket, holds) in [
            ("file: a wrong class name", is_bad(self.name)),
            ("file: a wrong parent name", self.parent.is_some_and(is_bad)),
            ("file: a wrong field name", any(&self.fields, &|field| is_bad(field.1))),
            ("file: wrong bytes in a field's descriptor", any(&self.fields, &|field| is_bad(field.2))),
            ("file: a wrong method name", any(&self.methods, &|method| is_bad(method.1))),
            ("file: wrong bytes in a method's descriptor", any(&self.methods, &|method| is_bad(method.2))),
            ("file: wrong method flags", any(&self.methods, &|method| method.0[0] & 0xE2 != 0)),
        ] {
            if holds {
                return Err((4, bucket));
            }
        }
        if any(&self.fields, &|field| !is_field(field.2)) {
            return Err((5, "file: a wrong field descriptor"));
        }
        if any(&self.methods, &|method| !is_method(method.2, u16::from_be_bytes(method.0).into())) {
            return Err((5, "file: a wrong method descriptor"));
        }
        Ok(())
    }

    /// The records and the text, string after string.
    pub fn laid(&self, targets: &[u32]) -> Laid {
        let text = [self.name, self.parent.unwrap_or(b"")].concat();
        let mut laid = Laid { fields: Vec::new(), methods: Vec::new(), text };
        let part = |text: &mut Vec<u8>, list: &mut Vec<u32>, string: &[u8]| {
            list.extend([text.len() as u32, string.len() as u32]);
            text.extend_from_slice(string);
        };
        for &(flags, name, descriptor) in &self.fields {
            part(&mut laid.text, &mut laid.fields, name);
            part(&mut laid.text, &mut laid.fields, descriptor);
            laid.fields.extend([u32::from(u16::from_be_bytes(flags)), 0]);
        }
        for (number, &(flags, name, descriptor)) in self.methods.iter().enumerate() {
            part(&mut laid.text, &mut laid.methods, name);
            part(&mut laid.text, &mut laid.methods, descriptor);
            laid.methods.extend([u32::from(u16::from_be_bytes(flags)), targets.get(number).copied().unwrap_or(0)]);
        }
        laid
    }

    fn answer(&self, laid: &Laid) -> FileAnswer {
        let parent = self.parent.map_or(0, <[u8]>::len);
        let counts = [self.fields.len(), self.methods.len(), laid.text.len()].map(|count| count as u32);
        let flags = u16::from_be_bytes(self.flags).into();
        FileAnswer::accepted([self.name.len() as u32, parent as u32, flags, counts[0], counts[1], counts[2]])
    }
}

/// The six words without lists, or the fault.
pub fn head(bytes: &[u8]) -> Result<FileAnswer, Fault> {
    let file = read(bytes)?;
    file.rules()?;
    let laid = file.laid(&[]);
    for (bucket, count, most) in [
        ("file: more than 512 fields", file.fields.len(), 512),
        ("file: more than 512 methods", file.methods.len(), 512),
        ("file: more than 8,192 text bytes", laid.text.len(), 8192),
    ] {
        if count > most {
            return Err((14, bucket));
        }
    }
    Ok(file.answer(&laid))
}

/// The whole call, or the fault; the lists are written if there is none.
pub fn call(bytes: &[u8], targets: &[u32], fields: &mut [u32], methods: &mut [u32], text: &mut [u32]) -> Result<FileAnswer, Fault> {
    let answer = head(bytes)?;
    let file = read(bytes)?;
    let laid = file.laid(targets);
    for (bucket, refuses) in [
        ("file: the fields' list too short", fields.len() < laid.fields.len()),
        ("file: the methods' list too short", methods.len() < laid.methods.len()),
        ("file: the text list too short", 4 * text.len() < laid.text.len()),
        ("file: too few targets", targets.len() < file.methods.len()),
        ("file: too many targets", targets.len() > file.methods.len()),
    ] {
        if refuses {
            return Err((14, bucket));
        }
    }
    fields[..laid.fields.len()].copy_from_slice(&laid.fields);
    methods[..laid.methods.len()].copy_from_slice(&laid.methods);
    let words = packed(&laid.text);
    text[..words.len()].copy_from_slice(&words);
    Ok(answer)
}
