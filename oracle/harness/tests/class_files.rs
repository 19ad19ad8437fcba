//! Class files: the stored vectors and their answers, which Python made, on the harness's reading and on the model;
//! what the model says of a refusal; the files that a compiler made, by what javap prints.

#[path = "../../../bindings/rust/tests/stored/mod.rs"]
mod stored;

use harness::model::Model;
use harness::model::class_file::{ClassFile, class_file};
use harness::model::why::shown;
use harness::oracle::Oracle;
use harness::side::{FileAnswer, Linker};
use stored::{cases, compiled, printed};

fn answer(answer: FileAnswer) -> stored::Answer {
    if answer.refusal == 0 {
        return Ok(answer.words);
    }
    assert_eq!(answer.words, [0; 6]);
    Err(answer.refusal)
}

#[test]
fn stored_vectors() {
    for side in [&mut Oracle::default() as &mut dyn Linker, &mut Model] {
        for (mut case, line) in cases() {
            let [fields, methods, text] = &mut case.lists;
            let read = answer(side.read_class_file(&case.file, &case.targets, fields, methods, text));
            assert_eq!(case.line(read, answer(side.class_file_head(&case.file))), line);
        }
    }
    assert!(cases().len() > 1_000);
}

fn lines(file: &ClassFile) -> String {
    let kinds = [("field", &file.fields), ("method", &file.methods)];
    let members = kinds.into_iter().flat_map(|(kind, members)| members.iter().map(move |member| (kind, member)));
    let members: Vec<_> =
        members.map(|(kind, member)| (kind, shown(member.name), shown(member.descriptor), u32::from(member.flags))).collect();
    let members = members.iter().map(|(kind, name, descriptor, flags)| (*kind, &name[..], &descriptor[..], *flags));
    printed(&shown(file.name), file.parent.map(shown).as_deref(), file.flags.into(), members)
}

#[test]
fn files_of_a_compiler() {
    let (mut read, mut refused) = (0, Vec::new());
    for compiled in compiled() {
        match class_file(&compiled.bytes) {
            Ok(file) => {
                assert_eq!(lines(&file), compiled.lines, "{}", compiled.path.display());
                read += 1;
            }
            Err(why) => refused.push((why.row, why.why.to_string())),
        }
    }
    refused.sort();
    let told: Vec<(u32, &str)> = refused.iter().map(|(row, why)| (*row, why.as_str())).collect();
    let of_a_name = (4, "the name of field 0 has the byte 0xEB, outside 0x21 to 0x7E");
    assert_eq!(told, [of_a_name, (14, "the class has 513 fields, and a sheet holds 512")]);
    assert_eq!(read, 16);
}

/// `A` of the specification: class A, no parent, no members.
const A: [u8; 31] = *b"\xCA\xFE\xBA\xBE\0\0\0\x30\0\x03\x07\0\x02\x01\0\x01A\0\x21\0\x01\0\0\0\0\0\0\0\0\0\0";

#[test]
fn reasons() {
    assert!(class_file(&A).is_ok());
    let with = |place: usize, byte: u8| {
        let mut bytes = A.to_vec();
        bytes[place] = byte;
        class_file(&bytes).expect_err("it is refused").why.to_string()
    };
    for (place, byte, why) in [
        (0, 0xCB, "the file begins with 0xCBFEBABE, and a class file with 0xCAFEBABE"),
        (7, 49, "the major version is 49, and 45 to 48 are read"),
        (9, 4, "constant 3 at byte 17 has the tag 0, which these versions do not have"),
        (13, 5, "constant 2 at byte 13 takes two places of the pool, and stands at the last"),
        (12, 3, "the class's name is constant 3, and the pool's count is 3"),
        (12, 1, "the class's name is constant 1, whose tag is 7 and not 1"),
        (20, 2, "the class is constant 2, whose tag is 1 and not 7"),
        (22, 2, "the parent is constant 2, whose tag is 1 and not 7"),
        (16, 0x20, "the class's name has the byte 0x20, outside 0x21 to 0x7E"),
        (30, 1, "an attribute of the class at byte 31 takes 2 bytes, and the file has 0 more"),
        (29, 0xFF, "an attribute of the class at byte 31 takes 2 bytes, and the file has 0 more"),
    ] {
        assert_eq!(with(place, byte), why);
    }
    let after = class_file(&[&A[..], b"more"].concat()).expect_err("it is refused").why.to_string();
    assert_eq!(after, "the class ends at byte 31, and 4 bytes follow");
}
