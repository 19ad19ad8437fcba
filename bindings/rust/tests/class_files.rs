//! Class files: the stored cases with their answers, the files of a compiler by what javap prints, and a set made
//! from class files.

mod stored;

use std::fs;

use lgt_linker::{ClassFile, FileHead, Refusal, SetBuilder, class_file_head, read_class_file};
use stored::{cases, compiled, printed, top};

fn targets(bytes: &[u8], first: u32) -> Vec<u32> {
    (0..class_file_head(bytes).map_or(0, |head| head.methods)).map(|number| first + 16 * number).collect()
}

fn answer(answer: Result<FileHead, Refusal>) -> stored::Answer {
    let words = |head: FileHead| [head.name_length, head.parent_length, head.flags, head.fields, head.methods, head.text_bytes];
    answer.map(words).map_err(Refusal::number)
}

#[test]
fn stored_cases() {
    for (mut case, line) in cases() {
        let [fields, methods, text] = &mut case.lists;
        let read = answer(read_class_file(&case.file, &case.targets, fields, methods, text));
        assert_eq!(case.line(read, answer(class_file_head(&case.file))), line);
    }
}

#[test]
fn files_of_a_compiler() {
    let mut refused = Vec::new();
    let mut read = 0;
    for compiled in compiled() {
        match ClassFile::read(&compiled.bytes, &targets(&compiled.bytes, 0x1000)) {
            Ok(file) => {
                let fields = file.fields.iter().map(|field| ("field", &field.name[..], &field.descriptor[..], field.flags));
                let methods = file.methods.iter().map(|method| ("method", &method.name[..], &method.descriptor[..], method.flags));
                let lines = printed(&file.name, file.parent.as_deref(), file.flags, fields.chain(methods));
                assert_eq!(lines, compiled.lines, "{}", compiled.path.display());
                assert!(file.methods.iter().zip(0..).all(|(method, number)| method.target == 0x1000 + 16 * number));
                read += 1;
            }
            Err(refusal) => refused.push(refusal.number()),
        }
    }
    refused.sort_unstable();
    assert_eq!((read, refused), (16, vec![4, 14]));
}

/// The sheet of `examples/supplied`, which `tools/sheet make` made of what `./members` prints.
#[test]
fn a_set_from_class_files() {
    let folder = top().join("examples/supplied");
    let mut set = SetBuilder::new();
    for (name, first) in [("Object", 0x1000), ("Card", 0x2000), ("VipCard", 0x3000)] {
        let bytes = fs::read(folder.join(name).with_extension("class")).unwrap();
        let file = ClassFile::read(&bytes, &targets(&bytes, first)).unwrap();
        assert_eq!(ClassFile::read(&bytes, &[]), Err(Refusal::SectionFull));
        set = set.class(file.builder());
    }
    assert_eq!(set.sheet().unwrap(), fs::read(folder.join("classes.bin")).unwrap());
}
