//! Every refusal has a reason: those of the stored corpus, whose answers the library gives too, and those of generated cases.

use std::collections::BTreeMap;

use harness::compare::{State, perform};
use harness::corpus::replay;
use harness::generate;
use harness::model::parts::{ClassSheet, text_of_class_words};
use harness::model::why::Refused;
use harness::model::{self, Model};
use harness::side::{Answer, FileAnswer, Linker, Sheets, SheetsMut};

/// The model, with the sentence of every refusal by a row above 5 looked at.
#[derive(Default)]
struct Explained(BTreeMap<u32, Vec<String>>);

impl Explained {
    fn look(&mut self, refused: Refused, set: &[u32], class: u32) -> Answer {
        let sentence = refused.sentence(set, class);
        if refused.row > 5 {
            let text = text_of_class_words(set);
            let sheet = ClassSheet::unnumbered(set, &text);
            let name = match class == 0 || class > sheet.class_count() {
                true => format!("class {class}: "),
                false => format!("class {class} {}: ", String::from_utf8_lossy(sheet.name(class))),
            };
            assert!(sentence.starts_with(&name) && sentence.len() > name.len() + 10, "row {}: {sentence}", refused.row);
        }
        self.0.entry(refused.row).or_default().push(sentence);
        Answer::refused(refused.row)
    }
}

impl Linker for Explained {
    fn read_class_sheet(&mut self, bytes: &[u8], words: &mut [u32]) -> Answer {
        Model.read_class_sheet(bytes, words)
    }

    fn read_abi_sheet(&mut self, bytes: &[u8], words: &mut [u32]) -> Answer {
        Model.read_abi_sheet(bytes, words)
    }

    fn write_class_sheet(&mut self, set: &[u32], bytes: &mut [u8]) -> Answer {
        Model.write_class_sheet(set, bytes)
    }

    fn widen_class_sheet(&mut self, bytes: &[u8], out: &mut [u8]) -> Answer {
        Model.widen_class_sheet(bytes, out)
    }

    fn narrow_class_sheet(&mut self, bytes: &[u8], out: &mut [u8]) -> Answer {
        Model.narrow_class_sheet(bytes, out)
    }

    fn read_unordered_sheet(&mut self, bytes: &[u8], words: &mut [u32]) -> Answer {
        Model.read_unordered_sheet(bytes, words)
    }

    fn renumber_classes(&mut self, set: &mut [u32], order: &mut [u32]) -> Answer {
        Model.renumber_classes(set, order)
    }

    fn number_signatures(&mut self, set: &[u32], abi: &[u32], numbers: &mut [u32]) -> Answer {
        match model::number_signatures(set, abi, numbers) {
            Ok(()) => Answer::accepted(0, 0),
            Err(refused) => self.look(refused, set, 0),
        }
    }

    fn link(&mut self, sheets: SheetsMut, class: u32, area: &mut [u32], stubs: &[u32], missing: &mut [u32]) -> Answer {
        let before = sheets.set.to_vec();
        match model::link(sheets, class, area, stubs, missing) {
            Ok((place, slots)) => Answer::accepted(place, slots),
            Err(refused) => self.look(refused, &before, class),
        }
    }

    fn missing_slots(&mut self, set: &[u32], abi: &[u32], missing: &[u32], class: u32) -> Answer {
        match model::missing_slots(set, abi, missing, class) {
            Ok(count) => Answer::accepted(count, 0),
            Err(refused) => self.look(refused, set, class),
        }
    }

    fn ask(&mut self, sheets: Sheets, class: u32, interface: u32, area: &mut [u32], stubs: &[u32]) -> Answer {
        match model::ask(sheets, class, interface, area, stubs) {
            Ok((place, nodes)) => Answer::accepted(place, nodes),
            Err(refused) => self.look(refused, sheets.set, class),
        }
    }

    fn argument_words(&mut self, descriptor: &[u8], flags: u32) -> Answer {
        Model.argument_words(descriptor, flags)
    }

    fn reference_words(&mut self, bitmap: &[u8], words: u32, list: &mut [u32]) -> Answer {
        Model.reference_words(bitmap, words, list)
    }

    fn reference_count(&mut self, bitmap: &[u8], words: u32) -> Answer {
        Model.reference_count(bitmap, words)
    }

    fn compare_names(&mut self, a: &[u8], b: &[u8]) -> Answer {
        Model.compare_names(a, b)
    }

    fn read_class_file(&mut self, bytes: &[u8], targets: &[u32], fields: &mut [u32], methods: &mut [u32], text: &mut [u32]) -> FileAnswer {
        Model.read_class_file(bytes, targets, fields, methods, text)
    }

    fn class_file_head(&mut self, bytes: &[u8]) -> FileAnswer {
        Model.class_file_head(bytes)
    }
}

/// `replay` holds each row to the stored one.
#[test]
fn of_the_corpus() {
    let mut explained = Explained::default();
    for file in ["rust.bin", "packages.bin"] {
        let path = concat!(env!("CARGO_MANIFEST_DIR"), "/../../crates/corpus/data/").to_owned() + file;
        let bytes = std::fs::read(path).expect("the corpus is stored");
        let words: Vec<u32> = bytes.chunks_exact(4).map(|word| u32::from_le_bytes(word.try_into().unwrap())).collect();
        replay(&words, &mut explained).expect("the model answers as stored");
    }
    let rows: Vec<u32> = explained.0.keys().copied().collect();
    assert_eq!(rows, (3..=16).chain([26]).collect::<Vec<u32>>(), "rows 1 and 2 are a reading's alone");
}

/// Every kind of reason, by a word of its sentence.
#[test]
fn of_generated_cases() {
    let mut explained = Explained::default();
    for case in (0..3000).flat_map(|number| [generate::case(5, number), generate::packages(5, number)]) {
        let mut state = State::of(&case);
        for &call in &case.calls {
            perform(&mut explained, &case, call, &mut state);
        }
    }
    for (row, words) in [
        (3, &["the list of numbers takes 1024 words"][..]),
        (
            6,
            &[
                "the set has no class",
                "linked already",
                "its parent class",
                "has no members",
                "and this one has",
                "both classes linked",
                "counted by its link",
            ][..],
        ),
        (7, &["the next free place, is", "ends at", "more than 64 nodes", "leads to place"]),
        (26, &["has an ABI entry", "is an interface", "is of kind ", "it is not of kind 3"]),
        (8, &["its instance fields take"]),
        (9, &["not all relative"]),
        (10, &["instance words", "runtime words"]),
        (11, &["it is inherited at slot"]),
        (12, &["holds `"]),
        (13, &["slots, above 1024"]),
        (14, &["the most are 512"]),
        (15, &["stub word", "free", "the set takes", "the list of missing slots takes"]),
        (16, &["neither it nor an ancestor implements `"]),
    ] {
        for word in words {
            assert!(explained.0[&row].iter().any(|sentence| sentence.contains(word)), "row {row}: no sentence has {word:?}");
        }
    }
}
