//! Class sheets of 17-word class records made ones of 18 words, and back: the round trips, static words, the refusals 23 and 18.

use std::fs;

use lgt_linker::layout::flags::STATIC;
use lgt_linker::layout::{BLOCK_BYTES, BLOCK_WORDS};
use lgt_linker::*;

const OLD: &[u8] = include_bytes!("../../../examples/card/old.bin");
const NEW: &[u8] = include_bytes!("../../../examples/card/classes.bin");

/// One class with a static I, a static J and an instance J.
fn one(kind: Kind, words: u32) -> Vec<u8> {
    let class = ClassBuilder::new("A").kind(kind).static_words(words);
    let class = class.field_with("i", "I", STATIC, 0).field_with("j", "J", STATIC, 1).field("k", "J");
    SetBuilder::new().class(class).sheet().unwrap()
}

/// Classes with names of one byte, and nothing else.
fn crowd(classes: u8) -> Vec<u8> {
    let class = |set: SetBuilder, number| set.class(ClassBuilder::new(&char::from(b'A' + number).to_string()));
    (0..classes).fold(SetBuilder::new(), class).sheet().unwrap()
}

/// A block of these words with its check.
fn block(words: &[u32]) -> Vec<u8> {
    let check = words.iter().fold(1, |sum: u32, word| sum.wrapping_add(*word));
    let zeros = vec![0; BLOCK_WORDS - words.len()];
    words.iter().chain(&zeros).chain([&check]).flat_map(|word| word.to_le_bytes()).collect()
}

#[test]
fn the_card_sheet_goes_both_ways() {
    assert_eq!(widen(OLD).unwrap(), NEW);
    assert_eq!(narrow(NEW).unwrap(), OLD);
    assert_eq!(widen(NEW), Err(Refusal::SheetCounts));
    assert_eq!(narrow(OLD), Err(Refusal::SheetCounts));
}

/// Back is handed the blocks that forward answered, not the bytes that follow them: with those it refuses by 1, 2 or 3.
#[test]
fn bytes_behind_the_blocks_are_no_part_of_a_sheet() {
    let sheet = narrow(&crowd(1)).unwrap();
    for (fill, behind, row) in [(7, 1, 1), (7, BLOCK_BYTES, 2), (0, BLOCK_BYTES, 2)] {
        let mut bytes = vec![fill; BLOCK_BYTES + behind];
        assert_eq!(widen_class_sheet(&sheet, &mut bytes), Ok(1));
        assert_eq!(narrow(&bytes).map_err(Refusal::number), Err(row));
        assert_eq!(narrow(&bytes[..BLOCK_BYTES]).unwrap(), sheet);
    }
    let mut blocks = widen(&sheet).unwrap();
    blocks.extend([vec![0; BLOCK_BYTES - 4], 2u32.to_le_bytes().to_vec()].concat());
    assert_eq!(narrow(&blocks).map_err(Refusal::number), Err(3));
}

#[test]
fn every_class_sheet_of_the_examples_comes_back() {
    let folders = fs::read_dir("../../examples").unwrap().map(|folder| folder.unwrap().path().join("classes.bin"));
    let sheets: Vec<Vec<u8>> = folders.filter_map(|sheet| fs::read(sheet).ok()).filter(|sheet| ClassSet::read(sheet).is_ok()).collect();
    assert!(sheets.len() > 5);
    for sheet in sheets {
        match narrow(&sheet) {
            Ok(old) => assert_eq!(widen(&old).unwrap(), sheet),
            Err(refusal) => assert_eq!(refusal, Refusal::LostStatics),
        }
    }
}

#[test]
fn a_generated_class_gets_the_sum_of_its_static_field_widths() {
    for (kind, sum) in [(Kind::Generated, 3), (Kind::Built, 0), (Kind::Array, 0)] {
        let new = widen(&narrow(&one(kind, sum)).unwrap()).unwrap();
        assert_eq!(ClassSet::read(&new).unwrap().class(1).unwrap().static_words(), sum);
    }
}

#[test]
fn other_static_words_are_not_dropped() {
    for words in [0, 2, 4, u32::MAX] {
        assert_eq!(narrow(&one(Kind::Generated, words)), Err(Refusal::LostStatics));
        assert_eq!(narrow_class_sheet(&one(Kind::Generated, words), &mut []), Err(Refusal::LostStatics)); // 23, then 18
    }
    assert_eq!(narrow(&one(Kind::Built, 3)), Err(Refusal::SheetCounts));
}

#[test]
fn the_blocks_of_the_output_count() {
    let new = crowd(7); // 134 words, and 127 in the old form
    let old = narrow(&new).unwrap();
    assert_eq!((old.len(), new.len()), (BLOCK_BYTES, 2 * BLOCK_BYTES));
    for (room, answer) in [(1023, Err(Refusal::SheetRoom)), (1024, Ok(2)), (1025, Ok(2))] {
        let mut bytes = vec![7; room];
        assert_eq!(widen_class_sheet(&old, &mut bytes), answer);
        let same = if answer.is_ok() { [&new[..], &vec![7; room - 1024]].concat() } else { vec![7; room] };
        assert_eq!(bytes, same);
    }
}

#[test]
fn the_form_cannot_be_seen() {
    let record = [4, 4, 0, 1, 0, 0, 0, 0, 0, 0, 0, 0, 0, 0, 0, 0, 0];
    let once = block(&[&[1, 0, 0, 0, 0, 12], &record[..], &[0x4141_4141, 0x4242_4242, 0]].concat());
    let names = [widen(&once).unwrap(), widen(&widen(&once).unwrap()).unwrap()].map(|sheet| {
        let set = ClassSet::read(&sheet).unwrap();
        set.class(1).unwrap().name().to_string()
    });
    assert_eq!(names, ["BBBB", "AAAA"]);
}

#[test]
fn classes_in_any_order_are_refused() {
    let unordered = fs::read("../../examples/alphabetical/unordered.bin").unwrap();
    assert_eq!(narrow(&unordered), Err(Refusal::Record));
}
