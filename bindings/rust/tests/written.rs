//! Sets written back as sheets: corrected names, the bytes that stay, the refusals 17 and 18.

use std::fs;

use lgt_linker::layout::{BLOCK_BYTES, BLOCK_WORDS, class, set};
use lgt_linker::*;

const CARD: &[u8] = include_bytes!("../../../examples/card/classes.bin");

/// The Card set's words, in as much memory as any set takes.
fn card() -> Vec<u32> {
    ClassSet::read(CARD).unwrap().words().to_vec()
}

/// Stores bytes of the text, which counts from its own first byte.
fn put(words: &mut [u32], at: usize, bytes: &[u8]) {
    let text = set::text(words);
    for (&byte, at) in bytes.iter().zip(at..) {
        let (word, low) = (text + at / 4, 8 * (at % 4));
        words[word] = words[word] & !(0xFF << low) | u32::from(byte) << low;
    }
}

/// The names of the classes in the sheet that the words are written to.
fn stored(words: &[u32]) -> Vec<String> {
    let sheet = ClassSet::from_words(words).unwrap().write().unwrap();
    let read = ClassSet::read(&sheet).unwrap();
    assert_eq!(read.words(), words); // all content words, and zeros behind them
    assert_eq!(read.write().unwrap(), sheet);
    read.classes().map(|class| class.name().to_string()).collect()
}

#[test]
fn a_name_of_the_same_length_is_corrected_in_its_place() {
    let mut words = card();
    let start = words[class::record(2) + class::NAME_START] as usize;
    put(&mut words, start, b"VIPCard");
    assert_eq!(stored(&words), ["Card", "VIPCard"]);
}

#[test]
fn a_name_of_another_length_goes_to_the_end_of_the_text() {
    for name in ["A", "Gold", "GoldCard", "java/lang/CardOfTheHouse", &"n".repeat(255)] {
        let mut words = card();
        let end = words[set::TEXT];
        put(&mut words, end as usize, name.as_bytes());
        words[set::TEXT] += name.len() as u32;
        words[class::record(2) + class::NAME_START] = end;
        words[class::record(2) + class::NAME_LENGTH] = name.len() as u32;
        assert_eq!(stored(&words), ["Card", name]);
    }
}

#[test]
fn a_wrong_correction_is_refused_as_by_a_link() {
    let mut words = card();
    put(&mut words, 0, b"Ca d"); // a blank
    assert_eq!(write_class_sheet(&words, &mut [0; CLASS_BYTES]), Err(Refusal::Record));
    let mut words = card();
    words[set::CLASSES] = 65;
    assert_eq!(write_class_sheet(&words, &mut [0; CLASS_BYTES]), Err(Refusal::SheetCounts));
    assert_eq!(write_class_sheet(&card()[..5], &mut []), Err(Refusal::SheetCounts));
    let set = SetBuilder::new().class(ClassBuilder::new("Card").method("open", "()V", 4096));
    let mut words = set.build().unwrap().words().to_vec();
    put(&mut words, "Cardopen(".len(), b"("); // `((V`
    assert_eq!(write_class_sheet(&words, &mut []), Err(Refusal::Descriptor));
}

#[test]
fn every_example_is_written_as_it_was_read() {
    let mut count = 0;
    for folder in fs::read_dir("../../examples").unwrap().map(|entry| entry.unwrap().path()) {
        let Ok(bytes) = fs::read(folder.join("classes.bin")) else { continue };
        let Ok(set) = ClassSet::read(&bytes) else { continue };
        assert_eq!(set.write().unwrap(), bytes, "{}", folder.display());
        count += 1;
    }
    assert!(count >= 7);
}

#[test]
fn only_the_blocks_that_the_content_takes_are_touched() {
    // 127 words of content are one block, 128 two: the counts, a class, 13 fields, and 100 bytes of text or one more.
    for (text, blocks) in [(100, 1), (101, 2)] {
        let mut words = vec![0; CLASS_WORDS];
        words[set::CLASSES] = 1;
        words[set::FIELDS] = 13;
        words[set::TEXT] = text;
        let fields = class::record(2);
        words[class::record(1) + class::NAME_LENGTH] = 1;
        words[class::record(1) + class::FIELD_COUNT] = 13;
        for field in 0..13 {
            words[fields + 6 * field..][..4].copy_from_slice(&[field as u32, 1, 13, 1]);
        }
        put(&mut words, 0, b"abcdefghijklmI");
        words[class::record(1) + class::NAME_START] = 13;
        let content = set::text(&words) + (text as usize).div_ceil(4);
        assert_eq!(content.div_ceil(BLOCK_WORDS), blocks);
        words[content..].fill(5); // is not looked at
        for room in [blocks * BLOCK_BYTES, blocks * BLOCK_BYTES + 1, CLASS_BYTES] {
            let mut bytes = vec![7; room];
            assert_eq!(write_class_sheet(&words, &mut bytes), Ok(blocks as u32));
            assert!(bytes[blocks * BLOCK_BYTES..].iter().all(|&byte| byte == 7));
            let mut read = vec![0; blocks * BLOCK_WORDS];
            assert_eq!(read_class_sheet(&bytes[..blocks * BLOCK_BYTES], &mut read), Ok((blocks * BLOCK_WORDS) as u32));
            assert_eq!(read[..content], words[..content]);
        }
        let mut bytes = vec![7; blocks * BLOCK_BYTES - 1];
        assert_eq!(write_class_sheet(&words, &mut bytes), Err(Refusal::SheetRoom));
        assert!(bytes.iter().all(|&byte| byte == 7));
    }
}

#[test]
fn what_is_linked_or_unclean_is_refused_before_the_room() {
    for (word, value) in [(class::TABLE_PLACE, 1), (class::SLOT_COUNT, 1), (class::STATIC_WORDS, u32::MAX)] {
        let mut words = card();
        words[class::record(2) + word] = value;
        assert_eq!(write_class_sheet(&words, &mut []), Err(Refusal::NotStorable));
    }
    let end = card()[set::TEXT] as usize;
    assert_eq!(end % 4, 3);
    let mut words = card();
    put(&mut words, end, &[1]);
    assert_eq!(ClassSet::from_words(&words).unwrap().write(), Err(Refusal::NotStorable));
    // The next word is behind the content.
    let mut words = card();
    put(&mut words, end + 1, &[1]);
    assert_eq!(ClassSet::from_words(&words).unwrap().write().unwrap(), CARD);
}

#[test]
fn after_links_that_are_refused_a_set_can_still_be_written() {
    let (mut set, abi, mut area) = (ClassSet::read(CARD).unwrap(), AbiBuilder::new().build().unwrap(), Area::fresh(4096));
    assert_eq!(set.link(&abi, 2, &mut area, &[]), Err(Refusal::Class));
    assert_eq!(set.write().unwrap(), CARD);
    set.link(&abi, 1, &mut area, &[7; 8]).unwrap();
    assert_eq!(set.write(), Err(Refusal::NotStorable));
}
