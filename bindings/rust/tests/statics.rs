//! Static words: what a link counts, what a generated class brings, the refusals 3 and 17.

use lgt_linker::layout::flags::{INTERFACE, STATIC};
use lgt_linker::layout::{BLOCK_WORDS, class, set};
use lgt_linker::*;

const KINDS: [Kind; 5] = [Kind::Built, Kind::Generated, Kind::Array, Kind::Packaged, Kind::Unknown(4)];

fn abi() -> AbiSheet {
    AbiBuilder::new().build().unwrap()
}

/// One class of a kind with static words, whatever rows say of it.
fn one(kind: Kind, words: u32) -> Vec<u8> {
    SetBuilder::new().class(ClassBuilder::new("A").kind(kind).static_words(words)).sheet().unwrap()
}

/// The words of a sheet's blocks.
fn content(sheet: &[u8]) -> Vec<u32> {
    let words = sheet.chunks_exact(4).map(|bytes| u32::from_le_bytes(bytes.try_into().unwrap()));
    words.enumerate().filter(|(place, _)| place % 128 != BLOCK_WORDS).map(|(_, word)| word).collect()
}

#[test]
fn a_link_counts_a_built_class_and_an_array_class_has_none() {
    let field = |class: ClassBuilder, descriptor: &str| class.field_with("s", descriptor, STATIC, 9);
    let own = ["I", "J", "D", "[J"].into_iter().fold(ClassBuilder::new("java/lang/Object").field("i", "J"), field);
    let made = ClassBuilder::new("Made").kind(Kind::Generated).static_words(4_000_000_000).field_with("s", "J", STATIC, 0);
    let mut linked = SetBuilder::new()
        .class(own)
        .class(ClassBuilder::new("Child").extends("java/lang/Object"))
        .class(field(ClassBuilder::new("Flag").flags(INTERFACE), "I"))
        .class(ClassBuilder::new("[I").kind(Kind::Array).extends("java/lang/Object"))
        .class(made)
        .build()
        .unwrap();
    assert!(linked.link_all(&abi(), &mut Area::fresh(64), &[]).iter().all(Result::is_ok));
    assert_eq!(linked.classes().map(Class::static_words).collect::<Vec<_>>(), [6, 0, 1, 0, 4_000_000_000]);
    assert_eq!((1..=6).map(|class| linked.static_words(class)).collect::<Vec<_>>()[4..], [Some(4_000_000_000), None]);
    let ends = linked.class(1).unwrap().fields().filter(Field::is_static).map(|field| field.word_index + field.width());
    assert_eq!(ends.collect::<Vec<_>>(), [1, 3, 5, 6]);
}

#[test]
fn a_link_overwrites_what_it_is_lent_of_its_own_class_alone() {
    let two = SetBuilder::new().class(ClassBuilder::new("A")).class(ClassBuilder::new("B")).build().unwrap();
    let mut words = two.words().to_vec();
    let at = [1, 2].map(|number| class::record(number) + class::STATIC_WORDS);
    (words[at[0]], words[at[1]]) = (7, 9);
    assert_eq!(link(&mut words, &[0; 4], &mut [0; NUMBERS], 1, &mut [1, 0, 0], &[], &mut [0; 66]), Ok(Linked { place: 1, slots: 0 }));
    assert_eq!(at.map(|at| words[at]), [0, 9]);
}

#[test]
fn only_a_generated_class_brings_any() {
    for words in [1, u32::MAX] {
        let read = KINDS.map(|kind| ClassSet::read(&one(kind, words)).err());
        assert_eq!(read, [Some(Refusal::SheetCounts), None, Some(Refusal::SheetCounts), Some(Refusal::SheetCounts), Some(Refusal::Record)]);
        let written = KINDS.map(|kind| write_class_sheet(&content(&one(kind, words)), &mut [0; CLASS_BYTES]).err());
        assert_eq!(
            written,
            [Some(Refusal::NotStorable), None, Some(Refusal::NotStorable), Some(Refusal::NotStorable), Some(Refusal::Record)]
        );
        // A renumbering asks nothing of another kind.
        let renumbered = KINDS.map(|kind| renumber_classes(&mut content(&one(kind, words)), &mut [0]).err());
        assert_eq!(renumbered, [Some(Refusal::SheetCounts), None, Some(Refusal::SheetCounts), Some(Refusal::SheetCounts), None]);
    }
}

/// Sheets of 17-word records are another form, and no byte tells it: this one is good in both and names another class in each.
#[test]
fn the_old_form_is_not_told() {
    let mut words = vec![0; BLOCK_WORDS];
    words[..11].copy_from_slice(&[1, 0, 0, 0, 0, 8, 0, 4, 0, 1, Kind::Generated.number()]);
    words[set::COUNTS + 17..][..2].copy_from_slice(&[0x4141_4141, 0x4242_4242]); // the old form's text, its class AAAA
    let check = words.iter().fold(1u32, |sum, word| sum.wrapping_add(*word));
    let sheet: Vec<u8> = words.iter().chain([&check]).flat_map(|word| word.to_le_bytes()).collect();
    let read = ClassSet::read(&sheet).unwrap();
    assert_eq!((read.class(1).unwrap().name(), read.static_words(1)), ("BBBB", Some(0x4141_4141)));
}
