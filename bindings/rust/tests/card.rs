//! The desk's Card set and refusals, through the safe functions.

use lgt_linker::*;

const ABI: &[u8] = include_bytes!("../../../examples/card/abi.bin");
const CLASSES: &[u8] = include_bytes!("../../../examples/card/classes.bin");

fn card() -> (ClassSet, AbiSheet, Area) {
    (ClassSet::read(CLASSES).unwrap(), AbiSheet::read(ABI).unwrap(), Area::fresh(4096))
}

#[test]
fn links_all_in_order() {
    let (mut set, abi, mut area) = card();
    let answers = set.link_all(&abi, &mut area, &[7; 1024]);
    assert_eq!(answers, [Ok(Linked { place: 1, slots: 2 }), Ok(Linked { place: 5, slots: 3 })]);
    assert_eq!(area.slots(set.linked(2).unwrap()), [4096, 8192, 8208]);
    assert_eq!(area.words()[0], 10);
}

#[test]
fn a_child_before_its_parent_is_refused_and_changes_nothing() {
    let (mut set, abi, mut area) = card();
    let (before, lent) = (set.clone(), area.clone());
    assert_eq!(set.link(&abi, 2, &mut area, &[7; 1024]), Err(Refusal::Class));
    assert!(set == before && area == lent);
}

#[test]
fn asks_find_or_build() {
    let (mut set, abi, mut area) = card();
    set.link_all(&abi, &mut area, &[7; 1024]);
    let built = set.interface_dispatch_table(&abi, 2, 1, &mut area, &[7; 1024]).unwrap();
    assert_eq!(built, Asked { place: 11, nodes: 0 });
    assert_eq!(area.words()[11..14], [1, 4096, 8192]);
    let found = set.interface_dispatch_table(&abi, 2, 1, &mut area, &[]).unwrap();
    assert_eq!(found, Asked { place: 11, nodes: 1 });
}

#[test]
fn a_damaged_sheet_is_refused() {
    let mut bytes = CLASSES.to_vec();
    bytes[8] ^= 1;
    assert_eq!(ClassSet::read(&bytes).err(), Some(Refusal::BlockCheck));
    assert_eq!(AbiSheet::read(&ABI[..511]).err(), Some(Refusal::SheetSize));
}

#[test]
fn no_slice_is_too_small() {
    assert_eq!(number_signatures(&[], &[], &mut []), Err(Refusal::SheetCounts));
    assert_eq!(link(&mut [], &[], &mut [], 0, &mut [], &[], &mut []), Err(Refusal::SheetCounts));
    assert_eq!(missing_slots(&[], &[], &[], 0), Err(Refusal::SheetCounts));
    assert_eq!(missing_slots(&[0; 6], &[0; 4], &[], 1), Err(Refusal::Class));
    assert_eq!(interface_dispatch_table(&[0; 6], &[0; 4], &[0; NUMBERS], 1, 1, &mut [], &[]), Err(Refusal::Class));
    assert_eq!(interface_dispatch_table(&[0; 6], &[0; 4], &[0; NUMBERS - 1], 1, 1, &mut [], &[]), Err(Refusal::SheetCounts));
    assert_eq!(argument_words(b"", 0), Err(Refusal::Descriptor));
}

#[test]
fn words_come_back_linked_or_not() {
    let (mut set, abi, mut area) = card();
    set.link(&abi, 1, &mut area, &[7; 1024]).unwrap();
    let mut again = ClassSet::from_words(set.words()).unwrap();
    assert_eq!(again, set);
    // As many words as the content takes are enough.
    let content = 6 + 2 * layout::class::WIDTH + 4 * 6 + "CardopenVipCard()Vclosemark".len().div_ceil(4);
    assert_eq!(ClassSet::from_words(&set.words()[..content]).unwrap(), set);
    assert_eq!(ClassSet::from_words(&set.words()[..content - 1]), Err(Refusal::SheetCounts));
    let mut longer = set.words().to_vec();
    longer.resize(CLASS_WORDS + 100, 5);
    assert_eq!(ClassSet::from_words(&longer).unwrap().words(), &longer[..CLASS_WORDS]);
    assert_eq!(again.link(&abi, 2, &mut area, &[7; 1024]), Ok(Linked { place: 5, slots: 3 }));
    // A set that breaks a rule is refused as a link would.
    let mut wrong = set.words().to_vec();
    wrong[layout::class::record(2) + layout::class::PARENT] = 2;
    assert_eq!(ClassSet::from_words(&wrong), Err(Refusal::Record));
    assert_eq!(AbiSheet::from_words(&[1, 0, 0, 0]), Err(Refusal::SheetCounts));
    assert_eq!(AbiSheet::from_words(&[0; 4]).unwrap(), abi);
}

#[test]
fn another_area_gives_no_slots() {
    let (mut set, abi, mut area) = card();
    set.link_all(&abi, &mut area, &[7; 1024]);
    assert_eq!(set.slots(&abi, &Area::fresh(3), 2), []);
    assert_eq!(set.slots(&abi, &area, 3), []);
    assert_eq!(set.interface_slots(&abi, &area, 1, Asked { place: u32::MAX, nodes: 0 }), []);
}
