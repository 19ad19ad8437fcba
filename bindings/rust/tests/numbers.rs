//! The list of numbers: what a filling leaves of the list, and its refusals; what links leave in it; and that a set which owns its list links
//! as lent slices do.

use std::{fs, path::Path};

use lgt_linker::*;

/// What a filling leaves of a list of sevens.
fn filled(set: &[u32], abi: &[u32], words: usize) -> Result<Vec<u32>, Refusal> {
    let mut numbers = vec![7; words];
    let answer = number_signatures(set, abi, &mut numbers);
    if answer.is_err() {
        assert_eq!(numbers, vec![7; words], "a refused filling leaves the list");
    }
    answer.map(|()| numbers)
}

fn words_of(class: ClassBuilder) -> Vec<u32> {
    SetBuilder::new().class(class).build().unwrap().words().to_vec()
}

fn abi_words(class: AbiClassBuilder) -> Vec<u32> {
    AbiBuilder::new().class(class).build().unwrap().words().to_vec()
}

/// The counts of an ABI sheet that has nothing.
const NO_ABI: [u32; 4] = [0; 4];

#[test]
fn the_first_place_of_each_signature() {
    let set = words_of(ClassBuilder::new("P").method("a", "()V", 5).method("b", "()V", 6).method("a", "()V", 7));
    let abi = abi_words(AbiClassBuilder::new("Q").slot("b", "()V", 0).slot("c", "()V", 1));
    let numbers = filled(&set, &abi, 1026).unwrap();
    assert_eq!(numbers[..3], [0, 1, 0]);
    assert_eq!(numbers[3..512], [0; 509]);
    assert_eq!(numbers[512..514], [1, 513]);
    assert_eq!(numbers[514..1024], [0; 510]);
    assert_eq!(numbers[1024..], [7, 7]); // what is behind the 1,024 words stays
}

#[test]
fn each_part_for_itself() {
    let set = words_of(ClassBuilder::new("P").method("f", "()La(B)Lb;", 5).method("f()La", "(B)Lb;", 6));
    assert_eq!(filled(&set, &NO_ABI, NUMBERS).unwrap()[..2], [0, 1]); // the same bytes in a row
}

#[test]
fn nothing_and_slots_alone() {
    let set = words_of(ClassBuilder::new("P"));
    assert_eq!(filled(&set, &NO_ABI, NUMBERS).unwrap(), [0; NUMBERS]);
    let slots = (0..512).fold(AbiClassBuilder::new("Q"), |class, slot| class.slot(&format!("m{slot}"), "()V", slot));
    let numbers = filled(&set, &abi_words(slots), NUMBERS).unwrap();
    assert_eq!(numbers[..512], [0; 512]);
    assert_eq!(numbers[512..], (512..1024).collect::<Vec<u32>>());
}

#[test]
fn refusals() {
    let set = words_of(ClassBuilder::new("P").method("a", "()V", 5));
    let spoiled = |word: usize, value: u32| {
        let mut words = set.clone();
        words[word] = value;
        words
    };
    let record = layout::set::COUNTS + layout::class::WIDTH;
    let nameless = spoiled(record + layout::member::NAME_LENGTH, 0);
    let cut = spoiled(record + layout::member::DESCRIPTOR_LENGTH, 2); // `()`
    assert_eq!(filled(&set, &NO_ABI, 1023), Err(Refusal::SheetCounts));
    assert_eq!(filled(&nameless, &NO_ABI, 1024), Err(Refusal::Record));
    assert_eq!(filled(&nameless, &NO_ABI, 1023), Err(Refusal::SheetCounts)); // 3 goes before 4
    assert_eq!(filled(&cut, &NO_ABI, 1024), Err(Refusal::Descriptor));
    assert_eq!(filled(&spoiled(0, 65), &NO_ABI, 1024), Err(Refusal::SheetCounts));
}

// ---- links

const STUBS: [u32; 32] = [9; 32];

/// G, whose compiler table adds j and k, and H under it, which declares k.
fn growing() -> (ClassSet, AbiSheet) {
    let grown = ClassBuilder::new("G").kind(Kind::Generated).link_state(3).compiler_table(&[8, 9]);
    let below = ClassBuilder::new("H").extends("G").method("k", "()V", 7);
    let abi = AbiBuilder::new().class(AbiClassBuilder::new("G").slot("j", "()V", 0).slot("k", "()V", 1));
    (SetBuilder::new().class(grown).class(below).build().unwrap(), abi.build().unwrap())
}

/// What links of all classes in number order answer and leave, by slices whose list is filled first.
fn linked_by_slices(set: &ClassSet, abi: &AbiSheet) -> (Vec<Result<Linked, Refusal>>, Vec<u32>, Vec<u32>) {
    let (mut words, mut numbers) = (set.words().to_vec(), filled(set.words(), abi.words(), NUMBERS).unwrap());
    let (mut area, mut missing) = (Area::fresh(4096).into_words(), [0; MISSING_WORDS]);
    let link = |class| link(&mut words, abi.words(), &mut numbers, class, &mut area, &STUBS, &mut missing);
    let answers = (1..=set.class_count()).map(link).collect();
    (answers, words, area)
}

#[test]
fn a_shorter_list_is_refused_at_links_and_asks() {
    let (set, abi) = growing();
    let (mut words, mut area, mut short) = (set.words().to_vec(), Area::fresh(64).into_words(), [7; NUMBERS - 1]);
    let refused = link(&mut words, abi.words(), &mut short, 1, &mut area, &STUBS, &mut [0; MISSING_WORDS]);
    assert_eq!(refused, Err(Refusal::SheetCounts));
    assert_eq!((words.as_slice(), short), (set.words(), [7; NUMBERS - 1]));
    assert_eq!(interface_dispatch_table(&words, abi.words(), &short, 2, 1, &mut area, &STUBS), Err(Refusal::SheetCounts));
}

#[test]
fn an_added_method_has_the_number_of_the_signature_that_it_took() {
    let (set, abi) = growing();
    let (mut words, mut numbers) = (set.words().to_vec(), filled(set.words(), abi.words(), NUMBERS).unwrap());
    let mut area = Area::fresh(64).into_words();
    link(&mut words, abi.words(), &mut numbers, 1, &mut area, &STUBS, &mut [0; MISSING_WORDS]).unwrap();
    assert_eq!(numbers[..4], [0, 512, 0, 0]); // H's k, G's j, G's k
    link(&mut words, abi.words(), &mut numbers, 2, &mut area, &STUBS, &mut [0; MISSING_WORDS]).unwrap();
    assert_eq!(area[5..9], [2, 8, 7, 0]); // H has G's j, and its own k for G's
    // Filled anew from the grown set, the list tells the same signatures apart by other numbers.
    assert_eq!(filled(&words, abi.words(), NUMBERS).unwrap()[..4], [0, 1, 0, 0]);
}

/// Every folder of examples: the set's own list links as one that is lent and filled.
#[test]
fn a_set_links_as_lent_slices_do() {
    let examples = Path::new(env!("CARGO_MANIFEST_DIR")).join("../../examples");
    let mut linked = 0;
    for folder in fs::read_dir(examples).unwrap().map(|entry| entry.unwrap().path()) {
        let read = |name: &str| fs::read(folder.join(name)).ok();
        let (Some(classes), Some(abi)) = (read("classes.bin"), read("abi.bin")) else { continue };
        let (Ok(mut set), Ok(abi)) = (ClassSet::read(&classes), AbiSheet::read(&abi)) else { continue };
        let by_slices = linked_by_slices(&set, &abi);
        let mut area = Area::fresh(4096);
        let answers = set.link_all(&abi, &mut area, &STUBS);
        assert_eq!((answers, set.words().to_vec(), area.into_words()), by_slices, "{}", folder.display());
        linked += 1;
    }
    assert!(linked >= 10, "only {linked} folders");
}

#[test]
fn a_set_cloned_or_stored_amid_its_links_goes_on_as_it() {
    let (mut set, abi) = growing();
    let mut area = Area::fresh(64);
    set.link(&abi, 1, &mut area, &STUBS).unwrap();
    let stored = ClassSet::from_words(set.words()).unwrap().with_missing(set.missing_words());
    assert_eq!(stored, set);
    let after = [set.clone(), stored, set].map(|mut set| {
        let mut area = area.clone();
        let linked = set.link(&abi, 2, &mut area, &STUBS).unwrap();
        (set, area.slots(linked).to_vec())
    });
    assert!(after.iter().all(|one| *one == after[0]));
    assert_eq!(after[0].1, [8, 7]);
}

/// A set that is lent another ABI sheet numbers its signatures anew.
#[test]
fn each_call_goes_by_the_abi_sheet_that_it_lends() {
    let (set, abi) = growing();
    let other = AbiBuilder::new().class(AbiClassBuilder::new("G").slot("k", "()V", 0).slot("j", "()V", 1)).build().unwrap();
    let linked = |mut set: ClassSet, first: &AbiSheet| {
        let mut area = Area::fresh(64);
        set.link(first, 1, &mut area, &STUBS).unwrap();
        let child = set.link(&other, 2, &mut area, &STUBS).map(|linked| area.slots(linked).to_vec());
        (set.class(1).unwrap().methods().map(|method| method.name.to_owned()).collect::<Vec<_>>(), child)
    };
    assert_eq!(linked(set.clone(), &other), (vec!["k".to_owned(), "j".to_owned()], Ok(vec![7, 9])));
    // G's k is at 1 by the first sheet, and the other fixes it at 0.
    assert_eq!(linked(set, &abi), (vec!["j".to_owned(), "k".to_owned()], Err(Refusal::MovedSlot)));
}

/// An ask that lends another ABI sheet than the links did reads the tables by it.
#[test]
fn an_ask_goes_by_the_abi_sheet_that_it_lends() {
    let classes = [ClassBuilder::new("P").method("a", "()V", 0), ClassBuilder::new("C").method("a", "()V", 7)];
    let mut set = classes.into_iter().fold(SetBuilder::new(), SetBuilder::class).build().unwrap();
    let none = AbiBuilder::new().build().unwrap();
    let fixed = AbiBuilder::new().class(AbiClassBuilder::new("P").slot("a", "()V", 0)).build().unwrap();
    let mut area = Area::fresh(64);
    set.link_all(&none, &mut area, &STUBS);
    let ask = |abi: &AbiSheet| {
        let asked = set.interface_dispatch_table(abi, 2, 1, &mut area.clone(), &STUBS).unwrap();
        let mut area = area.clone();
        set.interface_dispatch_table(abi, 2, 1, &mut area, &STUBS).unwrap();
        area.words()[asked.place as usize + 1]
    };
    // P's slot holds a stub, which is known as a by the sheet that fixes it alone.
    assert_eq!((ask(&none), ask(&fixed)), (9, 7));
}
