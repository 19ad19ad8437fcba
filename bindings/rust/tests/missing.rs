//! How many slots are missing: what a link counts, the list, and the refusals of asking and of a short list.

use lgt_linker::*;

/// P of foo and of k, neither with a target, and G under it by a compiler table.
fn compiled(table: &[u32]) -> ClassSet {
    let parent = ClassBuilder::new("P").method("foo", "()V", 0).method("k", "()V", 0);
    let child = ClassBuilder::new("G").extends("P").kind(Kind::Generated).compiler_table(table);
    SetBuilder::new().class(parent).class(child).build().unwrap()
}

/// The counts and the slots that they include, of each class, after all links.
fn counted(mut set: ClassSet, abi: &AbiSheet) -> Vec<(u32, Vec<u32>)> {
    let linked = set.link_all(abi, &mut Area::fresh(2048), &(901..1925).collect::<Vec<_>>());
    assert!(linked.iter().all(Result::is_ok), "{linked:?}");
    (1..=set.class_count()).map(|class| (set.missing_slots(abi, class).unwrap(), set.missing_indices(class))).collect()
}

fn no_abi() -> AbiSheet {
    AbiBuilder::new().build().unwrap()
}

#[test]
fn a_stub_counts_and_a_copy_of_it() {
    let set = SetBuilder::new()
        .class(ClassBuilder::new("java/lang/Object").method("foo", "()V", 0).method("k", "()V", 5))
        .class(ClassBuilder::new("[I").kind(Kind::Array).extends("java/lang/Object"))
        .class(ClassBuilder::new("Q").extends("java/lang/Object").method("k", "()V", 0));
    assert_eq!(counted(set.build().unwrap(), &no_abi()), [(1, vec![0]), (1, vec![0]), (2, vec![0, 1])]);
}

#[test]
fn an_own_method_over_a_slot_that_counts_does_not() {
    let abi = AbiBuilder::new().class(AbiClassBuilder::new("P").slot("foo", "()V", 3).slot("k", "()V", 1)).build().unwrap();
    let set = SetBuilder::new()
        .class(ClassBuilder::new("P").method("foo", "()V", 5))
        .class(ClassBuilder::new("Q").extends("P"))
        .class(ClassBuilder::new("R").extends("P").method("k", "()V", 6));
    assert_eq!(counted(set.build().unwrap(), &abi), [(3, vec![0, 1, 2]), (3, vec![0, 1, 2]), (2, vec![0, 2])]);
}

#[test]
fn a_nonzero_compiler_slot_is_no_copy() {
    assert_eq!(counted(compiled(&[901, 0]), &no_abi()), [(2, vec![0, 1]), (1, vec![1])]);
    assert_eq!(counted(compiled(&[0, 0, 0]), &no_abi())[1], (3, vec![0, 1, 2]));
}

#[test]
fn bits_go_on_in_the_next_word() {
    let abi = AbiBuilder::new().class(AbiClassBuilder::new("P").table_size(40)).build().unwrap();
    let mut words = SetBuilder::new().class(ClassBuilder::new("P")).build().unwrap().words().to_vec();
    let (mut area, mut missing) = ([0; 64], [7; 40]);
    area[0] = 1;
    let linked = link(&mut words, abi.words(), &mut [0; NUMBERS], 1, &mut area, &[9; 40], &mut missing);
    assert_eq!(linked, Ok(Linked { place: 1, slots: 40 }));
    assert_eq!(missing[..3], [40, 0xFFFF_FFFF, 0xFF]);
    assert_eq!(missing[3..33], [0; 30]);
    assert_eq!(missing[33..], [7; 7]); // what no class has stays
}

#[test]
fn a_list_has_33_words_for_each_class_of_the_set() {
    let (set, mut area, mut missing) = (compiled(&[]), Area::fresh(64).into_words(), [7; 65]);
    let (mut words, mut numbers) = (set.words().to_vec(), [0; NUMBERS]);
    number_signatures(&words, &[0; 4], &mut numbers).unwrap();
    assert_eq!(link(&mut words, &[0; 4], &mut numbers, 1, &mut area, &[9; 8], &mut missing), Err(Refusal::NoRoom));
    assert_eq!((words.as_slice(), missing), (set.words(), [7; 65]));
    let mut missing = [7; 66];
    assert!(link(&mut words, &[0; 4], &mut numbers, 1, &mut area, &[9; 8], &mut missing).is_ok());
    assert_eq!(missing_slots(&words, &[0; 4], &missing, 1), Ok(2));
    assert_eq!(missing_slots(&words, &[0; 4], &missing[..65], 1), Err(Refusal::NoRoom));
    // Row 6 comes before row 15, and the sheets before both.
    assert_eq!(missing_slots(&words, &[0; 4], &[], 2), Err(Refusal::Class));
    assert_eq!(missing_slots(&words, &[0; 3], &[], 2), Err(Refusal::SheetCounts));
}

#[test]
fn a_refused_link_leaves_the_list() {
    let mut set = compiled(&[901, 0]);
    set.link(&no_abi(), 1, &mut Area::fresh(64), &[9; 8]).unwrap();
    let before = set.clone();
    assert_eq!(set.link(&no_abi(), 2, &mut Area::fresh(64), &[9; 8]), Err(Refusal::Area)); // another area
    assert_eq!(set, before);
    assert_eq!(set.missing_slots(&no_abi(), 2), Err(Refusal::Class));
    assert_eq!(set.missing_indices(2), []);
}
