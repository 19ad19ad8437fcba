//! Reference bitmaps on the original and on the model: the request's own inputs, and as many words as a class can have and more.

use harness::model::Model;
use harness::oracle::Oracle;
use harness::side::{Answer, Linker};

/// The list of both sides, and the count.
fn answers(bitmap: &[u8], words: u32, lent: usize) -> (Answer, Vec<u32>, Answer) {
    let mut oracle = Oracle::default();
    let (mut list, mut model_list) = (vec![7; lent], vec![7; lent]);
    let listed = (oracle.reference_words(bitmap, words, &mut list), oracle.reference_count(bitmap, words));
    assert_eq!((Model.reference_words(bitmap, words, &mut model_list), Model.reference_count(bitmap, words)), listed);
    assert_eq!(list, model_list);
    (listed.0, list, listed.1)
}

#[test]
fn the_request() {
    let (counted, none) = (|count| Answer::accepted(count, 0), Answer::refused(24));
    assert_eq!(answers(&[0xA1], 8, 4), (counted(3), vec![0, 2, 7, 7], counted(3)));
    assert_eq!(answers(&[0xA1], 7, 2), (counted(2), vec![0, 2], counted(2)));
    assert_eq!(answers(&[0xA1], 8, 2), (Answer::refused(25), vec![7, 7], counted(3)));
    assert_eq!(answers(&[0xA1], 9, 0), (none, vec![], none));
    assert_eq!(answers(&[], 0, 0), (counted(0), vec![], counted(0)));
    assert_eq!(answers(&[0xFF, 0x80], 9, 9), (counted(9), (0..9).collect(), counted(9)));
    assert_eq!(answers(&[0xFF, 0x7F], 9, 9), (counted(8), (0..8).chain([7]).collect(), counted(8)));
}

/// As many words as a class can have, and more: those are asked piece by piece.
#[test]
fn many_words() {
    for words in [65_535, 65_536, 131_056, 131_057] {
        let bitmap = vec![0x81; (words as usize).div_ceil(8)];
        let marked: Vec<u32> = (0..words).filter(|word| word % 8 == 0 || word % 8 == 7).collect();
        let count = Answer::accepted(marked.len() as u32, 0);
        assert_eq!(answers(&bitmap, words, marked.len()), (count, marked, count));
    }
}

/// The stored vectors of the program `judge`: what it must print of each bitmap is what the original answers.
#[test]
fn stored_vectors() {
    let judge = concat!(env!("CARGO_MANIFEST_DIR"), "/../../crates/judge");
    let printed = std::fs::read_to_string(format!("{judge}/stdout")).expect("judge's output");
    let lines: Vec<&str> = printed.lines().filter(|line| line.starts_with("refs-")).collect();
    assert!(lines.len() > 30);
    for line in lines {
        let name = line.split(' ').next().expect("a name");
        let file = std::fs::read(format!("{judge}/data/{name}")).expect(name);
        let word = |at: usize| u32::from_le_bytes(file[at..at + 4].try_into().expect("a word"));
        let (listed, list, counted) = answers(&file[8..], word(0), word(4) as usize);
        let told = |answer: Answer, accepted: &str| {
            if answer.refusal == 0 { format!("{accepted} {}", answer.first) } else { format!("refused {}", answer.refusal) }
        };
        let sum = (1u32..).zip(&list).fold(0u32, |sum, (place, word)| sum.wrapping_add(place.wrapping_mul(*word)));
        assert_eq!(line, format!("{name} {} {sum} {}", told(listed, "marked"), told(counted, "counted")));
    }
}
