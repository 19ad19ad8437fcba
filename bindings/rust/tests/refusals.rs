//! Refusals: every number, and the sentences of docs/REFUSALS.md.

use lgt_linker::Refusal;

/// The numbers that have a name, in the order of the document.
const NAMED: [u32; 26] = [1, 2, 3, 4, 5, 6, 7, 26, 8, 9, 10, 11, 12, 13, 14, 15, 16, 17, 18, 19, 20, 21, 22, 23, 24, 25];

#[test]
fn every_number_is_a_refusal() {
    assert_eq!(Refusal::of(0), None);
    for number in (1..=30).chain([u32::MAX]) {
        let refusal = Refusal::of(number).unwrap();
        assert_eq!(refusal.number(), number);
        assert_eq!(matches!(refusal, Refusal::Unknown(_)), !NAMED.contains(&number));
        assert!(refusal.to_string().starts_with(&format!("refusal {number}: ")));
        assert!(refusal.sentence().len() > 20 && refusal.mend().ends_with('.'));
    }
}

#[test]
fn the_sentences_are_the_documents() {
    let page = include_str!("../../../docs/REFUSALS.md");
    let rows = page.lines().filter_map(|line| {
        let [_, number, _, sentence, _] = line.split('|').map(str::trim).collect::<Vec<_>>()[..] else { return None };
        Some((number.parse::<u32>().ok()?, sentence))
    });
    let rows = rows.map(|(number, sentence)| {
        assert_eq!(Refusal::of(number).unwrap().mend(), sentence);
        number
    });
    assert_eq!(rows.collect::<Vec<_>>(), NAMED);
}
