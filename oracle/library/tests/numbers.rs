//! The list of numbers, filled by the library as by the model.

use harness::generate;
use harness::side::{Answer, Linker};
use library::Library;

/// A set and an ABI sheet of generated cases, with lists of several lengths and any content.
#[test]
fn by_the_library() {
    let (mut filled, mut refused) = (0, 0);
    for number in 0..2000 {
        let case = generate::case(23, number);
        for length in [1022, 1023, 1024, 1026] {
            let mut numbers: Vec<u32> = (0..length).map(|place| 7 * place + number as u32).collect();
            let mut wanted = numbers.clone();
            let answer = match harness::model::number_signatures(&case.set, &case.abi, &mut wanted) {
                Ok(()) => Answer::accepted(0, 0),
                Err(refusal) => Answer::refused(refusal.row),
            };
            assert_eq!(Library::default().number_signatures(&case.set, &case.abi, &mut numbers), answer, "case {number}");
            assert_eq!(numbers, wanted, "case {number}");
            if answer.refusal == 0 { filled += 1 } else { refused += 1 }
        }
    }
    assert!(filled > 1000 && refused > 4000, "{filled} {refused}");
}
