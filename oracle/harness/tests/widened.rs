//! The calls that were stored before the eighteenth word, on words of today's width: the original Rust and the model answer as stored.

use harness::corpus::widened::{Made, replay, stored};
use harness::model::Model;
use harness::oracle::Oracle;
use harness::side::Linker;

/// Every stored call, with words that several seeds insert.
fn made(side: &mut dyn Linker) -> Made {
    let mut made = Made::default();
    for corpus in stored() {
        for seed in 1..=5 {
            let one = replay(&corpus, seed, side).unwrap_or_else(|message| panic!("seed {seed}: {message}"));
            made = Made { calls: made.calls + one.calls, counted: made.counted + one.counted };
        }
    }
    made
}

#[test]
fn by_the_original_rust() {
    let mut oracle = Oracle::default();
    oracle.new_case(true);
    let made = made(&mut oracle);
    // (six are made from a link on that inherits two signatures of one fixed index, where the Rust is no judge)
    assert_eq!(made.calls, 5 * (1_313 + 281 - 6));
    assert!(made.counted > 1_000, "{made:?}");
}

#[test]
fn by_the_model() {
    let made = made(&mut Model);
    // (six are made from a link on that inherits two signatures of one fixed index, where the Rust is no judge)
    assert_eq!(made.calls, 5 * (1_313 + 281 - 6));
    assert!(made.counted > 1_000, "{made:?}");
}
