//! The calls that were stored before the eighteenth word, on words of today's width: the library answers as the Rust did then.

use harness::corpus::widened::{replay, stored};
use library::Library;

#[test]
fn by_the_library() {
    let mut calls = 0;
    for corpus in stored() {
        for seed in 1..=5 {
            let made = replay(&corpus, seed, &mut Library::default()).unwrap_or_else(|message| panic!("seed {seed}: {message}"));
            assert!(made.counted > 0);
            calls += made.calls;
        }
    }
    assert_eq!(calls, 5 * (1_313 + 281 - 6));
}
