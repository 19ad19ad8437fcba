//! Names compared with the pairs read, by the harness and by the model: the request's three cases, and all short names over two letters.

use harness::model::Model;
use harness::oracle::Oracle;
use harness::side::{Answer, Linker};

/// What both sides answer.
fn compared(a: &[u8], b: &[u8]) -> (u32, u32) {
    let answer = Oracle::default().compare_names(a, b);
    assert_eq!(Model.compare_names(a, b), answer, "{} and {}", a.escape_ascii(), b.escape_ascii());
    assert_eq!(answer, Answer::accepted(answer.first, answer.second), "nothing is refused");
    (answer.first, answer.second)
}

#[test]
fn the_request() {
    assert_eq!(compared(b"a", b"ab"), (0, 0));
    assert_eq!(compared(b"", b""), (1, 0));
    assert_eq!(compared(b"abc", b"abc"), (1, 3));
    assert_eq!(compared(b"ab", b"cb"), (0, 2));
    assert_eq!(compared(b"ba", b"bc"), (0, 1));
    assert_eq!(compared(b"axcx", b"abcd"), (0, 1));
    assert_eq!(compared(b"abcb", b"axcb"), (0, 3));
    assert_eq!(compared(b"java/lang/Objecu", b"java/lang/Object"), (0, 1));
}

/// The two sides count by different ways.
#[test]
fn all_short_names() {
    let of_length = |length: u32| (0..1u32 << length).map(move |bits| (0..length).map(|at| b'a' + (bits >> at & 1) as u8).collect());
    let names: Vec<Vec<u8>> = (0..=6).flat_map(of_length).collect();
    let same = names.iter().flat_map(|a| names.iter().map(|b| compared(a, b))).filter(|answer| answer.0 == 1).count();
    assert_eq!(same, names.len());
}
