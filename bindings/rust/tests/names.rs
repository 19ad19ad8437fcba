//! Names compared from the far end: the library against a plain count.

use lgt_linker::{Compared, compare_names};

/// The pairs counted one by one from the far end.
fn counted(a: &[u8], b: &[u8]) -> Compared {
    let mut pairs = 0;
    if a.len() != b.len() {
        return Compared { same: false, pairs };
    }
    for (x, y) in a.iter().rev().zip(b.iter().rev()) {
        pairs += 1;
        if x != y {
            return Compared { same: false, pairs };
        }
    }
    Compared { same: true, pairs }
}

fn assert_counted(a: &[u8], b: &[u8]) {
    assert_eq!(compare_names(a, b), counted(a, b), "{} and {}", a.escape_ascii(), b.escape_ascii());
}

/// All names over two letters with up to 6 bytes.
fn two_letter_names() -> Vec<Vec<u8>> {
    let names = |length: u32| (0..1u32 << length).map(move |bits| (0..length).map(|at| b'a' + (bits >> at & 1) as u8).collect());
    (0..=6).flat_map(names).collect()
}

#[test]
fn all_pairs_of_short_names() {
    let names = two_letter_names();
    assert_eq!(names.len(), 127);
    for a in &names {
        for b in &names {
            assert_counted(a, b);
        }
    }
}

/// Numbers below `bound` (xorshift, from a fixed seed).
struct Numbers(u64);

impl Numbers {
    fn below(&mut self, bound: usize) -> usize {
        self.0 ^= self.0 << 13;
        self.0 ^= self.0 >> 7;
        self.0 ^= self.0 << 17;
        (self.0 % bound as u64) as usize
    }
}

/// Any bytes; the other name is the same, or differs at one or several places, or in length, or is another altogether.
#[test]
fn random_names() {
    let mut numbers = Numbers(0x9E37_79B9_7F4A_7C15);
    for round in 0..40_000 {
        let a: Vec<u8> = (0..numbers.below(301)).map(|_| numbers.below(256) as u8).collect();
        let mut b = a.clone();
        match round % 8 {
            0 => {}
            1 => b.push(numbers.below(256) as u8),
            2 => b = (0..a.len()).map(|_| numbers.below(256) as u8).collect(),
            places => {
                for _ in 2..places {
                    let at = numbers.below(b.len().max(1));
                    b.iter_mut().skip(at).take(1).for_each(|byte| *byte ^= 1 << numbers.below(8));
                }
            }
        }
        assert_counted(&a, &b);
        assert_counted(&b, &a);
    }
}

/// The request's own count: 64 names of 39 bytes that differ in their last two, each compared with each.
#[test]
fn names_with_a_long_common_start() {
    let names: Vec<_> = (0..64).map(|number| format!("com/example/phone/application/Class{number:04}")).collect();
    assert!(names.iter().all(|name| name.len() == 39));
    let pairs = |a: &String| names.iter().map(|b| compare_names(a.as_bytes(), b.as_bytes()).pairs).sum::<usize>();
    assert_eq!(names.iter().map(pairs).sum::<usize>(), 6_876);
    // From the near end each pair of names is read up to its first differing byte.
    let near = |a: &String, b: &String| a.bytes().zip(b.bytes()).position(|(x, y)| x != y).map_or(a.len(), |place| place + 1);
    assert_eq!(names.iter().map(|a| names.iter().map(|b| near(a, b)).sum::<usize>()).sum::<usize>(), 156_264);
}
