//! Comparison of names with the pairs of bytes read, which no original judges: the harness's own count against the other side's.

use crate::oracle::Oracle;
use crate::random::Random;
use crate::readings::ReadingCounts;
use crate::side::{Answer, Linker};

/// Two names, of any bytes.
pub struct Names {
    pub a: Vec<u8>,
    pub b: Vec<u8>,
}

/// The most bytes of a name.
const MOST: u32 = 300;

/// Two names of up to 300 bytes: the same, with a byte changed near the front or the end or several anywhere, one the start of the other, or
/// others altogether, of one length or of any.
pub fn random(random: &mut Random) -> Names {
    let most = random.pick(&[1, 2, 6, 40, MOST, MOST]);
    let letters = random.pick(&[2, 256]);
    let bytes = |random: &mut Random, length: u32| -> Vec<u8> { (0..length).map(|_| random.below(letters) as u8).collect() };
    let length = random.below(most + 1);
    let a = bytes(random, length);
    let mut b = a.clone();
    let near = random.below(length.min(3));
    match random.below(8) {
        0 => change(random, &mut b, near),
        1 | 2 => change(random, &mut b, length.saturating_sub(1 + near)),
        3 => {
            for _ in 0..random.between(2, 4) {
                let place = random.below(length);
                change(random, &mut b, place);
            }
        }
        4 => b.truncate(random.below(length + 1) as usize),
        5 => b = bytes(random, length),
        6 => {
            let length = random.below(most + 1);
            b = bytes(random, length);
        }
        _ => {}
    }
    if random.chance(50) { Names { a, b } } else { Names { a: b, b: a } }
}

/// Makes a byte another one; no bytes have none to change.
fn change(random: &mut Random, name: &mut [u8], place: u32) {
    if let Some(byte) = name.get_mut(place as usize) {
        *byte = byte.wrapping_add(random.between(1, 255) as u8);
    }
}

/// Compares on both sides. Answers the first disagreement.
pub fn compare(oracle: &mut Oracle, other: &mut dyn Linker, names: &Names, counts: &mut ReadingCounts) -> Result<(), String> {
    observe(names, judge(oracle, other, names)?, counts);
    Ok(())
}

/// Counts what two names that were compared so are about.
pub fn observe(names: &Names, compared: Answer, counts: &mut ReadingCounts) {
    let Names { a, b } = names;
    let (is_same, is_long) = (compared.first == 1, a.len() == b.len() && a.len() > 1);
    let differing = a.iter().zip(b).filter(|(x, y)| x != y).count();
    for (bucket, reached) in [
        ("names: of unequal lengths", a.len() != b.len()),
        ("names: one the start of the other", a.len() != b.len() && differing == 0),
        ("names: both empty", a.is_empty() && b.is_empty()),
        ("names: the same", is_same && is_long),
        ("names: the first byte alone differs", is_long && differing == 1 && a[0] != b[0]),
        ("names: the last byte alone differs", is_long && differing == 1 && a.last() != b.last()),
        ("names: several bytes differ", is_long && differing > 1 && differing < a.len()),
        ("names: of more than 255 bytes", is_long && a.len() > 255),
    ] {
        if reached {
            counts.hit(bucket);
        }
    }
}

/// The answer on which both sides agree.
pub fn judge(oracle: &mut Oracle, other: &mut dyn Linker, names: &Names) -> Result<Answer, String> {
    let Names { a, b } = names;
    let answers = [oracle.compare_names(a, b), other.compare_names(a, b)];
    if answers[0] != answers[1] {
        let (a, b) = (a.escape_ascii(), b.escape_ascii());
        return Err(format!("the names \"{a}\" and \"{b}\": oracle {:?}, other {:?}", answers[0], answers[1]));
    }
    Ok(answers[0])
}
