//! Words of any kind: both sides finish, agree, and leave refused memory alone.

use harness::buckets::ROWS;
use harness::case::{Call, Case};
use harness::compare::compare;
use harness::model::Model;
use harness::oracle::Oracle;
use harness::random::Random;

/// A slice of small, large and random words behind a few plausible counts.
fn garbage(random: &mut Random, counts: usize, most: u32) -> Vec<u32> {
    let length = random.below(most);
    let mut words: Vec<u32> = (0..length)
        .map(|_| match random.below(10) {
            0..6 => random.below(4),
            6..8 => random.below(40),
            8 => u32::MAX - random.below(3),
            _ => random.word(),
        })
        .collect();
    for count in words.iter_mut().take(counts) {
        if random.chance(95) {
            *count = random.below(3);
        }
    }
    words
}

/// A list of numbers, most of them small.
fn numbers(random: &mut Random) -> Vec<u32> {
    let length = random.pick(&[0, 1023, 1024, 1024, 1024, 1024, 1026]);
    let below = random.pick(&[1, 4, 600, u32::MAX]);
    (0..length).map(|_| random.below(below)).collect()
}

#[test]
fn garbage_is_judged_alike() {
    let (mut oracle, mut model) = (Oracle::default(), Model);
    let mut random = Random::new(77);
    let mut rows = [0; ROWS];
    for number in 0..150_000 {
        let call = |random: &mut Random| {
            let (class, interface) = (random.below(4), random.below(4));
            match random.below(6) {
                0..2 => Call::Link { class, stubs: 0 },
                2..4 => Call::Ask { class, interface, stubs: 0 },
                4 => Call::Missing { class },
                _ => Call::Fill,
            }
        };
        let case = Case {
            set: garbage(&mut random, 6, 90),
            abi: if random.chance(60) { vec![0; 4] } else { garbage(&mut random, 4, 50) },
            numbers: numbers(&mut random),
            area: garbage(&mut random, 0, 30),
            missing: garbage(&mut random, 0, 120),
            stubs: vec![garbage(&mut random, 0, 12)],
            calls: vec![call(&mut random), call(&mut random), call(&mut random)],
            rebuilds: true,
            spoiled: None,
        };
        let result = compare(&mut oracle, &mut model, &case, &mut |step| rows[step.answer.refusal as usize] += 1);
        assert!(result.is_ok(), "case {number}: {:?}\n{case}", result.err());
    }
    for row in [3, 4, 6] {
        assert!(rows[row] > 0, "row {row} is reached: {rows:?}");
    }
}
