//! The area, stub lists and calls of a case, and classes linked by hand.

use crate::case::Call;
use crate::random::Random;

use super::draft::Draft;
use super::members::FIRST_STUB;

/// An area of `length` words with whatever in it; mostly fresh.
pub fn area(random: &mut Random, length: usize) -> Vec<u32> {
    let length = match random.below(100) {
        0..2 => 0,
        2..12 => random.below(length as u32 + 1).min(40) as usize,
        _ => length,
    };
    let junk = random.chance(40);
    let mut area: Vec<u32> = (0..length).map(|_| if junk { random.word() } else { 0 }).collect();
    if let Some(next) = area.first_mut() {
        *next = match random.below(100) {
            0..1 => 0,
            1..3 => length as u32,
            3..5 => length as u32 + random.between(1, 3),
            5..6 => random.word(),
            6..12 => random.below(length as u32 + 1),
            _ => 1,
        };
    }
    area
}

/// A few stub lists, most of them long enough for `slots`.
pub fn stub_lists(random: &mut Random, slots: u32) -> Vec<Vec<u32>> {
    let count = random.between(1, 3);
    let list = |_| {
        let length = match random.below(100) {
            0..78 => slots,
            78..80 => 0,
            80..95 => random.below(slots.min(10) + 1),
            _ => random.below(slots + 1),
        };
        let kind = random.below(100);
        let stub = |index: u32| match kind {
            0..75 => FIRST_STUB + index,
            75..80 => 0,
            80..88 => 4096 + 16 * (index % 8),
            88..92 => 77,
            92..96 => u32::from(index.is_multiple_of(2)) * (FIRST_STUB + index),
            _ => 9000 + 8 * index,
        };
        (0..length).map(stub).collect()
    };
    (0..count).map(list).collect()
}

/// Links and asks: in order, at random, repeated, with wrong numbers.
pub fn calls(random: &mut Random, classes: u32, stub_lists: usize, most: u32) -> Vec<Call> {
    let mut calls = Vec::new();
    let count = random.between(1, most.max(1));
    let in_order = random.chance(75);
    if in_order {
        calls.extend((1..=classes).map(|class| Call::Link { class, stubs: random.below(stub_lists as u32) as usize }));
    }
    for _ in 0..count {
        let stubs = random.below(stub_lists as u32) as usize;
        let class = class_number(random, classes);
        if random.chance(if in_order { 12 } else { 60 }) {
            calls.push(Call::Link { class, stubs });
        } else {
            calls.push(Call::Ask { class, interface: class_number(random, classes), stubs });
        }
        if random.chance(12) {
            calls.push(calls[calls.len() - 1]);
        }
    }
    calls
}

fn class_number(random: &mut Random, classes: u32) -> u32 {
    match random.below(100) {
        0..1 => 0,
        1..2 => classes + 1,
        2..3 => random.word(),
        _ => random.between(1, classes.max(1)),
    }
}

/// Links `share` in a hundred classes by hand: tables of targets, stubs and other words one after the other,
/// lists of nodes behind them. Answers the area.
pub fn link_by_hand(random: &mut Random, draft: &mut Draft, share: u32) -> Vec<u32> {
    let targets: Vec<u32> = draft.classes.iter().flat_map(|class| &class.methods).map(|method| method.last).collect();
    let mut area = vec![1];
    let mut heads = Vec::new();
    for (position, class) in draft.classes.iter_mut().enumerate() {
        if !random.chance(share) {
            continue;
        }
        class.place = area.len() as u32;
        class.slots = random.below(7);
        area.push(if random.chance(80) { position as u32 + 1 } else { random.word() });
        for index in 0..class.slots {
            area.push(match random.below(100) {
                0..55 if !targets.is_empty() => random.pick(&targets),
                55..80 => FIRST_STUB + index,
                80..88 => 0,
                _ => random.word(),
            });
        }
        heads.push(area.len());
        area.push(0);
        if random.chance(10) {
            class.instance_words = random.pick(&[65535, 65534, 65533, 9]);
        }
        if random.chance(12)
            && let Some(field) = class.fields.first_mut()
        {
            field.last = random.pick(&[u32::MAX, 0xFFFF_0000, 0xFFFF_0001, 0xFFFF_0002, 0x8000_0000, u32::MAX - 3]);
        }
    }
    let classes = draft.classes.len() as u32;
    for &head in &heads {
        let count = match random.below(100) {
            0..50 => 0,
            50..88 => random.below(5),
            _ => random.between(63, 65),
        };
        let foreign = if count > 60 { 100 } else { random.pick(&[50, 90]) };
        let mut link = head;
        for number in 1..=count {
            let node = area.len();
            area[link] = node as u32;
            let last_of_many = count > 60 && number == count && random.chance(60);
            let is_class = last_of_many || !random.chance(foreign);
            area.extend([0, if is_class { random.between(1, classes.max(1)) } else { random.word() }]);
            link = node;
        }
        if count > 0 && random.chance(12) {
            area[link] = if random.chance(50) { area[head] } else { random.word() };
        }
    }
    area[0] = area.len() as u32;
    area.resize(area.len() + random.below(61) as usize, 0xAAAA_AAAA);
    disturb(random, draft, &mut area, &heads);
    area
}

/// Now and then: a head, place, slot count or word 0 that no link would leave.
fn disturb(random: &mut Random, draft: &mut Draft, area: &mut [u32], heads: &[usize]) {
    if random.chance(15) && !heads.is_empty() {
        area[random.pick(heads)] = match random.below(3) {
            0 => area[0].wrapping_sub(random.below(3)),
            1 => random.between(1, area[0]),
            _ => random.word(),
        };
    }
    if random.chance(10) && !draft.classes.is_empty() {
        let position = random.below(draft.classes.len() as u32) as usize;
        let class = &mut draft.classes[position];
        match random.below(3) {
            0 => class.place = random.below(area[0] + 2),
            1 => class.slots = random.below(area[0]),
            _ => class.place = random.word(),
        }
    }
    if random.chance(6) {
        area[0] = match random.below(3) {
            0 => area[0].saturating_sub(random.below(4)),
            1 => area.len() as u32,
            _ => area.len() as u32 + 1,
        };
    }
}
