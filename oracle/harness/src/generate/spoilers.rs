//! The spoilers: each breaks one clause of rows 3 to 5, or touches a limit and keeps it.

use crate::random::Random;
use crate::sheet::{Abi, ClassRecord, MemberRecord, Set, class_word};

use super::members::of_words;
use super::spoil::Spoiler::{self, Abi as OfAbi, AbiWords, Set as OfSet, SetWords};

/// Every spoiler with its name, which begins with the row that it leads to.
pub const SPOILERS: &[(&str, Spoiler)] = &[
    ("3 class words too short for the counts", SetWords(|random, words| cut(words, random.below(6) as usize))),
    ("3 class content does not fit", SetWords(|_, words| shorten(words, class_content(words)))),
    ("3 too many classes", SetWords(|_, words| put(words, 0, 65))),
    ("3 too many methods", SetWords(|_, words| put(words, 1, 513))),
    ("3 too many fields", SetWords(|_, words| put(words, 2, 513))),
    ("3 too many interface words", SetWords(|_, words| put(words, 3, 257))),
    ("3 too many compiler words", SetWords(|_, words| put(words, 4, 2049))),
    ("3 too much text", SetWords(|_, words| put(words, 5, 8193))),
    ("3 a class count near 2^32", SetWords(|random, words| put(words, random.below(6) as usize, u32::MAX))),
    ("3 ABI words too short for the counts", AbiWords(|random, words| cut(words, random.below(4) as usize))),
    ("3 ABI content does not fit", AbiWords(|_, words| shorten(words, abi_content(words)))),
    ("3 too many ABI classes", AbiWords(|_, words| put(words, 0, 65))),
    ("3 too many ABI slots", AbiWords(|_, words| put(words, 1, 513))),
    ("3 too many ABI fields", AbiWords(|_, words| put(words, 2, 257))),
    ("3 too much ABI text", AbiWords(|_, words| put(words, 3, 8193))),
    (
        "4 class name outside",
        OfSet(|random, set| {
            on_class(random, set, |random, set, class| {
                set.class_mut(class).0[0] = outside(random, set.text.len());
                true
            })
        }),
    ),
    ("4 class name empty", OfSet(|random, set| set_class_word(random, set, class_word::NAME + 1, 0))),
    (
        "4 class name of 256 bytes",
        OfSet(|random, set| {
            on_class(random, set, |_, set, class| {
                set.class_mut(class).0[0] = set.text.len() as u32;
                set.class_mut(class).0[1] = 256;
                set.text.extend([b'q'; 256]);
                true
            })
        }),
    ),
    (
        "4 class name byte",
        OfSet(|random, set| {
            on_class(random, set, |random, set, class| {
                let (start, _) = set.class(class).span(class_word::NAME);
                set.text[start as usize] = random.pick(&[0x20, 0x7F, 0, 0x80, 0xFF]);
                true
            })
        }),
    ),
    (
        "4 parent not below",
        OfSet(|random, set| {
            on_class(random, set, |random, set, class| {
                set.class_mut(class).0[class_word::PARENT] = random.pick(&[class, class + 1, u32::MAX]);
                true
            })
        }),
    ),
    ("4 class flags", OfSet(|random, set| set_class_word(random, set, class_word::FLAGS, 0x1_0000))),
    ("4 kind", OfSet(|random, set| set_class_word(random, set, class_word::KIND, 4))),
    ("4 link state", OfSet(|random, set| set_class_word(random, set, class_word::LINK_STATE, 0x1_0000))),
    ("4 instance words", OfSet(|random, set| set_class_word(random, set, class_word::INSTANCE_WORDS, 0x1_0000))),
    ("4 method list outside", OfSet(|random, set| list_outside(random, set, class_word::METHODS, set.methods.len()))),
    ("4 field list outside", OfSet(|random, set| list_outside(random, set, class_word::FIELDS, set.fields.len()))),
    ("4 interface list outside", OfSet(|random, set| list_outside(random, set, class_word::INTERFACES, set.interfaces.len()))),
    (
        "4 compiler table outside",
        OfSet(|random, set| {
            on_class(random, set, |random, set, class| {
                let size = set.compiler.len() as u32;
                let table = random.pick(&[(size + 2, 0), (size + 1, 1), (u32::MAX, 1)]);
                (set.class_mut(class).0[class_word::COMPILER], set.class_mut(class).0[class_word::COMPILER + 1]) = table;
                true
            })
        }),
    ),
    (
        "4 compiler slots without a table",
        OfSet(|random, set| {
            on_class(random, set, |_, set, class| {
                set.class_mut(class).0[class_word::COMPILER] = 0;
                set.class_mut(class).0[class_word::COMPILER + 1] = 1;
                true
            })
        }),
    ),
    (
        "4 compiler slots above 1,024",
        OfSet(|random, set| {
            on_class(random, set, |_, set, class| {
                set.compiler.resize(1025, 0);
                set.class_mut(class).0[class_word::COMPILER] = 1;
                set.class_mut(class).0[class_word::COMPILER + 1] = 1025;
                true
            })
        }),
    ),
    (
        "4 linked slot count",
        OfSet(|random, set| {
            on_class(random, set, |_, set, class| {
                set.class_mut(class).0[class_word::PLACE] = 1;
                set.class_mut(class).0[class_word::SLOTS] = 1025;
                true
            })
        }),
    ),
    (
        "4 two classes of one name",
        OfSet(|random, set| {
            if set.classes.len() < 2 {
                return false;
            }
            let class = random.between(2, set.classes.len() as u32);
            let name = set.class(random.between(1, class - 1)).span(class_word::NAME);
            (set.class_mut(class).0[0], set.class_mut(class).0[1]) = name;
            true
        }),
    ),
    ("4 method lists overlap", OfSet(|random, set| overlap(random, set, class_word::METHODS))),
    ("4 field lists overlap", OfSet(|random, set| overlap(random, set, class_word::FIELDS))),
    (
        "4 method name outside",
        OfSet(|random, set| on_member(random, set, true, |random, text, member| member.name.0 = outside(random, text.len()))),
    ),
    ("4 method name empty", OfSet(|random, set| on_member(random, set, true, |_, _, member| member.name.1 = 0))),
    (
        "4 method name byte",
        OfSet(|random, set| {
            on_member(random, set, true, |random, text, member| {
                text[member.name.0 as usize] = random.pick(&[0x20, 0x7F, 0x80]);
            })
        }),
    ),
    (
        "4 method descriptor outside",
        OfSet(|random, set| on_member(random, set, true, |random, text, member| member.descriptor.1 = outside(random, text.len()))),
    ),
    ("4 method descriptor empty", OfSet(|random, set| on_member(random, set, true, |_, _, member| member.descriptor.1 = 0))),
    (
        "4 method flags",
        OfSet(|random, set| {
            on_member(random, set, true, |random, _, member| member.flags = random.pick(&[0x0200, 0x2000, 0x1_0000, 0x1E00]))
        }),
    ),
    (
        "4 field name outside",
        OfSet(|random, set| on_member(random, set, false, |random, text, member| member.name.0 = outside(random, text.len()))),
    ),
    ("4 field name empty", OfSet(|random, set| on_member(random, set, false, |_, _, member| member.name.1 = 0))),
    ("4 field name byte", OfSet(|random, set| on_member(random, set, false, |_, text, member| text[member.name.0 as usize] = 0x7F))),
    (
        "4 field descriptor outside",
        OfSet(|random, set| on_member(random, set, false, |random, text, member| member.descriptor.0 = outside(random, text.len()))),
    ),
    (
        "4 field descriptor byte",
        OfSet(|random, set| on_member(random, set, false, |_, text, member| text[member.descriptor.0 as usize] = 0x20)),
    ),
    (
        "4 method descriptor byte",
        OfSet(|random, set| on_member(random, set, true, |_, text, member| text[member.descriptor.0 as usize] = 0x80)),
    ),
    (
        "4 method name of 256 bytes",
        OfSet(|random, set| {
            on_member(random, set, true, |_, text, member| {
                member.name = (text.len() as u32, 256);
                text.extend([b'q'; 256]);
            })
        }),
    ),
    (
        "4 field name too long",
        OfSet(|random, set| {
            on_member(random, set, false, |_, text, member| {
                member.name = (text.len() as u32, 256);
                text.extend([b'q'; 256]);
            })
        }),
    ),
    ("4 field descriptor empty", OfSet(|random, set| on_member(random, set, false, |_, _, member| member.descriptor.1 = 0))),
    ("4 field flags", OfSet(|random, set| on_member(random, set, false, |_, _, member| member.flags = 0x1_0000))),
    ("4 an unowned method record", OfSet(|_, set| push_member(&mut set.methods))),
    ("4 an unowned field record", OfSet(|_, set| push_member(&mut set.fields))),
    ("4 interface word 0", OfSet(|_, set| push_interface(set, 0))),
    ("4 interface word above the count", OfSet(|_, set| push_interface(set, set.classes.len() as u32 + 1))),
    (
        "4 ABI class name",
        OfAbi(|random, abi| {
            on_abi_class(random, abi, |random, abi, at| {
                abi.classes[at].name = random.pick(&[(0, 0), (0, 256), (u32::MAX, 1), (abi.text.len() as u32, 1)]);
            })
        }),
    ),
    (
        "4 ABI class name byte",
        OfAbi(|random, abi| {
            on_abi_class(random, abi, |random, abi, at| {
                abi.text[abi.classes[at].name.0 as usize] = random.pick(&[0x20, 0x7F, 0x80]);
            })
        }),
    ),
    ("4 ABI slot name byte", OfAbi(|random, abi| on_abi_slot(random, abi, |_, abi, at| abi.text[abi.slots[at].name.0 as usize] = 0x20))),
    ("4 ABI field descriptor", OfAbi(|random, abi| on_abi_field(random, abi, |_, abi, at| abi.fields[at].descriptor.1 = u32::MAX))),
    ("4 ABI table size", OfAbi(|random, abi| on_abi_class(random, abi, |_, abi, at| abi.classes[at].size_plus_1 = 1026))),
    ("4 ABI instance words", OfAbi(|random, abi| on_abi_class(random, abi, |_, abi, at| abi.classes[at].words_plus_1 = 4098))),
    (
        "4 ABI slot list outside",
        OfAbi(|random, abi| {
            on_abi_class(random, abi, |random, abi, at| {
                abi.classes[at].slots = random.pick(&[(abi.slots.len() as u32 + 1, 0), (0, abi.slots.len() as u32 + 1), (u32::MAX, 1)]);
            })
        }),
    ),
    (
        "4 ABI field list outside",
        OfAbi(|random, abi| {
            on_abi_class(random, abi, |random, abi, at| {
                abi.classes[at].fields = random.pick(&[(abi.fields.len() as u32 + 1, 0), (0, abi.fields.len() as u32 + 1), (u32::MAX, 1)]);
            })
        }),
    ),
    ("4 ABI slot index", OfAbi(|random, abi| on_abi_slot(random, abi, |_, abi, at| abi.slots[at].index = 1024))),
    ("4 ABI slot name", OfAbi(|random, abi| on_abi_slot(random, abi, |_, abi, at| abi.slots[at].name.1 = 0))),
    ("4 ABI slot descriptor", OfAbi(|random, abi| on_abi_slot(random, abi, |_, abi, at| abi.slots[at].descriptor.0 = u32::MAX))),
    ("4 ABI field index", OfAbi(|random, abi| on_abi_field(random, abi, |_, abi, at| abi.fields[at].index = 4096))),
    ("4 ABI field name", OfAbi(|random, abi| on_abi_field(random, abi, |_, abi, at| abi.fields[at].name.1 = 0))),
    (
        "5 method descriptor",
        OfSet(|random, set| {
            let descriptor = random.pick(&[
                "(V)V",
                "()",
                "I",
                "(I",
                "()VV",
                "(L;)V",
                "(La//b;)V",
                "([)V",
                "()[V",
                "V",
                "(I)V)",
                "(La.b;)V",
                "(Q)V",
                "()L",
                "(La[b;)V",
            ]);
            on_member(random, set, true, |_, text, member| member.descriptor = append(text, descriptor))
        }),
    ),
    (
        "5 field descriptor",
        OfSet(|random, set| {
            let descriptor = random.pick(&["V", "()V", "II", "L;", "L/a;", "La/;", "[", "[V", "La", "Q", "La;;", "i"]);
            on_member(random, set, false, |_, text, member| member.descriptor = append(text, descriptor))
        }),
    ),
    (
        "5 ABI slot descriptor",
        OfAbi(|random, abi| {
            let descriptor = random.pick(&["(V)V", "I", "()", "(L;)V"]);
            on_abi_slot(random, abi, |_, abi, at| abi.slots[at].descriptor = append(&mut abi.text, descriptor))
        }),
    ),
    (
        "5 ABI field descriptor",
        OfAbi(|random, abi| {
            let descriptor = random.pick(&["V", "()V", "JJ", "[V"]);
            on_abi_field(random, abi, |_, abi, at| abi.fields[at].descriptor = append(&mut abi.text, descriptor))
        }),
    ),
    (
        "5 method of 256 argument words and more",
        OfSet(|random, set| {
            let more = random.pick(&[0, 0, 0, 1, 248]);
            on_member(random, set, true, |_, text, member| {
                member.descriptor = append(text, &of_words(parameters(255, member.flags) + 1 + more))
            })
        }),
    ),
    (
        "5 a descriptor shared by a static and an instance method",
        OfSet(|random, set| {
            set.methods.len() >= 2 && {
                let first = random.below(set.methods.len() as u32) as usize;
                let second = (first + random.between(1, set.methods.len() as u32 - 1) as usize) % set.methods.len();
                let shared = append(&mut set.text, &of_words(255));
                (set.methods[first].descriptor, set.methods[second].descriptor) = (shared, shared);
                set.methods[first].flags |= 0x0008;
                set.methods[second].flags &= !0x0008;
                true
            }
        }),
    ),
    (
        "5 ABI slot of 256 argument words and more",
        OfAbi(|random, abi| {
            let (words, index) = (random.pick(&[255, 255, 256, 504]), random.pick(&[0, 8, 9]));
            on_abi_slot(random, abi, |_, abi, at| {
                abi.slots[at].descriptor = append(&mut abi.text, &of_words(words));
                abi.slots[at].index = index;
            })
        }),
    ),
    (
        "kept: 254 argument words",
        OfSet(|random, set| {
            on_member(random, set, true, |_, text, member| member.descriptor = append(text, &of_words(parameters(254, member.flags))))
        }),
    ),
    (
        "kept: 255 argument words",
        OfSet(|random, set| {
            on_member(random, set, true, |_, text, member| member.descriptor = append(text, &of_words(parameters(255, member.flags))))
        }),
    ),
    (
        "kept: ABI slot of 255 argument words",
        OfAbi(|random, abi| on_abi_slot(random, abi, |_, abi, at| abi.slots[at].descriptor = append(&mut abi.text, &of_words(254)))),
    ),
    (
        "kept: a class of kind 3 beside",
        OfSet(|_, set| {
            let fits = set.classes.len() < 64 && set.text.len() <= 8190;
            if fits {
                let (start, length) = append(&mut set.text, "~3");
                set.classes.push(ClassRecord(std::array::from_fn(|word| match word {
                    0 => start,
                    1 => length,
                    class_word::KIND => 3,
                    _ => 0,
                })));
            }
            fits
        }),
    ),
    ("kept: class flags at the limit", OfSet(|random, set| set_class_word(random, set, class_word::FLAGS, 0xFFFF))),
    ("kept: link state at the limit", OfSet(|random, set| set_class_word(random, set, class_word::LINK_STATE, 0xFFFF))),
    ("kept: instance words at the limit", OfSet(|random, set| set_class_word(random, set, class_word::INSTANCE_WORDS, 0xFFFF))),
    (
        "kept: a slot count without a place",
        OfSet(|random, set| {
            on_class(random, set, |_, set, class| {
                let unlinked = !set.class(class).is_linked();
                if unlinked {
                    set.class_mut(class).0[class_word::SLOTS] = 0xFFFF_FFFF;
                }
                unlinked
            })
        }),
    ),
    (
        "kept: an empty list at the section's end",
        OfSet(|random, set| {
            on_class(random, set, |_, set, class| {
                let end = set.methods.len() as u32;
                (set.class_mut(class).0[class_word::METHODS], set.class_mut(class).0[class_word::METHODS + 1]) = (end, 0);
                true
            })
        }),
    ),
    (
        "kept: an empty list inside another",
        OfSet(|random, set| {
            on_class(random, set, |_, set, class| {
                let other = set.classes.iter().map(|class| class.span(class_word::METHODS)).find(|span| span.1 >= 2);
                let empty = set.class(class).span(class_word::METHODS).1 == 0;
                if let (Some(other), true) = (other, empty) {
                    set.class_mut(class).0[class_word::METHODS] = other.0 + 1;
                }
                other.is_some() && empty
            })
        }),
    ),
    (
        "kept: a name of 255 bytes",
        OfSet(|random, set| {
            on_member(random, set, true, |_, text, member| {
                member.name = (text.len() as u32, 255);
                text.extend([b'~'; 255]);
            })
        }),
    ),
    (
        "kept: a long class name in a descriptor",
        OfSet(|random, set| {
            on_member(random, set, false, |_, text, member| {
                let descriptor = format!("[[L{};", "a/<(V)".repeat(40));
                member.descriptor = append(text, &descriptor);
            })
        }),
    ),
    ("kept: ABI table size at the limit", OfAbi(|random, abi| on_abi_class(random, abi, |_, abi, at| abi.classes[at].size_plus_1 = 1025))),
    (
        "kept: ABI instance words at the limit",
        OfAbi(|random, abi| on_abi_class(random, abi, |_, abi, at| abi.classes[at].words_plus_1 = 4097)),
    ),
    (
        "kept: two ABI classes share slots",
        OfAbi(|random, abi| {
            let shared = abi.classes.iter().map(|class| class.slots).find(|span| span.1 != 0);
            shared.is_some_and(|shared| on_abi_class(random, abi, |_, abi, at| abi.classes[at].slots = shared))
        }),
    ),
    (
        "kept: compiler tables overlap",
        OfSet(|random, set| {
            let table = set.classes.iter().map(|class| class.span(class_word::COMPILER)).find(|span| span.1 != 0);
            table.is_some_and(|table| {
                on_class(random, set, |_, set, class| {
                    (set.class_mut(class).0[class_word::COMPILER], set.class_mut(class).0[class_word::COMPILER + 1]) = table;
                    true
                })
            })
        }),
    ),
    ("any: random class words", SetWords(|random, words| disturb(random, words))),
    ("any: random ABI words", AbiWords(|random, words| disturb(random, words))),
];

fn cut(words: &mut Vec<u32>, length: usize) -> bool {
    words.truncate(length);
    true
}

/// Cuts a slice to one word less than its content.
fn shorten(words: &mut Vec<u32>, content: Option<usize>) -> bool {
    content.is_some_and(|content| cut(words, content - 1))
}

fn class_content(words: &[u32]) -> Option<usize> {
    Set::decode(words).map(|set| set.content())
}

fn abi_content(words: &[u32]) -> Option<usize> {
    Abi::decode(words).map(|abi| abi.encode().len())
}

/// A count above its limit, with room for the content all the same.
fn put(words: &mut Vec<u32>, at: usize, value: u32) -> bool {
    words.resize(words.len().max(20_000), 0);
    words[at] = value;
    true
}

/// A start or length that leads out of a section of `size`, also around 2^32.
fn outside(random: &mut Random, size: usize) -> u32 {
    random.pick(&[size as u32, size as u32 + 1, u32::MAX, u32::MAX - 1])
}

fn on_class(random: &mut Random, set: &mut Set, change: impl Fn(&mut Random, &mut Set, u32) -> bool) -> bool {
    !set.classes.is_empty() && {
        let class = random.between(1, set.classes.len() as u32);
        change(random, set, class)
    }
}

fn set_class_word(random: &mut Random, set: &mut Set, word: usize, value: u32) -> bool {
    !set.classes.is_empty() && {
        let class = random.between(1, set.classes.len() as u32);
        set.class_mut(class).0[word] = value;
        true
    }
}

fn list_outside(random: &mut Random, set: &mut Set, word: usize, size: usize) -> bool {
    !set.classes.is_empty() && {
        let class = random.between(1, set.classes.len() as u32);
        let size = size as u32;
        let list = random.pick(&[(size + 1, 0), (size, 1), (0, size + 1), (u32::MAX, 1), (1, u32::MAX)]);
        (set.class_mut(class).0[word], set.class_mut(class).0[word + 1]) = list;
        true
    }
}

fn overlap(random: &mut Random, set: &mut Set, word: usize) -> bool {
    let taken = set.classes.iter().position(|class| class.span(word).1 != 0);
    match taken {
        Some(taken) if set.classes.len() > 1 => {
            let list = set.classes[taken].span(word);
            let other = (taken + random.between(1, set.classes.len() as u32 - 1) as usize) % set.classes.len();
            (set.classes[other].0[word], set.classes[other].0[word + 1]) = random.pick(&[list, (list.0, 1), (list.0 + list.1 - 1, 1)]);
            true
        }
        _ => false,
    }
}

fn on_member(random: &mut Random, set: &mut Set, method: bool, change: impl Fn(&mut Random, &mut Vec<u8>, &mut MemberRecord)) -> bool {
    let section = if method { &mut set.methods } else { &mut set.fields };
    !section.is_empty() && {
        let at = random.below(section.len() as u32) as usize;
        change(random, &mut set.text, &mut section[at]);
        true
    }
}

fn push_member(section: &mut Vec<MemberRecord>) -> bool {
    section.push(MemberRecord { name: (0, 0), descriptor: (0, 0), flags: 0, last: 0 });
    true
}

fn push_interface(set: &mut Set, number: u32) -> bool {
    set.interfaces.push(number);
    true
}

fn append(text: &mut Vec<u8>, part: &str) -> (u32, u32) {
    text.extend_from_slice(part.as_bytes());
    ((text.len() - part.len()) as u32, part.len() as u32)
}

/// The parameter words of a method with so many argument words: its receiver takes one, unless it is static.
fn parameters(words: u32, flags: u32) -> u32 {
    if flags & 0x0008 == 0 { words - 1 } else { words }
}

fn on_abi_class(random: &mut Random, abi: &mut Abi, change: impl Fn(&mut Random, &mut Abi, usize)) -> bool {
    on_position(random, abi.classes.len(), |random, at| change(random, abi, at))
}

fn on_abi_slot(random: &mut Random, abi: &mut Abi, change: impl Fn(&mut Random, &mut Abi, usize)) -> bool {
    on_position(random, abi.slots.len(), |random, at| change(random, abi, at))
}

fn on_abi_field(random: &mut Random, abi: &mut Abi, change: impl Fn(&mut Random, &mut Abi, usize)) -> bool {
    on_position(random, abi.fields.len(), |random, at| change(random, abi, at))
}

fn on_position(random: &mut Random, count: usize, change: impl FnOnce(&mut Random, usize)) -> bool {
    count != 0 && {
        let at = random.below(count as u32) as usize;
        change(random, at);
        true
    }
}

fn disturb(random: &mut Random, words: &mut [u32]) -> bool {
    for _ in 0..random.between(1, 3) {
        let at = random.below(words.len() as u32) as usize;
        let Some(word) = words.get_mut(at) else { return false };
        *word = match random.below(4) {
            0 => random.word(),
            1 => word.wrapping_add(1),
            2 => word.wrapping_sub(1),
            _ => random.below(8),
        };
    }
    true
}
