//! The class files that the repository stores, for the tests of this crate and of the oracle's harness: the cases of
//! `crates/file_judge`, whose answers Python gave, and the files that a compiler made, with what javap prints of them.

use std::fs;
use std::path::{Path, PathBuf};

/// The six answer words, or the row.
pub type Answer = Result<[u32; 6], u32>;

/// A call: the file, the targets, and the three lists lent.
pub struct Case {
    group: String,
    label: String,
    pub file: Vec<u8>,
    pub targets: Vec<u32>,
    pub lists: [Vec<u32>; 3],
}

/// A class file of a compiler, and javap's lines.
pub struct Compiled {
    pub path: PathBuf,
    pub bytes: Vec<u8>,
    pub lines: String,
}

pub fn top() -> PathBuf {
    Path::new(env!("CARGO_MANIFEST_DIR")).join("../..")
}

/// The cases, and the line that each must come to.
pub fn cases() -> Vec<(Case, String)> {
    let folder = top().join("crates/file_judge");
    let text = |name: &str| fs::read_to_string(folder.join(name)).expect("a stored text");
    let mut cases = Vec::new();
    for group in text("args").lines() {
        let bytes = fs::read(folder.join("data").join(group)).expect("stored cases");
        let mut left = &bytes[..];
        while let Some((words, rest)) = left.split_at_checked(24) {
            let word = |word: &[u8]| u32::from_le_bytes(word.try_into().expect("four bytes")) as usize;
            let words: Vec<usize> = words.chunks(4).map(word).collect();
            let (label, rest) = rest.split_at(words[0]);
            let (file, rest) = rest.split_at(words[1]);
            cases.push(Case {
                group: group.to_owned(),
                label: String::from_utf8_lossy(label).into_owned(),
                file: file.to_vec(),
                targets: (1000..).take(words[2]).collect(),
                lists: [3, 4, 5].map(|list| vec![7; words[list]]),
            });
            left = rest;
        }
    }
    let lines = text("stdout");
    assert_eq!(lines.lines().count(), cases.len());
    cases.into_iter().zip(lines.lines().map(str::to_owned)).collect()
}

impl Case {
    /// What crates/file_judge prints of it, by these answers, with lists and without, and the lists as they are after
    /// the call.
    pub fn line(&self, answer: Answer, head: Answer) -> String {
        let told = |answer: Answer| match answer {
            Ok(words) => format!("read{}", words.map(|word| format!(" {word}")).concat()),
            Err(row) => format!("refused {row}"),
        };
        let sums = self.lists.each_ref().map(|list| weighed(list).to_string()).join(" ");
        format!("{} {} {} {sums} head {}", self.group, self.label, told(answer), told(head))
    }
}

/// Each word times its place from 1, summed modulo 2^32.
fn weighed(list: &[u32]) -> u32 {
    (1..).zip(list).fold(0, |sum: u32, (place, word)| sum.wrapping_add(word.wrapping_mul(place)))
}

pub fn compiled() -> Vec<Compiled> {
    let mut found = Vec::new();
    for folder in ["1.1", "1.2", "1.3", "1.4", "cldc1.1", "object"] {
        for entry in fs::read_dir(top().join("tools/classfiles").join(folder)).expect("stored files") {
            let path = entry.expect("an entry").path();
            if path.extension().is_some_and(|extension| extension == "class") {
                let lines = fs::read_to_string(path.with_extension("txt")).expect("javap's lines");
                found.push(Compiled { bytes: fs::read(&path).expect("a class file"), path, lines });
            }
        }
    }
    found
}

/// A class in the form of those lines, which tools/classfiles/make writes: its name, its parent's, its flags; each
/// member's kind, name, descriptor and flags.
pub fn printed<'a>(
    name: &str,
    parent: Option<&str>,
    flags: u32,
    members: impl Iterator<Item = (&'a str, &'a str, &'a str, u32)>,
) -> String {
    let extends = parent.map_or(String::new(), |parent| format!(" extends {parent}"));
    let first = format!("class {name}{extends} {flags:#06x}\n");
    let member = |(kind, name, descriptor, flags)| format!("{kind} {name} {descriptor} {flags:#06x}\n");
    first + &members.map(member).collect::<String>()
}
