//! A case: what is lent, and the calls that are made on it one after the other.

use std::fmt::{self, Display, Formatter};

use crate::sheet::{Abi, Set, class_word, range};

#[derive(Clone, Debug, Default, PartialEq, Eq)]
pub struct Case {
    pub set: Vec<u32>,
    pub abi: Vec<u32>,
    /// The list of the signatures' numbers.
    pub numbers: Vec<u32>,
    pub area: Vec<u32>,
    /// The list of missing slots.
    pub missing: Vec<u32>,
    /// The stub lists that the calls lend.
    pub stubs: Vec<Vec<u32>>,
    pub calls: Vec<Call>,
    /// Whether the oracle lays the classes out anew for each call.
    pub rebuilds: bool,
    /// What the generator broke on purpose, if anything.
    pub spoiled: Option<&'static str>,
}

/// A link or an ask, with the number of the stub list that it lends, a question for a count of missing slots, or a filling of the list of
/// numbers.
#[derive(Clone, Copy, Debug, PartialEq, Eq)]
pub enum Call {
    Link { class: u32, stubs: usize },
    Ask { class: u32, interface: u32, stubs: usize },
    Missing { class: u32 },
    Fill,
}

impl Call {
    /// The number of the stub list; a call that lends none has 0.
    pub fn stubs(&self) -> usize {
        match *self {
            Self::Link { stubs, .. } | Self::Ask { stubs, .. } => stubs,
            Self::Missing { .. } | Self::Fill => 0,
        }
    }

    /// Lends another stub list, if it lends one.
    pub fn lend(&mut self, list: usize) {
        if let Self::Link { stubs, .. } | Self::Ask { stubs, .. } = self {
            *stubs = list;
        }
    }
}

impl Display for Call {
    fn fmt(&self, f: &mut Formatter<'_>) -> fmt::Result {
        match self {
            Self::Link { class, stubs } => write!(f, "link {class}, stub list {stubs}"),
            Self::Ask { class, interface, stubs } => write!(f, "ask class {class}, interface {interface}, stub list {stubs}"),
            Self::Missing { class } => write!(f, "missing slots of class {class}"),
            Self::Fill => write!(f, "fill the list of numbers"),
        }
    }
}

impl Display for Case {
    fn fmt(&self, f: &mut Formatter<'_>) -> fmt::Result {
        match Set::decode(&self.set) {
            Some(set) => show_set(f, &set, self.set.len())?,
            None => writeln!(f, "class words {}", run_lengths(&self.set))?,
        }
        match Abi::decode(&self.abi) {
            Some(abi) => show_abi(f, &abi, self.abi.len())?,
            None => writeln!(f, "ABI words {}", run_lengths(&self.abi))?,
        }
        writeln!(f, "list of numbers of {}: {}", self.numbers.len(), run_lengths(&self.numbers))?;
        writeln!(f, "area of {}: {}", self.area.len(), run_lengths(&self.area))?;
        writeln!(f, "list of missing slots of {}: {}", self.missing.len(), run_lengths(&self.missing))?;
        for (number, stubs) in self.stubs.iter().enumerate() {
            writeln!(f, "stub list {number} of {}: {}", stubs.len(), run_lengths(stubs))?;
        }
        if let Some(spoiled) = self.spoiled {
            writeln!(f, "spoiled: {spoiled}")?;
        }
        self.calls.iter().try_for_each(|call| writeln!(f, "{call}"))
    }
}

fn show_set(f: &mut Formatter<'_>, set: &Set, lent: usize) -> fmt::Result {
    let text = |part: (u32, u32)| show_part(&set.text, part);
    let content = set.content();
    writeln!(
        f,
        "class words: {content} lent {lent}; {} methods, {} fields, {} text bytes",
        set.methods.len(),
        set.fields.len(),
        set.text.len()
    )?;
    for (position, class) in set.classes.iter().enumerate() {
        let kind = match class.get(class_word::KIND) {
            0 => "built".to_owned(),
            1 => "generated".to_owned(),
            2 => "array".to_owned(),
            3 => "packaged".to_owned(),
            other => format!("kind {other}"),
        };
        writeln!(
            f,
            "class {} {} {kind} parent {} flags {:#x} link state {} words {} compiler {:?} place {} slots {} statics {}",
            position + 1,
            text(class.span(class_word::NAME)),
            class.get(class_word::PARENT),
            class.get(class_word::FLAGS),
            class.get(class_word::LINK_STATE),
            class.get(class_word::INSTANCE_WORDS),
            class.span(class_word::COMPILER),
            class.get(class_word::PLACE),
            class.get(class_word::SLOTS),
            class.get(class_word::STATIC_WORDS),
        )?;
        let lists = [("method", &set.methods, class_word::METHODS), ("field", &set.fields, class_word::FIELDS)];
        for (what, section, word) in lists {
            let (first, count) = class.span(word);
            for position in first..first.saturating_add(count.min(600)) {
                let Some(member) = section.get(position as usize) else { continue };
                writeln!(
                    f,
                    "  {what} {position} {} {} flags {:#x} last {}",
                    text(member.name),
                    text(member.descriptor),
                    member.flags,
                    member.last
                )?;
            }
        }
        let (first, count) = class.span(class_word::INTERFACES);
        if count != 0 {
            writeln!(f, "  interface words {first}..+{count}")?;
        }
    }
    if !set.interfaces.is_empty() {
        writeln!(f, "interface words {:?}", set.interfaces)?;
    }
    if !set.compiler.is_empty() {
        writeln!(f, "compiler words {}", run_lengths(&set.compiler))?;
    }
    Ok(())
}

fn show_abi(f: &mut Formatter<'_>, abi: &Abi, lent: usize) -> fmt::Result {
    let text = |part: (u32, u32)| show_part(&abi.text, part);
    writeln!(f, "ABI words lent {lent}")?;
    for class in &abi.classes {
        let name = text(class.name);
        writeln!(
            f,
            "abi {name} size+1 {} words+1 {} slots {:?} fields {:?}",
            class.size_plus_1, class.words_plus_1, class.slots, class.fields
        )?;
        for (what, section, span) in [("slot", &abi.slots, class.slots), ("field", &abi.fields, class.fields)] {
            for member in section.get(range((span.0.min(600), span.1.min(600)))).unwrap_or_default() {
                writeln!(f, "  {what} {} {} at {}", text(member.name), text(member.descriptor), member.index)?;
            }
        }
    }
    Ok(())
}

fn show_part(text: &[u8], (start, length): (u32, u32)) -> String {
    let part = text.get(start as usize..).and_then(|tail| tail.get(..length as usize));
    part.map_or_else(|| format!("?{start}+{length}"), |part| part.escape_ascii().to_string())
}

/// Words in short: `a..b` for a run that counts up, `a*n` for a repeated one.
pub fn run_lengths(words: &[u32]) -> String {
    let mut parts = Vec::new();
    let mut at = 0;
    while at < words.len() {
        let length_by =
            |step: u32| (1..words.len() - at).take_while(|&n| words[at + n] == words[at].wrapping_add(step * n as u32)).count() + 1;
        let (same, rising) = (length_by(0), length_by(1));
        if same > 3 {
            parts.push(format!("{}*{same}", words[at]));
            at += same;
        } else if rising > 3 {
            parts.push(format!("{}..{}", words[at], words[at + rising - 1]));
            at += rising;
        } else {
            parts.push(words[at].to_string());
            at += 1;
        }
    }
    parts.join(" ")
}
