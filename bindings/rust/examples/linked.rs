//! linked FOLDER: links the classes of FOLDER/abi.bin and FOLDER/classes.bin as the listing does, by the library, and prints what a
//! link gives beside the listing. Status: 0 all linked, 1 something is refused, 2 a wrong command, 3 a file cannot be read, 4 the output
//! cannot be written.

use std::fmt::Write as _;
use std::io::Write as _;
use std::path::Path;
use std::process::ExitCode;

use lgt_linker::layout::MOST_SLOTS;
use lgt_linker::{AbiSheet, Area, Class, ClassSet, Linked, Slot};

/// The listing's own: words of the area, and the first stub word.
const AREA_WORDS: usize = 4096;
const FIRST_STUB: u32 = 4_026_531_840;
/// Room for every interface table that is asked for after the links.
const ASKED_WORDS: usize = 1 << 20;

/// The name and descriptor of the first method with that target, class first, then its ancestors.
fn named(class: Class, target: u32) -> String {
    let found = class.chain().flat_map(Class::methods).find(|method| method.target == target);
    found.map_or("- -".to_owned(), |method| format!("{} {}", method.name, method.descriptor))
}

/// A field's word index; below zero as such, too.
fn index(word: u32) -> String {
    match word as i32 {
        signed if signed < 0 => format!("{word} ({signed})"),
        _ => word.to_string(),
    }
}

/// The lines of a linked class, of which these many fields and methods were declared.
fn class_text(class: Class, linked: Linked, declared: [usize; 2]) -> String {
    let (number, name, words) = (class.number(), class.name(), class.instance_words());
    let statics = match class.static_words() {
        0 => String::new(),
        words => format!(" statics {words}"),
    };
    let mut text = format!("class {number} {name} words {words} slots {} place {}{statics}\n", linked.slots, linked.place);
    for (number, field) in class.fields().enumerate() {
        let is_static = if field.is_static() { " static" } else { "" };
        let added = if number < declared[0] { "" } else { " added" };
        let _ = writeln!(text, "  field {} {} {}{is_static}{added}", field.name, field.descriptor, index(field.word_index));
    }
    for method in class.methods().skip(declared[1]) {
        let _ = writeln!(text, "  method {} {} {} added", method.name, method.descriptor, method.target);
    }
    text
}

/// The slot's name and descriptor as the listing has them: of its method, or of the ABI row that fixes it in the nearest class.
fn slot_named(abi: &AbiSheet, class: Class, slot: &Slot) -> String {
    if let Some(method) = slot.method {
        return format!("{} {}", method.name, method.descriptor);
    }
    let fixed = class.chain().find_map(|class| abi.class_named(class.name())?.slots().find(|row| row.index == slot.index));
    fixed.map_or("- -".to_owned(), |row| format!("{} {}", row.name, row.descriptor))
}

/// The class's missing slots, if it has any: how many, and each with what it is called.
fn missing_text(set: &ClassSet, abi: &AbiSheet, class: Class, area: &Area) -> String {
    let (missing, slots) = (set.missing_indices(class.number()), set.slots(abi, area, class.number()));
    if missing.is_empty() {
        return String::new();
    }
    let mut text = format!("  missing {} of {} slots\n", missing.len(), slots.len());
    for slot in slots.iter().filter(|slot| missing.contains(&slot.index)) {
        let _ = writeln!(text, "    {} {}", slot.index, slot_named(abi, class, slot));
    }
    text
}

/// The tables of the class's own interfaces; whether one is refused.
fn interface_text(set: &ClassSet, abi: &AbiSheet, class: Class, area: &mut Area, stubs: &[u32]) -> (String, bool) {
    let (mut text, mut refused) = (String::new(), false);
    for interface in class.interfaces() {
        let (number, name) = (interface.number(), interface.name());
        match set.interface_dispatch_table(abi, class.number(), number, area, stubs) {
            Ok(asked) => {
                let _ = writeln!(text, "  interface {number} {name} place {}", asked.place);
                for slot in set.interface_slots(abi, area, number, asked) {
                    let _ = writeln!(text, "    {} {} {}", slot.index, named(class, slot.target), slot.target);
                }
            }
            Err(refusal) => {
                refused = true;
                let _ = writeln!(text, "  interface {number} {name} refused {}", refusal.number());
            }
        }
    }
    (text, refused)
}

/// What is printed, and whether something is refused.
fn told(abi_sheet: &[u8], class_sheet: &[u8]) -> (String, bool) {
    let abi = match AbiSheet::read(abi_sheet) {
        Ok(abi) => abi,
        Err(refusal) => return (format!("abi refused {}\n", refusal.number()), true),
    };
    let mut set = match ClassSet::read(class_sheet) {
        Ok(set) => set,
        Err(refusal) => return (format!("classes refused {}\n", refusal.number()), true),
    };
    let mut area = Area::fresh(AREA_WORDS);
    let stubs: Vec<u32> = (FIRST_STUB..).take(MOST_SLOTS).collect();
    let declared: Vec<[usize; 2]> = set.classes().map(|class| [class.fields().count(), class.methods().count()]).collect();
    let answers = set.link_all(&abi, &mut area, &stubs);
    // Tables are asked for once all classes are linked; the links above are the listing's.
    let mut words = area.into_words();
    words.resize(ASKED_WORDS, 0);
    let mut area = Area::from_words(words);
    let (mut text, mut refused) = (String::new(), false);
    for ((class, answer), declared) in set.classes().zip(answers).zip(declared) {
        match answer {
            Ok(linked) => {
                let (tables, one_refused) = interface_text(&set, &abi, class, &mut area, &stubs);
                refused |= one_refused;
                text += &(class_text(class, linked, declared) + &missing_text(&set, &abi, class, &area) + &tables);
            }
            Err(refusal) => {
                refused = true;
                let _ = writeln!(text, "class {} refused {}", class.number(), refusal.number());
            }
        }
    }
    (text, refused)
}

fn failed(status: u8, message: &str) -> ExitCode {
    eprintln!("linked: {message}");
    ExitCode::from(status)
}

fn main() -> ExitCode {
    let words: Vec<String> = std::env::args().skip(1).collect();
    let [folder] = &words[..] else { return failed(2, "usage: linked FOLDER") };
    let read = |name: &str| {
        let path = Path::new(folder).join(name);
        std::fs::read(&path).map_err(|error| format!("{}: {error}", path.display()))
    };
    let (text, refused) = match (read("abi.bin"), read("classes.bin")) {
        (Ok(abi), Ok(classes)) => told(&abi, &classes),
        (Err(message), _) | (_, Err(message)) => return failed(3, &message),
    };
    let mut output = std::io::stdout().lock();
    match output.write_all(text.as_bytes()).and_then(|()| output.flush()) {
        Err(error) => failed(4, &format!("the output could not be written: {error}")),
        Ok(()) => ExitCode::from(u8::from(refused)),
    }
}
