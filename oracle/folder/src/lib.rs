//! What a folder of two sheets comes to, by the model: the listing, the missing slots, and the reasons of what is refused. What a class
//! file holds.

use std::fmt::Write;

use model::class_file::{FileRefused, class_file};
use model::parts::{AbiSheet, ClassSheet, Entry, is_counted, reading, table_of, text_of_abi_words, text_of_class_words};
use model::side::{Sheets, SheetsMut};
use model::why::{Refused, Why, shown};
use model::{ask, link, number_signatures, read_abi_sheet, read_class_sheet};

// "links all in number order with 11,684 class words lent, in a fresh area of 4,096 words with 1,024 stub words, each
// 4026531840 + index"
const CLASS_WORDS: usize = 11_684;
const ABI_WORDS: usize = 6_477;
const NUMBERS: usize = 1_024;
const AREA_WORDS: usize = 4_096;
const STUBS: u32 = 1_024;
const FIRST_STUB: u32 = 4_026_531_840;
/// A list of missing slots that is long enough for every set.
const MISSING_WORDS: usize = 2_112;
/// Room for every interface table that a set can ask for, so that no reason is about the desk's own area.
const ASKED_WORDS: usize = 1 << 20;

const INTERFACE: u32 = 0x0200;
const ABSTRACT: u32 = 0x0400;

/// What is printed, and whether a sheet, a class or an interface table is refused.
pub struct Told {
    pub text: String,
    pub refused: bool,
}

/// The words of both sheets, read, the list of their signatures' numbers, and the area.
struct Desk {
    set: Vec<u32>,
    abi: Vec<u32>,
    numbers: Vec<u32>,
    area: Vec<u32>,
    stubs: Vec<u32>,
    missing: Vec<u32>,
}

impl Desk {
    /// Reads both sheets: "a bad sheet `abi refused R` or `classes refused R`".
    fn read(abi_sheet: &[u8], class_sheet: &[u8]) -> Result<Self, String> {
        let (mut set, mut abi, mut area) = (vec![0; CLASS_WORDS], vec![0; ABI_WORDS], vec![0; AREA_WORDS]);
        read_abi_sheet(abi_sheet, &mut abi).map_err(|refused| format!("abi refused {}", refused.row))?;
        read_class_sheet(class_sheet, &mut set).map_err(|refused| format!("classes refused {}", refused.row))?;
        area[0] = 1;
        let stubs = (0..STUBS).map(|index| FIRST_STUB + index).collect();
        let mut numbers = vec![0; NUMBERS];
        number_signatures(&set, &abi, &mut numbers).expect("sheets that were read are numbered");
        Ok(Self { set, abi, numbers, area, stubs, missing: vec![0; MISSING_WORDS] })
    }

    fn class_count(&self) -> u32 {
        self.set[0]
    }

    fn link(&mut self, class: u32) -> Result<(u32, u32), Refused> {
        let sheets = SheetsMut { set: &mut self.set, abi: &self.abi, numbers: &mut self.numbers };
        link(sheets, class, &mut self.area, &self.stubs, &mut self.missing)
    }

    fn ask(&mut self, class: u32, interface: u32) -> Result<(u32, u32), Refused> {
        let sheets = Sheets { set: &self.set, abi: &self.abi, numbers: &self.numbers };
        ask(sheets, class, interface, &mut self.area, &self.stubs)
    }

    /// What `look` finds in both sheets and the area.
    fn view<T>(&self, look: impl FnOnce(&ClassSheet, &AbiSheet, &[u32]) -> T) -> T {
        let (text, abi_text) = (text_of_class_words(&self.set), text_of_abi_words(&self.abi));
        let set = ClassSheet { words: &self.set, text: &text, numbers: &self.numbers };
        let abi = AbiSheet { words: &self.abi, text: &abi_text, numbers: &self.numbers };
        look(&set, &abi, &self.area)
    }
}

/// The listing: a line for each class and each slot.
pub fn listing(abi_sheet: &[u8], class_sheet: &[u8]) -> Told {
    let mut desk = match Desk::read(abi_sheet, class_sheet) {
        Ok(desk) => desk,
        Err(line) => return Told { text: line + "\n", refused: true },
    };
    let mut told = Told { text: String::new(), refused: false };
    for class in 1..=desk.class_count() {
        match desk.link(class) {
            Ok(_) => told.text += &desk.view(|set, abi, area| class_lines(set, abi, area, class)),
            Err(refused) => {
                told.refused = true;
                told.text += &format!("class {class} refused {}\n", refused.row);
            }
        }
    }
    told
}

/// "class number, name, words, slots; then slot, name, descriptor, target", and the number of the class that declares the method
fn class_lines(set: &ClassSheet, abi: &AbiSheet, area: &[u32], class: u32) -> String {
    let record = set.class(class);
    let mut lines = format!("class {class} {} words {} slots {}\n", shown(set.name(class)), record.instance_words, record.slots);
    for (entry, index) in reading(set, abi, area, class).iter().zip(0..) {
        let (name, descriptor) = slot_name(set, abi, class, index, entry);
        let declaring = entry.method.map_or(0, |method| method.owner);
        writeln!(lines, "{index} {name} {descriptor} {} {declaring}", entry.target).expect("a string takes all");
    }
    lines
}

/// "A slot's name comes from the class text, or from the ABI text if unknown but fixed (nearest chain class), else `-` for both."
fn slot_name(set: &ClassSheet, abi: &AbiSheet, class: u32, index: u32, entry: &Entry) -> (String, String) {
    if let Some(method) = entry.method {
        return (shown(method.name), shown(method.descriptor));
    }
    let fixed = set.chain(class).into_iter().find_map(|class| {
        let entry = abi.class_named(set.name(class))?;
        abi.slots_of(entry).find(|slot| slot.index == index)
    });
    fixed.map_or(("-".to_owned(), "-".to_owned()), |slot| (shown(slot.name), shown(slot.descriptor)))
}

/// A slot's name and descriptor.
type Named = (String, String);

/// How many slots each class has and how many of them are missing, with the names of these where they are known.
pub fn missing(abi_sheet: &[u8], class_sheet: &[u8]) -> Told {
    let mut desk = match Desk::read(abi_sheet, class_sheet) {
        Ok(desk) => desk,
        Err(line) => return Told { text: line + "\n", refused: true },
    };
    let mut told = Told { text: String::new(), refused: false };
    let mut names: Vec<Vec<Named>> = vec![Vec::new()];
    for class in 1..=desk.class_count() {
        let named = desk.view(|set, abi, area| made_names(set, abi, area, &names, class));
        match desk.link(class) {
            Ok((_, slots)) => {
                let name = desk.view(|set, _, _| shown(set.name(class)));
                let counted: Vec<usize> = (0..slots as usize).filter(|&slot| is_counted(&desk.missing, class, slot)).collect();
                writeln!(told.text, "class {class} {name} slots {slots} missing {}", counted.len()).expect("a string takes all");
                for slot in counted {
                    writeln!(told.text, "  {slot} {} {}", named[slot].0, named[slot].1).expect("a string takes all");
                }
            }
            Err(refused) => {
                told.refused = true;
                told.text += &format!("class {class} refused {}\n", refused.row);
            }
        }
        names.push(named);
    }
    told
}

/// What each slot is called in the table that a link is about to write: by its method, with or without a target; by the parent's slot of the
/// index, of which what no method is known of can only be a copy; or as the listing has it.
fn made_names(set: &ClassSheet, abi: &AbiSheet, area: &[u32], names: &[Vec<Named>], class: u32) -> Vec<Named> {
    let parent = set.class(class).parent;
    if parent != 0 && !set.is_linked(parent) {
        return Vec::new();
    }
    let entries = table_of(set, abi, area, &[], class).unwrap_or_default();
    let named = |(slot, entry): (usize, &Entry)| match names[parent as usize].get(slot) {
        Some(inherited) if entry.method.is_none() && entry.target != 0 => inherited.clone(),
        _ => slot_name(set, abi, class, slot as u32, entry),
    };
    entries.iter().enumerate().map(named).collect()
}

/// The reason of each refusal: of the listing's links, then of the interface tables of the classes that are linked.
pub fn reasons(abi_sheet: &[u8], class_sheet: &[u8]) -> Told {
    let mut desk = match Desk::read(abi_sheet, class_sheet) {
        Ok(desk) => desk,
        Err(line) => return Told { text: line + "\n", refused: true },
    };
    let mut told = Told { text: String::new(), refused: false };
    let mut rows = vec![0];
    for class in 1..=desk.class_count() {
        let row = desk.link(class).map_or_else(
            |refused| {
                told.text += &format!("class {class} refused {}\n  {}\n", refused.row, link_reason(&desk, class, &refused, &rows));
                refused.row
            },
            |_| 0,
        );
        rows.push(row);
    }
    let (asked, refused) = ask_reasons(&mut desk, &rows, &mut told.text);
    let linked = rows[1..].iter().filter(|&&row| row == 0).count();
    told.refused = linked < rows.len() - 1 || refused > 0;
    told.text += &format!("{linked} of {} classes link, {} of {asked} interface tables are built\n", rows.len() - 1, asked - refused);
    told
}

/// A link's reason; of a class whose parent is refused, by which row.
fn link_reason(desk: &Desk, class: u32, refused: &Refused, rows: &[u32]) -> String {
    let sentence = refused.sentence(&desk.set, class);
    match refused.why {
        Why::ParentUnlinked { parent } => format!("{sentence}, as it is refused by {}", rows[parent as usize]),
        _ => sentence,
    }
}

/// Asks each linked class that can have instances for the tables of its chain's interfaces. Answers how many were asked and refused.
fn ask_reasons(desk: &mut Desk, rows: &[u32], text: &mut String) -> (usize, usize) {
    desk.area.resize(ASKED_WORDS, 0);
    let (mut asked, mut refusals) = (0, 0);
    for class in 1..=desk.class_count() {
        for interface in desk.view(|set, _, _| asked_interfaces(set, class)) {
            asked += 1;
            if let Err(refused) = desk.ask(class, interface) {
                refusals += 1;
                let mut sentence = refused.sentence(&desk.set, class);
                if rows[interface as usize] != 0 {
                    write!(sentence, ", as it is refused by {}", rows[interface as usize]).expect("a string takes all");
                }
                *text += &format!("class {class} interface {interface} refused {}\n  {sentence}\n", refused.row);
            }
        }
    }
    (asked, refusals)
}

/// The interfaces of the class's chain, each once; none of an unlinked class, an interface or an abstract class.
fn asked_interfaces(set: &ClassSheet, class: u32) -> Vec<u32> {
    if !set.is_linked(class) || set.class(class).flags & (INTERFACE | ABSTRACT) != 0 {
        return Vec::new();
    }
    let mut interfaces = Vec::new();
    for &interface in set.chain(class).iter().flat_map(|&class| set.interfaces_of(class)) {
        if !interfaces.contains(&interface) {
            interfaces.push(interface);
        }
    }
    interfaces
}

/// The class of a class file in the text form of `tools/sheet make`; method m has the target first + m * step modulo
/// 2^32.
pub fn members(bytes: &[u8], first: u32, step: u32) -> Result<String, FileRefused> {
    let file = class_file(bytes)?;
    let extends = file.parent.map_or(String::new(), |parent| format!(" extends {}", shown(parent)));
    let mut text = format!("class {}{extends}\n  flags {}\n", shown(file.name), file.flags);
    let mut target = first;
    for method in &file.methods {
        let (name, descriptor) = (shown(method.name), shown(method.descriptor));
        writeln!(text, "  method {name} {descriptor} {target} flags {}", method.flags).expect("a string takes all");
        target = target.wrapping_add(step);
    }
    for field in &file.fields {
        let (name, descriptor) = (shown(field.name), shown(field.descriptor));
        writeln!(text, "  field {name} {descriptor} 0 flags {}", field.flags).expect("a string takes all");
    }
    Ok(text)
}
