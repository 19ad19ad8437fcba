//! emulator: how an LGT emulator uses this crate (docs/INTEGRATION.md). Builds the classes of examples/desk in memory, links them as they
//! are loaded, publishes their tables to the phone's memory, and calls "withdraw" and "renew" through the tables' slots, by class and by
//! interface. It ends with a failed assertion where another method runs than Java's rules say.

use std::collections::BTreeMap;
use std::error::Error;

use lgt_linker::layout::{LINKED_BY_COMPILER, MOST_SLOTS, flags};
use lgt_linker::{AbiBuilder, AbiClassBuilder, AbiSheet, Area, ClassBuilder, ClassSet, Kind, SetBuilder};

type Done<T> = Result<T, Box<dyn Error>>;

/// The phone's memory, words at addresses that are multiples of 4, and the code that stands at the targets.
#[derive(Default)]
struct Phone {
    words: BTreeMap<u32, u32>,
    free: u32,
    code: BTreeMap<u32, String>,
}

impl Phone {
    fn allocate(&mut self, words: &[u32]) -> u32 {
        let at = self.free;
        self.words.extend((at..).step_by(4).zip(words.iter().copied()));
        self.free += 4 * words.len() as u32;
        at
    }

    /// A call through a table: the slots stand behind the class's pointer.
    fn call(&self, table: u32, slot: u32) -> &str {
        &self.code[&self.words[&(table + 4 * (slot + 1))]]
    }
}

/// What the emulator keeps for the linker: one set, one ABI sheet, one area and one stub list for its lifetime.
struct Emulator {
    set: ClassSet,
    abi: AbiSheet,
    area: Area,
    stubs: Vec<u32>,
    phone: Phone,
    /// By class number: the class's pointer and that of its table.
    pointers: BTreeMap<u32, [u32; 2]>,
    /// By class and interface number: the pointer of the interface table.
    interface_tables: BTreeMap<[u32; 2], u32>,
}

impl Emulator {
    fn new(set: ClassSet, abi: AbiSheet) -> Emulator {
        let mut phone = Phone { free: 0x10_0000, ..Phone::default() };
        for class in set.classes() {
            phone.code.extend(class.methods().map(|method| (method.target, format!("{}.{}", class.name(), method.name))));
        }
        // `make_svc_stub(SVC_CATEGORY_MISSING_JAVA_VTABLE_ENTRY, index)`, once for every index.
        let stubs: Vec<u32> = (0xF000_0000..).take(MOST_SLOTS).collect();
        phone.code.extend(stubs.iter().map(|&stub| (stub, format!("missing slot {}", stub & 0xFFFF))));
        Emulator { set, abi, area: Area::fresh(4096), stubs, phone, pointers: BTreeMap::new(), interface_tables: BTreeMap::new() }
    }

    fn number(&self, class: &str) -> Done<u32> {
        Ok(self.set.class_named(class).ok_or_else(|| format!("no class {class}"))?.number())
    }

    /// `JavaClassDefinition::new`, `new_array` and `prepare_generated` alike: the record's kind tells them apart. A parent comes first.
    fn load(&mut self, class: &str) -> Done<()> {
        let number = self.number(class)?;
        let linked = self.set.link(&self.abi, number, &mut self.area, &self.stubs)?;
        // In the area a table begins with the class's number and ends with a list head; the phone's has the class's pointer, and its
        // list stays with the area.
        let class_pointer = self.phone.allocate(&[0]);
        let table = self.phone.allocate(&[&[class_pointer], self.area.slots(linked), &[0]].concat());
        self.phone.words.insert(class_pointer, table);
        self.pointers.insert(number, [class_pointer, table]);
        let words = self.set.class(number).map_or(0, |class| class.instance_words());
        println!("class {number} {class}: place {}, table at {table:#x}, {} slots, {words} instance words", linked.place, linked.slots);
        Ok(())
    }

    /// `JavaClassInstance::new`: the table's pointer, then the instance words.
    fn instantiate(&mut self, class: &str) -> Done<u32> {
        let number = self.number(class)?;
        let words = self.set.class(number).map_or(0, |class| class.instance_words());
        let table = self.pointers[&number][1];
        Ok(self.phone.allocate(&[&[table][..], &vec![0; words as usize]].concat()))
    }

    /// `virtual_method_index`.
    fn slot(&self, class: &str, name: &str, descriptor: &str) -> Done<u32> {
        let found = self.set.virtual_method_index(&self.abi, &self.area, self.number(class)?, name, descriptor);
        Ok(found.ok_or_else(|| format!("no virtual method {class}.{name}{descriptor}"))?)
    }

    /// `interface_dispatch_table`: the library finds or builds the table in the area; the phone's copy is made once.
    fn interface_table(&mut self, class: &str, interface: &str) -> Done<u32> {
        let key = [self.number(class)?, self.number(interface)?];
        let asked = self.set.interface_dispatch_table(&self.abi, key[0], key[1], &mut self.area, &self.stubs)?;
        if let Some(table) = self.interface_tables.get(&key) {
            return Ok(*table);
        }
        let slots = self.set.interface_slots(&self.abi, &self.area, key[1], asked);
        let words: Vec<u32> = [self.pointers[&key[1]][0]].into_iter().chain(slots.iter().map(|slot| slot.target)).collect();
        let table = self.phone.allocate(&words);
        self.interface_tables.insert(key, table);
        println!("{class} as {interface}: place {}, table at {table:#x}", asked.place);
        Ok(table)
    }
}

/// The classes of examples/desk, as prototypes and generated classes give them.
fn classes() -> SetBuilder {
    let object = ClassBuilder::new("java/lang/Object").method("equals", "(Ljava/lang/Object;)Z", 0x1000).method("hashCode", "()I", 0x1010);
    let renewable = ClassBuilder::new("Renewable").flags(flags::PUBLIC | flags::INTERFACE);
    let card = ClassBuilder::new("Card").extends("java/lang/Object").implements("Renewable");
    let staff = ClassBuilder::new("StaffCard").extends("Card").kind(Kind::Generated).link_state(LINKED_BY_COMPILER).instance_words(5);
    SetBuilder::new()
        .class(object)
        .class(renewable.method_with("renew", "()V", flags::PUBLIC | flags::ABSTRACT, 0x2000))
        .class(card.method("withdraw", "()V", 0x3000).method("renew", "()V", 0x3010).field("holder", "I").field("until", "J"))
        .class(ClassBuilder::new("VipCard").extends("Card").method("renew", "()V", 0x4000))
        .class(staff.compiler_table(&[0, 0, 0x5000]).method("withdraw", "()V", 0x5000).field("desk", "I"))
        .class(ClassBuilder::new("[LCard;").extends("java/lang/Object").kind(Kind::Array))
}

/// What `data/lgt_java_abi.toml` says; `tools/sheet abi-from-toml` makes a sheet of such a file.
fn abi() -> AbiBuilder {
    let object = AbiClassBuilder::new("java/lang/Object").table_size(2);
    AbiBuilder::new().class(object.slot("equals", "(Ljava/lang/Object;)Z", 0).slot("hashCode", "()I", 1).field("lock", "I", 0))
}

/// Each card, the method that its "withdraw" must run and the one that its "renew" must run, by Java's rules.
const CARDS: [[&str; 3]; 3] = [
    ["Card", "Card.withdraw", "Card.renew"],
    ["VipCard", "Card.withdraw", "VipCard.renew"],
    ["StaffCard", "StaffCard.withdraw", "Card.renew"],
];

fn main() -> Done<()> {
    assert_eq!(classes().sheet()?, include_bytes!("../../../examples/desk/classes.bin"));
    assert_eq!(abi().sheet(), include_bytes!("../../../examples/desk/abi.bin"));
    let mut emulator = Emulator::new(classes().build()?, abi().build()?);
    for class in ["java/lang/Object", "Renewable", "Card", "VipCard", "StaffCard", "[LCard;"] {
        emulator.load(class)?;
    }

    // A call site was compiled against Card: it knows a slot and no name.
    let [withdraw, renew] = [emulator.slot("Card", "withdraw", "()V")?, emulator.slot("Card", "renew", "()V")?];
    println!("Card.withdraw is slot {withdraw}, Card.renew slot {renew}");
    for [class, withdraws, renews] in CARDS {
        let object = emulator.instantiate(class)?;
        let table = emulator.phone.words[&object];
        let ran = [emulator.phone.call(table, withdraw), emulator.phone.call(table, renew)];
        println!("a {class}: slot {withdraw} runs {}, slot {renew} runs {}", ran[0], ran[1]);
        assert_eq!(ran, [withdraws, renews]);
    }

    let renew = emulator.slot("Renewable", "renew", "()V")?;
    for [class, _, renews] in CARDS {
        let table = emulator.interface_table(class, "Renewable")?;
        let ran = emulator.phone.call(table, renew);
        println!("a {class} as Renewable: slot {renew} runs {ran}");
        assert_eq!(ran, renews);
        assert_eq!(emulator.interface_table(class, "Renewable")?, table);
    }

    for (class, field, descriptor) in [("VipCard", "until", "J"), ("StaffCard", "desk", "I"), ("StaffCard", "lock", "I")] {
        let index = emulator.set.field_word_index(emulator.number(class)?, field, descriptor, false).ok_or("no field")?;
        println!("{field} of a {class} is instance word {index}");
    }
    Ok(())
}
