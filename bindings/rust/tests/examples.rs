//! The folders under examples/, held to what the proved program lists of them and to the bytes that `tools/sheet make` makes.

use std::{fs, path::Path, path::PathBuf};

use lgt_linker::*;

/// Every folder of examples that has this file, with its contents.
fn folders(file: &str) -> Vec<(PathBuf, String)> {
    let examples = Path::new(env!("CARGO_MANIFEST_DIR")).join("../../examples");
    let folders = fs::read_dir(examples).unwrap().map(|entry| entry.unwrap().path());
    let mut found: Vec<_> = folders.filter_map(|folder| Some((folder.clone(), fs::read_to_string(folder.join(file)).ok()?))).collect();
    found.sort();
    assert!(found.len() >= 7, "only {} folders with {file}", found.len());
    found
}

fn sheet(folder: &Path, name: &str) -> Vec<u8> {
    fs::read(folder.join(name)).unwrap()
}

fn stubs() -> Vec<u32> {
    (4_026_531_840..).take(layout::MOST_SLOTS).collect()
}

/// A slot's name and descriptor in a listing: its method's, else those of the row that the nearest chain class's ABI entry fixes there.
fn named<'a>(abi: &'a AbiSheet, class: Class<'a>, slot: Slot<'a>) -> (&'a str, &'a str) {
    let row = || {
        let mut rows = class.chain().filter_map(|class| abi.class_named(class.name())?.slots().find(|row| row.index == slot.index));
        rows.next().map(|row| (row.name, row.descriptor))
    };
    slot.method.map(|method| (method.name, method.descriptor)).or_else(row).unwrap_or(("-", "-"))
}

/// The number of the class that declares a slot's method: the nearest on the chain whose list has it; 0 for an unknown slot.
fn declaring(class: Class, slot: Slot) -> u32 {
    let Some(method) = slot.method else { return 0 };
    class.chain().find(|class| class.methods().any(|own| own == method)).map_or(0, Class::number)
}

/// The listing of a folder, by the accessors.
fn listed(set: &[u8], abi: &[u8]) -> String {
    let abi = match AbiSheet::read(abi) {
        Ok(abi) => abi,
        Err(refusal) => return format!("abi refused {}\n", refusal.number()),
    };
    let mut set = match ClassSet::read(set) {
        Ok(set) => set,
        Err(refusal) => return format!("classes refused {}\n", refusal.number()),
    };
    let mut area = Area::fresh(4096);
    let answers = set.link_all(&abi, &mut area, &stubs());
    let mut text = String::new();
    for (class, answer) in set.classes().zip(answers) {
        let number = class.number();
        match answer {
            Ok(linked) => {
                assert_eq!(class.linked(), Some(linked));
                text += &format!("class {number} {} words {} slots {}\n", class.name(), class.instance_words(), linked.slots);
                for slot in set.slots(&abi, &area, number) {
                    let (name, descriptor) = named(&abi, class, slot);
                    text += &format!("{} {name} {descriptor} {} {}\n", slot.index, slot.target, declaring(class, slot));
                    if let Some(method) = slot.method {
                        let index = set.virtual_method_index(&abi, &area, number, method.name, method.descriptor).unwrap();
                        assert!(index <= slot.index);
                    }
                }
            }
            Err(refusal) => text += &format!("class {number} refused {}\n", refusal.number()),
        }
    }
    text
}

#[test]
fn links_each_folder_as_its_listing_says() {
    for (folder, listing) in folders("listing.txt") {
        assert_eq!(listed(&sheet(&folder, "classes.bin"), &sheet(&folder, "abi.bin")), listing, "{}", folder.display());
    }
}

#[test]
fn a_thread_of_the_advised_stack_is_enough() {
    let advised = 256 * 1024;
    for (folder, listing) in folders("listing.txt") {
        let work = move || assert_eq!(listed(&sheet(&folder, "classes.bin"), &sheet(&folder, "abi.bin")), listing);
        std::thread::Builder::new().stack_size(advised).spawn(work).unwrap().join().unwrap();
    }
}

/// The lines of a text form as words, without comments.
fn lines(text: &str) -> impl Iterator<Item = Vec<&str>> {
    text.lines()
        .map(|line| line.split_whitespace().take_while(|word| !word.starts_with('#')).collect())
        .filter(|words: &Vec<_>| !words.is_empty())
}

fn number(word: &str) -> u32 {
    word.strip_prefix("0x").map_or_else(|| word.parse(), |digits| u32::from_str_radix(digits, 16)).unwrap()
}

fn flags(words: &[&str]) -> u32 {
    if let ["flags", flags] = words { number(flags) } else { 1 }
}

/// The builder of a class sheet's text form.
fn set_of(text: &str) -> SetBuilder {
    let mut classes: Vec<ClassBuilder> = Vec::new();
    for words in lines(text) {
        if let ["class", name, rest @ ..] = &words[..] {
            let mut class = ClassBuilder::new(name);
            if let ["extends", parent, ..] = rest {
                class = class.extends(parent);
            }
            classes.push(match rest.last() {
                Some(&"generated") => class.kind(Kind::Generated),
                Some(&"array") => class.kind(Kind::Array),
                Some(&"packaged") => class.kind(Kind::Packaged),
                _ => class,
            });
            continue;
        }
        let class = classes.pop().unwrap();
        classes.push(match &words[..] {
            ["method", name, descriptor, target, rest @ ..] => class.method_with(name, descriptor, flags(rest), number(target)),
            ["field", name, descriptor, index, rest @ ..] => class.field_with(name, descriptor, flags(rest), number(index)),
            ["implements", names @ ..] => names.iter().fold(class, |class, name| class.implements(name)),
            ["compiler", targets @ ..] => class.compiler_table(&targets.iter().map(|word| number(word)).collect::<Vec<_>>()),
            ["flags", flags] => class.flags(number(flags)),
            ["state", state] => class.link_state(number(state)),
            ["words", words] => class.instance_words(number(words)),
            ["statics", words] => class.static_words(number(words)),
            _ => panic!("{words:?}"),
        });
    }
    classes.into_iter().fold(SetBuilder::new(), SetBuilder::class)
}

/// The builder of an ABI sheet's text form.
fn abi_of(text: &str) -> AbiBuilder {
    let mut classes: Vec<AbiClassBuilder> = Vec::new();
    for words in lines(text) {
        match &words[..] {
            ["sheet", "abi"] => {}
            ["abi", "class", name, rest @ ..] => {
                let class = rest.chunks(2).fold(AbiClassBuilder::new(name), |class, option| match option {
                    ["size", size] => class.table_size(number(size)),
                    ["words", words] => class.instance_words(number(words)),
                    _ => panic!("{option:?}"),
                });
                classes.push(class);
            }
            [kind, name, descriptor, index] => {
                let class = classes.pop().unwrap();
                classes.push(if *kind == "slot" {
                    class.slot(name, descriptor, number(index))
                } else {
                    class.field(name, descriptor, number(index))
                });
            }
            _ => panic!("{words:?}"),
        }
    }
    classes.into_iter().fold(AbiBuilder::new(), AbiBuilder::class)
}

#[test]
fn builders_make_the_bytes_of_every_text_form() {
    for (folder, text) in folders("classes.txt") {
        // examples/alphabetical comes in another order, and classes.bin is its sheet put in order.
        let unordered = fs::read(folder.join("unordered.bin")).ok();
        let (built, stored) = (set_of(&text), unordered.unwrap_or_else(|| sheet(&folder, "classes.bin")));
        // examples/refused_sheet is a sheet that is refused; the builder says the same.
        assert_eq!(built.sheet().unwrap(), stored, "{}", folder.display());
        assert_eq!(built.build(), ClassSet::read(&stored).map_err(BuildError::Refused), "{}", folder.display());
    }
    for (folder, text) in folders("abi.txt") {
        let (built, stored) = (abi_of(&text), sheet(&folder, "abi.bin"));
        assert_eq!(built.sheet(), stored, "{}", folder.display());
        assert_eq!(built.build(), AbiSheet::read(&stored).map_err(BuildError::Refused), "{}", folder.display());
    }
}

/// What is read back by the accessors makes the same bytes again.
fn again(set: &ClassSet) -> SetBuilder {
    set.classes().fold(SetBuilder::new(), |builder, class| {
        let mut made = ClassBuilder::new(class.name()).flags(class.flags()).kind(class.kind());
        made = made.link_state(class.link_state()).instance_words(class.instance_words()).static_words(class.static_words());
        if let Some(parent) = class.parent() {
            made = made.extends(parent.name());
        }
        if let Some(table) = class.compiler_table() {
            made = made.compiler_table(table);
        }
        made = class.methods().fold(made, |made, one| made.method_with(one.name, one.descriptor, one.flags, one.target));
        made = class.fields().fold(made, |made, one| made.field_with(one.name, one.descriptor, one.flags, one.word_index));
        builder.class(class.interfaces().fold(made, |made, interface| made.implements(interface.name())))
    })
}

#[test]
fn accessors_see_all_that_a_sheet_says() {
    for (folder, _) in folders("listing.txt") {
        let (bytes, abi_bytes) = (sheet(&folder, "classes.bin"), sheet(&folder, "abi.bin"));
        if let Ok(set) = ClassSet::read(&bytes) {
            // Made again, the members of renumbered classes stand in the classes' order.
            let made = again(&set).sheet().unwrap();
            let same = if folder.join("unordered.bin").exists() { again(&ClassSet::read(&made).unwrap()).sheet().unwrap() } else { bytes };
            assert_eq!(made, same, "{}", folder.display());
        }
        let Ok(abi) = AbiSheet::read(&abi_bytes) else { continue };
        let made = abi.classes().fold(AbiBuilder::new(), |builder, class| {
            let mut made = AbiClassBuilder::new(class.name());
            made = class.table_size().map_or(made.clone(), |size| made.table_size(size));
            made = class.instance_words().map_or(made.clone(), |words| made.instance_words(words));
            made = class.slots().fold(made, |made, row| made.slot(row.name, row.descriptor, row.index));
            builder.class(class.fields().fold(made, |made, row| made.field(row.name, row.descriptor, row.index)))
        });
        assert_eq!(made.sheet(), abi_bytes, "{}", folder.display());
    }
}

#[test]
fn limits_are_the_librarys() {
    let many = |count: usize| (0..count).fold(SetBuilder::new(), |set, i| set.class(ClassBuilder::new(&format!("C{i}"))));
    assert_eq!(many(64).build().unwrap().class_count(), 64);
    assert_eq!(many(65).build(), Err(BuildError::Refused(Refusal::SheetCounts)));
    let twice = SetBuilder::new().class(ClassBuilder::new("A")).class(ClassBuilder::new("A"));
    assert_eq!(twice.build(), Err(BuildError::Refused(Refusal::Record)));
    let late = SetBuilder::new().class(ClassBuilder::new("B").extends("A")).class(ClassBuilder::new("A"));
    assert_eq!(late.build(), Err(BuildError::Refused(Refusal::Record)));
    assert_eq!(SetBuilder::new().class(ClassBuilder::new("")).build(), Err(BuildError::Refused(Refusal::Record)));
    let far = AbiBuilder::new().class(AbiClassBuilder::new("A").table_size(u32::MAX));
    assert_eq!(far.build(), Err(BuildError::Refused(Refusal::Record)));
}
