//! What a case is about: most are small and meet every rule, some go to the limits.

use crate::case::{Call, Case};
use crate::random::Random;

use super::draft::{AbiClassDraft, AbiMemberDraft, ClassDraft, Draft, MemberDraft, Shape};
use super::members::{Knobs, Members, of_words};
use super::memory;

const SMALL: Knobs = Knobs {
    classes: (1, 5),
    methods: 4,
    fields: 3,
    names: 4,
    descriptors: 2,
    field_names: 3,
    generated: 25,
    arrays: 12,
    interface_flag: 12,
    interface_words: 25,
    parents: 75,
    chains: 60,
    compiler_tables: 60,
    compiler_slots: 6,
    abi: 35,
    abi_slots: 3,
    abi_fields: 2,
    largest_index: 5,
    orderly: 50,
    abi_words: 30,
    zero_targets: 6,
    same_targets: 4,
    stub_targets: 3,
    wide: 4,
    faults: 5,
};

/// A case of a theme drawn at random.
pub fn case(random: &mut Random) -> Case {
    match random.below(1000) {
        0..390 => plain(random, SMALL, 400),
        390..400 => long_arguments(random),
        400..510 => plain(random, Knobs { abi: 80, abi_slots: 5, abi_fields: 3, parents: 90, chains: 85, generated: 10, ..SMALL }, 400),
        510..620 => plain(random, Knobs { generated: 70, compiler_tables: 85, compiler_slots: 9, abi: 50, parents: 90, ..SMALL }, 400),
        620..670 => {
            plain(random, Knobs { classes: (6, 16), methods: 8, names: 10, descriptors: 4, abi_slots: 8, largest_index: 20, ..SMALL }, 1500)
        }
        670..780 => by_hand(random),
        780..855 => growth(random),
        855..890 => plain(random, Knobs { wide: 60, generated: 45, fields: 5, parents: 95, abi_words: 50, ..SMALL }, 400),
        890..925 => arrays(random),
        925..935 => below_an_array(random),
        935..950 => wide_parents(random),
        950..960 => deep(random),
        960..980 => big_tables(random),
        980..985 => limits(random),
        985..990 => many_nodes(random),
        990..992 => wide_classes(random),
        992..995 => many_added(random),
        _ => tiny(random),
    }
}

fn plain(random: &mut Random, knobs: Knobs, area: usize) -> Case {
    let mut draft = draft(random, knobs);
    draft.shape = shape(random);
    finish(random, draft, area, 64, 8)
}

/// Classes, ABI, and the plainest shape.
fn draft(random: &mut Random, knobs: Knobs) -> Draft {
    let count = random.between(knobs.classes.0, knobs.classes.1);
    let with_object = random.chance(65);
    let mut members = Members::new(random, knobs);
    let mut classes: Vec<ClassDraft> = Vec::new();
    for number in 1..=count {
        let class = class(&mut members, number, count, with_object);
        classes.push(class);
    }
    let abi = members.abi(&classes);
    Draft { classes, abi, shape: Shape::default() }
}

fn class(members: &mut Members, number: u32, count: u32, with_object: bool) -> ClassDraft {
    let knobs = members.knobs.clone();
    let name = match number {
        1 if with_object => "java/lang/Object".to_owned(),
        _ => match members.random.below(20) {
            0 => format!("[L{number};"),
            1 => format!(";{number}//"),
            2..8 => format!("p/C{number}"),
            _ => format!("C{number}"),
        },
    };
    let random = &mut *members.random;
    let parent = match number {
        1 => 0,
        _ if !random.chance(knobs.parents) => 0,
        _ if random.chance(knobs.chains) => number - 1,
        _ => random.between(1, number - 1),
    };
    let kind = match random.below(100) {
        roll if roll < knobs.generated => 1,
        roll if roll < knobs.generated + knobs.arrays => 2,
        _ => 0,
    };
    let interface = if random.chance(knobs.interface_flag) { 0x0200 } else { 0 };
    let interfaces = if random.chance(knobs.interface_words) {
        let listed = random.between(1, 3);
        (0..listed).map(|_| random.between(1, count)).collect()
    } else {
        Vec::new()
    };
    let mut class = ClassDraft {
        name,
        parent,
        flags: interface | random.pick(&[1, 0x21, 0x421, 0]),
        kind,
        interfaces,
        link_state: random.pick(&[0, 0, 0, 3, 3, 3, 2, 259]),
        instance_words: random.below(4),
        ..ClassDraft::default()
    };
    if kind == 2 && (!with_object || number == 1) && !random.chance(2 * knobs.faults) {
        class.kind = 0;
    }
    if class.kind == 2 {
        if !random.chance(knobs.faults) {
            class.parent = u32::from(with_object && number != 1);
        }
        if random.chance(knobs.faults) {
            class.methods = members.methods();
            class.fields = members.fields();
        }
        return class;
    }
    class.methods = members.methods();
    class.fields = members.fields();
    if class.kind == 1 {
        members.number_generated(&mut class);
    }
    if members.random.chance(if class.kind == 1 { knobs.compiler_tables } else { 3 }) {
        class.compiler = Some(members.compiler_table(&class.methods));
    }
    class
}

fn shape(random: &mut Random) -> Shape {
    Shape {
        spare_methods: if random.chance(10) { random.below(3) as usize } else { 0 },
        spare_fields: if random.chance(10) { random.below(3) as usize } else { 0 },
        spare_text: if random.chance(20) { random.below(9) as usize } else { 0 },
        shares_text: random.chance(50),
        lists_reversed: random.chance(20),
        slack: match random.below(100) {
            0..10 => 0,
            10..20 => random.below(12) as usize,
            _ => 160,
        },
        junk: random.chance(30).then(|| random.word() | 0x0101_0101),
    }
}

/// Memory and calls around a draft.
fn finish(random: &mut Random, draft: Draft, area: usize, slots: u32, calls: u32) -> Case {
    let stubs = memory::stub_lists(random, slots);
    let calls = memory::calls(random, draft.classes.len() as u32, stubs.len(), calls);
    Case {
        set: draft.set_words(),
        abi: abi_words(random, &draft),
        area: memory::area(random, area),
        stubs,
        calls,
        rebuilds: random.chance(30),
        ..Case::default()
    }
}

fn abi_words(random: &mut Random, draft: &Draft) -> Vec<u32> {
    let mut words = draft.abi_words();
    if random.chance(15) {
        words.extend((0..random.below(5)).map(|step| step * 0x1111_1111));
    }
    words
}

/// Sets that come with classes already linked, not all as a link would have left them.
fn by_hand(random: &mut Random) -> Case {
    let mut draft = draft(random, Knobs { classes: (1, 6), fields: 2, ..SMALL });
    draft.shape = shape(random);
    let area = memory::link_by_hand(random, &mut draft, 70);
    let case = finish(random, draft, 0, 64, 10);
    Case { area, rebuilds: true, ..case }
}

/// Sections near their limits that grow, with little room behind them.
fn growth(random: &mut Random) -> Case {
    let mut draft =
        draft(random, Knobs { abi: 80, abi_fields: 5, abi_words: 20, generated: 45, compiler_tables: 90, compiler_slots: 8, ..SMALL });
    draft.shape = shape(random);
    let methods: usize = draft.classes.iter().map(|class| class.methods.len()).sum();
    let fields: usize = draft.classes.iter().map(|class| class.fields.len()).sum();
    if random.chance(60) {
        draft.shape.slack = 300;
    }
    match random.below(8) {
        0 => draft.shape.spare_fields = 512 - fields - random.below(9) as usize,
        1 | 2 => draft.shape.spare_methods = 512 - methods - random.below(9) as usize,
        3 => {
            draft.shape.spare_text = 7900 + random.below(230) as usize;
            let over = draft.set_words()[5].saturating_sub(8192 - random.below(12));
            draft.shape.spare_text -= over as usize;
        }
        _ => draft.shape.slack = random.below(24) as usize,
    }
    finish(random, draft, 400, 64, 6)
}

/// Array classes under Object, with ABI entries and children.
fn arrays(random: &mut Random) -> Case {
    let knobs = Knobs { arrays: 45, generated: 10, abi: 60, abi_slots: 4, parents: 95, chains: 75, classes: (2, 7), orderly: 80, ..SMALL };
    let mut draft = draft(random, knobs);
    draft.classes[0] = ClassDraft { name: "java/lang/Object".to_owned(), kind: random.below(2), ..draft.classes[0].clone() };
    for class in draft.classes.iter_mut().skip(1).filter(|class| class.kind == 2) {
        class.parent = 1;
    }
    for number in 1..draft.classes.len() {
        let above = draft.classes[..number].iter().rposition(|class| class.kind == 2);
        if let (Some(above), true, 0..2) = (above, random.chance(60), draft.classes[number].kind) {
            draft.classes[number].parent = above as u32 + 1;
        }
    }
    draft.shape = shape(random);
    finish(random, draft, 400, 64, 8)
}

/// A class below an array class whose ABI entry fixes slots that Object fills otherwise.
fn below_an_array(random: &mut Random) -> Case {
    let names = ["a", "b", "c"];
    let method = |name: &str, last| MemberDraft { name: name.to_owned(), descriptor: "()V".to_owned(), flags: 1, last };
    let named = |name: &str, parent, kind, methods| ClassDraft { name: name.to_owned(), parent, kind, methods, ..ClassDraft::default() };
    let own = |random: &mut Random, first: u32| -> Vec<MemberDraft> {
        let count = random.between(1, 2);
        (0..count).map(|step| method(random.pick(&names), first + step)).collect()
    };
    let classes = vec![
        named("java/lang/Object", 0, 0, own(random, 10)),
        named("[I", 1, 2, Vec::new()),
        named("C", 2, 0, own(random, 20)),
        named("D", 3, 0, own(random, 30)),
    ];
    let first = random.below(3);
    let count = random.between(1, 3) as usize;
    let slots = names[..count].iter().zip(0..).map(|(name, step)| AbiMemberDraft {
        name: (*name).to_owned(),
        descriptor: "()V".to_owned(),
        index: (first + step) % 4,
    });
    let abi = vec![AbiClassDraft { name: "[I".to_owned(), slots: slots.collect(), ..AbiClassDraft::default() }];
    let draft = Draft { classes, abi, shape: shape(random) };
    finish(random, draft, 200, 64, 4)
}

/// A parent linked by hand, its instance or runtime words at the limit, and children whose
/// tables may be refused too.
fn wide_parents(random: &mut Random) -> Case {
    let knobs = Knobs {
        classes: (2, 4),
        fields: 3,
        generated: 20,
        parents: 100,
        chains: 90,
        abi: 70,
        abi_slots: 5,
        largest_index: 2,
        orderly: 20,
        abi_words: 50,
        ..SMALL
    };
    let mut draft = draft(random, knobs);
    let area = memory::link_by_hand(random, &mut draft, 90);
    if let (Some(last), true) = (draft.classes.last_mut(), random.chance(80)) {
        (last.place, last.slots) = (0, 0);
    }
    for class in &mut draft.classes {
        if class.place != 0 && random.chance(50) {
            class.instance_words = random.between(65530, 65535);
        } else if class.place != 0
            && let Some(field) = class.fields.first_mut()
        {
            field.last = random.pick(&[0xFFFF_0000, 0xFFFF_0001, 0xFFFF_0002, 0xFFFF_0003, 0x8000_0000, 0x7FFF_FFFF]);
        }
    }
    let case = finish(random, draft, 0, 64, 5);
    Case { area, rebuilds: true, ..case }
}

/// Long chains, up to 64 classes.
fn deep(random: &mut Random) -> Case {
    let knobs = Knobs {
        classes: (16, 64),
        parents: 100,
        chains: 97,
        methods: 3,
        fields: 2,
        names: 12,
        descriptors: 3,
        abi: random.pick(&[0, 5, 20]),
        orderly: 100,
        generated: 20,
        arrays: 0,
        interface_flag: 1,
        faults: 0,
        ..SMALL
    };
    let draft = draft(random, knobs);
    let mut case = finish(random, draft, 8000, 300, 12);
    case.stubs[0] = (0..300).map(|index| super::members::FIRST_STUB + index).collect();
    for call in &mut case.calls {
        if let (Call::Link { stubs, .. }, true) = (call, random.chance(98)) {
            *stubs = 0;
        }
    }
    case
}

/// Tables near 1,024 slots.
fn big_tables(random: &mut Random) -> Case {
    let knobs = Knobs {
        classes: (1, 4),
        methods: 12,
        names: 12,
        descriptors: 6,
        abi: 55,
        abi_slots: 12,
        largest_index: 1023,
        compiler_slots: 500,
        generated: 30,
        ..SMALL
    };
    let mut draft = draft(random, knobs);
    if random.chance(70)
        && let Some(class) = draft.abi.first_mut()
    {
        class.size = Some(if random.chance(60) { 1024 } else { random.between(1010, 1024) });
    }
    if random.chance(50) {
        draft.classes.iter_mut().for_each(|class| class.methods.clear());
    }
    if random.chance(40)
        && let Some(class) = draft.abi.first_mut()
    {
        let index = random.below(1024);
        let slot = |name: &str| AbiMemberDraft { name: name.to_owned(), descriptor: "()V".to_owned(), index };
        class.slots.extend([slot("twin"), slot("other")]);
        let name = class.name.clone();
        let method = |name: &str, last| MemberDraft { name: name.to_owned(), descriptor: "()V".to_owned(), flags: 1, last };
        let declaring = draft.classes.iter_mut().filter(|class| class.name == name);
        declaring.for_each(|class| class.methods.extend([method("twin", 11), method("other", 12)]));
    }
    if random.chance(40)
        && let Some(class) = draft.classes.iter_mut().find(|class| class.kind == 1)
    {
        let mut compiled = class.compiler.take().unwrap_or_default();
        compiled.resize(random.between(1016, 1024) as usize, 0);
        class.compiler = Some(compiled);
    }
    finish(random, draft, 6000, 1024, 6)
}

/// As many classes, methods, fields and text as the limits allow.
fn limits(random: &mut Random) -> Case {
    let knobs = Knobs {
        classes: (60, 64),
        methods: 8,
        fields: 8,
        names: 12,
        descriptors: 6,
        field_names: 6,
        parents: 90,
        chains: 30,
        abi: 60,
        abi_slots: 9,
        abi_fields: 3,
        largest_index: 40,
        ..SMALL
    };
    let mut draft = draft(random, knobs);
    draft.shape.shares_text = true;
    while draft.classes.len() < 64 && random.chance(80) {
        let number = draft.classes.len() + 1;
        draft.classes.push(ClassDraft { name: format!("Filler{number}"), ..ClassDraft::default() });
    }
    let methods: usize = draft.classes.iter().map(|class| class.methods.len()).sum();
    let fields: usize = draft.classes.iter().map(|class| class.fields.len()).sum();
    draft.shape.spare_methods = 512usize.saturating_sub(methods + random.pick(&[0, 0, 40]) as usize);
    draft.shape.spare_fields = 512usize.saturating_sub(fields + random.pick(&[0, 0, 40]) as usize);
    let spare = 8192u32.saturating_sub(draft.set_words()[5]);
    draft.shape.spare_text = spare.saturating_sub(random.pick(&[0, 0, 400])) as usize;
    draft.shape.slack = 2000;
    finish(random, draft, 9000, 300, 20)
}

/// A class asked for every class of a full set.
fn many_nodes(random: &mut Random) -> Case {
    let knobs = Knobs { classes: (60, 64), methods: 1, fields: 0, parents: 20, generated: 10, arrays: 0, abi: 2, names: 3, ..SMALL };
    let mut draft = draft(random, knobs);
    while draft.classes.len() < 64 {
        let number = draft.classes.len() + 1;
        draft.classes.push(ClassDraft { name: format!("Filler{number}"), ..ClassDraft::default() });
    }
    let asker = random.between(1, 64);
    if random.chance(70) {
        for class in &mut draft.classes {
            class.methods.retain(|method| method.name == "a" && method.descriptor == "()V");
        }
        let method = MemberDraft { name: "a".to_owned(), descriptor: "()V".to_owned(), flags: 1, last: 5 };
        draft.classes[asker as usize - 1].methods = vec![method];
    }
    let mut calls: Vec<Call> = (1..=64).map(|class| Call::Link { class, stubs: 0 }).collect();
    calls.extend((1..=64).map(|interface| Call::Ask { class: asker, interface, stubs: 0 }));
    calls.extend((0..8).map(|_| Call::Ask { class: asker, interface: random.between(1, 64), stubs: 0 }));
    let case = finish(random, draft, 3000, 64, 1);
    let mut area = vec![0; 3000];
    area[0] = 1;
    Case { calls, area, ..case }
}

/// Few classes with hundreds of methods, tables up to 1,024 slots and above.
fn wide_classes(random: &mut Random) -> Case {
    let mut draft =
        draft(random, Knobs { classes: (1, 4), methods: 1, parents: 100, chains: 100, generated: 15, arrays: 0, faults: 0, ..SMALL });
    let mut left = random.pick(&[500, 400, 300]);
    for class in &mut draft.classes {
        let count = random.below(left + 1);
        left -= count;
        let first = random.below(200);
        class.methods.extend((first..first + count).map(|number| MemberDraft {
            name: format!("m{number}"),
            descriptor: "()V".to_owned(),
            flags: 1,
            last: 0x0010_0000 + number + first * 0x1000,
        }));
    }
    if let Some(class) = draft.abi.first_mut() {
        class.size = Some(random.pick(&[512, 524, 600, 1024]));
    }
    draft.shape = Shape { shares_text: true, slack: 400, ..Shape::default() };
    finish(random, draft, 6000, 1024, 4)
}

/// Methods, ABI slots and compiler tables that add methods, at the limit of argument words: 253 and 254 parameter words, of a static method
/// 255. Half the time a compiler slot makes a method known, and a child's table adds one of its signature and one by an ABI slot.
fn long_arguments(random: &mut Random) -> Case {
    let mut draft = draft(random, Knobs { generated: 60, compiler_tables: 85, abi: 60, parents: 90, faults: 0, ..SMALL });
    let words = random.between(253, 254);
    for method in draft.classes.iter_mut().flat_map(|class| &mut class.methods).filter(|method| method.descriptor == "(I)V") {
        method.flags |= if random.chance(30) { 0x0008 } else { 0 };
        method.descriptor = of_words(if method.flags & 0x0008 != 0 && random.chance(70) { 255 } else { words });
    }
    for slot in draft.abi.iter_mut().flat_map(|class| &mut class.slots).filter(|slot| slot.descriptor == "(I)V") {
        slot.descriptor = of_words(words);
    }
    if random.chance(50) {
        let parent = draft.classes.len() as u32 + 1;
        let flags = random.pick(&[9, 0x0409, 1, 0x0401]);
        let method = MemberDraft { name: "long".to_owned(), descriptor: of_words(254 + flags / 8 % 2), flags, last: 5 };
        let class = |name: &str, parent, methods, table| ClassDraft {
            name: name.to_owned(),
            parent,
            kind: 1,
            link_state: 3,
            methods,
            compiler: Some(table),
            ..ClassDraft::default()
        };
        draft.classes.extend([class("LongParent", 0, vec![method], vec![5]), class("LongChild", parent, Vec::new(), vec![8, 9])]);
        let slots = vec![AbiMemberDraft { name: "longer".to_owned(), descriptor: of_words(254), index: 1 }];
        draft.abi.push(AbiClassDraft { name: "LongChild".to_owned(), slots, ..AbiClassDraft::default() });
    }
    draft.shape = Shape { slack: 600, ..shape(random) };
    finish(random, draft, 400, 64, 8)
}

/// Compiler tables and ABI entries that add members by the hundred.
fn many_added(random: &mut Random) -> Case {
    let knobs = Knobs {
        classes: (1, 3),
        generated: 60,
        compiler_tables: 100,
        compiler_slots: 6,
        abi: 100,
        abi_slots: 0,
        parents: 40,
        faults: 0,
        ..SMALL
    };
    let mut draft = draft(random, knobs);
    let slots = random.between(40, 512);
    let fields = random.between(20, 256);
    let position = random.below(draft.classes.len() as u32) as usize;
    let name = draft.classes[position].name.clone();
    let member = |prefix: &str, descriptor: &str, index: u32| AbiMemberDraft {
        name: format!("{prefix}{}", index % 50),
        descriptor: descriptor.to_owned(),
        index,
    };
    draft.abi.truncate(3);
    draft.abi.retain(|class| class.name != name);
    draft.abi.push(AbiClassDraft {
        name,
        slots: (0..slots).map(|index| member("s", "()V", index)).collect(),
        fields: (0..fields.min(240)).map(|index| member("f", "J", index)).collect(),
        ..AbiClassDraft::default()
    });
    draft.classes[position].compiler = Some((0..random.between(slots / 2, 1024)).map(|index| 0x0020_0000 + index).collect());
    draft.shape = Shape { shares_text: true, slack: 5000, ..Shape::default() };
    finish(random, draft, 4000, 1024, 3)
}

/// No class or one, and next to nothing lent.
fn tiny(random: &mut Random) -> Case {
    let mut draft = draft(random, Knobs { classes: (0, 1), methods: 1, fields: 1, ..SMALL });
    draft.shape.slack = random.below(3) as usize;
    finish(random, draft, 8, 3, 3)
}
