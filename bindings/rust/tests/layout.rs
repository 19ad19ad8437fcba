//! The layout's numbers are the C header's, which a test of its own holds to the specification's.

use lgt_linker::Kind;
use lgt_linker::layout::*;

const HEADER: &str = include_str!("../../../include/lgt_linker.h");

fn defined(name: &str) -> usize {
    let line = HEADER.lines().find_map(|line| line.strip_prefix(&format!("#define LGT_{name} "))).unwrap_or_else(|| panic!("no {name}"));
    let number = line.split_whitespace().next().unwrap();
    number.strip_prefix("0x").map_or_else(|| number.parse(), |digits| usize::from_str_radix(digits, 16)).unwrap()
}

/// Each name of the module, as `LGT_PREFIX_NAME` has it.
macro_rules! same {
    ($prefix:literal, $module:ident, $($name:ident)+) => {
        $(assert_eq!(defined(concat!($prefix, stringify!($name))), $module::$name as usize, stringify!($name));)+
    };
}

#[test]
fn records() {
    same!("CLASS_", class, NAME_START NAME_LENGTH PARENT FLAGS KIND FIRST_METHOD METHOD_COUNT FIRST_FIELD FIELD_COUNT FIRST_INTERFACE
        INTERFACE_COUNT LINK_STATE INSTANCE_WORDS COMPILER_TABLE COMPILER_SLOTS TABLE_PLACE SLOT_COUNT STATIC_WORDS);
    same!("METHOD_", member, NAME_START NAME_LENGTH DESCRIPTOR_START DESCRIPTOR_LENGTH FLAGS);
    same!("FIELD_", member, NAME_START NAME_LENGTH DESCRIPTOR_START DESCRIPTOR_LENGTH FLAGS);
    same!("ABI_CLASS_", abi_class, NAME_START NAME_LENGTH TABLE_SIZE_PLUS_1 INSTANCE_WORDS_PLUS_1 FIRST_SLOT SLOT_COUNT FIRST_FIELD
        FIELD_COUNT);
    same!("ABI_ROW_", abi_row, NAME_START NAME_LENGTH DESCRIPTOR_START DESCRIPTOR_LENGTH INDEX);
    same!("FLAG_", flags, PUBLIC PRIVATE PROTECTED STATIC INTERFACE ABSTRACT);
    let kinds = ["BUILT", "GENERATED", "ARRAY", "PACKAGED"].map(|name| Kind::of(defined(&format!("KIND_{name}")) as u32));
    assert_eq!(kinds, [Kind::Built, Kind::Generated, Kind::Array, Kind::Packaged]);
    assert_eq!(kinds.map(Kind::number), [0, 1, 2, 3]);
    let widths = ["CLASS_RECORD", "METHOD_RECORD", "FIELD_RECORD", "ABI_CLASS_RECORD", "ABI_ROW_RECORD"].map(defined);
    assert_eq!(widths, [class::WIDTH, member::WIDTH, member::WIDTH, abi_class::WIDTH, abi_row::WIDTH]);
    assert_eq!([defined("METHOD_TARGET"), defined("FIELD_WORD_INDEX")], [member::LAST; 2]);
    assert_eq!(defined("STATE_LINKED_BY_COMPILER"), LINKED_BY_COMPILER as usize);
}

#[test]
fn counts_and_limits() {
    let sections = ["CLASSES", "METHODS", "FIELDS", "INTERFACE_WORDS", "COMPILER_WORDS", "TEXT_BYTES"];
    assert_eq!(sections.map(|name| defined(&format!("SET_{name}"))), [0, 1, 2, 3, 4, 5]);
    assert_eq!(sections.map(|name| defined(&format!("MOST_{name}"))), set::LIMITS);
    assert_eq!(defined("SET_COUNTS"), set::COUNTS);
    let rows = ["CLASSES", "SLOTS", "FIELDS"];
    assert_eq!(rows.map(|name| defined(&format!("ABI_SET_{name}"))), [abi::CLASSES, abi::SLOTS, abi::FIELDS]);
    assert_eq!(rows.map(|name| defined(&format!("MOST_ABI_{name}"))), abi::LIMITS[..3]);
    assert_eq!([defined("ABI_SET_TEXT_BYTES"), defined("ABI_SET_COUNTS")], [abi::TEXT, abi::COUNTS]);
    let blocks = ["BLOCK_BYTES", "BLOCK_WORDS", "MOST_CLASS_BLOCKS", "MOST_ABI_BLOCKS", "MOST_SLOTS"].map(defined);
    assert_eq!(blocks, [BLOCK_BYTES, BLOCK_WORDS, CLASS_BLOCKS, ABI_BLOCKS, MOST_SLOTS]);
    assert_eq!([defined("CLASS_WORDS"), defined("ABI_WORDS")], [lgt_linker::CLASS_WORDS, lgt_linker::ABI_WORDS]);
    assert_eq!(defined("CLASS_BYTES"), lgt_linker::CLASS_BYTES);
    assert_eq!([defined("MISSING_CLASS_WORDS"), defined("MISSING_WORDS")], [missing::WIDTH, lgt_linker::MISSING_WORDS]);
    assert_eq!(defined("NUMBERS"), lgt_linker::NUMBERS);
    assert!(HEADER.contains(&format!("#define LGT_TABLE_WORDS(slots) ((slots) + {TABLE_EXTRA})")));
    assert!(HEADER.contains(&format!("#define LGT_LINKER_VERSION \"{}\"", lgt_linker::VERSION)));
}
