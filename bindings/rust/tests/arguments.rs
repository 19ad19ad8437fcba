//! The limit of 255 argument words: of a method by its own flags, of an ABI slot as of an instance method.

use lgt_linker::{AbiBuilder, AbiClassBuilder, BuildError, ClassBuilder, Refusal, SetBuilder, argument_words};

/// A descriptor of so many parameter words.
fn of_words(words: usize) -> String {
    format!("({}{})V", "J".repeat(words / 2), "I".repeat(words % 2))
}

#[test]
fn words_are_counted_up_to_255() {
    for (descriptor, flags, want) in [
        (of_words(254), 0, Ok(255)),
        (of_words(254), 8, Ok(254)),
        (of_words(255), 0, Err(Refusal::Descriptor)),
        (of_words(255), 8, Ok(255)),
        (of_words(255), u32::MAX, Ok(255)),
        (of_words(255), !8, Err(Refusal::Descriptor)),
        (of_words(256), 8, Err(Refusal::Descriptor)),
        (of_words(40_000), 8, Err(Refusal::Descriptor)),
        (format!("({})V", "[J".repeat(127)), 0, Ok(128)),
    ] {
        assert_eq!(argument_words(descriptor.as_bytes(), flags), want, "{} bytes, flags {flags:#x}", descriptor.len());
    }
}

#[test]
fn a_method_goes_by_its_own_flags() {
    let set = |flags, words| SetBuilder::new().class(ClassBuilder::new("Card").method_with("k", &of_words(words), flags, 4096)).build();
    assert!(set(9, 255).is_ok());
    assert!(set(0x0409, 255).is_ok());
    assert!(set(1, 254).is_ok());
    assert!(matches!(set(1, 255), Err(BuildError::Refused(Refusal::Descriptor))));
    assert!(matches!(set(9, 256), Err(BuildError::Refused(Refusal::Descriptor))));
}

#[test]
fn a_slot_is_an_instance_method() {
    let abi = |words, index| AbiBuilder::new().class(AbiClassBuilder::new("Card").slot("k", &of_words(words), index)).build();
    for index in [0, 8] {
        assert!(abi(254, index).is_ok());
        assert!(matches!(abi(255, index), Err(BuildError::Refused(Refusal::Descriptor))));
    }
}
