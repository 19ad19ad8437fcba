//! The list of numbers: "a lent list of 1,024 words: place m for method m, 512 + s for ABI slot s, both from 0". What a filling is, and what a link
//! that adds methods leaves in it.

use super::rules::{row_3, rows_4_and_5};
use super::sheets::{ABI_LIMITS, AbiSheet, CLASS_LIMITS, ClassSheet, text_of_abi_words, text_of_class_words};
use super::why::{Refused, Why};
use super::{Because, refuse};

/// The place of ABI slot 0, and the words of a list.
pub const FIRST_SLOT: usize = CLASS_LIMITS[1] as usize;
const WORDS: usize = FIRST_SLOT + ABI_LIMITS[1] as usize;

/// "row 3, there, at links and at asks, also takes a shorter list"
pub fn row_3_of_list(numbers: &[u32]) -> Result<(), Refused> {
    refuse(3, numbers.len() < WORDS).because(|| Why::FewNumbers { words: WORDS, lent: numbers.len() })
}

/// A signature's place, name and descriptor.
type Placed<'a> = (usize, &'a [u8], &'a [u8]);

/// Fills the list: "each holding the first place whose record has equal bytes of both parts; unused places 0". "Turned away: the filling
/// call, 3 to 5 as for a link".
pub fn number_signatures(set: &[u32], abi: &[u32], numbers: &mut [u32]) -> Result<(), Refused> {
    row_3(set, abi)?;
    row_3_of_list(numbers)?;
    let (text, abi_text) = (text_of_class_words(set), text_of_abi_words(abi));
    let (sheet, abi) = (ClassSheet::unnumbered(set, &text), AbiSheet::unnumbered(abi, &abi_text));
    rows_4_and_5(&sheet, &abi)?;
    let placed = placed(&sheet, &abi);
    numbers[..WORDS].fill(0);
    for &(place, name, descriptor) in &placed {
        let first = placed.iter().find(|&&(_, other_name, other_descriptor)| other_name == name && other_descriptor == descriptor);
        numbers[place] = first.map_or(place, |&(first, ..)| first) as u32;
    }
    Ok(())
}

/// Every record's signature, "owned by a class or not", in the order of the places.
fn placed<'a>(sheet: &ClassSheet<'a>, abi: &AbiSheet<'a>) -> Vec<Placed<'a>> {
    let methods = (0..).zip(sheet.methods()).map(|(place, method)| {
        let (name, descriptor) =
            (sheet.part(method.name_start, method.name_length), sheet.part(method.descriptor_start, method.descriptor_length));
        (place, name, descriptor)
    });
    let slots = (FIRST_SLOT..).zip(abi.slots()).map(|(place, slot)| (place, slot.name, slot.descriptor));
    methods.chain(slots).collect()
}

/// "In preparation an added method carries the number of the signature it took, a copied one its own." The copied records follow the
/// methods that there were, the added ones follow these.
pub fn write_numbers(numbers: &mut [u32], methods: u32, (first, count): (u32, u32), taken: &[u32]) {
    let (methods, first, count) = (methods as usize, first as usize, count as usize);
    numbers.copy_within(first..first + count, methods);
    numbers[methods + count..][..taken.len()].copy_from_slice(taken);
}
