//! The original's list of reference words: a generated class whose descriptor names the bitmap is asked for its fields.

use jvm::ClassDefinition;
use linker::runtime::java::jvm_support::{JavaClassDefinition, JavaReferenceField};
use wie_core_arm::{Allocator, ArmCore};
use wie_util::{ByteWrite, read_generic, write_generic};
use wipi_types::lgt::java::{LgtJavaClass, LgtJavaClassDescriptor};

use crate::sheet::{CLASS_WORDS, ClassRecord, MemberRecord, Set, class_word};

use super::layout::{Form, lay_out};

/// The most words of one class that are a multiple of 8: the Rust's count has 16 bits.
const AT_ONCE: usize = 65_528;

/// A machine of its own for one class.
#[derive(Default)]
pub struct Bitmaps {
    core: ArmCore,
}

impl Bitmaps {
    /// The words that the Rust marks, or nothing where the bitmap has too few bytes for it. More words than a class has are
    /// those of several classes, one after the other.
    pub fn marked(&mut self, bitmap: &[u8], words: u32) -> Option<Vec<u32>> {
        let needed = bitmap.get(..words.div_ceil(8) as usize)?;
        let Ok(count) = u16::try_from(words) else {
            let pieces = needed.chunks(AT_ONCE / 8).zip((0..words).step_by(AT_ONCE));
            let marked = pieces.flat_map(|(piece, first)| {
                let marked = self.listed(Some(piece), (words - first).min(AT_ONCE as u32) as u16);
                marked.into_iter().map(move |word| first + word)
            });
            return Some(marked.collect());
        };
        Some(self.listed(Some(bitmap), count))
    }

    /// `ClassDefinition::fields` of a generated class with one declared field and no static words. The bitmap is the last thing in memory.
    fn listed(&mut self, bitmap: Option<&[u8]>, words: u16) -> Vec<u32> {
        self.core.clear();
        let definition = lay_out(&mut self.core, &class(), 1, None, &Form::Generated { parent_by_name: false }).unwrap();
        let ptr_bitmap = bitmap.map_or(0, |bitmap| {
            let ptr_bitmap = Allocator::alloc(&mut self.core, bitmap.len() as u32).unwrap();
            self.core.write_bytes(ptr_bitmap, bitmap).unwrap();
            ptr_bitmap
        });
        self.set_bitmap(&definition, ptr_bitmap, words);
        let fields = ClassDefinition::fields(&definition);
        assert!(fields[0].as_any().downcast_ref::<JavaReferenceField>().is_none(), "the declared field stands first");
        let marked = fields[1..].iter().map(|field| (**field).as_any().downcast_ref::<JavaReferenceField>().expect("no other field"));
        marked.map(|field| field.word_index).collect()
    }

    fn set_bitmap(&mut self, definition: &JavaClassDefinition, ptr_bitmap: u32, words: u16) {
        let class: LgtJavaClass = read_generic(&self.core, definition.ptr_raw).unwrap();
        let descriptor: LgtJavaClassDescriptor = read_generic(&self.core, class.ptr_descriptor).unwrap();
        let descriptor =
            LgtJavaClassDescriptor { ptr_instance_reference_bitmap: ptr_bitmap, instance_field_word_count: words, ..descriptor };
        write_generic(&mut self.core, class.ptr_descriptor, descriptor).unwrap();
    }
}

/// The class `R` with the field `f` of type `I`.
fn class() -> Set {
    let mut record = ClassRecord([0; CLASS_WORDS]);
    record.0[class_word::NAME + 1] = 1;
    record.0[class_word::KIND] = 1;
    record.0[class_word::FIELDS + 1] = 1;
    let field = MemberRecord { name: (1, 1), descriptor: (2, 1), flags: 0, last: 0 };
    Set { classes: vec![record], fields: vec![field], text: b"RfI".to_vec(), ..Set::default() }
}

#[cfg(test)]
mod tests {
    use super::Bitmaps;

    /// The Rust lists no word of a class without a bitmap, however many words the class has.
    #[test]
    fn no_bitmap() {
        assert_eq!(Bitmaps::default().listed(None, 9), []);
    }

    /// The Rust ends by a panic where the bitmap reaches past the memory; here 24 answers.
    #[test]
    #[should_panic(expected = "InvalidMemoryAccess")]
    fn past_the_memory() {
        Bitmaps::default().listed(Some(&[0xA1; 4]), 33);
    }
}
