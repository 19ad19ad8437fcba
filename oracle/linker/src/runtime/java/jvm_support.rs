//! Stand-in for the original's `runtime/java/jvm_support.rs`: the module tree.

mod array_class_instance;
#[rustfmt::skip]
#[path = "../../../../original/wie-lgt/src/runtime/java/jvm_support/class_definition.rs"]
mod class_definition;
#[rustfmt::skip]
#[path = "../../../../original/wie-lgt/src/runtime/java/jvm_support/class_instance.rs"]
mod class_instance;
#[rustfmt::skip]
#[path = "../../../../original/wie-lgt/src/runtime/java/jvm_support/field.rs"]
mod field;
#[rustfmt::skip]
#[path = "../../../../original/wie-lgt/src/runtime/java/jvm_support/method.rs"]
mod method;
#[rustfmt::skip]
#[path = "../../../../original/wie-lgt/src/runtime/java/jvm_support/value.rs"]
mod value;
#[rustfmt::skip]
#[path = "../../../../original/wie-lgt/src/runtime/java/jvm_support/vtable.rs"]
mod vtable;

pub use array_class_instance::JavaArrayClassInstance;
pub use class_definition::JavaClassDefinition;
pub use class_instance::JavaClassInstance;
pub use field::{JavaField, JavaReferenceField, JavaStaticReferenceField};
pub use method::JavaMethod;

type LgtJvmWord = u32;
