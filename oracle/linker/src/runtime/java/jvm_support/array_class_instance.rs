//! Stand-in for the original's `array_class_instance.rs`: array objects, which never exist here.

use alloc::boxed::Box;

use jvm::{ClassDefinition, ClassInstance, Field, JavaValue, Result};
use wie_core_arm::ArmCore;

use super::JavaClassInstance;

#[derive(Debug)]
pub struct JavaArrayClassInstance {
    pub class_instance: JavaClassInstance,
}

impl JavaArrayClassInstance {
    pub fn from_raw(_: u32, _: &ArmCore) -> Self {
        no_arrays()
    }
}

impl ClassInstance for JavaArrayClassInstance {
    fn destroy(self: Box<Self>) {
        no_arrays()
    }

    fn identity(&self) -> usize {
        no_arrays()
    }

    fn shallow_clone(&self) -> Result<Box<dyn ClassInstance>> {
        no_arrays()
    }

    fn class_definition(&self) -> Box<dyn ClassDefinition> {
        no_arrays()
    }

    fn equals(&self, _: &dyn ClassInstance) -> Result<bool> {
        no_arrays()
    }

    fn get_field(&self, _: &dyn Field) -> Result<JavaValue> {
        no_arrays()
    }

    fn put_field(&mut self, _: &dyn Field, _: JavaValue) -> Result<()> {
        no_arrays()
    }
}

fn no_arrays() -> ! {
    unreachable!("no Java object exists in the oracle")
}
