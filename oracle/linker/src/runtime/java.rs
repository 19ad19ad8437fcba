//! Stand-in for the original's `runtime/java.rs`.

use alloc::boxed::Box;
use alloc::sync::Arc;

use wie_core_arm::RegisteredFunction;

#[rustfmt::skip]
#[path = "../../../original/wie-lgt/src/runtime/java/abi.rs"]
pub mod abi;
pub mod jvm_support;

/// The functions that emulated code could call; none does, so none is kept.
#[derive(Clone)]
pub struct JavaSvcFunctions;

impl JavaSvcFunctions {
    pub fn lock(&self) -> Self {
        Self
    }

    pub fn insert(self, _: u32, _: Arc<Box<dyn RegisteredFunction>>) {}
}
