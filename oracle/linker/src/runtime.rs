//! Stand-in for the original's `runtime.rs`: the names that the linker files import.

use wie_core_arm::ArmCore;
use wie_util::WieError;

pub mod java;

pub const SVC_CATEGORY_JAVA: u32 = 4;
pub const SVC_CATEGORY_MISSING_JAVA_VTABLE_ENTRY: u32 = wie_core_arm::MISSING_ENTRY;

pub fn with_arm_context(_: &ArmCore, error: WieError) -> WieError {
    error
}
