//! Stand-in for `wie_core_arm`: a flat memory with a bump allocator. No instruction runs.

use std::cell::RefCell;
use std::collections::VecDeque;
use std::rc::Rc;

use wie_util::{ByteRead, ByteWrite, Result, WieError};

/// The first address handed out; 0 stays the null pointer.
const BASE: u32 = 0x1000;
/// What fresh memory holds, so that nothing can lean on zeros.
const FRESH: u8 = 0xCD;
/// The category of a slot without a method (`SVC_CATEGORY_MISSING_JAVA_VTABLE_ENTRY`).
pub const MISSING_ENTRY: u32 = 6;
/// What a class getter's stub is; nothing reads it.
const GETTER: u32 = 0xF00D_F00D;

#[derive(Default)]
struct Machine {
    memory: Vec<u8>,
    targets: VecDeque<u32>,
    stubs: Vec<u32>,
    stubbed: Vec<u32>,
    reads: Option<Vec<u32>>,
}

/// A handle on one emulated machine; clones share it.
#[derive(Clone, Default)]
pub struct ArmCore {
    machine: Rc<RefCell<Machine>>,
}

/// What the harness sets and asks.
impl ArmCore {
    /// Forgets all memory.
    pub fn clear(&self) {
        self.machine.borrow_mut().memory.clear();
    }

    /// The stubs that `make_svc_stub` hands out: `targets` in turn for a class's methods,
    /// `stubs` by index for slots without a method.
    pub fn set_stubs(&self, targets: impl Iterator<Item = u32>, stubs: &[u32]) {
        let mut machine = self.machine.borrow_mut();
        machine.targets = targets.collect();
        machine.stubs.clear();
        machine.stubs.extend_from_slice(stubs);
        machine.stubbed.clear();
    }

    /// The slots without a method for which stubs were made since `set_stubs`, in turn.
    pub fn stubbed(&self) -> Vec<u32> {
        self.machine.borrow().stubbed.clone()
    }

    /// Starts to note the address of every read.
    pub fn note_reads(&self) {
        self.machine.borrow_mut().reads = Some(Vec::new());
    }

    /// The addresses read since `note_reads`, which ends here.
    pub fn noted_reads(&self) -> Vec<u32> {
        self.machine.borrow_mut().reads.take().unwrap_or_default()
    }
}

/// What the original files call.
impl ArmCore {
    pub fn make_svc_stub(&mut self, category: u32, id: u32) -> Result<u32> {
        let mut machine = self.machine.borrow_mut();
        Ok(if category == MISSING_ENTRY {
            machine.stubbed.push(id);
            machine.stubs.get(id as usize).copied().unwrap_or(0)
        } else {
            machine.targets.pop_front().unwrap_or(GETTER)
        })
    }

    pub async fn run_function<R: RunFunctionResult<R>>(&mut self, _: u32, _: &[u32]) -> Result<R> {
        nothing_runs()
    }

    pub fn save_context(&self) {}

    pub fn restore_context(&mut self, _: &()) {}

    pub fn read_param(&self, _: usize) -> Result<u32> {
        nothing_runs()
    }

    pub fn write_return_value(&mut self, _: &[u32]) -> Result<()> {
        nothing_runs()
    }

    pub fn set_next_pc(&mut self, _: u32) -> Result<()> {
        nothing_runs()
    }
}

impl ByteRead for ArmCore {
    fn read_bytes(&self, address: u32, result: &mut [u8]) -> Result<()> {
        let mut machine = self.machine.borrow_mut();
        let start = address.wrapping_sub(BASE) as usize;
        let bytes = start.checked_add(result.len()).and_then(|end| machine.memory.get(start..end));
        result.copy_from_slice(bytes.ok_or(WieError::InvalidMemoryAccess(address))?);
        if let Some(reads) = &mut machine.reads {
            reads.push(address);
        }
        Ok(())
    }

    fn read_terminated(&self, address: u32) -> Result<Vec<u8>> {
        let machine = self.machine.borrow();
        let start = address.wrapping_sub(BASE) as usize;
        let tail = machine.memory.get(start..).ok_or(WieError::InvalidMemoryAccess(address))?;
        let length = tail.iter().position(|&byte| byte == 0).ok_or(WieError::InvalidMemoryAccess(address))?;
        Ok(tail[..length].to_vec())
    }
}

impl ByteWrite for ArmCore {
    fn write_bytes(&mut self, address: u32, data: &[u8]) -> Result<()> {
        let mut machine = self.machine.borrow_mut();
        let start = address.wrapping_sub(BASE) as usize;
        let bytes = start.checked_add(data.len()).and_then(|end| machine.memory.get_mut(start..end));
        bytes.ok_or(WieError::InvalidMemoryAccess(address))?.copy_from_slice(data);
        Ok(())
    }
}

pub struct Allocator;

impl Allocator {
    pub fn alloc(core: &mut ArmCore, size: u32) -> Result<u32> {
        let mut machine = core.machine.borrow_mut();
        let start = machine.memory.len();
        machine.memory.resize(start + (size as usize).next_multiple_of(4), FRESH);
        Ok(BASE + start as u32)
    }

    pub fn free(_: &mut ArmCore, _: u32, _: u32) -> Result<()> {
        nothing_runs()
    }

    pub fn is_allocated(_: &ArmCore, _: u32, _: u32) -> Result<bool> {
        nothing_runs()
    }
}

pub trait EmulatedFunction<Parameters, R, Context> {
    fn call(&self, core: &mut ArmCore, context: &mut Context) -> Result<R>;
}

pub trait EmulatedFunctionParam<T> {
    fn get(core: &mut ArmCore, position: usize) -> T;
}

impl EmulatedFunctionParam<u32> for u32 {
    fn get(_: &mut ArmCore, _: usize) -> u32 {
        nothing_runs()
    }
}

pub trait RunFunctionResult<R> {
    fn get(core: &ArmCore) -> R;
}

pub trait ResultWriter<R> {
    fn write(self, core: &mut ArmCore, next_pc: u32) -> Result<()>;
}

pub trait RegisteredFunction {}

/// A registered function is dropped at once, as none is ever called.
pub struct RegisteredFunctionHolder;

impl RegisteredFunctionHolder {
    pub fn new<F, Parameters, R, Context>(_: F, _: &Context) -> Self
    where
        F: EmulatedFunction<Parameters, R, Context>,
    {
        Self
    }
}

impl RegisteredFunction for RegisteredFunctionHolder {}

fn nothing_runs() -> ! {
    unreachable!("no emulated code runs in the oracle")
}
