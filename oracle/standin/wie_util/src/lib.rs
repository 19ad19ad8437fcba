//! Stand-in for `wie_util`: errors, and values read from and written to emulated memory.

use core::fmt::{self, Display, Formatter};
use core::mem::size_of;

pub type Result<T> = core::result::Result<T, WieError>;

#[derive(Debug)]
pub enum WieError {
    FatalError(String),
    Unimplemented(String),
    JavaException(u32),
    InvalidMemoryAccess(u32),
}

impl Display for WieError {
    fn fmt(&self, f: &mut Formatter<'_>) -> fmt::Result {
        match self {
            Self::FatalError(message) => write!(f, "fatal error: {message}"),
            Self::Unimplemented(message) => write!(f, "unimplemented: {message}"),
            Self::JavaException(instance) => write!(f, "java exception {instance:#x}"),
            Self::InvalidMemoryAccess(address) => write!(f, "invalid memory access {address:#x}"),
        }
    }
}

pub trait ByteRead {
    fn read_bytes(&self, address: u32, result: &mut [u8]) -> Result<()>;

    /// The bytes from `address` up to the first zero.
    fn read_terminated(&self, address: u32) -> Result<Vec<u8>>;
}

pub trait ByteWrite {
    fn write_bytes(&mut self, address: u32, data: &[u8]) -> Result<()>;
}

/// Values that are just their bytes.
///
/// # Safety
///
/// Every pattern of `size_of::<Self>()` bytes is a value, and no byte is padding.
pub unsafe trait PlainBytes: Copy {
    fn zeroed() -> Self {
        // SAFETY: every pattern of bytes is a value.
        unsafe { core::mem::zeroed() }
    }

    fn bytes(&self) -> &[u8] {
        // SAFETY: the value has no padding.
        unsafe { core::slice::from_raw_parts((self as *const Self).cast(), size_of::<Self>()) }
    }

    fn bytes_mut(&mut self) -> &mut [u8] {
        // SAFETY: the value has no padding, and whatever is written is a value.
        unsafe { core::slice::from_raw_parts_mut((self as *mut Self).cast(), size_of::<Self>()) }
    }
}

// SAFETY: integers.
unsafe impl PlainBytes for u8 {}
// SAFETY: integers.
unsafe impl PlainBytes for u16 {}
// SAFETY: integers.
unsafe impl PlainBytes for u32 {}

pub fn read_generic<T: PlainBytes, R: ByteRead + ?Sized>(reader: &R, address: u32) -> Result<T> {
    let mut value = T::zeroed();
    reader.read_bytes(address, value.bytes_mut())?;
    Ok(value)
}

pub fn write_generic<T: PlainBytes, W: ByteWrite + ?Sized>(writer: &mut W, address: u32, value: T) -> Result<()> {
    writer.write_bytes(address, value.bytes())
}

pub fn read_null_terminated_string_bytes<R: ByteRead + ?Sized>(reader: &R, address: u32) -> Result<Vec<u8>> {
    reader.read_terminated(address)
}

pub fn write_null_terminated_string_bytes<W: ByteWrite + ?Sized>(writer: &mut W, address: u32, bytes: &[u8]) -> Result<()> {
    writer.write_bytes(address, bytes)?;
    writer.write_bytes(address + bytes.len() as u32, &[0])
}
