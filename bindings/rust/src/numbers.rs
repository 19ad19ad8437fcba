//! The list of the signatures' numbers that a set owns.

use alloc::borrow::Cow;
use alloc::sync::Arc;
use alloc::vec;
use alloc::vec::Vec;

use crate::calls::{NUMBERS, number_signatures};
use crate::refusal::Refusal;

/// The list, filled from a set and the ABI sheet of these words, and as the set's links left it since.
#[derive(Clone)]
pub(crate) struct Numbers {
    list: Vec<u32>,
    abi: Arc<[u32]>,
}

impl Numbers {
    /// A list filled from a set and an ABI sheet.
    pub(crate) fn filled(set: &[u32], abi: &Arc<[u32]>) -> Result<Numbers, Refusal> {
        let mut list = vec![0; NUMBERS];
        number_signatures(set, abi, &mut list)?;
        Ok(Numbers { list, abi: abi.clone() })
    }

    fn is_of(&self, abi: &Arc<[u32]>) -> bool {
        Arc::ptr_eq(&self.abi, abi) || self.abi == *abi
    }

    /// The list for a link that lends this ABI sheet: filled anew where the last one lent another.
    pub(crate) fn for_link(&mut self, set: &[u32], abi: &Arc<[u32]>) -> Result<&mut [u32], Refusal> {
        if !self.is_of(abi) {
            *self = Numbers::filled(set, abi)?;
        }
        Ok(&mut self.list)
    }

    /// The list for an ask likewise; one filled anew is of this ask alone.
    pub(crate) fn for_ask(&self, set: &[u32], abi: &Arc<[u32]>) -> Result<Cow<'_, [u32]>, Refusal> {
        match self.is_of(abi) {
            true => Ok(Cow::Borrowed(&self.list)),
            false => Ok(Cow::Owned(Numbers::filled(set, abi)?.list)),
        }
    }
}
