//! A step with the line's address: the reader's step, and a sum of our own.
//!
//! The line is the original's, or that of the model of links. The address was
//! written from document 02, No. 8.

use crate::calls::Reader;
use crate::library::{self, Step};
use crate::refusal::Refusal;

/// The line whose link stands at the offset, behind its address in memory.
pub fn step(by: Reader, offset: u64, image: &[u8]) -> Result<Option<(u64, Step)>, Refusal> {
    let found = library::step(by, offset, image)?;
    Ok(found.map(|line| (address(offset, image), line)))
}

/// The load address plus the offset less 2, as one sum: 0 where that is below 0, and
/// not cut to 16 bits.
fn address(offset: u64, image: &[u8]) -> u64 {
    let load_address = u16::from_le_bytes([image[0], image[1]]);
    let sum = i128::from(load_address) + i128::from(offset) - 2;
    u64::try_from(sum.max(0)).expect("no offset of a line is near 64 bits")
}
