//! Reading by links: a model, and no original.
//!
//! The original reads by terminators only. This module was written from
//! document 01, apart from the port, so that ops 08 and 09 can be held against
//! something; a difference here says only that the two readings of the document
//! differ.

use crate::library::{Checked, Step};
use crate::refusal::Refusal;

/// The load address and the number of lines, or the first refusal on the way.
pub fn check(image: &[u8]) -> Result<Checked, Refusal> {
    let load_address = load_address(image)?;
    let mut line_count = 0;
    let mut at = 2;
    while let Some(line) = step(image, at)? {
        line_count += 1;
        at = line.next;
    }
    Ok(Checked {
        load_address,
        line_count,
    })
}

/// The line whose link stands at the offset, or nothing at the end marker.
pub fn step(image: &[u8], offset: u64) -> Result<Option<Step>, Refusal> {
    let load = i64::from(load_address(image)?);
    let missing = Refusal::MissingEnd { link: offset };
    let at = usize::try_from(offset).map_err(|_| missing)?;
    let Some(&[low, high, ref behind_link @ ..]) = image.get(at..) else {
        return Err(missing);
    };
    if high == 0 {
        return Ok(None);
    }
    let link = u16::from_le_bytes([low, high]);
    let target = 2 + i64::from(link) - load;
    if target < at as i64 + 5 {
        return Err(Refusal::LinkBackward { link: offset });
    }
    let target = target as usize;
    if target > image.len() {
        return Err(Refusal::LinkOutside { link: offset });
    }
    if image[target - 1] != 0 {
        return Err(Refusal::LinkNoEnd { link: offset });
    }
    Ok(Some(Step {
        link,
        number: u16::from_le_bytes([behind_link[0], behind_link[1]]),
        next: target as u64,
        body: image[at + 4..target - 1].to_vec(),
    }))
}

fn load_address(image: &[u8]) -> Result<u16, Refusal> {
    match *image {
        [low, high, ..] => Ok(u16::from_le_bytes([low, high])),
        _ => Err(Refusal::TooShort),
    }
}
