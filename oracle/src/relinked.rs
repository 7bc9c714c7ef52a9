//! What the machine makes of a program's links after loading it: a model of our own,
//! written from the public listings of its ROM, the routine at A533.

use std::collections::BTreeSet;

use crate::domain;
use crate::refusal::Refusal;

#[derive(Debug, PartialEq, Eq)]
pub enum Relinked {
    Same,
    Changed { offset: u64, link: u64 },
    Leaves,
    Endless,
}

/// Memory has so many bytes. Addresses are 16 bits wide, and come round.
const MEMORY: usize = 65_536;

/// The machine's memory with a program in it; what is not the program's is unknown,
/// and all is where the program would be loaded over its own beginning.
struct Memory(Vec<Option<u8>>);

impl Memory {
    fn holding(load: u16, program: &[u8]) -> Memory {
        let mut bytes = vec![None; MEMORY];
        if program.len() <= MEMORY {
            for (i, byte) in program.iter().enumerate() {
                bytes[(usize::from(load) + i) % MEMORY] = Some(*byte);
            }
        }
        Memory(bytes)
    }

    fn at(&self, line: u16, count: u8) -> Option<u8> {
        self.0[usize::from(line.wrapping_add(count.into()))]
    }

    /// The count at which a line's 00 stands: an unknown byte comes first, or none of
    /// the 256 is 00.
    fn zero_of(&self, line: u16) -> Result<u8, Relinked> {
        let mut count = 4_u8;
        for _ in 0..256 {
            count = count.wrapping_add(1);
            match self.at(line, count) {
                None => return Err(Relinked::Leaves),
                Some(0) => return Ok(count),
                Some(_) => {}
            }
        }
        Err(Relinked::Endless)
    }
}

pub fn relink(image: &[u8]) -> Result<Relinked, Refusal> {
    let image = domain::image(image)?;
    if image.len() < 2 {
        return Err(Refusal::TooShort);
    }
    let load = u16::from_le_bytes([image[0], image[1]]);
    let memory = Memory::holding(load, &image[2..]);
    let mut line = load;
    let mut met = BTreeSet::new();
    // Where a line is met again, no link was changed, and the routine never ends.
    while met.insert(line) {
        let high = match memory.at(line, 1) {
            None => return Ok(Relinked::Leaves),
            Some(0) => return Ok(Relinked::Same),
            Some(high) => high,
        };
        let count = match memory.zero_of(line) {
            Ok(count) => count.wrapping_add(1),
            Err(found) => return Ok(found),
        };
        let Some(low) = memory.at(line, 0) else {
            return Ok(Relinked::Leaves);
        };
        let link = line.wrapping_add(count.into());
        if link != u16::from_le_bytes([low, high]) {
            return Ok(Relinked::Changed {
                offset: 2 + u64::from(line.wrapping_sub(load)),
                link: link.into(),
            });
        }
        line = link;
    }
    Ok(Relinked::Endless)
}
