//! The fields of a payload, taken one after another.

use crate::calls::{self, Call, ROOM_LIMIT, Reader};
use crate::dialects::Dialect;
use crate::library::CrunchOptions;
use crate::modes::ListOptions;

/// The part of a payload that is not decoded yet.
pub struct Fields<'a>(pub &'a [u8]);

impl<'a> Fields<'a> {
    fn take<const N: usize>(&mut self) -> Option<[u8; N]> {
        let (taken, rest) = self.0.split_first_chunk()?;
        self.0 = rest;
        Some(*taken)
    }

    /// An address, or a line's number.
    pub fn address(&mut self) -> Option<u16> {
        self.take().map(u16::from_le_bytes)
    }

    /// An offset, a limit or a place.
    pub fn number(&mut self) -> Option<u64> {
        self.take().map(u64::from_le_bytes)
    }

    /// How many images follow.
    pub fn count(&mut self) -> Option<u32> {
        self.take().map(u32::from_le_bytes)
    }

    pub fn dialect(&mut self) -> Option<Dialect> {
        match self.take()? {
            [0] => Some(Dialect::Auto),
            [1] => Some(Dialect::BasicV2),
            [2] => Some(Dialect::Tsb),
            [3] => Some(Dialect::Basic35),
            _ => None,
        }
    }

    /// Load address, dialect and the byte of options: bit 0 asks for the machine profile,
    /// bit 1 for short forms, and no other bit has landed.
    pub fn crunch_options(&mut self) -> Option<CrunchOptions> {
        let (load, dialect) = (self.address()?, self.dialect()?);
        let [bits] = self.take()?;
        (bits <= 3).then_some(CrunchOptions {
            load,
            dialect,
            forms: bits & 2 != 0,
            profile: bits & 1 != 0,
        })
    }

    /// The dialect of a listing and, for one by links, its mode.
    pub fn list_options(&mut self, op: u8) -> Option<ListOptions> {
        let dialect = self.dialect()?;
        let (by, remarks) = match op {
            calls::DIALECT_LISTING | calls::DIALECT_LISTING_ROOM => (Reader::Terminators, false),
            calls::SECOND_LISTING | calls::SECOND_LISTING_ROOM => (Reader::Terminators, true),
            _ => match self.take()? {
                [0] => (Reader::Links, false),
                [1] => (Reader::Links, true),
                _ => return None,
            },
        };
        Some(ListOptions {
            dialect,
            remarks,
            by,
        })
    }

    /// The kind of an index's entry: a line or a jump.
    pub fn kind(&mut self) -> Option<u8> {
        let [kind] = self.take()?;
        (kind <= 1).then_some(kind)
    }

    pub fn room(&mut self) -> Option<usize> {
        let room = u32::from_le_bytes(self.take()?) as usize;
        (room <= ROOM_LIMIT).then_some(room)
    }

    /// A file's name, behind its length.
    pub fn name(&mut self) -> Option<&'a [u8]> {
        let length = u16::from_le_bytes(self.take()?);
        self.part(length.into())
    }

    /// An image that is not the last field, behind its length.
    pub fn image(&mut self) -> Option<&'a [u8]> {
        let length = u32::from_le_bytes(self.take()?);
        self.part(length as usize)
    }

    fn part(&mut self, length: usize) -> Option<&'a [u8]> {
        let (part, rest) = self.0.split_at_checked(length)?;
        self.0 = rest;
        Some(part)
    }

    pub fn rest(&self) -> &'a [u8] {
        self.0
    }

    pub fn check(&self, by: Reader) -> Call<'a> {
        Call::Check {
            by,
            image: self.rest(),
        }
    }

    pub fn step(&mut self, by: Reader) -> Option<Call<'a>> {
        Some(Call::Step {
            by,
            offset: self.number()?,
            image: self.rest(),
        })
    }

    pub fn addressed_step(&mut self, by: Reader) -> Option<Call<'a>> {
        Some(Call::AddressedStep {
            by,
            offset: self.number()?,
            image: self.rest(),
        })
    }
}
