//! The two sides behind one call, so that what they answer can be compared.

use crate::moldthatch::{self, Dialect, Refusal};
use crate::prg::{ParseError, Program};
use crate::source::{self, TokenizeError};
use crate::tokens;

/// Where a C64 loads BASIC.
const LOAD: u16 = 0x0801;

pub enum Work {
    Crunch { text: String, dialect: Dialect },
    List { image: Vec<u8> },
}

impl Work {
    /// How many bytes there are to go over.
    pub fn size(&self) -> usize {
        match self {
            Work::Crunch { text, .. } => text.len(),
            Work::List { image } => image.len(),
        }
    }

    /// A buffer that the result surely fits: no image is longer than 65,539
    /// bytes, and no byte of an image is listed as more than ten.
    pub fn room(&self) -> Vec<u8> {
        match self {
            Work::Crunch { .. } => vec![0; 65_536 + 16],
            Work::List { image } => vec![0; 10 * image.len() + 16],
        }
    }

    pub fn here(&self, out: &mut [u8]) -> Result<usize, Refusal> {
        match self {
            Work::Crunch { text, dialect } => {
                moldthatch::crunch(text.as_bytes(), LOAD, *dialect, out)
            }
            Work::List { image } => moldthatch::list(image, out),
        }
    }

    pub fn original(&self) -> Result<Vec<u8>, Refusal> {
        match self {
            Work::Crunch { text, dialect } => {
                source::tokenize_program_at_with(text, LOAD, named(*dialect)).map_err(of_text)
            }
            Work::List { image } => match Program::parse(image) {
                Ok(program) => Ok(program.detokenize().into_bytes()),
                Err(error) => Err(of_image(error)),
            },
        }
    }

    /// Whether both sides, and the measured room, give the same answer.
    pub fn agrees(&self) -> bool {
        let mut out = self.room();
        let here = self.here(&mut out).map(|length| out[..length].to_vec());
        let needed = match self {
            Work::Crunch { text, dialect } => {
                moldthatch::crunch_room(text.as_bytes(), LOAD, *dialect)
            }
            Work::List { image } => moldthatch::list_room(image),
        };
        needed == here.as_ref().map(Vec::len).map_err(|refusal| *refusal) && here == self.original()
    }
}

fn named(dialect: Dialect) -> tokens::Dialect {
    match dialect {
        Dialect::Auto => tokens::Dialect::Auto,
        Dialect::BasicV2 => tokens::Dialect::BasicV2,
        Dialect::Tsb => tokens::Dialect::Tsb,
        Dialect::Basic35 => unreachable!("the original has no BASIC 3.5"),
    }
}

fn of_text(error: TokenizeError) -> Refusal {
    match error {
        TokenizeError::MissingLineNumber(line) => Refusal::MissingLineNumber { line },
        TokenizeError::LineNumberOutOfRange(line, value) => Refusal::LineNumberOutOfRange {
            line,
            value: value as usize,
        },
        TokenizeError::AddressOverflow => Refusal::AddressOverflow,
    }
}

fn of_image(error: ParseError) -> Refusal {
    match error {
        ParseError::TooShort => Refusal::TooShort,
        ParseError::UnexpectedEof => Refusal::UnexpectedEof,
        ParseError::UnterminatedLine { .. } => unreachable!("no path of the original returns this"),
    }
}
