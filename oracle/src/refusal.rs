//! The refusals, numbered and named as in document 01's table and, from 15 on, in
//! the requests of document 02.

use crate::prg::ParseError;
use crate::{formed, source};

/// Why a call gives no result, with the values that the refusal carries.
#[derive(Debug, Clone, Copy, PartialEq, Eq)]
pub enum Refusal {
    TextTooLong { length: u64 },
    BadByte { offset: u64 },
    MissingLineNumber { text_line: u64 },
    LineNumberOutOfRange { text_line: u64, value: u64 },
    AddressOverflow,
    NoRoom { needed: u64 },
    ImageTooLong { length: u64 },
    TooShort,
    UnexpectedEof,
    MissingEnd { link: u64 },
    LinkBackward { link: u64 },
    LinkOutside { link: u64 },
    LinkNoEnd { link: u64 },
    UnknownDialect,
    NumberTooHigh { text_line: u64 },
    NotAscending { text_line: u64 },
    ZeroInBody { text_line: u64 },
    BodyLength { text_line: u64 },
    LimitReached,
    BadDisk,
    BadName,
    NameTaken,
    NoSuchFile,
    DirectoryFull,
    DiskFull,
    TooManyImages,
    TooManyLines,
    TargetTooHigh,
}

/// Number, name and carried values of each refusal that the judge can give.
const TABLE: [(u8, &str, &[&str]); 28] = [
    (1, "TextTooLong", &["length"]),
    (2, "BadByte", &["offset"]),
    (3, "MissingLineNumber", &["text line"]),
    (4, "LineNumberOutOfRange", &["text line", "value"]),
    (5, "AddressOverflow", &[]),
    (6, "NoRoom", &["needed"]),
    (7, "ImageTooLong", &["length"]),
    (8, "TooShort", &[]),
    (9, "UnexpectedEof", &[]),
    (10, "MissingEnd", &["link at"]),
    (11, "LinkBackward", &["link at"]),
    (12, "LinkOutside", &["link at"]),
    (13, "LinkNoEnd", &["link at"]),
    (14, "UnknownDialect", &[]),
    (15, "NumberTooHigh", &["text line"]),
    (16, "NotAscending", &["text line"]),
    (17, "ZeroInBody", &["text line"]),
    (18, "BodyLength", &["text line"]),
    (19, "LimitReached", &[]),
    (20, "BadDisk", &[]),
    (21, "BadName", &[]),
    (22, "NameTaken", &[]),
    (23, "NoSuchFile", &[]),
    (24, "DirectoryFull", &[]),
    (25, "DiskFull", &[]),
    (26, "TooManyImages", &[]),
    (27, "TooManyLines", &[]),
    (28, "TargetTooHigh", &[]),
];

/// The name of the refusal with this number, and what it carries.
pub fn named(number: u8) -> Option<(&'static str, &'static [&'static str])> {
    let row = TABLE.iter().find(|row| row.0 == number)?;
    Some((row.1, row.2))
}

impl Refusal {
    /// The refusal as an answer begins with it: its number, then its values.
    pub fn to_bytes(self) -> Vec<u8> {
        match self {
            Refusal::TextTooLong { length } => numbered(1, &[length]),
            Refusal::BadByte { offset } => numbered(2, &[offset]),
            Refusal::MissingLineNumber { text_line } => numbered(3, &[text_line]),
            Refusal::LineNumberOutOfRange { text_line, value } => numbered(4, &[text_line, value]),
            Refusal::AddressOverflow => numbered(5, &[]),
            Refusal::NoRoom { needed } => numbered(6, &[needed]),
            Refusal::ImageTooLong { length } => numbered(7, &[length]),
            Refusal::TooShort => numbered(8, &[]),
            Refusal::UnexpectedEof => numbered(9, &[]),
            Refusal::MissingEnd { link } => numbered(10, &[link]),
            Refusal::LinkBackward { link } => numbered(11, &[link]),
            Refusal::LinkOutside { link } => numbered(12, &[link]),
            Refusal::LinkNoEnd { link } => numbered(13, &[link]),
            Refusal::UnknownDialect => numbered(14, &[]),
            Refusal::NumberTooHigh { text_line } => numbered(15, &[text_line]),
            Refusal::NotAscending { text_line } => numbered(16, &[text_line]),
            Refusal::ZeroInBody { text_line } => numbered(17, &[text_line]),
            Refusal::BodyLength { text_line } => numbered(18, &[text_line]),
            Refusal::LimitReached => numbered(19, &[]),
            Refusal::BadDisk => numbered(20, &[]),
            Refusal::BadName => numbered(21, &[]),
            Refusal::NameTaken => numbered(22, &[]),
            Refusal::NoSuchFile => numbered(23, &[]),
            Refusal::DirectoryFull => numbered(24, &[]),
            Refusal::DiskFull => numbered(25, &[]),
            Refusal::TooManyImages => numbered(26, &[]),
            Refusal::TooManyLines => numbered(27, &[]),
            Refusal::TargetTooHigh => numbered(28, &[]),
        }
    }
}

fn numbered(number: u8, values: &[u64]) -> Vec<u8> {
    let mut bytes = vec![number];
    for value in values {
        bytes.extend(value.to_le_bytes());
    }
    bytes
}

/// The errors of a module that crunches.
macro_rules! from_errors_of {
    ($module:ident) => {
        impl From<$module::TokenizeError> for Refusal {
            fn from(error: $module::TokenizeError) -> Refusal {
                match error {
                    $module::TokenizeError::MissingLineNumber(text_line) => {
                        Refusal::MissingLineNumber {
                            text_line: text_line as u64,
                        }
                    }
                    $module::TokenizeError::LineNumberOutOfRange(text_line, value) => {
                        Refusal::LineNumberOutOfRange {
                            text_line: text_line as u64,
                            value: value.into(),
                        }
                    }
                    $module::TokenizeError::AddressOverflow => Refusal::AddressOverflow,
                }
            }
        }
    };
}

from_errors_of!(source);
from_errors_of!(formed);

impl From<ParseError> for Refusal {
    fn from(error: ParseError) -> Refusal {
        match error {
            ParseError::TooShort => Refusal::TooShort,
            ParseError::UnexpectedEof => Refusal::UnexpectedEof,
            ParseError::UnterminatedLine { line_number } => {
                unreachable!("line {line_number}: document 01 says that no path returns this")
            }
        }
    }
}
