//! The dialects of the requests: the original's three, and BASIC 3.5 (document 02, No. 5).

use crate::tokens;

#[derive(Debug, Clone, Copy, PartialEq, Eq)]
pub enum Dialect {
    Auto,
    BasicV2,
    Tsb,
    Basic35,
}

/// All of them, each at the byte that stands for it in requests and answers.
pub const DIALECTS: [Dialect; 4] = [
    Dialect::Auto,
    Dialect::BasicV2,
    Dialect::Tsb,
    Dialect::Basic35,
];

impl Dialect {
    /// The original's, if it has it.
    pub fn original(self) -> Option<tokens::Dialect> {
        match self {
            Dialect::Auto => Some(tokens::Dialect::Auto),
            Dialect::BasicV2 => Some(tokens::Dialect::BasicV2),
            Dialect::Tsb => Some(tokens::Dialect::Tsb),
            Dialect::Basic35 => None,
        }
    }

    pub fn default_load(self) -> u16 {
        match self {
            Dialect::Basic35 => 0x1001,
            _ => 0x0801,
        }
    }
}

impl From<tokens::Dialect> for Dialect {
    fn from(dialect: tokens::Dialect) -> Dialect {
        match dialect {
            tokens::Dialect::Auto => Dialect::Auto,
            tokens::Dialect::BasicV2 => Dialect::BasicV2,
            tokens::Dialect::Tsb => Dialect::Tsb,
        }
    }
}
