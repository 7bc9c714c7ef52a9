//! Counts over images: a model, and no original but for reading the lines.
//!
//! Written from document 02, No. 12: a body's tokens are listed, and the totals are
//! read off the list of all of them.

use crate::domain;
use crate::prg::Program;
use crate::refusal::Refusal;
use crate::tokens;

/// No more images than this are taken.
const MOST_IMAGES: usize = 1000;

const PREFIX: u8 = 0x64;
const REM: u8 = 0x8F;

#[derive(Debug, Clone, Copy, PartialEq, Eq)]
pub enum Token {
    V2(u8),
    Tsb(u8),
}

pub struct Totals {
    pub too_many: bool,
    taken: u64,
    refused: u64,
    tokens: Vec<Token>,
}

/// The images of a list, each behind its length; nothing if the bytes are no such list.
pub fn list(mut bytes: &[u8]) -> Option<Vec<&[u8]>> {
    let mut images = Vec::new();
    while !bytes.is_empty() {
        let (length, behind) = bytes.split_first_chunk()?;
        let (image, rest) = behind.split_at_checked(u32::from_le_bytes(*length) as usize)?;
        images.push(image);
        bytes = rest;
    }
    Some(images)
}

/// The totals of a list of images.
pub fn totals(images: &[u8]) -> Totals {
    let images = list(images).expect("the request was decoded");
    let taken = &images[..images.len().min(MOST_IMAGES)];
    let read: Vec<_> = taken.iter().map(|image| tokens_in(image)).collect();
    Totals {
        too_many: images.len() > MOST_IMAGES,
        taken: taken.len() as u64,
        refused: read.iter().filter(|read| read.is_err()).count() as u64,
        tokens: read.into_iter().flatten().flatten().collect(),
    }
}

fn tokens_in(image: &[u8]) -> Result<Vec<Token>, Refusal> {
    let program = Program::parse(domain::image(image)?)?;
    let bodies = program.lines.iter().map(|line| tokens_of(&line.body));
    Ok(bodies.flatten().collect())
}

/// The tokens of a body that are counted, up to a remark, whose own token is one.
pub fn tokens_of(body: &[u8]) -> Vec<Token> {
    let mut found = Vec::new();
    let mut quoted = false;
    let mut bytes = body.iter().copied();
    while let Some(byte) = bytes.next() {
        match byte {
            b'"' => quoted = !quoted,
            _ if quoted => {}
            PREFIX => found.extend(bytes.next().and_then(tsb_token)),
            0x80..=0xCB => found.push(Token::V2(byte)),
            _ => {}
        }
        if byte == REM && !quoted {
            break;
        }
    }
    found
}

/// The TSB token of a byte behind the prefix, under the byte that the listing reads there.
fn tsb_token(byte: u8) -> Option<Token> {
    let read = match byte {
        0xB1 => 0x3E,
        0xB2 => 0x3D,
        0xB3 => 0x3C,
        _ => byte,
    };
    tokens::tsb_keyword(byte).map(|_| Token::Tsb(read))
}

/// All tokens that can be counted, in the order of an answer.
fn all_tokens() -> Vec<Token> {
    let v2 = (0x80..=0xCB).map(Token::V2);
    let tsb = (0..0x80).filter(|&byte| tokens::tsb_keyword(byte).is_some());
    v2.chain(tsb.map(Token::Tsb)).collect()
}

impl Totals {
    /// The numbers of an answer: the three sums, each token's count, each one's share.
    pub fn numbers(&self) -> Vec<u64> {
        let sum = self.tokens.len() as u64;
        let count = |token| self.tokens.iter().filter(|&&found| found == token).count() as u64;
        let counts: Vec<u64> = all_tokens().into_iter().map(count).collect();
        let shares = counts.iter().map(|count| (1000 * count).checked_div(sum).unwrap_or(0));
        let sums = [self.taken, self.refused, sum];
        sums.into_iter().chain(counts.iter().copied()).chain(shares).collect()
    }
}
