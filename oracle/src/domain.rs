//! Rules of our own in front of the original.
//!
//! Document 01 limits what a text, an image and a dialect's name may be
//! (refusals 1, 2, 7 and 14). The original has no such limits: it takes any
//! string of Rust. These checks are therefore not the original's, and a
//! difference in them is one between this module and the port.

use std::ops::Range;

use crate::refusal::Refusal;

pub const TEXT_LIMIT: usize = 1_048_576;
pub const IMAGE_LIMIT: usize = 1_048_576;
pub const NAME_LIMIT: usize = 64;

/// The letter pi, the only one outside ASCII that a text may hold.
pub const PI: [u8; 2] = [0xCF, 0x80];

/// A repeat count that no line can hold, whatever its load address.
const COUNT_BEYOND_ANY_LINE: u64 = 65_536;

/// The text as the original takes it, or refusal 1 or 2.
pub fn text(bytes: &[u8]) -> Result<&str, Refusal> {
    if bytes.len() > TEXT_LIMIT {
        let length = bytes.len() as u64;
        return Err(Refusal::TextTooLong { length });
    }
    let mut at = 0;
    while at < bytes.len() {
        at += match &bytes[at..] {
            [0x00..0x80, ..] => 1,
            rest if rest.starts_with(&PI) => PI.len(),
            _ => return Err(Refusal::BadByte { offset: at as u64 }),
        };
    }
    Ok(std::str::from_utf8(bytes).expect("ASCII and pi are UTF-8"))
}

/// The image, or refusal 7.
pub fn image(bytes: &[u8]) -> Result<&[u8], Refusal> {
    if bytes.len() > IMAGE_LIMIT {
        let length = bytes.len() as u64;
        return Err(Refusal::ImageTooLong { length });
    }
    Ok(bytes)
}

/// The name of a dialect as the original takes it, or refusal 14.
pub fn dialect_name(word: &[u8]) -> Result<&str, Refusal> {
    if word.len() > NAME_LIMIT || !word.is_ascii() {
        return Err(Refusal::UnknownDialect);
    }
    Ok(std::str::from_utf8(word).expect("ASCII is UTF-8"))
}

/// The text with every count after a `*` that is above 65,536, and fits 64 bits,
/// replaced by 65536 in as many digits; nothing if it holds no such count.
///
/// The original pushes a repeated byte as often as its count says, which for
/// large counts is more than any memory holds. The replaced text stands in for
/// the given one in a single question: is it refused by AddressOverflow? No line
/// is longer in the replaced text than in the given one, for a replaced count
/// keeps its digits' number, and the two agree in line numbers, in which escapes
/// are known, and in the dialect guess. So the given text is refused too if the
/// replaced one is. If it is not, no large count took effect before the answer
/// was clear, and the original can be given the text as it stands. Counts up to
/// 65,536 are written out by the original: the generator keeps them few.
pub fn with_counts_cut(text: &str) -> Option<String> {
    with_counts_above(text, COUNT_BEYOND_ANY_LINE)
}

/// The text with every count after a `*` that is above a limit, and fits 64 bits,
/// replaced by the limit in as many digits; nothing if it holds no such count.
pub fn with_counts_above(text: &str, limit: u64) -> Option<String> {
    let mut cut = String::new();
    let mut copied = 0;
    for (star, _) in text.match_indices('*') {
        let digits = count_after(text, star + 1);
        let count = text[digits.clone()].parse::<u64>();
        if count.is_ok_and(|count| count > limit) {
            cut += &text[copied..digits.start];
            cut += &format!("{limit:0width$}", width = digits.len());
            copied = digits.end;
        }
    }
    (copied > 0).then(|| cut + &text[copied..])
}

/// Where the digits of a count stand whose `*` ends before `start`: behind white
/// space that ends no line, and one `+`.
fn count_after(text: &str, start: usize) -> Range<usize> {
    let behind = text[start..].trim_start_matches(['\t', '\x0B', '\x0C', ' ']);
    let digits = behind.strip_prefix('+').unwrap_or(behind);
    let others = digits.trim_start_matches(|letter: char| letter.is_ascii_digit());
    text.len() - digits.len()..text.len() - others.len()
}
