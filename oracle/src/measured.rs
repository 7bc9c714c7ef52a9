//! The line of a text as it will stand in its image: a model over the original.
//!
//! The original gives the image. Which text line each of its lines comes from, and
//! where it will stand, was written from document 02, No. 8.

use crate::domain;
use crate::library::{self, CrunchOptions};
use crate::refusal::Refusal;

/// A line as the measuring pass knows it.
#[derive(Debug, PartialEq, Eq)]
pub struct MeasuredLine {
    pub address: u64,
    pub link: u64,
    pub number: u64,
    pub body_length: u64,
    /// From 1, blank lines counted.
    pub text_line: u64,
}

/// The line at a place, from 1, of the image that the text has.
pub fn line(
    options: CrunchOptions,
    place: u64,
    text: &[u8],
) -> Result<Option<MeasuredLine>, Refusal> {
    let image = library::crunch_with(options, text)?;
    let text = domain::text(text).expect("a text that was crunched is within the domain");
    let mut lines = lines(&image, &nonblank_lines(text));
    let place = usize::try_from(place).unwrap_or(usize::MAX);
    Ok(match place.checked_sub(1) {
        Some(index) if index < lines.len() => Some(lines.swap_remove(index)),
        _ => None,
    })
}

/// The lines of an image that was crunched, from these text lines. No reader is asked:
/// below 0100 a link can have the high byte 0, and still be a line's.
fn lines(image: &[u8], text_lines: &[u64]) -> Vec<MeasuredLine> {
    let word = |at: usize| u64::from(u16::from_le_bytes([image[at], image[at + 1]]));
    let load = word(0);
    let mut at = 2;
    let mut lines = Vec::new();
    for &text_line in text_lines {
        let address = load + at as u64 - 2;
        let link = word(at);
        lines.push(MeasuredLine {
            address,
            link,
            number: word(at + 2),
            body_length: link - address - 5,
            text_line,
        });
        at += (link - address) as usize;
    }
    assert_eq!(
        at + 2,
        image.len(),
        "the end marker stands behind the last line"
    );
    lines
}

/// Which text lines are not blank, from 1 on, after CR handling.
fn nonblank_lines(text: &str) -> Vec<u64> {
    let text = text.replace("\r\n", "\n").replace('\r', "\n");
    let numbered = (1..).zip(text.split('\n'));
    numbered
        .filter(|(_, line)| !line.trim().is_empty())
        .map(|(number, _)| number)
        .collect()
}
