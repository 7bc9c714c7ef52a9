//! Crunching under the machine profile: a model over the original.
//!
//! The original gives the image, and the body of each line. What the profile asks of
//! a line was written from document 02, No. 1.

use std::collections::BTreeSet;

use crate::dialects::Dialect;
use crate::domain;
use crate::library::{self, CrunchOptions};
use crate::refusal::Refusal;

/// The highest number that the machine takes for a line that is typed in.
const HIGHEST_NUMBER: u64 = 63_999;

/// No body that the profile allows holds a byte so often.
const BEYOND_ANY_BODY: u64 = 300;

const LAST_LINK: u64 = 0xFFFF;

/// Whether the profile takes the text: the refusal of its first fault, if it has one.
pub fn check(options: CrunchOptions, text: &[u8]) -> Result<(), Refusal> {
    let text = domain::text(text)?;
    let text = text.replace("\r\n", "\n").replace('\r', "\n");
    let bodies = Bodies::of(options, &text);
    let mut address = u64::from(options.load);
    let mut before = None;
    for (text_line, line) in (1..).zip(text.split('\n')) {
        if line.trim().is_empty() {
            continue;
        }
        let number = number(line, text_line)?;
        if number > HIGHEST_NUMBER {
            return Err(Refusal::NumberTooHigh { text_line });
        }
        if before.is_some_and(|before| number <= before) {
            return Err(Refusal::NotAscending { text_line });
        }
        before = Some(number);
        let body = bodies.body(line);
        if body.holds_zero {
            return Err(Refusal::ZeroInBody { text_line });
        }
        if !(1..=250).contains(&body.length) {
            return Err(Refusal::BodyLength { text_line });
        }
        address += 5 + body.length;
        if address > LAST_LINK {
            return Err(Refusal::AddressOverflow);
        }
    }
    Ok(())
}

fn number(line: &str, text_line: u64) -> Result<u64, Refusal> {
    let line = line.trim_start();
    let digits = &line[..digits(line)];
    if digits.is_empty() {
        return Err(Refusal::MissingLineNumber { text_line });
    }
    let value = digits.parse::<u32>().unwrap_or(u32::MAX).into();
    if value > 65_535 {
        return Err(Refusal::LineNumberOutOfRange { text_line, value });
    }
    Ok(value)
}

fn digits(line: &str) -> usize {
    line.len()
        - line
            .trim_start_matches(|letter: char| letter.is_ascii_digit())
            .len()
}

struct Body {
    holds_zero: bool,
    length: u64,
}

/// The bodies of a text's lines, each crunched as the first line of a text with the
/// same dialect guess. Only under Auto do the other lines matter, and only where the
/// guess is Tsb: then each of them stands behind the line, with a number that fits.
struct Bodies {
    options: CrunchOptions,
    others: String,
}

impl Bodies {
    fn of(options: CrunchOptions, text: &str) -> Bodies {
        let resolved = library::resolved_dialect(options.dialect, text.as_bytes())
            .expect("the text is within the domain");
        let (dialect, others) = match (options.dialect, resolved) {
            (Dialect::Auto, Dialect::Tsb) => (Dialect::Auto, different_lines(text)),
            _ => (resolved, String::new()),
        };
        let options = CrunchOptions {
            load: 0,
            dialect,
            profile: false,
            ..options
        };
        Bodies { options, others }
    }

    fn body(&self, line: &str) -> Body {
        let text = [&renumbered(line), "\n", &self.others].concat();
        match library::crunch_with(self.options, text.as_bytes()) {
            Ok(image) => {
                let link = u16::from_le_bytes([image[2], image[3]]);
                let body = &image[6..usize::from(link) + 1];
                Body {
                    holds_zero: body.contains(&0),
                    length: body.len() as u64,
                }
            }
            Err(refusal) => {
                let plain = !line.contains(['{', '\0']);
                assert!(
                    plain && line.len() > 60_000,
                    "no model of such a line: {refusal:?}"
                );
                Body {
                    holds_zero: false,
                    length: line.len() as u64,
                }
            }
        }
    }
}

/// Each different line once, under the number 1.
fn different_lines(text: &str) -> String {
    let lines = text.split('\n').filter(|line| !line.trim().is_empty());
    let different: BTreeSet<String> = lines.map(renumbered).collect();
    different.into_iter().collect::<Vec<String>>().join("\n")
}

/// The line under the number 1, and with no count above what any body may hold.
fn renumbered(line: &str) -> String {
    let line = line.trim();
    let line = format!("1{}", &line[digits(line)..]);
    domain::with_counts_above(&line, BEYOND_ANY_BODY).unwrap_or(line)
}
