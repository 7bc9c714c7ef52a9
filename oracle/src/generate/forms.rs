//! Texts with short forms of words.

use super::requests::TextCase;
use super::words;
use crate::dialects::{DIALECTS, Dialect};
use crate::random::Random;
use crate::tables::V2_WORDS;

/// What stands in front of a short form, and behind it.
const AROUND: [(&str, &str); 12] = [
    ("1", ""),
    ("1", "a:b"),
    ("1X", "X"),
    ("1x", "#1"),
    ("1\"", "\""),
    ("1rem", ""),
    ("1data ", ":"),
    ("1dA\"", "\":"),
    ("1a=", "=1"),
    ("1hires:", ":do"),
    ("1dir=1:do=2:hires\n2", "r"),
    ("1 end ", " proc"),
];

/// Under each dialect.
const OTHERS: [&str; 16] = [
    "1 lOop",
    "1 lOOp",
    "1 lOo",
    "1 iNstr",
    "1 dIrectory",
    "1 rEname rEnam",
    "1 gO",
    "1 goS",
    "1 gOs",
    "1 goSub",
    "1 eN PROC",
    "1 dIr",
    "1 dIr=1:hires",
    "1 reM a\"B",
    "1 dA a\"b:\"c:D",
    "1 ?pO\"pO{red}pO\"pO",
];

/// Each beginning of each V2 word, of which the last letter is a capital.
pub fn listed() -> Vec<TextCase> {
    let mut cases = Vec::new();
    for word in V2_WORDS.iter() {
        for length in 1..=word.len() {
            for (before, behind) in AROUND {
                let text = format!("{before}{}{behind}", shortened(word, length));
                cases.push(TextCase::auto(text));
            }
            for dialect in [Dialect::Tsb, Dialect::Basic35] {
                let text = format!("1{}", shortened(word, length));
                cases.push(TextCase::under(dialect, text));
            }
        }
    }
    for text in OTHERS {
        for dialect in DIALECTS {
            cases.push(TextCase::under(dialect, text));
        }
    }
    cases.push(TextCase::auto(["1", &"a".repeat(60_000), "B"].concat()));
    cases
}

/// A few words, cut short and written so.
pub fn any(random: &mut Random) -> TextCase {
    let mut text = String::from("1");
    for _ in 0..1 + random.below(8) {
        let word = words::any(random);
        text += &shortened(word, 1 + random.below(word.len()));
        text += random.pick(&["", "", " ", ":", "\"", "=", "A", "a", "("]);
    }
    TextCase::under(random.pick(&DIALECTS), text)
}

/// The first letters of a word, small but for the last.
fn shortened(word: &str, length: usize) -> String {
    let (small, last) = word[..length].split_at(length - 1);
    small.to_ascii_lowercase() + last
}
