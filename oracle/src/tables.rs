//! The original's word lists, for the generator.
//!
//! They are private constants of its source.rs, so they are read out of its
//! text; no copy of them is kept here.

use std::sync::LazyLock;

use crate::SOURCE_TEXT;

/// The 68 words of BASIC V2.
pub static V2_WORDS: LazyLock<Vec<&str>> = LazyLock::new(|| words_of("KEYWORDS_V2", 68));

/// The 123 words of TSB, with both spellings of COLOR and CENTER.
pub static TSB_WORDS: LazyLock<Vec<&str>> = LazyLock::new(|| words_of("KEYWORDS_TSB", 123));

/// The 112 names of escapes.
pub static ESCAPE_NAMES: LazyLock<Vec<&str>> =
    LazyLock::new(|| words_of("PETSCII_ESCAPE_NAMES", 112));

/// The words of a table whose entries stand one on a line, as `("WORD", 0x80),`.
fn words_of(constant: &str, expected: usize) -> Vec<&'static str> {
    let head = format!("const {constant}: ");
    let words: Vec<_> = SOURCE_TEXT
        .lines()
        .skip_while(|line| !line.starts_with(&head))
        .take_while(|line| *line != "];")
        .filter_map(|line| line.trim_start().strip_prefix("(\""))
        .filter_map(|entry| entry.split('"').next())
        .collect();
    assert_eq!(
        words.len(),
        expected,
        "entries of the original's {constant}"
    );
    words
}
