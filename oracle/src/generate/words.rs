//! The words of the lists in other spellings.

use crate::basic35;
use crate::random::Random;
use crate::tables::{TSB_WORDS, V2_WORDS};

/// Every word, those of TSB first.
pub fn all() -> impl Iterator<Item = &'static str> {
    let own = basic35::WORDS.iter().map(|&(word, _)| word);
    TSB_WORDS.iter().chain(V2_WORDS.iter()).copied().chain(own)
}

/// Any word of a list, as often from the original's one as from the other.
pub fn any(random: &mut Random) -> &'static str {
    match random.below(5) {
        0 => random.pick(&basic35::WORDS).0,
        1 | 2 => random.pick(&TSB_WORDS),
        _ => random.pick(&V2_WORDS),
    }
}

/// Lower and upper case letter by letter: `pRiNt`.
pub fn in_mixed_case(word: &str) -> String {
    let letter = |(place, letter): (usize, char)| match place % 2 {
        0 => letter.to_ascii_lowercase(),
        _ => letter.to_ascii_uppercase(),
    };
    word.chars().enumerate().map(letter).collect()
}

/// In capitals, in lower case, or each letter for itself.
pub fn in_any_case(word: &str, random: &mut Random) -> String {
    match random.below(3) {
        0 => word.to_ascii_uppercase(),
        1 => word.to_ascii_lowercase(),
        _ => word
            .chars()
            .map(|letter| match random.below(2) {
                0 => letter.to_ascii_lowercase(),
                _ => letter.to_ascii_uppercase(),
            })
            .collect(),
    }
}

pub fn cut_short(word: &str) -> &str {
    &word[..word.len() - 1]
}

/// The word, one letter at the place replaced by its neighbour in the alphabet.
pub fn with_letter_changed(word: &str, place: usize) -> String {
    let change = |(at, letter): (usize, char)| match letter {
        _ if at != place => letter,
        'z' => 'a',
        'Z' => 'A',
        other => char::from(other as u8 + 1),
    };
    word.chars().enumerate().map(change).collect()
}

/// A word of a list in any case, now and then cut short or one letter off.
pub fn near_any(random: &mut Random) -> String {
    let word = any(random);
    let word = match random.below(12) {
        0 => cut_short(word).to_string(),
        1 => with_letter_changed(word, random.below(word.len())),
        _ => word.to_string(),
    };
    in_any_case(&word, random)
}
