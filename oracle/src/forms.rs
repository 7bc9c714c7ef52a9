//! Short forms of words: a model of our own, set into the original.
//!
//! Written from document 02, No. 7. `build.rs` has the original's crunching ask here
//! where none of its words matches, in a module of its own, `formed`: modes, escapes
//! and the dialect guess stay the original's.

/// No word is as long as this, so no more letters are counted.
const BEYOND_ANY_WORD: usize = 32;

/// How many letters a short form at the front of the text takes, and the token of the
/// first word that it stands for.
pub fn short_form(words: &[(&str, u8)], text: &[u8]) -> Option<(usize, u8)> {
    let front = &text[..text.len().min(BEYOND_ANY_WORD)];
    let small = front.iter().take_while(|b| b.is_ascii_lowercase()).count();
    if small == 0 || !front.get(small)?.is_ascii_uppercase() {
        return None;
    }
    let letters = front[..=small].to_ascii_uppercase();
    let is_short_for =
        |word: &str| word.len() > letters.len() && word.as_bytes().starts_with(&letters);
    let (_, token) = words.iter().find(|(word, _)| is_short_for(word))?;
    Some((letters.len(), *token))
}
