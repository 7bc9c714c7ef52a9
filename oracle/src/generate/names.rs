//! Words for the two calls that take one: dialect by name (op 04) and the test
//! for a TSB word (op 05).

use super::words;
use crate::domain::NAME_LIMIT;
use crate::random::Random;
use crate::tables::{ESCAPE_NAMES, TSB_WORDS};

const DIALECT_NAMES: [&str; 9] = [
    "auto", "basic2", "basicv2", "v2", "basic-v2", "tsb", "simons", "ext", "basic35",
];

const NO_DIALECT_NAMES: [&str; 19] = [
    "basic3.5",
    "basic-35",
    "basic3",
    "v35",
    "plus4",
    "",
    " ",
    "auto2",
    "basic",
    "basic 2",
    "basic_v2",
    "basic--v2",
    "basic-2",
    "v 2",
    "v02",
    "2",
    "simon",
    "simon's",
    "ext.",
];

/// The bytes that trimming takes away.
const WHITE_SPACE: &[u8] = b"\t\n\x0B\x0C\r ";

/// The names of dialects, and words that are nearly such.
pub fn first_dialects() -> Vec<Vec<u8>> {
    let names = DIALECT_NAMES.iter().chain(&NO_DIALECT_NAMES);
    names.map(|name| name.as_bytes().to_vec()).collect()
}

/// Every name in other cases, with letters off and with every byte beside it.
pub fn listed_dialects() -> Vec<Vec<u8>> {
    let mut names = Vec::new();
    for name in DIALECT_NAMES {
        names.push(name.to_uppercase().into());
        names.push(words::in_mixed_case(name).into());
        names.push(words::cut_short(name).into());
        names.push(name[1..].into());
        names.extend((0..name.len()).map(|place| words::with_letter_changed(name, place).into()));
        names.extend((NAME_LIMIT - 1..=NAME_LIMIT + 2).flat_map(|length| padded(name, length)));
    }
    for byte in 0..=0xFF {
        names.push(vec![byte]);
        names.push([b"tsb", &[byte][..]].concat());
        names.push([&[byte], &b"V2"[..]].concat());
        names.push(vec![b'V', byte, b'2']);
    }
    names
}

/// The name with white space before or behind it, so that it has the length.
fn padded(name: &str, length: usize) -> [Vec<u8>; 2] {
    [
        format!("{name:length$}").into(),
        format!("{name:>length$}").into(),
    ]
}

pub fn any_dialect(random: &mut Random) -> Vec<u8> {
    let mut name = words::in_any_case(random.pick(&DIALECT_NAMES), random).into_bytes();
    if random.one_in(3) {
        let at = random.below(name.len());
        match random.below(4) {
            0 => name[at] = random.byte(),
            1 => name[at] ^= 1 << random.below(8),
            2 => name.insert(at, random.byte()),
            _ => drop(name.remove(at)),
        }
    }
    let longest = if random.one_in(6) { 40 } else { 3 };
    let before = white_space(random.below(longest), random);
    let behind = white_space(random.below(longest), random);
    [before, name, behind].concat()
}

fn white_space(length: usize, random: &mut Random) -> Vec<u8> {
    (0..length).map(|_| random.pick(WHITE_SPACE)).collect()
}

/// Every word of TSB and of V2.
pub fn first_words() -> Vec<Vec<u8>> {
    words::all().map(|word| word.as_bytes().to_vec()).collect()
}

/// Every word in other cases, its beginnings and ends, and with something beside it.
pub fn listed_words(random: &mut Random) -> Vec<Vec<u8>> {
    let mut listed: Vec<Vec<u8>> = (0..=0xFF).map(|byte| vec![byte]).collect();
    listed.push(Vec::new());
    for word in words::all() {
        listed.push(word.to_lowercase().into());
        listed.push(words::in_mixed_case(word).into());
        listed.push(format!("{word} ").into());
        listed.push(format!(" {word}").into());
        listed.push(format!("{word}\0").into());
        listed.push(format!("{word}{word}").into());
        listed.push([word.as_bytes(), &[random.byte()]].concat());
        listed.push(words::with_letter_changed(word, random.below(word.len())).into());
        listed.extend((1..word.len()).map(|length| word[..length].into()));
        listed.extend((1..word.len()).map(|start| word[start..].into()));
    }
    listed.extend(ESCAPE_NAMES.iter().map(|name| name.to_uppercase().into()));
    listed
}

pub fn any_word(random: &mut Random) -> Vec<u8> {
    let mut word = random.pick(&TSB_WORDS).as_bytes().to_vec();
    match random.below(8) {
        0 | 1 => {}
        2 => word = words::near_any(random).into(),
        3 => word.push(random.byte()),
        4 => word = (0..random.below(12)).map(|_| random.byte()).collect(),
        5 => word.truncate(random.below(word.len() + 1)),
        6 => {
            let at = random.below(word.len());
            word[at] ^= 1 << random.below(8);
        }
        _ => word = word.repeat(random.between(2, 200)),
    }
    word
}
