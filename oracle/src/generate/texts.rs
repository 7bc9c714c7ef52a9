//! Texts to crunch: those enumerated from the rules, and random ones.

use super::requests::TextCase;
use super::strings::strings;
use super::{damage, escapes, guesses, programs, words};
use crate::dialects::{DIALECTS, Dialect};
use crate::domain::PI;
use crate::random::Random;

const LINE_ENDS: [&str; 9] = [
    "", "\n", "\r", "\r\n", "\n\r", "\r\r\n", "\x0B", "\x0C", " \t\n",
];

const LINE_NUMBERS: [&str; 24] = [
    "0",
    "1",
    "9",
    "00",
    "007",
    "255",
    "256",
    "63999",
    "64000",
    "65535",
    "0000065535",
    "65536",
    "065536",
    "99999",
    "100000",
    "4294967295",
    "4294967296",
    "4294967301",
    "99999999999999999999",
    "00000000000000000000000000000001",
    "-1",
    "+1",
    "1.5",
    "$10",
];

/// The edges of the address space and of its pages.
const LOAD_ADDRESSES: [u16; 30] = [
    0x0000, 0x0001, 0x00FE, 0x00FF, 0x0100, 0x0101, 0x0400, 0x07FF, 0x0800, 0x0801, 0x1001, 0x7FFF,
    0x8000, 0xFF00, 0xFFF0, 0xFFF1, 0xFFF2, 0xFFF3, 0xFFF4, 0xFFF5, 0xFFF6, 0xFFF7, 0xFFF8, 0xFFF9,
    0xFFFA, 0xFFFB, 0xFFFC, 0xFFFD, 0xFFFE, 0xFFFF,
];

pub fn listed() -> Vec<TextCase> {
    let mut cases = of_words();
    cases.extend(of_bytes());
    cases.extend(of_bad_bytes());
    cases.extend(of_lines());
    cases.extend(short_texts());
    cases.extend(of_load_addresses());
    cases.extend(of_escapes());
    cases.extend(guesses::listed());
    cases
}

/// Every word in three cases, cut short, with a letter off, and run together,
/// under every dialect.
fn of_words() -> Vec<TextCase> {
    let mut cases = Vec::new();
    for word in words::all() {
        let lower = word.to_lowercase();
        let mixed = words::in_mixed_case(word);
        let short = words::cut_short(word);
        let off = words::with_letter_changed(word, word.len() - 1);
        let text = format!(
            "1 {word}\n2 {lower}\n3 {mixed}\n4 {short}\n5 {off}\n6 A{lower}B1\n7 {word}{word}\n\
             8 {short}{word}:{mixed} {short}"
        );
        cases.extend(DIALECTS.map(|dialect| TextCase::under(dialect, text.clone())));
    }
    cases
}

/// Every byte of a text, and pi, in each of the modes of a line.
fn of_bytes() -> Vec<TextCase> {
    let mut all: Vec<Vec<u8>> = (0..0x80).map(|byte| vec![byte]).collect();
    all.push(PI.to_vec());
    all.into_iter()
        .map(|it| {
            let lines: [[&[u8]; 3]; 6] = [
                [b"1A", &it, b"b"],
                [b"2\"A", &it, b"b\"c"],
                [b"3REMA", &it, b"b"],
                [b"4DATAA", &it, b"b:c"],
                [b"5DATA\"a", &it, b"b\"c:"],
                [b"6", &it, &it],
            ];
            let lines = lines.map(|parts| parts.concat());
            TextCase::auto(lines.join(&b'\n'))
        })
        .collect()
}

/// Bytes outside the domain, alone and beside the halves of pi.
fn of_bad_bytes() -> Vec<TextCase> {
    let mut cases = Vec::new();
    for byte in 0..=0xFF {
        cases.push(TextCase::auto([b"1A", &[0xCF, byte][..]].concat()));
        cases.push(TextCase::auto([b"1A", &PI[..], &[byte]].concat()));
        cases.push(TextCase::auto(vec![byte]));
    }
    cases
}

/// Line ends, line numbers and white space in every place of a line.
fn of_lines() -> Vec<TextCase> {
    let mut texts = Vec::new();
    for first in LINE_ENDS {
        for second in LINE_ENDS {
            texts.push(format!("1A{first}2B{second}"));
            texts.push(format!("{first}1A{second}X"));
        }
    }
    for number in LINE_NUMBERS {
        texts.push(number.to_string());
        texts.push(format!("\n1A\n {number} B"));
        texts.push(format!("{number}9"));
    }
    for byte in (0..=0x20).chain([0x7F]).map(char::from) {
        texts.push(format!("{byte}1{byte}A{byte}"));
        texts.push(format!("1A\n{byte}\n{byte}2 {byte} "));
        texts.push(format!("1 DO{byte}=1"));
        texts.push(format!("{byte}1{byte}DO"));
    }
    texts.into_iter().map(TextCase::auto).collect()
}

/// All texts up to two bytes long, and those of three over fewer bytes.
fn short_texts() -> Vec<TextCase> {
    const BYTES: &[u8] = b"10A? \"{:\n\r\t\x0B\0\xCF\x80";
    const FEWER_BYTES: &[u8] = b"1A \n\r\xCF\x80";
    let shorter = (0..=2).flat_map(|length| strings(length, BYTES));
    shorter
        .chain(strings(3, FEWER_BYTES))
        .map(TextCase::auto)
        .collect()
}

fn of_escapes() -> impl Iterator<Item = TextCase> {
    let insides = escapes::listed().into_iter();
    insides.map(|inside| TextCase::auto(format!("1 \"{inside}\"")))
}

fn of_load_addresses() -> Vec<TextCase> {
    const TEXTS: [&str; 6] = ["", "1", "1A", "1\n2", "1\nX", "1\"{red*6}\""];
    let mut cases = Vec::new();
    for load in LOAD_ADDRESSES {
        cases.extend(TEXTS.map(|text| TextCase::at(load, text)));
    }
    cases
}

/// A random text, often damaged, under any dialect.
pub fn any(random: &mut Random) -> TextCase {
    let mut text = match random.below(4) {
        0 => guesses::any(random),
        _ => programs::any(random),
    };
    if random.one_in(3) {
        for _ in 0..random.between(1, 4) {
            damage::text(&mut text, random);
        }
    }
    TextCase {
        load: any_load_address(random),
        dialect: any_dialect(random),
        text,
    }
}

/// Auto twice as often as the others: it has the most to decide.
pub fn any_dialect(random: &mut Random) -> Dialect {
    random.pick(&[
        Dialect::Auto,
        Dialect::Auto,
        Dialect::BasicV2,
        Dialect::Tsb,
        Dialect::Basic35,
    ])
}

pub fn any_load_address(random: &mut Random) -> u16 {
    match random.below(12) {
        0..8 => 0x0801,
        8 => u16::MAX - random.below(200) as u16,
        9 => random.next() as u16,
        _ => random.pick(&LOAD_ADDRESSES),
    }
}
