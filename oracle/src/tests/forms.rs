//! The model of short forms, held against worked examples of document 02, No. 7.

use crate::calls::Reader::Links;
use crate::dialects::Dialect;
use crate::library::{self, CrunchOptions};
use crate::tables::V2_WORDS;

fn body(dialect: Dialect, text: &str) -> Vec<u8> {
    let options = CrunchOptions {
        forms: true,
        ..CrunchOptions::none(0x0801, dialect)
    };
    let image = library::crunch_with(options, text.as_bytes()).unwrap();
    library::step(Links, 2, &image).unwrap().unwrap().body
}

#[test]
fn the_first_word_in_table_order() {
    let words: [(&str, &[u8]); 8] = [
        ("1pO", b"\x97"),
        ("1pR", b"\x98"),
        ("1iN", b"\x84"),
        ("1gO", b"\xCB"),
        ("1goS", b"\xCBS"),
        ("1dA:x", b"\x83:X"),
        ("1reMaB", b"\x8FaB"),
        ("1restoR", b"\x8C"),
    ];
    for (text, expected) in words {
        assert_eq!(body(Dialect::BasicV2, text), expected, "{text}");
    }
}

#[test]
fn words_in_force_come_first() {
    assert_eq!(body(Dialect::BasicV2, "1lOop"), b"\x93OP");
    assert_eq!(body(Dialect::Tsb, "1lOop"), b"\x64\x3A");
    // DIR is demoted there, and is no short form of DIM.
    assert_eq!(body(Dialect::Auto, "1dIr=1:hires"), b"DIR\xB21:\x64\x01");
    assert_eq!(body(Dialect::Auto, "1dI:hires"), b"\x86:\x64\x01");
    assert_eq!(body(Dialect::BasicV2, "1\"pO\""), b"\"P\xCF\"");
}

#[test]
fn under_basic35_they_stand_for_v2_words_alone() {
    let words: [(&str, &[u8]); 9] = [
        ("1pO", b"\x97"),
        ("1lOop", b"\xEC"),
        ("1lOad", b"\x93"),
        ("1lOo", b"\x93O"),
        ("1iNstr", b"\xD4"),
        ("1dIr", b"\x86R"),
        ("1soU", b"SOU"),
        ("1dA do:dO", b"\x83 DO:\xEB"),
        ("1\"pO\"reMdO", b"\"P\xCF\"\x8FdO"),
    ];
    for (text, expected) in words {
        assert_eq!(body(Dialect::Basic35, text), expected, "{text}");
    }
}

#[test]
fn without_words_of_its_own_basic35_is_basic_v2() {
    for word in V2_WORDS.iter() {
        for length in 1..=word.len() {
            let (small, last) = word[..length].split_at(length - 1);
            let text = format!("1{}{last}x", small.to_ascii_lowercase());
            let under_v2 = body(Dialect::BasicV2, &text);
            assert_eq!(body(Dialect::Basic35, &text), under_v2, "{text}");
        }
    }
}
