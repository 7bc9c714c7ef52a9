//! The model of BASIC 3.5, held against worked examples of document 02, No. 5.

use crate::basic35;
use crate::calls::Reader::Terminators;
use crate::dialects::Dialect::{self, Auto, Basic35};
use crate::library;
use crate::modes::{self, ListOptions};
use crate::refusal::Refusal;

fn body(text: &str) -> Vec<u8> {
    let image = library::crunch(0x1001, Basic35, format!("10{text}").as_bytes()).unwrap();
    image[6..image.len() - 3].to_vec()
}

fn listed(dialect: Dialect, remarks: bool, body: &[u8]) -> String {
    let image = [b"\x01\x10\x01\x10\x0A\x00", body].concat();
    let options = ListOptions {
        dialect,
        remarks,
        by: Terminators,
    };
    let line = modes::listing(options, &image).unwrap();
    line["10 ".len()..].trim_end_matches('\n').to_string()
}

#[test]
fn words_of_both_lists() {
    assert_eq!(basic35::WORDS.len(), 50);
    assert_eq!(body("do:loop while a"), b"\xEB:\xEC \xFD A");
    assert_eq!(body("end loop"), b"\x80 \xEC");
    assert_eq!(body("?hex$(\"do{red*2}\")"), b"\x99\xD2(\"DO\x1C\x1C\")");
    assert_eq!(body("data do:do"), b"\x83 DO:\xEB");
    assert_eq!(body("rem do"), b"\x8F do");
    assert_eq!(body("\"{foo}{ctrl \"}Do"), b"\"{FOO}\x02\xC4O");
}

#[test]
fn no_tsb_word_is_live() {
    assert_eq!(body("hires"), b"HIRES");
}

#[test]
fn images_and_refusals_are_the_original_s_otherwise() {
    for text in [
        "",
        "1",
        "1 A\r2 B\n\n3",
        "A",
        "1\n65536 A",
        "1\n\n99999999999 A",
    ] {
        for load in [0x0801, 0xFFF8, 0xFFFA, 0xFFFB, 0xFFFF] {
            let text = text.as_bytes();
            assert_eq!(
                library::crunch(load, Basic35, text),
                library::crunch(load, Auto, text)
            );
        }
    }
    assert_eq!(
        library::crunch(0, Basic35, b"1 \"{space*65536}\""),
        Err(Refusal::AddressOverflow)
    );
}

#[test]
fn dialects() {
    assert_eq!(library::dialect_by_name(b" Basic35\t"), Ok(Basic35));
    for name in ["basic3.5", "basic-35", "v35", "plus4"] {
        let found = library::dialect_by_name(name.as_bytes());
        assert_eq!(found, Err(Refusal::UnknownDialect));
    }
    assert_eq!(library::resolved_dialect(Basic35, b"1 DO"), Ok(Basic35));
    assert_eq!(Basic35.default_load(), 0x1001);
    assert_eq!(Auto.default_load(), 0x0801);
}

#[test]
fn listings() {
    let bytes = b"\xCB\xCC\xFD\xFE\xFF\x64\xEB\"\xEB\x64\"\x8F\x64\xEB";
    assert_eq!(
        listed(Basic35, false, bytes),
        "GORGRWHILE{FE}{PI}{$64}DO\"{$EB}{$64}\"REM{$64}DO"
    );
    assert_eq!(
        listed(Basic35, true, bytes),
        "GORGRWHILE{FE}{PI}{$64}DO\"{$EB}{$64}\"REMd{$EB}"
    );
    assert_eq!(listed(Auto, false, b"\xEB"), "{EB}");
}
