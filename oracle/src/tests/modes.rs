//! The model of listings, held against worked examples of document 02, No. 6.

use crate::calls::Reader::{self, Links, Terminators};
use crate::dialects::Dialect;
use crate::library;
use crate::modes::{self, ListOptions};
use crate::refusal::Refusal;

fn listing(by: Reader, dialect: Dialect, image: &[u8]) -> Result<String, Refusal> {
    let options = ListOptions {
        dialect,
        remarks: true,
        by,
    };
    modes::listing(options, image)
}

/// A body, as line 10 in an image of its own.
fn body(dialect: Dialect, body: &[u8]) -> String {
    let image = [b"\x01\x08\x01\x08\x0A\x00", body].concat();
    let line = listing(Terminators, dialect, &image).unwrap();
    line["10 ".len()..].trim_end_matches('\n').to_string()
}

#[test]
fn remarks() {
    let image = library::crunch(0x0801, Dialect::Auto, b"10 rem do").unwrap();
    assert_eq!(library::listing(&image).unwrap(), "10 REM TEXT\n");
    assert_eq!(
        listing(Terminators, Dialect::Auto, &image).unwrap(),
        "10 REM do\n"
    );
    let bodies: [(&[u8], &str); 5] = [
        (b"\x8F\"a\"\x99\xC1", "REM\"a\"{$99}A"),
        (b"\"\x8F\"\x64\x6F", "\"{$8F}\"TEXT"),
        (b"\x64\x8F\x64\x6F", "{64}{8F}TEXT"),
        (b"\x83\x8F\x64", "DATAREMd"),
        (b"\x8F\x60", "REM\u{2500}"),
    ];
    for (bytes, text) in bodies {
        assert_eq!(body(Dialect::Tsb, bytes), text);
        assert_eq!(body(Dialect::Auto, bytes), text);
    }
    assert_eq!(
        body(Dialect::BasicV2, b"\x64\x6F\"\x64\""),
        "{$64}{$6F}\"{$64}\""
    );
    assert_eq!(body(Dialect::BasicV2, b"\x64\x8F\x64"), "{$64}REMd");
}

#[test]
fn every_byte_by_links() {
    let image = library::crunch(0x0801, Dialect::Auto, b"10 PRINT \"{0}X\"").unwrap();
    assert_eq!(
        listing(Links, Dialect::Auto, &image).unwrap(),
        "10 PRINT \"{null}X\"\n"
    );
    assert_eq!(
        listing(Links, Dialect::Auto, &image[..12]),
        Err(Refusal::LinkOutside { link: 2 })
    );
}
