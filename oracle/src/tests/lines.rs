//! The models of lines, held against worked examples of document 02, No. 4 and No. 8.

use crate::addressed;
use crate::calls::Reader::{self, Links, Terminators};
use crate::dialects::Dialect;
use crate::found;
use crate::library::{self, CrunchOptions};
use crate::measured::{self, MeasuredLine};
use crate::refusal::Refusal;

/// Lines 10, 20 and 20 at 0801; the end marker stands at offset 21.
const IMAGE: [u8; 24] = *b"\x01\x08\x07\x08\x0A\0A\0\x0E\x08\x14\0BC\0\x14\x08\x14\0D\0\0\0\xEE";

fn found(number: u16, limit: u64, image: &[u8]) -> Result<(u64, Option<Vec<u8>>), Refusal> {
    let found = found::line_by_number(number, limit, image)?;
    Ok((found.visited, found.line.map(|line| line.body)))
}

fn address(by: Reader, offset: u64, image: &[u8]) -> Option<u64> {
    let found = addressed::step(by, offset, image).unwrap();
    found.map(|(address, _)| address)
}

fn measured(load: u16, place: u64, text: &str) -> Option<MeasuredLine> {
    measured::line(under_auto(load), place, text.as_bytes()).unwrap()
}

fn under_auto(load: u16) -> CrunchOptions {
    CrunchOptions::none(load, Dialect::Auto)
}

#[test]
fn the_first_match_with_its_place() {
    for limit in [3, 4, u64::MAX] {
        assert_eq!(found(10, limit, &IMAGE), Ok((1, Some(b"A".to_vec()))));
        assert_eq!(found(20, limit, &IMAGE), Ok((2, Some(b"BC".to_vec()))));
        assert_eq!(found(30, limit, &IMAGE), Ok((3, None)));
    }
    assert_eq!(found(20, 2, &IMAGE), Ok((2, Some(b"BC".to_vec()))));
    assert_eq!(found(20, 1, &IMAGE), Err(Refusal::LimitReached));
    assert_eq!(found(30, 2, &IMAGE), Err(Refusal::LimitReached));
    assert_eq!(found(10, 0, &IMAGE), Err(Refusal::LimitReached));
    assert_eq!(found(10, 0, b"\x01\x08\0\0"), Ok((0, None)));
    assert_eq!(found(10, 0, b"\x01"), Err(Refusal::TooShort));
}

#[test]
fn a_fault_behind_the_match_is_not_met() {
    let mut image = IMAGE;
    image[15..17].copy_from_slice(&[0x01, 0x08]);
    let fault = Err(Refusal::LinkBackward { link: 15 });
    assert_eq!(found(20, 2, &image), Ok((2, Some(b"BC".to_vec()))));
    assert_eq!(found(30, 3, &image), fault);
    assert_eq!(found(30, 2, &image), Err(Refusal::LimitReached));
    // Fewer than two bytes are no end marker.
    let cut = &IMAGE[..22];
    assert_eq!(found(30, 3, cut), Err(Refusal::LimitReached));
    assert_eq!(found(30, 4, cut), Err(Refusal::MissingEnd { link: 21 }));
}

#[test]
fn addresses() {
    for by in [Terminators, Links] {
        assert_eq!(address(by, 2, &IMAGE), Some(0x0801));
        assert_eq!(address(by, 8, &IMAGE), Some(0x0807));
        assert_eq!(address(by, 21, &IMAGE), None);
    }
    // Load 0 at offset 1 is one sum below 0; load 1 there is 0, load 3 is 2.
    for (load, expected) in [(0, 0), (1, 0), (2, 1), (3, 2)] {
        let mut image = vec![load, 0, 1];
        image.resize(300, 0);
        assert_eq!(address(Terminators, 1, &image), Some(expected));
        assert_eq!(address(Links, 1, &image), Some(expected));
    }
    let far = [&[0xFF; 70_000][..], &[1, 1, 0, 0, 0]].concat();
    assert_eq!(address(Terminators, 70_000, &far), Some(0xFFFF + 69_998));
}

#[test]
fn measured_lines() {
    let text = "\n 10 A\r\r\n\t\r20 BC\n\n30";
    let lines = [
        (0x0801, 0x0807, 10, 1, 2),
        (0x0807, 0x080E, 20, 2, 5),
        (0x080E, 0x0813, 30, 0, 7),
    ];
    for (place, (address, link, number, body_length, text_line)) in (1..).zip(lines) {
        let expected = MeasuredLine {
            address,
            link,
            number,
            body_length,
            text_line,
        };
        assert_eq!(measured(0x0801, place, text), Some(expected));
    }
    for place in [0, 4, u64::MAX] {
        assert_eq!(measured(0x0801, place, text), None);
    }
    assert_eq!(measured(0x0801, 1, ""), None);
    // Below 0100 links have the high byte 0, and the lines are lines all the same.
    let second = measured(0, 2, "1\n2").unwrap();
    assert_eq!((second.address, second.link, second.number), (5, 10, 2));
    let refused = measured::line(under_auto(0x0801), 1, b"10A\nX");
    assert_eq!(refused, Err(Refusal::MissingLineNumber { text_line: 2 }));
}

/// What is measured is what the image reads back as, by links.
#[test]
fn measured_lines_read_back() {
    let text = b"10 PRINT \"HI{0}\"\r\r20 HIRES 0,1\n\n\n30 REM";
    let image = library::crunch(0x0801, Dialect::Auto, text).unwrap();
    let mut at = 2;
    for place in 1..=3 {
        let (address, line) = addressed::step(Links, at, &image).unwrap().unwrap();
        let measured = measured::line(under_auto(0x0801), place, text)
            .unwrap()
            .unwrap();
        assert_eq!(measured.address, address);
        assert_eq!(measured.link, u64::from(line.link));
        assert_eq!(measured.number, u64::from(line.number));
        assert_eq!(measured.body_length, line.body.len() as u64);
        at = line.next;
    }
}
