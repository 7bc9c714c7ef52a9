//! The cases that document 01 names, held against the judge; those of document 02
//! have files of their own.

mod basic35;
mod counts;
mod disk;
mod forms;
mod indexes;
mod lines;
mod modes;
mod profiles;

use std::io::Cursor;
use std::time::{Duration, Instant};

use crate::calls::Reader::{self, Links, Terminators};
use crate::compare;
use crate::dialects::Dialect;
use crate::domain;
use crate::generate::Cases;
use crate::judge;
use crate::library::{self, Step};
use crate::program::Program;
use crate::refusal::Refusal;

fn crunch(load: u16, text: &str) -> Result<Vec<u8>, Refusal> {
    library::crunch(load, Dialect::Auto, text.as_bytes())
}

/// The body of the first line, crunched at 0801 under Auto.
fn body(text: &str) -> Vec<u8> {
    let image = crunch(0x0801, text).unwrap();
    library::step(Links, 2, &image).unwrap().unwrap().body
}

fn first_line(by: Reader, image: &[u8]) -> Result<Option<Step>, Refusal> {
    library::step(by, 2, image)
}

#[test]
fn crunching() {
    assert_eq!(crunch(0xFFFF, "").unwrap(), [0xFF, 0xFF, 0, 0]);
    assert_eq!(
        crunch(0xFFFA, "1").unwrap(),
        [0xFA, 0xFF, 0xFF, 0xFF, 1, 0, 0, 0, 0]
    );
    assert_eq!(crunch(0xFFFB, "1"), Err(Refusal::AddressOverflow));
    assert_eq!(
        crunch(0x0801, "65536"),
        Err(Refusal::LineNumberOutOfRange {
            text_line: 1,
            value: 65_536
        })
    );
    assert_eq!(
        crunch(0x0801, "\n\nX"),
        Err(Refusal::MissingLineNumber { text_line: 3 })
    );
    assert_eq!(body("1\"{sh *}\""), b"\"\xC0\"");
    assert_eq!(body("1\"{space*0}\""), b"\"{SPACE*0}\"");
    assert_eq!(
        body("10 DIR=5:HIRES 0,1"),
        b"\x44\x49\x52\xB2\x35\x3A\x64\x01\x20\x30\x2C\x31"
    );
}

/// Document 02, No. 3: what the port corrects, and nothing else.
#[test]
fn shift_and_home_clears_the_screen() {
    assert_eq!(body("1\"{sh home}\""), b"\"\x93\"");
    assert_eq!(body("1\"{ Sh Home *2}s\""), b"\"\x93\x93S\"");
    let unknown = b"\"{SH  HOME}{SHIFT HOME}\"";
    assert_eq!(body("1\"{sh  home}{shift home}\""), unknown);
    assert_eq!(body("1 REM {sh home}"), b"\x8F {sh home}");
}

#[test]
fn the_guess_without_and_with_carriage_returns_replaced() {
    let text = b"10 REM A\r20 HIRES 0,1";
    let resolved = library::resolved_dialect(Dialect::Auto, text);
    assert_eq!(resolved, Ok(Dialect::BasicV2));
    let image = library::crunch(0x0801, Dialect::Auto, text);
    assert_eq!(image, library::crunch(0x0801, Dialect::Tsb, text));
}

#[test]
fn reading() {
    let eof = first_line(Terminators, b"\x01\x08\0").err();
    assert_eq!(eof, Some(Refusal::UnexpectedEof));
    let missing = library::check(Links, b"\x01\x08").err();
    assert_eq!(missing, Some(Refusal::MissingEnd { link: 2 }));

    let mut image = *b"\x01\x08\x07\x08\x0A\0\x99\0\0\0";
    for by in [Terminators, Links] {
        assert_eq!(first_line(by, &image).unwrap().unwrap().body, [0x99]);
        assert_eq!(library::check(by, &image).unwrap().line_count, 1);
    }
    for (link, refusal) in [
        (0x0805_u16, Refusal::LinkBackward { link: 2 }),
        (0x0900, Refusal::LinkOutside { link: 2 }),
        (0x0806, Refusal::LinkNoEnd { link: 2 }),
    ] {
        image[2..4].copy_from_slice(&link.to_le_bytes());
        assert_eq!(first_line(Links, &image).err(), Some(refusal));
    }

    let zero_inside = crunch(0x0801, "10 PRINT \"{0}\"").unwrap();
    let body_by = |by| first_line(by, &zero_inside).unwrap().unwrap().body;
    assert_eq!(body_by(Terminators), b"\x99 \"");
    assert_eq!(body_by(Links), b"\x99 \"\0\"");
}

#[test]
fn listing() {
    let image = crunch(0x0801, "10 PRINT \"Hi\"\n20 GOTO 10").unwrap();
    let listing = library::listing(&image).unwrap();
    assert_eq!(listing, "10 PRINT \"HI\"\n20 GOTO 10\n");
}

#[test]
fn large_counts_are_refused_without_being_written_out() {
    for count in ["65536", "4294967291", "18446744073709551615"] {
        let text = format!("1\"{{red* +{count} }}\"");
        assert_eq!(crunch(0, &text), Err(Refusal::AddressOverflow));
    }
    let past_64_bits = "1\"{red*18446744073709551616}\"";
    assert_eq!(domain::with_counts_cut(past_64_bits), None);
    assert!(crunch(0, past_64_bits).is_ok());
    // The second line is never reached, so its count does not matter.
    let unreached = crunch(0, "X\n1\"{red*70000}\"");
    assert_eq!(unreached, Err(Refusal::MissingLineNumber { text_line: 1 }));
    assert_eq!(body("1REM{red*70000}"), b"\x8F{red*70000}");
}

#[test]
fn a_frame_cut_short_is_not_answered() {
    let mut answers = Vec::new();
    let input = b"\x04\x03\0\0\0tsb\x04\x03\0\0\0ts";
    judge::serve(&mut Cursor::new(input), &mut answers).unwrap();
    assert_eq!(answers, b"\x02\0\0\0\0\x02");
}

#[test]
fn a_case_depends_on_its_op_its_index_and_the_seed_alone() {
    let alone: Vec<_> = Cases::new(3_000, 7, &[0x04]).collect();
    let in_turn: Vec<_> = Cases::new(6_000, 7, &[0x04, 0x05]).step_by(2).collect();
    assert_eq!(alone, in_turn);
}

#[test]
fn a_program_that_hangs_is_given_up() {
    let start = Instant::now();
    let program = Program {
        path: "sleep",
        arguments: &["60"],
        patience: Duration::from_millis(100),
    };
    assert_eq!(program.output_for(b"").unwrap(), None);
    assert!(!compare::run(Cases::new(5, 1, &[0x04]), &program).unwrap());
    assert!(start.elapsed() < Duration::from_secs(30));
}
