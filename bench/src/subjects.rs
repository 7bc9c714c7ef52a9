//! What is measured: the five tasks, the hostile texts, and what is asked how it grows.

use crate::hostile;
use crate::lifelike::{self, Kind};
use crate::moldthatch::{self, Dialect};
use crate::sides::Work;

pub struct Subject {
    pub name: &'static str,
    pub work: Work,
}

/// A text or an image, of a size and of twice that size.
pub struct Growing {
    pub name: &'static str,
    pub work: fn(usize) -> Work,
    pub size: usize,
}

/// The size of a program that nearly fills a disk magazine's page.
const PROGRAM: usize = 40_000;

/// A text may have so many bytes.
const MEGABYTE: usize = 1_048_576;

pub fn tasks() -> Vec<Subject> {
    let v2 = lifelike::program(Kind::V2, PROGRAM);
    let tsb = lifelike::program(Kind::Tsb, PROGRAM);
    let image = moldthatch::crunched(tsb.as_bytes(), 0x0801, Dialect::Tsb)
        .expect("a life-like program has an image");
    vec![
        crunch("crunch, Auto, V2 text", v2.clone(), Dialect::Auto),
        crunch("crunch, Auto, TSB text", tsb.clone(), Dialect::Auto),
        crunch("crunch, BasicV2", v2, Dialect::BasicV2),
        crunch("crunch, Tsb", tsb, Dialect::Tsb),
        Subject {
            name: "list",
            work: Work::List { image },
        },
    ]
}

/// The texts that the bar names, and their kin.
pub fn hostile() -> Vec<Subject> {
    let auto = |name, text| crunch(name, text, Dialect::Auto);
    vec![
        auto("string of {", hostile::braces(60_000)),
        auto("string of { and one }", hostile::closed_braces(4_000)),
        auto("MAP( in MAP(", hostile::nested_calls(20_000)),
        auto("MAP( in MAP(, closed, and =", hostile::closed_calls(20_000)),
        auto(
            "MAP(: in MAP(:, each with =",
            hostile::assigned_calls(20_000),
        ),
        auto("a megabyte on one line", hostile::one_line(MEGABYTE)),
        auto("a megabyte of one letter", hostile::one_letter(MEGABYTE)),
        auto("spaces, one line", hostile::spaces(100_000)),
        auto("a megabyte of spaces", hostile::spaces(MEGABYTE)),
        auto("tabs, one line", hostile::tabs(100_000)),
        auto("line ends", hostile::line_ends(100_000)),
        auto("white space of all kinds", hostile::white_space(100_000)),
        auto("one line in blanks", hostile::blanks_around(100_000)),
        auto("lines of Q", hostile::no_words(PROGRAM)),
        auto("lines of R", hostile::many_words(PROGRAM)),
        auto("marks", hostile::marks(PROGRAM)),
        auto(
            "escapes without a known name",
            hostile::unknown_escapes(PROGRAM),
        ),
        auto(
            "the last escape of the list",
            hostile::late_escapes(PROGRAM),
        ),
        crunch(
            "words cut short, BasicV2",
            hostile::nearly_words(PROGRAM),
            Dialect::BasicV2,
        ),
        crunch(
            "words cut short, Tsb",
            hostile::nearly_words(PROGRAM),
            Dialect::Tsb,
        ),
        auto("CR for line ends", hostile::carriage_returns(PROGRAM)),
        list("list, tokens", &[0x99, 0x20, 0xB2]),
        list("list, codes in braces", &[0x01, 0x9B, 0x22, 0xF0]),
        list("list, letters", b"HELLO "),
        list("list, TSB words", &[0x64, 0x01, 0x64, 0x76]),
    ]
}

pub fn growing() -> Vec<Growing> {
    let of = |name, work, size| Growing { name, work, size };
    vec![
        of(
            "life-like V2 text",
            |size| auto(lifelike::program(Kind::V2, size)),
            20_000,
        ),
        of(
            "life-like TSB text",
            |size| auto(lifelike::program(Kind::Tsb, size)),
            20_000,
        ),
        of("string of {", |size| auto(hostile::braces(size)), 30_000),
        of(
            "string of {, to a megabyte",
            |size| auto(hostile::braces(size)),
            MEGABYTE / 2,
        ),
        of(
            "string of { and one }",
            |size| auto(hostile::closed_braces(size)),
            20_000,
        ),
        of(
            "string of { and one }, to a megabyte",
            |size| auto(hostile::closed_braces(size)),
            MEGABYTE / 2,
        ),
        of(
            "string of { and 5}",
            |size| auto(hostile::digit_braces(size)),
            20_000,
        ),
        of(
            "string of { and 5}, to a megabyte",
            |size| auto(hostile::digit_braces(size)),
            MEGABYTE / 2,
        ),
        of(
            "{ and as many spaces, then }",
            |size| auto(hostile::spaced_braces(size)),
            20_000,
        ),
        of(
            "{ and as many spaces, then }, to a megabyte",
            |size| auto(hostile::spaced_braces(size)),
            MEGABYTE / 2,
        ),
        of(
            "{, * and as many zeros, then 1}",
            |size| auto(hostile::counted_braces(size)),
            20_000,
        ),
        of(
            "{, * and as many zeros, then 1}, to a megabyte",
            |size| auto(hostile::counted_braces(size)),
            MEGABYTE / 2,
        ),
        of(
            "MAP( in MAP(",
            |size| auto(hostile::nested_calls(size)),
            20_000,
        ),
        of(
            "MAP( in MAP(, closed, and =",
            |size| auto(hostile::closed_calls(size)),
            20_000,
        ),
        of(
            "MAP(: in MAP(:, each with =",
            |size| auto(hostile::assigned_calls(size)),
            20_000,
        ),
        of(
            "MAP(: in MAP(:, to a megabyte",
            |size| auto(hostile::assigned_calls(size)),
            MEGABYTE / 2,
        ),
        of(
            "one line, to a megabyte",
            |size| auto(hostile::one_line(size)),
            MEGABYTE / 2,
        ),
        of(
            "spaces, to a megabyte",
            |size| auto(hostile::spaces(size)),
            MEGABYTE / 2,
        ),
        of(
            "line ends, to a megabyte",
            |size| auto(hostile::line_ends(size)),
            MEGABYTE / 2,
        ),
        of("an image listed", letters, 8_192),
        of("an image listed, to 65,536 bytes", letters, 32_768),
    ]
}

/// A text crunched under Auto.
fn auto(text: String) -> Work {
    Work::Crunch {
        text,
        dialect: Dialect::Auto,
    }
}

/// An image of letters, listed.
fn letters(size: usize) -> Work {
    Work::List {
        image: hostile::image(b"HELLO ", size),
    }
}

fn crunch(name: &'static str, text: String, dialect: Dialect) -> Subject {
    Subject {
        name,
        work: Work::Crunch { text, dialect },
    }
}

fn list(name: &'static str, piece: &[u8]) -> Subject {
    Subject {
        name,
        work: Work::List {
            image: hostile::image(piece, PROGRAM),
        },
    }
}
