//! The machine profile and the machine's relinking, by worked examples.

use std::collections::BTreeSet;

use crate::calls;
use crate::dialects::{DIALECTS, Dialect};
use crate::generate::Cases;
use crate::judge;
use crate::library::{self, CrunchOptions};
use crate::refusal::Refusal;
use crate::relinked::{self, Relinked};

fn crunched(load: u16, text: &str) -> Result<usize, Refusal> {
    crunched_with(CrunchOptions::none(load, Dialect::Auto), text)
}

fn crunched_with(options: CrunchOptions, text: &str) -> Result<usize, Refusal> {
    let options = CrunchOptions {
        profile: true,
        ..options
    };
    let image = library::crunch_with(options, text.as_bytes())?;
    Ok(image.len())
}

#[test]
fn each_refusal_at_its_line() {
    assert_eq!(crunched(0x0801, "63999 A"), Ok(10));
    let text_line = 1;
    let refused = |text: &str| crunched(0x0801, text).unwrap_err();
    assert_eq!(refused("64000 A"), Refusal::NumberTooHigh { text_line });
    assert_eq!(
        refused("10 PRINT \"{0}\""),
        Refusal::ZeroInBody { text_line }
    );
    assert_eq!(refused("10"), Refusal::BodyLength { text_line });
    assert_eq!(
        refused("1 \"{red*70000}"),
        Refusal::BodyLength { text_line }
    );
    assert_eq!(
        refused("1 \"{red*70000}{0}"),
        Refusal::ZeroInBody { text_line }
    );
    let text_line = 3;
    assert_eq!(refused("10 A\n\n10 B"), Refusal::NotAscending { text_line });
}

#[test]
fn overflow_comes_last_at_a_line() {
    let text_line = 1;
    assert_eq!(
        crunched(0xFFFA, "64000 A"),
        Err(Refusal::NumberTooHigh { text_line })
    );
    assert_eq!(
        crunched(0xFFFA, "10 A\n64000 A"),
        Err(Refusal::AddressOverflow)
    );
}

#[test]
fn the_limits_of_a_body() {
    for (length, accepted) in [(1, true), (250, true), (251, false)] {
        let text = format!("10 {}", "A".repeat(length));
        assert_eq!(crunched(0x0801, &text).is_ok(), accepted);
    }
    // A product is no repeat count: all its digits are bytes of the body.
    let text = format!("10 {}*70000", "A".repeat(245));
    let text_line = 1;
    assert_eq!(
        crunched(0x0801, &text),
        Err(Refusal::BodyLength { text_line })
    );
}

#[test]
fn short_forms_count_as_their_tokens() {
    for dialect in DIALECTS {
        let forms = CrunchOptions {
            forms: true,
            ..CrunchOptions::none(0x0801, dialect)
        };
        let text = format!("10 {}", "pO".repeat(250));
        assert_eq!(crunched_with(forms, &text), Ok(259));
        let text_line = 1;
        assert_eq!(
            crunched_with(CrunchOptions::none(0x0801, dialect), &text),
            Err(Refusal::BodyLength { text_line })
        );
    }
}

#[test]
fn words_of_basic35_are_one_byte() {
    let text = format!("10 {}", "LOOP".repeat(250));
    let under = |dialect| crunched_with(CrunchOptions::none(0x0801, dialect), &text);
    let text_line = 1;
    assert_eq!(under(Dialect::Basic35), Ok(259));
    assert_eq!(under(Dialect::Tsb), Err(Refusal::BodyLength { text_line }));
}

#[test]
fn what_relinking_does_beyond_them() {
    let line_ten = |body: &[u8]| {
        let link = 0x0801 + 5 + body.len() as u16;
        let head = [&[0x01, 0x08], &link.to_le_bytes()[..], &[10, 0]].concat();
        relinked::relink(&[&head, body, &[0, 0, 0]].concat()).unwrap()
    };
    let changed = |link| Relinked::Changed { offset: 2, link };
    assert_eq!(line_ten(b"\x99 \"\0\""), changed(0x0809));
    assert_eq!(line_ten(b""), changed(0x0807));
    assert_eq!(line_ten(&[0x41; 250]), Relinked::Same);
    assert_eq!(line_ten(&[0x41; 251]), changed(0x0801));
}

/// An image at `load` whose lines, with right links, lead up to one at `top`; that one has
/// the link `link`, and behind it stand bytes up to a length of `size`.
fn up_to(load: u16, top: u16, link: u16, size: usize) -> Vec<u8> {
    let mut image = load.to_le_bytes().to_vec();
    let mut at = load;
    while at < top {
        let next = at.saturating_add(255).min(top);
        image.extend(next.to_le_bytes());
        image.extend(vec![0x41; usize::from(next - at) - 3]);
        image.push(0);
        at = next;
    }
    image.extend(link.to_le_bytes());
    image.resize(size, 0x41);
    image
}

#[test]
fn what_relinking_meets_round_the_top_of_memory() {
    let relinked = |image: &[u8]| relinked::relink(image).unwrap();
    // FFFC and a count of 5 is 0001, the image's first byte, which is the 00 of a link to 0100
    let changed = |offset, link| Relinked::Changed { offset, link };
    assert_eq!(
        relinked(&up_to(0x0001, 0xFFFC, 0x4141, 65_535)),
        changed(65_533, 2)
    );
    // at load address 0003 that byte is not the image's
    assert_eq!(
        relinked(&up_to(0x0003, 0xFFFC, 0x4141, 65_533)),
        Relinked::Leaves
    );
    // no 00 stands in the 256 bytes from FFF0 on
    assert_eq!(
        relinked(&up_to(0x0002, 0xFFF0, 0x4141, 65_538)),
        Relinked::Endless
    );
    // a program that is longer than memory
    assert_eq!(
        relinked(&up_to(0x0001, 0xFFFC, 0x4141, 65_539)),
        Relinked::Leaves
    );
}

#[test]
fn each_answer_is_among_the_cases() {
    let answers = |op| Cases::new(10_000, 7, &[op]).map(|request| judge::answer(&request));
    let refusals: BTreeSet<u8> = answers(calls::CRUNCH_ROOM_WITH).map(|all| all[0]).collect();
    assert!(refusals.is_superset(&BTreeSet::from([15, 16, 17, 18])));
    let done = answers(calls::RELINK).filter(|all| all[0] == judge::DONE);
    let found: BTreeSet<u8> = done.map(|all| all[1]).collect();
    assert_eq!(found, BTreeSet::from([0, 1, 2, 3]));
}
