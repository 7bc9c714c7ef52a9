//! Texts around the limits of the machine profile, and images around those of the
//! machine's relinking.

use super::requests::{C64_LOAD, TextCase};
use crate::dialects::Dialect;
use crate::random::Random;

const NUMBERS: [u32; 9] = [0, 1, 9, 10, 63_998, 63_999, 64_000, 65_535, 65_536];

/// Bodies with a zero, without one, and of lengths around the limits.
const BODIES: [&str; 20] = [
    "",
    "A",
    "PRINT \"{0}\"",
    "PRINT \"{$00}",
    "\"{0*3}",
    "\"{0*0}",
    "\"{red*0}",
    "\"{red*249}",
    "\"{red*250}",
    "\"{red*251}",
    "\"{red*70000}{0}",
    "\"{red*70000}",
    "\"{red*18446744073709551615}",
    "\"{red*18446744073709551615}{0}",
    "\"{0*18446744073709551615}",
    "\"{0*18446744073709551616}",
    "REM {0}",
    "DATA \"{0}\"",
    "REM \0",
    "\0A",
];

const LOADS: [u16; 6] = [0, 0x00FB, C64_LOAD, 0xFEFD, 0xFFF0, 0xFFFA];

pub fn texts() -> Vec<TextCase> {
    let mut texts = Vec::new();
    for number in NUMBERS {
        texts.push(format!("{number} A"));
        for other in NUMBERS {
            texts.push(format!("{number} A\n\n{other} B\r10000 C"));
        }
    }
    for body in BODIES {
        for number in ["10", "64000", "65536", ""] {
            texts.push(format!("{number} {body}"));
            texts.push(format!("10 A\n{number} {body}\nX"));
        }
    }
    for length in [1, 2, 248, 249, 250, 251, 252, 300] {
        texts.push(format!("5 {}", "A".repeat(length)));
        texts.push(format!("5 DO:LOOP\n6 {}", "DO".repeat(length)));
        texts.push(format!("5 MEM=1:ELSE\n6 {}", "MEM".repeat(length)));
    }
    let at_loads = |text: String| LOADS.map(|load| TextCase::at(load, text.clone()));
    let mut cases: Vec<TextCase> = texts.into_iter().flat_map(at_loads).collect();
    for dialect in [Dialect::BasicV2, Dialect::Tsb, Dialect::Basic35] {
        for body in BODIES {
            cases.push(TextCase::under(dialect, format!("1 DO\n2 {body}")));
        }
    }
    cases
}

/// Lines whose numbers ascend, mostly, and whose bodies the profile takes, mostly.
pub fn any(random: &mut Random) -> TextCase {
    let mut text = String::new();
    let mut number = random.below(30);
    for _ in 0..random.between(1, 6) {
        let body = match random.below(8) {
            0 => random.pick(&BODIES).to_string(),
            1 => format!("PRINT \"{}", "{red}".repeat(random.between(244, 252))),
            2 => "A".repeat(random.between(1, 255)),
            _ => random
                .pick(&[
                    "PRINT \"HI\"",
                    "GOTO 10",
                    "A=B:DO",
                    "REM {0}",
                    "MEM=1",
                    "ELSE",
                ])
                .to_string(),
        };
        text += &format!("{number} {body}\n");
        number += match random.below(12) {
            0 => 0,
            1 => 63_900,
            _ => random.between(1, 20),
        };
    }
    let load = match random.below(4) {
        0 => random.pick(&LOADS),
        _ => C64_LOAD,
    };
    TextCase::at(load, text)
}

/// Images of one or two lines, the first with a body of so many bytes, and a zero in it
/// or not; and such images cut short, or with another link.
pub fn images() -> Vec<Vec<u8>> {
    let mut images = Vec::new();
    for load in [0, 0x00FB, 0x0100, C64_LOAD, 0xFEFF, 0xFFF0] {
        for length in [0, 1, 2, 5, 248, 249, 250, 251, 252, 255, 256, 300, 600] {
            let mut body = vec![0x41; length];
            images.push(two_lines(load, &body));
            if let Some(place) = length.checked_sub(1) {
                for place in [0, place / 2, place] {
                    body[place] = 0;
                    images.push(two_lines(load, &body));
                    body[place] = 0x41;
                }
            }
        }
    }
    let image = two_lines(C64_LOAD, b"AB");
    images.extend((0..image.len()).map(|length| image[..length].to_vec()));
    // No 00 within reach: the count comes round, and never ends.
    images.push([&[0x01, 0x08][..], &[0x41; 300]].concat());
    images.push([&[0xFE, 0xFF][..], &[0x41; 65_536]].concat());
    images.push([&[0xFE, 0xFF][..], &[0x41; 65_537]].concat());
    images
}

fn two_lines(load: u16, body: &[u8]) -> Vec<u8> {
    let mut image = load.to_le_bytes().to_vec();
    let mut address = load;
    for (number, body) in [(10, body), (20, b"B")] {
        address = address.wrapping_add(body.len() as u16 + 5);
        image.extend(address.to_le_bytes());
        image.extend([number, 0]);
        image.extend(body);
        image.push(0);
    }
    image.extend([0, 0]);
    image
}
