//! Examples wanted word for word: the cases that document 01 names, and texts
//! whose dialect or escapes are easy to read otherwise than the original does.

use super::requests::{C64_LOAD, TextCase};

/// Texts for the dialect guess, crunched under Auto.
const GUESSES: [&str; 24] = [
    "1IFATHENDO",
    "1IFATHENDO(",
    "1FOREM:DO",
    "1ANGELSEX",
    "1ELSE=1",
    "1AT(1)=2",
    "1DIMMAP(3)",
    "1DIMA,MAP(3)",
    "1DIMMAP(3):ELSE:MAP",
    "1DIMA,MAP(3):ELSE:MAP",
    "1MAP%=1:ELSE:MAP",
    "1MAP\t=1:ELSE",
    "1MAP\x0B=1",
    "1DO=1:ELSE:DOWNB",
    "1CMOB=1:ELSE:CMOB",
    "1COLOR=1:ELSE:COLOUR",
    "1\"\r2DO",
    "1\"\n2DO",
    "10 REM A\r20 HIRES 0,1",
    "10 REM A\n20 HIRES 0,1",
    "10 DIR=5:HIRES 0,1",
    "1DATA\":\"DO",
    "1DATA\":DO\":DO",
    "1X!=1:D!",
];

/// Escapes, each to stand in a string.
const ESCAPES: [&str; 30] = [
    "{ctrl \"}",
    "{re\"d}",
    "{foo{red}",
    "{34}A",
    "{ctrl *}",
    "{sh **2}",
    "{sh *2}",
    "{*2}",
    "{red*0}",
    "{red*2}",
    "{+5}",
    "{$}",
    "{00000000255}",
    "{$0000ff}",
    "{ctrl- a}",
    "{ctrl--}",
    "{ctrl -a}",
    "{ctrl}",
    "{ctrl }",
    "{light_red}",
    "{CBM_A}",
    "{g}",
    "{sh *}",
    "{space*0}",
    "{del}{delete}",
    "{}",
    "{ }",
    "{sh home}",
    "{sh \u{3C0}}",
    "{red",
];

/// Texts with their load addresses, under Auto.
const PROGRAMS: [(u16, &str); 12] = [
    (0xFFFF, ""),
    (0xFFFA, "1"),
    (0xFFFB, "1"),
    (C64_LOAD, "65535"),
    (C64_LOAD, "65536"),
    (C64_LOAD, "4294967296"),
    (C64_LOAD, "\n\nX"),
    (C64_LOAD, "10 PRINT \"{0}\""),
    (C64_LOAD, "10 PRINT \"Hi\"\n20 GOTO 10\n"),
    (C64_LOAD, "10 rem do\n20 data a\"b{red}:c\":?\u{3C0}"),
    (C64_LOAD, "\t10\tA \r\n\r\n20 B\x0B\r"),
    (C64_LOAD, "1?\u{3C0}:\"\u{3C0}\":REM\u{3C0}"),
];

/// Images that document 01 reads, and near relatives.
const IMAGES: [&[u8]; 15] = [
    &[],
    &[0x01],
    &[0x01, 0x08],
    &[0x01, 0x08, 0x00],
    &[0x01, 0x08, 0x00, 0x00],
    &[0x01, 0x08, 0x0B, 0x00],
    &[0x01, 0x08, 0x07, 0x08, 0x0A],
    &[0x01, 0x08, 0x07, 0x08, 0x0A, 0x00, 0x99],
    &[0x01, 0x08, 0x07, 0x08, 0x0A, 0x00, 0x99, 0x00, 0x00, 0x00],
    &[0x01, 0x08, 0x05, 0x08, 0x0A, 0x00, 0x99, 0x00, 0x00, 0x00],
    &[0x01, 0x08, 0x00, 0x09, 0x0A, 0x00, 0x99, 0x00, 0x00, 0x00],
    &[0x01, 0x08, 0x06, 0x08, 0x0A, 0x00, 0x99, 0x00, 0x00, 0x00],
    &[
        0x01, 0x08, 0x0B, 0x08, 0x0A, 0x00, 0x99, 0x20, 0x22, 0x00, 0x22, 0x00, 0x00, 0x00,
    ],
    &[
        0x01, 0x08, 0x0C, 0x08, 0x0A, 0x00, 0x99, 0x20, 0x22, 0xC8, 0x49, 0x22, 0x00, 0x15, 0x08,
        0x14, 0x00, 0x89, 0x20, 0x31, 0x30, 0x00, 0x00, 0x00,
    ],
    // The listing of `10 rem do`: the d is the TSB prefix, the o a TSB token.
    &[
        0x01, 0x08, 0x0A, 0x08, 0x0A, 0x00, 0x8F, 0x20, 0x64, 0x6F, 0x00, 0x00, 0x00,
    ],
];

pub fn texts() -> Vec<TextCase> {
    let guesses = GUESSES.iter().map(|text| TextCase::auto(*text));
    let escapes = ESCAPES
        .iter()
        .map(|escape| TextCase::auto(format!("1 \"{escape}\"")));
    let programs = PROGRAMS
        .iter()
        .map(|&(load, text)| TextCase::at(load, text));
    programs.chain(guesses).chain(escapes).collect()
}

pub fn images() -> Vec<Vec<u8>> {
    IMAGES.iter().map(|image| image.to_vec()).collect()
}
