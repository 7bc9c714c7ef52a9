//! Large cases: at the limits of texts, images, frames, rooms and addresses.
//!
//! There are a few for each op. They are made one at a time, since each can take
//! a megabyte.

use super::disk_calls;
use super::images::well_formed;
use super::requests::{self, C64_LOAD, TextCase};
use crate::calls::{self, Call, ROOM_LIMIT};
use crate::dialects::Dialect;
use crate::domain::{IMAGE_LIMIT, TEXT_LIMIT};
use crate::frames::{PAYLOAD_LIMIT, Request};
use crate::random::Random;

/// A load address and the count of the escape in `1 "{red*COUNT}"`; the link is
/// the load address plus the count plus 7, and FFFF is the last one allowed.
const REPEATS: [(u16, u64); 12] = [
    (C64_LOAD, 63_479),
    (C64_LOAD, 63_480),
    (0x0000, 65_528),
    (0x0000, 65_529),
    (0x0000, 65_536),
    (C64_LOAD, 70_000),
    // The body's length in 32 bits, and in 64.
    (0x0000, (1 << 32) - 8),
    (0x0000, (1 << 32) - 7),
    (0x0000, (1 << 32) - 2),
    (0x0000, 1 << 32),
    (0x0000, u64::MAX - 6),
    (C64_LOAD, u64::MAX),
];

/// The large case of the number, from 0 on; nothing behind the last.
pub fn case(op: u8, number: usize) -> Option<Request> {
    match op {
        _ if calls::is_of_texts(op) => Some(of_text(op, &text(op, number)?)),
        calls::FORMAT_DISK..=calls::CHECK_DISK => disk_calls::case(op, number),
        calls::DIALECT_BY_NAME | calls::TSB_WORD => Some(requests::of_word(op, &word(op, number)?)),
        // The long lists of images are among the listed ones.
        calls::COUNT_IMAGES | calls::DEFAULT_LOAD => None,
        _ => Some(of_image(op, number, &image(op, number)?)),
    }
}

fn of_text(op: u8, case: &TextCase) -> Request {
    if op != calls::CRUNCH {
        return requests::of_text(op, case, &mut Random::new(0));
    }
    let call = Call::Crunch {
        load: case.load,
        dialect: case.dialect,
        room: ROOM_LIMIT,
        text: &case.text,
    };
    call.encode()
}

fn of_image(op: u8, number: usize, image: &[u8]) -> Request {
    if op != calls::LISTING {
        return requests::of_image(op, image, &mut Random::new(number as u64));
    }
    let call = Call::Listing {
        room: ROOM_LIMIT,
        image,
    };
    call.encode()
}

fn text(op: u8, number: usize) -> Option<TextCase> {
    let text = match number {
        // As long as a text, and as a frame, can be.
        0 => ended_by(b"1A", vec![b'\n'; TEXT_LIMIT]),
        1 => ended_by(b"X", vec![b'\r'; TEXT_LIMIT]),
        2 => ended_by(b"\xCF", vec![b' '; TEXT_LIMIT]),
        3 => vec![b' '; TEXT_LIMIT + 1],
        4 => vec![0x80; TEXT_LIMIT + 1],
        5 => vec![b'1'; PAYLOAD_LIMIT - calls::fixed_part(op)],
        // Long lines, long words and many lines.
        6 => [&b"1REM"[..], &[b'a'; 60_000]].concat(),
        7 => [&b"1REM"[..], &[b'a'; 70_000]].concat(),
        8 => [&b"1\""[..], &b"{red}".repeat(50_000)].concat(),
        9 => b"1A=B:REM\n".repeat(5_000),
        10 => b"1PRINT\r\n".repeat(12_000),
        11 => ended_by(b"\n1ELSE", b"1 A=MEM:MEM(1)=2\n".repeat(2_000)),
        // Long numbers.
        12 => ended_by(b"1A", vec![b'0'; 100_000]),
        13 => [&[b'0'; 100_000][..], b"65536"].concat(),
        14 => [
            b"1\"{",
            &[b'0'; 100_000][..],
            b"255}{red*",
            &[b'0'; 100_000],
            b"2}",
        ]
        .concat(),
        15 => return Some(TextCase::under(Dialect::Tsb, b"1 DO:LOOP\n".repeat(5_000))),
        // Lists in lists.
        16 => [
            &b"1ELSE:"[..],
            &b"MAP(:".repeat(4_000),
            &b")=".repeat(4_000),
        ]
        .concat(),
        17 => [
            b"1HIRES:",
            &b"MAP(".repeat(4_000)[..],
            &b") ".repeat(4_000),
            b":AT(1) =",
        ]
        .concat(),
        _ => return repeat(number - 18),
    };
    Some(TextCase::auto(text))
}

fn repeat(number: usize) -> Option<TextCase> {
    let &(load, count) = REPEATS.get(number)?;
    Some(TextCase::at(load, format!("1 \"{{red*{count}}}\"")))
}

fn word(op: u8, number: usize) -> Option<Vec<u8>> {
    match number {
        0 => Some(vec![b'a'; PAYLOAD_LIMIT - calls::fixed_part(op)]),
        1 => Some(b"HIRES".repeat(20_000)),
        2 => Some(ended_by(b"tsb", vec![b' '; 100_000])),
        _ => None,
    }
}

fn image(op: u8, number: usize) -> Option<Vec<u8>> {
    Some(match number {
        // As long as an image, and as a frame, can be.
        0 => vec![0; IMAGE_LIMIT],
        1 => vec![0; IMAGE_LIMIT + 1],
        2 => vec![1; PAYLOAD_LIMIT - calls::fixed_part(op)],
        3 => one_line(&[b'A'; IMAGE_LIMIT - 6]),
        4 => {
            let mut image = [
                &[0x01, 0x08][..],
                &b"\x01\x01\0\0\0".repeat(IMAGE_LIMIT / 5),
            ]
            .concat();
            image.resize(IMAGE_LIMIT, 1);
            image
        }
        // Listings around the largest room: `1`, a space, the body and LF.
        5 => one_line(&[b'A'; ROOM_LIMIT - 4]),
        6 => one_line(&[b'A'; ROOM_LIMIT - 3]),
        7 => one_line(&[b'A'; ROOM_LIMIT - 2]),
        8 => one_line(&[0x8C; 200_000]),
        // Links to the end of the address space.
        9 => well_formed(0x0100, &[(1, &[][..]); 13_000]),
        10 => well_formed(0x0000, &[(1, &[b'A'; 0xFFFF - 5])]),
        11 => well_formed(0x0001, &[(1, &[b'A'; 0xFFFF - 5])]),
        _ => return None,
    })
}

/// An image of line 1 alone, without a terminator.
fn one_line(body: &[u8]) -> Vec<u8> {
    [b"\x01\x08\x01\x08\x01\x00", body].concat()
}

/// The bytes, their last ones replaced by the end.
fn ended_by(end: &[u8], mut bytes: Vec<u8>) -> Vec<u8> {
    let start = bytes.len() - end.len();
    bytes[start..].copy_from_slice(end);
    bytes
}
