//! Images to read and to list: those enumerated from the rules, and random ones.

use super::strings::strings;
use super::{damage, programs, texts};
use crate::library;
use crate::random::Random;

/// A line's number and body.
type Line<'a> = (u16, &'a [u8]);

/// Three lines with a string, a TSB word and an empty body.
const SAMPLE: [Line; 3] = [
    (10, b"\x99 \"A\x93\""),
    (1000, b"\x64\x01 0,1:\x8F d"),
    (65535, b""),
];

const LINE_NUMBERS: [u16; 14] = [
    0, 1, 9, 10, 11, 99, 100, 255, 256, 999, 1000, 9999, 10000, 65535,
];

pub fn listed() -> Vec<Vec<u8>> {
    let mut images = of_bodies();
    images.extend(of_links());
    images.extend(of_targets());
    images.extend(damaged_samples());
    images.extend(short_images());
    images.extend(LINE_NUMBERS.map(|number| well_formed(0x0801, &[(number, b"A")])));
    images
}

/// The image of the lines with every link in its place.
pub fn well_formed(load: u16, lines: &[Line]) -> Vec<u8> {
    let mut image = load.to_le_bytes().to_vec();
    let mut address = load;
    for (number, body) in lines {
        address = address.wrapping_add(body.len() as u16 + 5);
        image.extend(address.to_le_bytes());
        image.extend(number.to_le_bytes());
        image.extend(*body);
        image.push(0);
    }
    image.extend([0, 0]);
    image
}

/// Every byte unquoted, quoted, behind the TSB prefix in both, and behind REM.
fn of_bodies() -> Vec<Vec<u8>> {
    let mut images = Vec::new();
    for byte in 0..=0xFF {
        let bodies: [&[u8]; 6] = [
            &[byte],
            &[b'"', byte, b'"', byte],
            &[0x64, byte, b'A', b'"', 0x60],
            &[b'"', 0x64, byte],
            &[0x8F, b' ', byte, b'd', byte],
            &[0x64, 0x64, byte, 0x64],
        ];
        images.extend(bodies.map(|body| well_formed(0x0801, &[(10, body), (20, b"B")])));
    }
    images
}

/// Links whose high or low byte is 0, and the ends of the address space.
fn of_links() -> Vec<Vec<u8>> {
    let mut images = Vec::new();
    for byte in 0..=0xFF {
        for link in [[byte, 0], [0, byte], [0xFF, byte]] {
            for load in [[0x01, 0x08], [0x00, 0x00], [0xF0, 0xFF]] {
                images.push([&load, &link, &b"\x0A\0AB\0\0\0"[..]].concat());
            }
        }
    }
    images
}

/// A line whose link points at every place of the image and a little beyond,
/// before bodies with and without zeros.
fn of_targets() -> Vec<Vec<u8>> {
    let mut images = Vec::new();
    for load in [0x0801_u16, 0x0100, 0xFFF0] {
        for rest in [
            &b"\0\0\0\0\0\0\0\0"[..],
            b"A\0B\0\0C\0\0",
            b"ABCDEFGH",
            b"\0",
            b"",
        ] {
            for target in 0..18 {
                let link = load.wrapping_add(target).wrapping_sub(2);
                let head = [load.to_le_bytes(), link.to_le_bytes(), [20, 0]].concat();
                images.push([&head, rest].concat());
            }
        }
    }
    images
}

/// The sample cut at every place, and with every byte replaced.
fn damaged_samples() -> Vec<Vec<u8>> {
    let mut images = Vec::new();
    for load in [0x0801, 0x0000, 0x0100, 0x00F8] {
        let sample = well_formed(load, &SAMPLE);
        images.extend((0..=sample.len()).map(|length| sample[..length].to_vec()));
        for place in 0..sample.len() {
            for byte in [0x00, 0x01, 0x22, 0x64, 0xFF] {
                let mut damaged = sample.clone();
                damaged[place] = byte;
                images.push(damaged);
            }
        }
    }
    images
}

/// All images of up to eight bytes: over fewer bytes the longer they are.
fn short_images() -> Vec<Vec<u8>> {
    const BYTES: [&[u8]; 9] = [
        b"",
        b"\0\x01\x08\x22\x64\x80\xFF",
        b"\0\x01\x08\x64\xFF",
        b"\0\x01\x08\xFF",
        b"\0\x01\x06\xFF",
        b"\0\x01\x06",
        b"\0\x01",
        b"\0\x01",
        b"\0\x01",
    ];
    let by_length = BYTES.iter().enumerate();
    by_length
        .flat_map(|(length, bytes)| strings(length, bytes))
        .collect()
}

/// A random image: crunched, made of random lines, or of random bytes; the first
/// two often damaged.
pub fn any(random: &mut Random) -> Vec<u8> {
    let mut image = match random.below(8) {
        0 => return bytes(60, random),
        1..4 => random_lines(random),
        _ => crunched(random),
    };
    if random.one_in(2) {
        for _ in 0..random.between(1, 3) {
            damage::image(&mut image, random);
        }
    }
    image
}

/// What the original makes of a random program, or of nothing if it refuses it.
fn crunched(random: &mut Random) -> Vec<u8> {
    let text = programs::any(random);
    let load = texts::any_load_address(random);
    let image = library::crunch(load, texts::any_dialect(random), &text);
    image.unwrap_or_else(|_| well_formed(load, &[]))
}

fn random_lines(random: &mut Random) -> Vec<u8> {
    let bodies: Vec<_> = (0..random.below(5)).map(|_| bytes(12, random)).collect();
    let lines: Vec<Line> = bodies
        .iter()
        .map(|body| (random.next() as u16, &body[..]))
        .collect();
    well_formed(texts::any_load_address(random), &lines)
}

fn bytes(longest: usize, random: &mut Random) -> Vec<u8> {
    (0..random.below(longest + 1))
        .map(|_| random.byte())
        .collect()
}
