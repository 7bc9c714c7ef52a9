//! Images for listings that heed remarks.

use super::images::well_formed;

/// Bodies in which an 8F opens a remark, or is quoted or part of a pair, each before
/// every byte.
pub fn listed() -> Vec<Vec<u8>> {
    const BEFORE: [&[u8]; 10] = [
        b"\x8F",
        b"\x8F\"",
        b"\"\x8F",
        b"\"A\"\x8F \"",
        b"\x64\x8F",
        b"\x64\x64\x8F",
        b"\x64\"\x8F",
        b"\x83\x8F",
        b"\x83:\x8F\x8F",
        b"\x99d\x8Fd",
    ];
    let mut images = Vec::new();
    for byte in 0..=0xFF {
        for before in BEFORE {
            let body = [before, &[byte, b'o', 0x99, b'"', 0x64, byte]].concat();
            images.push(well_formed(0x0801, &[(10, &body), (20, b"\x64oB")]));
        }
    }
    images
}
