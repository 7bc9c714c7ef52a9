//! Damage: one byte or stretch changed, added or taken away.

use crate::domain::PI;
use crate::random::Random;

/// Bytes at which something begins, ends or changes its meaning in a text.
const TEXT_BYTES: &[u8] = b"\"\"{}:=()*$%?,;09 aZ\n\r\t\x0B\x0C\0_-+";

/// Bytes at which something begins or ends in an image.
const IMAGE_BYTES: &[u8] = b"\0\0\0\x01\x08\x22\x22\x64\x60\x0D\x8F\x83\xFF";

/// Damages a text; only rarely so that it leaves the domain.
pub fn text(bytes: &mut Vec<u8>, random: &mut Random) {
    let patch = match random.below(24) {
        0 => PI.to_vec(),
        1 => vec![random.pick(&[0xCF, 0x80, 0x81, 0xFF])],
        2..6 => vec![random.byte() & 0x7F],
        _ => vec![random.pick(TEXT_BYTES)],
    };
    change(bytes, &patch, random);
}

pub fn image(bytes: &mut Vec<u8>, random: &mut Random) {
    let patch = match random.below(3) {
        0 => random.byte(),
        _ => random.pick(IMAGE_BYTES),
    };
    change(bytes, &[patch], random);
}

/// Puts the patch over the bytes at any place or between them, or takes some
/// away, doubles some, or cuts the rest off.
fn change(bytes: &mut Vec<u8>, patch: &[u8], random: &mut Random) {
    let start = random.below(bytes.len() + 1);
    let stretch = start..bytes.len().min(start + random.between(1, 4));
    match random.below(10) {
        0..4 => drop(bytes.splice(stretch.start..bytes.len().min(start + 1), patch.to_vec())),
        4..7 => drop(bytes.splice(start..start, patch.to_vec())),
        7 => drop(bytes.drain(stretch)),
        8 => {
            let doubled = bytes[stretch].to_vec();
            bytes.splice(start..start, doubled);
        }
        _ => bytes.truncate(start),
    }
}
