//! Lists of images to count over: none, one, many, and around the limit of 1,000.

use super::images;
use crate::calls::Call;
use crate::frames::Request;
use crate::random::Random;

/// Images at a time, of those that are enumerated for other calls.
const TOGETHER: usize = 40;

pub fn listed() -> Vec<Request> {
    let line = images::well_formed(0x0801, &[(10, b"\x99 \"\x99\":\x64\x01:\x8F\x99")]);
    let cut = &line[..line.len() - 3];
    let mut requests = vec![
        counted(&[]),
        counted(&[&line]),
        counted(&[&line, b"", &line, b"\x01\x08\0", cut]),
        counted(&[b"\x01", &line, b"\x01\x08\0", &line]),
    ];
    for count in [999, 1000, 1001, 1002] {
        requests.push(counted(&vec![&line[..]; count]));
        requests.push(counted(&vec![&b"\x01\x08\0"[..]; count]));
    }
    requests
}

/// The images that are enumerated, so many together.
pub fn enumerated(images: &[Vec<u8>]) -> Vec<Request> {
    images
        .chunks(TOGETHER)
        .map(|chunk| counted(&chunk.iter().map(Vec::as_slice).collect::<Vec<_>>()))
        .collect()
}

pub fn any(random: &mut Random) -> Request {
    let count = match random.below(20) {
        0 => random.between(998, 1002),
        _ => random.below(12),
    };
    let images: Vec<_> = (0..count).map(|_| images::any(random)).collect();
    counted(&images.iter().map(Vec::as_slice).collect::<Vec<_>>())
}

fn counted(images: &[&[u8]]) -> Request {
    let mut list = Vec::new();
    for image in images {
        list.extend((image.len() as u32).to_le_bytes());
        list.extend(*image);
    }
    let count = images.len() as u32;
    Call::CountImages {
        count,
        images: &list,
    }
    .encode()
}
