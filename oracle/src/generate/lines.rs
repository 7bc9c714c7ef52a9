//! Lines by number, with their addresses, and as they are measured: what document 02,
//! No. 4 and No. 8, names.

use super::images::well_formed;
use super::requests::C64_LOAD;
use crate::calls::{self, Call, Reader};
use crate::dialects::Dialect;
use crate::frames::Request;
use crate::library::CrunchOptions;

/// Texts whose lines do not stand where they seem to: blank lines of every kind,
/// every line end, and none at the end.
const TEXTS: [&[u8]; 8] = [
    b"",
    b"10A",
    b"\n\n10A\n \n20B\t\r\r\n\r30\r\n",
    b"\r\n10 PRINT\r\n\r\n20 GOTO 10\n\r30",
    b"10\n10\n10\n5 REM \"",
    b"\x0B\x0C\n\t10A\x0B\n  \n20 \"{red*3}\"",
    b"10A\n20B\nX",
    b"10A\n\n65536",
];

/// Load addresses below, at and above 0100, and near the last.
const LOADS: [u16; 7] = [0x0000, 0x00F0, 0x00FF, 0x0100, C64_LOAD, 0xFFF0, 0xFFFA];

/// The first cases of an op that is about lines.
pub fn listed(op: u8) -> Vec<Request> {
    match op {
        calls::LINE_BY_NUMBER => searches(),
        calls::ADDRESSED_STEP_BY_TERMINATORS => first_addresses(Reader::Terminators),
        calls::ADDRESSED_STEP_BY_LINKS => first_addresses(Reader::Links),
        calls::MEASURED_LINE => measured_lines(),
        _ => unreachable!("op {op:02X} is not about lines"),
    }
}

/// Every number at every limit: on a sound image, and with each fault behind a line.
fn searches() -> Vec<Request> {
    let sound = well_formed(
        C64_LOAD,
        &[(10, b"A"), (20, b""), (20, b"B\0"), (30, b""), (10, b"C")],
    );
    let mut images = vec![well_formed(C64_LOAD, &[])];
    // The third line's link: backward, outside, behind no zero, behind another zero.
    for link in [[0x01, 0x08], [0xFF, 0x08], [0x11, 0x08], [0x12, 0x08]] {
        let mut image = sound.clone();
        image[13..15].copy_from_slice(&link);
        images.push(image);
    }
    // Cut within the end marker, before it, and within the last line.
    images.extend([1, 2, 3].map(|cut| sound[..sound.len() - cut].to_vec()));
    images.push(sound);
    let mut requests = Vec::new();
    for image in &images {
        for number in [10, 20, 30, 40] {
            for limit in [0, 1, 2, 3, 4, 5, 6, u64::MAX] {
                let call = Call::LineByNumber {
                    number,
                    limit,
                    image,
                };
                requests.push(call.encode());
            }
        }
    }
    requests
}

/// Lines at the offsets around the load address itself: their sum can be below 0, and
/// can pass 16 bits.
fn first_addresses(by: Reader) -> Vec<Request> {
    const LOADS: [u16; 9] = [0, 1, 2, 3, 0xFF, 0x100, 0xFFFD, 0xFFFE, 0xFFFF];
    let mut requests = Vec::new();
    for load in LOADS {
        // By links, a target of 0100 or above is as far away as that.
        let length = match by {
            Reader::Links if load < 0x200 => 300,
            _ => 10,
        };
        let mut image = [&load.to_le_bytes(), &[1; 4][..]].concat();
        image.resize(length, 0);
        for offset in 0..5 {
            let image = &image;
            requests.push(Call::AddressedStep { by, offset, image }.encode());
        }
    }
    requests
}

/// Every place of every text, at every load address.
fn measured_lines() -> Vec<Request> {
    let mut requests = Vec::new();
    for text in TEXTS {
        for load in LOADS {
            for place in [0, 1, 2, 3, 4, 5] {
                for profile in [false, true] {
                    let options = CrunchOptions {
                        profile,
                        ..CrunchOptions::none(load, Dialect::Auto)
                    };
                    let call = Call::MeasuredLine {
                        options,
                        place,
                        text,
                    };
                    requests.push(call.encode());
                }
            }
        }
    }
    requests
}
