//! Requests that are answered by FF alone.
//!
//! A length above the limit is not among them: it ends the program, so the
//! module `endings` asks for it in runs of their own.

use crate::calls::{self, ROOM_LIMIT};
use crate::frames::Request;
use crate::random::Random;

/// Ops that stay unknown: those from 10 on are given to later requests in turn.
const UNKNOWN_OPS: [u8; 8] = [0x00, 0x0C, 0x0D, 0x0E, 0x0F, 0xF0, 0xFE, 0xFF];

/// Bytes that name no dialect.
const UNKNOWN_DIALECTS: [u8; 5] = [4, 5, 0x7F, 0x80, 0xFF];

/// Options of which no request gives all bits.
const UNKNOWN_OPTIONS: [u8; 4] = [4, 7, 0x80, 0xFF];

/// Bytes that name no mode of a listing.
const UNKNOWN_MODES: [u8; 4] = [2, 3, 0x80, 0xFF];

const ROOMS_TOO_LARGE: [u32; 4] = [ROOM_LIMIT as u32 + 1, 1 << 20, 1 << 31, u32::MAX];

/// Every kind of malformed request that an op can have, and the unknown ops.
pub fn listed(op: u8) -> Vec<Request> {
    let fixed = calls::fixed_part(op);
    let mut payloads: Vec<Vec<u8>> = (0..fixed).map(|length| vec![0; length]).collect();
    if let Some(place) = dialect_place(op) {
        payloads.extend(UNKNOWN_DIALECTS.map(|byte| with_field(fixed, place, &[byte])));
    }
    if calls::is_with_options(op) {
        payloads.extend(UNKNOWN_OPTIONS.map(|byte| with_field(fixed, 3, &[byte])));
    }
    if matches!(op, calls::LINKED_LISTING | calls::LINKED_LISTING_ROOM) {
        payloads.extend(UNKNOWN_MODES.map(|byte| with_field(fixed, 1, &[byte])));
    }
    if let Some(place) = room_place(op) {
        payloads.extend(ROOMS_TOO_LARGE.map(|room| with_field(fixed, place, &room.to_le_bytes())));
    }
    payloads.extend(beyond_payload(op));
    let mut requests: Vec<Request> = payloads
        .into_iter()
        .map(|payload| Request { op, payload })
        .collect();
    requests.extend(UNKNOWN_OPS.map(|op| Request {
        op,
        payload: b"tsb".to_vec(),
    }));
    requests
}

/// One of an op's requests, cut short in its fixed part or under an unknown op.
pub fn any(op: u8, random: &mut Random) -> Request {
    let mut request = super::any(op, random);
    let fixed = calls::fixed_part(op);
    if fixed == 0 || random.one_in(3) {
        request.op = random.pick(&UNKNOWN_OPS);
    } else {
        request.payload.truncate(random.below(fixed));
    }
    request
}

/// Where an op's payload has its dialect, if it has one.
fn dialect_place(op: u8) -> Option<usize> {
    match op {
        calls::CRUNCH | calls::CRUNCH_ROOM => Some(2),
        calls::RESOLVED_DIALECT | calls::DEFAULT_LOAD => Some(0),
        _ if calls::is_with_options(op) => Some(2),
        _ if calls::is_under_options(op) => Some(0),
        _ => None,
    }
}

/// Where an op's payload has its room, if it has one.
fn room_place(op: u8) -> Option<usize> {
    match op {
        calls::CRUNCH => Some(3),
        calls::CRUNCH_WITH => Some(4),
        calls::LISTING | calls::READ_FILE => Some(0),
        calls::DIALECT_LISTING | calls::SECOND_LISTING => Some(1),
        calls::LINKED_LISTING => Some(2),
        _ => None,
    }
}

/// Payloads in which a name, an image or an image's length would reach beyond the end, or a list
/// of images does not fill it.
fn beyond_payload(op: u8) -> Vec<Vec<u8>> {
    let payloads: &[&[u8]] = match op {
        calls::SAVE_FILE => &[
            b"\x05\0NAME\0\0\0",
            b"\xFF\xFFNAME\0\0\0\0",
            b"\x04\0NAME\0\0\0",
            b"\x04\0NAME\x01\0\0\0",
            b"\x04\0NAME\x05\0\0\0BYTE",
            b"\x04\0NAME\xFF\xFF\xFF\xFFBYTES",
        ],
        calls::READ_FILE => &[b"\0\0\0\0\x05\0NAME", b"\0\0\0\0\0\x01NAME"],
        calls::SCRATCH_FILE => &[b"\x05\0NAME", b"\x00\x80NAME"],
        calls::COUNT_IMAGES => &[
            b"\x01\0\0\0",
            b"\0\0\0\0\0",
            b"\x01\0\0\0\x02\0\0\0\x01",
            b"\x02\0\0\0\x01\0\0\0\x01",
            b"\x01\0\0\0\x01\0\0\0\x01\x08",
            b"\xFF\xFF\xFF\xFF\0\0\0\0",
            b"\x01\0\0\0\xFF\xFF\xFF\xFF\x01",
        ],
        _ => &[],
    };
    payloads.iter().map(|payload| payload.to_vec()).collect()
}

fn with_field(length: usize, place: usize, field: &[u8]) -> Vec<u8> {
    let mut payload = vec![0; length];
    payload[place..][..field.len()].copy_from_slice(field);
    payload
}
