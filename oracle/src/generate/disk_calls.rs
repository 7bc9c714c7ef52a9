//! Calls on disks: small ones first, then whole disks one at a time.
//!
//! A whole disk takes 174,848 bytes of its request and as many of the answer. So the
//! listed cases of an op hold one whole disk, and are otherwise short: with them a
//! sample can be recorded. The others are made when it is their turn.

use std::sync::LazyLock;

use super::disk_damage::{self, Damage};
use super::disks::{self, FILE_SECTORS, IMAGE_LENGTHS};
use super::requests;
use crate::calls::{self, Call, ROOM_LIMIT};
use crate::disk::{self, DATA_LENGTH, DISK_LENGTH, MOST_FILES};
use crate::frames::{PAYLOAD_LIMIT, Request};
use crate::random::Random;

/// Lengths of disks that are far too short.
const SHORT_LENGTHS: [usize; 15] = [
    0, 1, 2, 3, 4, 5, 16, 255, 256, 257, 511, 512, 683, 768, 1000,
];

/// Lengths around a disk's, and those of disks with error bytes and with 40 tracks.
const WRONG_LENGTHS: [usize; 6] = [
    DISK_LENGTH - 256,
    DISK_LENGTH - 1,
    DISK_LENGTH + 1,
    DISK_LENGTH + 256,
    DISK_LENGTH + 683,
    196_608,
];

/// What a call is given beside the disk: a name, and the image to save under it.
struct Given {
    name: Vec<u8>,
    image: Vec<u8>,
    disk: Vec<u8>,
}

static SAMPLE: LazyLock<Vec<u8>> = LazyLock::new(disks::sample);
static DAMAGES: LazyLock<Vec<Damage>> = LazyLock::new(disk_damage::listed);

/// The short cases, behind one with a whole disk.
pub fn listed(op: u8, random: &mut Random) -> Vec<Request> {
    let first = match op {
        calls::FORMAT_DISK => given(b"", 0, vec![0x55; DISK_LENGTH]),
        calls::SAVE_FILE => given(b"MOLDTHATCH", 600, SAMPLE.clone()),
        _ => given(b"H", 0, SAMPLE.clone()),
    };
    let names = disks::names();
    let short = SHORT_LENGTHS.into_iter().zip(names).map(|(length, name)| {
        let image = random.below(4);
        given(name, image, vec![random.byte(); length])
    });
    let all: Vec<Given> = [first].into_iter().chain(short).collect();
    all.iter().map(|given| request(op, given, random)).collect()
}

/// The whole disk of the number, from 0 on, made for the op; nothing behind the last.
pub fn case(op: u8, number: usize) -> Option<Request> {
    let number = match number {
        0 => return Some(largest(op)),
        _ => number - 1,
    };
    let mut random = Random::new(number as u64);
    let given = match number.checked_sub(WRONG_LENGTHS.len()) {
        None => {
            let mut disk = SAMPLE.clone();
            disk.resize(WRONG_LENGTHS[number], 0);
            given(b"H", 10, disk)
        }
        Some(number) if op == calls::FORMAT_DISK => to_format(number)?,
        Some(number) => match DAMAGES.get(number) {
            Some(damage) => {
                let disk = disk_damage::damaged(SAMPLE.clone(), damage);
                let name = if op == calls::SAVE_FILE {
                    b"NEW"
                } else {
                    &b"H"[..]
                };
                given(name, 300, disk)
            }
            None => edge(number - DAMAGES.len())?,
        },
    };
    Some(request(op, &given, &mut random))
}

/// A disk that fills its frame; for a read, with the largest room too.
fn largest(op: u8) -> Request {
    let disk = vec![0; PAYLOAD_LIMIT - calls::fixed_part(op)];
    if op != calls::READ_FILE {
        return request(op, &given(b"", 0, disk), &mut Random::new(0));
    }
    let call = Call::ReadFile {
        room: ROOM_LIMIT,
        name: b"",
        disk: &disk,
    };
    call.encode()
}

/// Disks to format: what stands on them is of no account.
fn to_format(number: usize) -> Option<Given> {
    let disk = match number {
        0 => vec![0; DISK_LENGTH],
        1 => vec![0xFF; DISK_LENGTH],
        2 => disks::fresh(),
        3 => SAMPLE.clone(),
        4 => disks::crowded(MOST_FILES, None),
        5 => disk_damage::damaged(SAMPLE.clone(), DAMAGES.first()?),
        _ => return None,
    };
    Some(given(b"", 0, disk))
}

/// A disk that is made when it is its turn.
#[derive(Clone, Copy)]
enum ToMake {
    Fresh,
    Sample,
    Crowded {
        files: usize,
        left_free: Option<usize>,
    },
}

impl ToMake {
    fn made(self) -> Vec<u8> {
        match self {
            ToMake::Fresh => disks::fresh(),
            ToMake::Sample => SAMPLE.clone(),
            ToMake::Crowded { files, left_free } => disks::crowded(files, left_free),
        }
    }
}

/// Names, lengths and disks at the edges of what a call takes.
fn edge(number: usize) -> Option<Given> {
    let mut cases: Vec<(&[u8], usize, ToMake)> = Vec::new();
    let most = FILE_SECTORS * DATA_LENGTH;
    let large = [most - 254, most - 253, most, most + 1];
    for length in IMAGE_LENGTHS.into_iter().chain(large) {
        cases.push((b"NEW", length, ToMake::Fresh));
    }
    for name in disks::names().chain([&b"H"[..], b"B", b"J", b"h"]) {
        cases.push((name, 255, ToMake::Sample));
    }
    // The directory grows at 8, 16, .. files, and is full at 144.
    for files in [7, 8, 9, 15, 16, 17, 135, 136, 137, 142, 143, 144] {
        let left_free = None;
        cases.push((b"NEW", 1, ToMake::Crowded { files, left_free }));
        cases.push((b"FILE 143", 0, ToMake::Crowded { files, left_free }));
    }
    // So many sectors left for an image of two: 25 below two, but 24 comes first.
    for left_free in [0, 1, 2, 3].map(Some) {
        for files in [0, 7, MOST_FILES - 1] {
            cases.push((b"NEW", 255, ToMake::Crowded { files, left_free }));
            cases.push((b"THE REST", 255, ToMake::Crowded { files, left_free }));
        }
    }
    let &(name, length, disk) = cases.get(number)?;
    Some(given(name, length, disk.made()))
}

/// A disk by random calls or as another tool leaves it, one in three damaged.
pub fn any(op: u8, random: &mut Random) -> Request {
    let mut disk = match random.below(2) {
        0 => disks::worked(random),
        _ => disks::foreign(random),
    };
    let listed = disk::files(&disk).unwrap_or_default();
    let names: Vec<Vec<u8>> = listed.into_iter().map(|file| file.name).collect();
    if random.one_in(3) {
        for _ in 0..random.between(1, 2) {
            disk_damage::any(&mut disk, random);
        }
    }
    let given = Given {
        name: disks::any_name(&names, random),
        image: disks::any_image(random),
        disk,
    };
    request(op, &given, random)
}

fn given(name: &[u8], length: usize, disk: Vec<u8>) -> Given {
    Given {
        name: name.to_vec(),
        image: disks::image(length),
        disk,
    }
}

fn request(op: u8, given: &Given, random: &mut Random) -> Request {
    let Given { name, image, disk } = given;
    let call = match op {
        calls::FORMAT_DISK => Call::FormatDisk { disk },
        calls::SAVE_FILE => Call::SaveFile { name, image, disk },
        calls::READ_FILE => {
            let file = disk::read(disk, name);
            let room = requests::room(file.ok().map(|file| file.len()), random);
            Call::ReadFile { room, name, disk }
        }
        calls::SCRATCH_FILE => Call::ScratchFile { name, disk },
        calls::CHECK_DISK => Call::CheckDisk { disk },
        _ => unreachable!("op {op:02X} takes no disk"),
    };
    call.encode()
}
