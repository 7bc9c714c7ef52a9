//! Disks to call upon: fresh, filled by calls, and as other tools leave them.

use crate::disk::{
    self, DATA_LENGTH, DIRECTORY, DIRECTORY_TRACK, DISK_LENGTH, LAST_TRACK, MAP, NAME_LENGTH,
    PADDING, Sector,
};
use crate::random::Random;

/// Lengths at which an image needs one sector more.
pub const IMAGE_LENGTHS: [usize; 9] = [0, 1, 2, 253, 254, 255, 508, 509, 762];

/// How many sectors of a fresh disk files can take.
pub const FILE_SECTORS: usize = 664;

/// Names that come up again and again, so that they are found and are taken.
const NAMES: [&[u8]; 12] = [
    b"A",
    b"B",
    b"AB",
    b"a",
    b"A ",
    b"A\0",
    b"\0",
    b"*",
    b"HELLO WORLD",
    b"0123456789ABCDE",
    b"0123456789ABCDEF",
    b"0123456789ABCDEG",
];

/// Names that no file can have.
const BAD_NAMES: [&[u8]; 7] = [
    b"",
    b"\xA0",
    b"A\xA0",
    b"\xA0A",
    b"A\xA0B",
    b"0123456789ABCDEF0",
    b"0123456789ABCDE\xA0",
];

pub fn fresh() -> Vec<u8> {
    disk::format(&[0; DISK_LENGTH]).expect("the length is a disk's")
}

/// An image of the length; its bytes repeat after 251, which no sector does.
pub fn image(length: usize) -> Vec<u8> {
    (0..length).map(|place| (place % 251) as u8).collect()
}

/// A fresh disk with files of these names and lengths.
fn with_files<'a>(files: impl IntoIterator<Item = (&'a [u8], usize)>) -> Vec<u8> {
    files.into_iter().fold(fresh(), |disk, (name, length)| {
        disk::save(&disk, name, &image(length)).expect("the files fit")
    })
}

/// Ten files on two sectors of the directory, of which the second and the sixth
/// are scratched again.
pub fn sample() -> Vec<u8> {
    const LENGTHS: [usize; 10] = [0, 1, 253, 254, 255, 508, 509, 1000, 5000, 254];
    let names = b"ABCDEFGHIJ".chunks(1);
    let disk = with_files(names.zip(LENGTHS));
    let disk = disk::scratch(&disk, b"B").expect("the file is there");
    disk::scratch(&disk, b"F").expect("the file is there")
}

/// A disk with so many files of a byte each, and one more if any sectors are to be
/// left free: it takes all others.
pub fn crowded(files: usize, left_free: Option<usize>) -> Vec<u8> {
    let names: Vec<String> = (0..files).map(|place| format!("FILE {place}")).collect();
    let mut disk = with_files(names.iter().map(|name| (name.as_bytes(), 1)));
    if let Some(left_free) = left_free {
        let sectors = FILE_SECTORS - files - left_free;
        disk = disk::save(&disk, b"THE REST", &image(sectors * DATA_LENGTH)).expect("it fits");
    }
    disk
}

/// A disk after random calls from a fresh one.
pub fn worked(random: &mut Random) -> Vec<u8> {
    let calls = match random.below(24) {
        0 => 60,
        1..4 => 20,
        _ => random.below(8),
    };
    (0..calls).fold(fresh(), |disk, _| after_call(disk, random))
}

/// The disk after one random call, or as it was if the call is refused.
fn after_call(disk: Vec<u8>, random: &mut Random) -> Vec<u8> {
    let name = good_name(random);
    let left = match random.below(3) {
        0 => disk::scratch(&disk, &name),
        _ => disk::save(&disk, &name, &any_image(random)),
    };
    left.unwrap_or(disk)
}

/// A disk that passes the check, but that no sequence of our calls gives: its files
/// and its directory lie anywhere, and what the check does not look at is noise.
pub fn foreign(random: &mut Random) -> Vec<u8> {
    let mut disk = vec![random.byte(); DISK_LENGTH];
    let mut directory: Vec<u8> = (2..=18).collect();
    random.shuffle(&mut directory);
    directory.truncate(random.pick(&[0, 0, 1, 2, 4, 17]));
    directory.insert(0, DIRECTORY.1);
    for (place, &sector) in directory.iter().enumerate() {
        let link = match directory.get(place + 1) {
            Some(&next) => [DIRECTORY_TRACK, next],
            None => [0, random.byte()],
        };
        patch(&mut disk, Sector(DIRECTORY_TRACK, sector), 0, &link);
    }
    let mut free: Vec<Sector> = disk::file_sectors().collect();
    random.shuffle(&mut free);
    let listed_one_in = random.pick(&[1, 2, 2, 9]);
    let mut names: Vec<Vec<u8>> = Vec::new();
    for sector in directory {
        for at in disk::entry_places() {
            let name = any_listed_name(random);
            let is_listed = random.one_in(listed_one_in) && !names.contains(&name);
            let mut entry = vec![0, random.byte(), random.byte()];
            if is_listed {
                let first = foreign_file(&mut disk, &mut free, random);
                entry = vec![0x82, first.0, first.1];
                names.push(name.clone());
            }
            patch(&mut disk, Sector(DIRECTORY_TRACK, sector), at, &entry);
            patch(
                &mut disk,
                Sector(DIRECTORY_TRACK, sector),
                at + 3,
                &padded(&name, random),
            );
        }
    }
    write_map(&mut disk, &free, random);
    disk
}

/// Lays a short file over the last free sectors; gives its first one.
fn foreign_file(disk: &mut [u8], free: &mut Vec<Sector>, random: &mut Random) -> Sector {
    let mut next = [0, random.between(1, 255) as u8];
    let mut first = MAP;
    for _ in 0..random.between(1, 4) {
        first = free
            .pop()
            .expect("144 files of four sectors leave some free");
        patch(disk, first, 0, &next);
        patch(disk, first, 2, &image(DATA_LENGTH));
        next = [first.0, first.1];
    }
    first
}

/// Writes a map that calls these sectors free; its counts, and track 18, are noise.
fn write_map(disk: &mut [u8], free: &[Sector], random: &mut Random) {
    patch(disk, MAP, 0, &[DIRECTORY.0, DIRECTORY.1]);
    for track in (1..=LAST_TRACK).filter(|&track| track != DIRECTORY_TRACK) {
        let on_track = free.iter().filter(|sector| sector.0 == track);
        let bits: u32 = on_track.map(|sector| 1 << sector.1).sum();
        let [low, middle, high, _] = bits.to_le_bytes();
        let of_track = [random.byte(), low, middle, high];
        patch(disk, MAP, 4 * usize::from(track), &of_track);
    }
}

/// Puts the bytes over those of a sector, from a place on.
pub fn patch(disk: &mut [u8], sector: Sector, at: usize, bytes: &[u8]) {
    disk[disk::offset(sector) + at..][..bytes.len()].copy_from_slice(bytes);
}

/// A name in its 16 bytes: padding, and behind the first A0 anything.
fn padded(name: &[u8], random: &mut Random) -> Vec<u8> {
    let mut padded = name.to_vec();
    padded.resize(NAME_LENGTH, PADDING);
    if name.len() < NAME_LENGTH - 1 && random.one_in(4) {
        padded[NAME_LENGTH - 1] = random.byte();
    }
    padded
}

/// A name that an entry can have: a good one, or none at all.
fn any_listed_name(random: &mut Random) -> Vec<u8> {
    match random.below(40) {
        0 => Vec::new(),
        _ => good_name(random),
    }
}

/// A name that a file can have, often one that comes up again.
pub fn good_name(random: &mut Random) -> Vec<u8> {
    if random.one_in(2) {
        return random.pick(&NAMES).to_vec();
    }
    let length = random.between(1, NAME_LENGTH);
    let mut name: Vec<u8> = (0..length).map(|_| random.byte()).collect();
    for byte in name.iter_mut().filter(|byte| **byte == PADDING) {
        *byte = b'A';
    }
    name
}

/// Any name: one of these, a good one, or a bad one.
pub fn any_name(listed: &[Vec<u8>], random: &mut Random) -> Vec<u8> {
    match random.below(8) {
        0 => random.pick(&BAD_NAMES).to_vec(),
        1 | 2 => good_name(random),
        _ if listed.is_empty() => good_name(random),
        _ => listed[random.below(listed.len())].clone(),
    }
}

/// Every kind of name, good and bad.
pub fn names() -> impl Iterator<Item = &'static [u8]> {
    BAD_NAMES.into_iter().chain(NAMES)
}

/// An image at an edge of the sectors, or of any length; now and then a large one.
pub fn any_image(random: &mut Random) -> Vec<u8> {
    let length = match random.below(16) {
        0 => random.below(FILE_SECTORS * DATA_LENGTH),
        1..9 => random.pick(&IMAGE_LENGTHS),
        _ => random.below(4_000),
    };
    let first = random.byte();
    let byte = |place: usize| first.wrapping_add((place % 251) as u8);
    (0..length).map(byte).collect()
}
