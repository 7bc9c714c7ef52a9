//! Damage to a disk: the sample with each clause of the check broken, and with what
//! the check does not look at changed.

use super::disks::{self, patch};
use crate::disk::{self, DIRECTORY, DIRECTORY_TRACK, MAP, SECTOR_LENGTH, Sector};
use crate::random::Random;

/// Bytes to be put over those of a disk, each from a place in a sector on.
pub type Damage = Vec<(Sector, usize, Vec<u8>)>;

/// Links to sectors that are off the disk, on track 18, or the last of their track.
const LINKS: [(u8, u8); 26] = [
    (0, 0),
    (0, 1),
    (0, 255),
    (1, 0),
    (1, 20),
    (1, 21),
    (1, 255),
    (17, 20),
    (17, 21),
    (18, 0),
    (18, 1),
    (18, 5),
    (18, 18),
    (18, 19),
    (18, 255),
    (19, 18),
    (19, 19),
    (24, 19),
    (25, 17),
    (25, 18),
    (30, 18),
    (31, 17),
    (35, 16),
    (35, 17),
    (36, 0),
    (255, 255),
];

/// The directory's second sector on the sample.
const SECOND: Sector = Sector(DIRECTORY_TRACK, 2);

pub fn listed() -> Vec<Damage> {
    let sample = disks::sample();
    let mut all = of_directory_links();
    all.extend(of_types());
    all.extend(of_names());
    all.extend(of_chains(&sample));
    all.extend(of_map(&sample));
    all.extend(of_what_is_not_looked_at());
    all
}

pub fn damaged(mut disk: Vec<u8>, damage: &Damage) -> Vec<u8> {
    for (sector, at, bytes) in damage {
        patch(&mut disk, *sector, *at, bytes);
    }
    disk
}

/// Where the sample's entry of this number, from 0, stands.
fn entry(number: usize) -> (Sector, usize) {
    let sector = if number < 8 { DIRECTORY } else { SECOND };
    (sector, 2 + 32 * (number % 8))
}

fn in_entry(number: usize, at: usize, bytes: &[u8]) -> Damage {
    let (sector, start) = entry(number);
    vec![(sector, start + at, bytes.to_vec())]
}

fn link(sector: Sector, to: (u8, u8)) -> Damage {
    vec![(sector, 0, vec![to.0, to.1])]
}

/// The link of 18/0, of the directory's first and last sectors, and directories of
/// 18 and of 19 sectors.
fn of_directory_links() -> Vec<Damage> {
    let sectors = [MAP, DIRECTORY, SECOND].into_iter();
    let mut all: Vec<Damage> = sectors
        .flat_map(|sector| LINKS.map(|to| link(sector, to)))
        .collect();
    all.push(link(MAP, (DIRECTORY_TRACK, 2)));
    all.push(link(SECOND, (DIRECTORY_TRACK, 2)));
    for last in [
        (0, 0),
        (0, 255),
        (18, 0),
        (18, 1),
        (18, 2),
        (18, 18),
        (18, 19),
    ] {
        let mut damage: Damage = Vec::new();
        for place in 2..18 {
            damage.extend(link(
                Sector(DIRECTORY_TRACK, place),
                (DIRECTORY_TRACK, place + 1),
            ));
        }
        damage.extend(link(Sector(DIRECTORY_TRACK, 18), last));
        all.push(damage);
    }
    all
}

/// Other types than 82, of listed entries and of those that were not listed.
fn of_types() -> Vec<Damage> {
    const TYPES: [u8; 10] = [0x00, 0x01, 0x02, 0x80, 0x81, 0x82, 0x83, 0x84, 0xC2, 0xFF];
    let entries = [0, 1, 4, 5, 9, 10, 15];
    let damage = |number| TYPES.map(|kind| in_entry(number, 0, &[kind]));
    entries.into_iter().flat_map(damage).collect()
}

/// Names that become equal, or nearly so: the third and fourth entries', beside the
/// first's, which is `A`.
fn of_names() -> Vec<Damage> {
    const NAMES: [&[u8; 16]; 7] = [
        b"A\xA0\xA0\xA0\xA0\xA0\xA0\xA0\xA0\xA0\xA0\xA0\xA0\xA0\xA0\xA0",
        b"A\xA0B\xA0\xA0\xA0\xA0\xA0\xA0\xA0\xA0\xA0\xA0\xA0\xA0\xA0",
        b"A\0\xA0\xA0\xA0\xA0\xA0\xA0\xA0\xA0\xA0\xA0\xA0\xA0\xA0\xA0",
        b"\xA0A\xA0\xA0\xA0\xA0\xA0\xA0\xA0\xA0\xA0\xA0\xA0\xA0\xA0\xA0",
        b"ABCDEFGHIJKLMNOP",
        b"ABCDEFGHIJKLMNOQ",
        b"ABCDEFGHIJKLMNO\xA0",
    ];
    let mut all = Vec::new();
    for name in NAMES {
        all.extend([1, 2, 9].map(|number| in_entry(number, 3, name)));
        let pairs = NAMES.iter().filter(|other| **other >= name);
        all.extend(pairs.map(|other| [in_entry(2, 3, name), in_entry(3, 3, *other)].concat()));
    }
    all
}

/// First sectors and links: off the disk, on track 18, met twice, or cut short.
fn of_chains(sample: &[u8]) -> Vec<Damage> {
    let chain = chain(sample, 7);
    let mut all: Vec<Damage> = LINKS
        .into_iter()
        .map(|to| in_entry(7, 1, &[to.0, to.1]))
        .collect();
    for &sector in &chain {
        all.extend(LINKS.map(|to| link(sector, to)));
        all.extend(chain.iter().map(|to| link(sector, (to.0, to.1))));
        all.push(in_entry(7, 1, &[sector.0, sector.1]));
        all.push(in_entry(6, 1, &[sector.0, sector.1]));
    }
    let last = chain[chain.len() - 1];
    all.extend([2, 127, 254].map(|second| link(last, (0, second))));
    // Cut short, and the sectors behind called free: a sound disk again.
    let mut map = sample[disk::offset(MAP)..][..SECTOR_LENGTH].to_vec();
    for sector in &chain[1..] {
        map[4 * usize::from(sector.0) + 1 + usize::from(sector.1 / 8)] |= 1 << (sector.1 % 8);
    }
    let mut cut = link(chain[0], (0, 200));
    cut.push((MAP, 0, map));
    all.push(cut);
    all
}

/// The sectors of the file of the sample's entry.
fn chain(sample: &[u8], number: usize) -> Vec<Sector> {
    let (sector, at) = entry(number);
    let first = disk::offset(sector) + at + 1;
    let mut chain = Vec::new();
    let mut next = Sector(sample[first], sample[first + 1]);
    while next.0 != 0 {
        chain.push(next);
        let link = disk::offset(next);
        next = Sector(sample[link], sample[link + 1]);
    }
    chain
}

/// Bits of the map: a sector free that is used, used that is free, and beyond the
/// track's last.
fn of_map(sample: &[u8]) -> Vec<Damage> {
    let mut all = Vec::new();
    for track in [1, 2, 17, 18, 19, 24, 25, 30, 31, 35] {
        let last = disk::sectors_on(track) - 1;
        for place in [0, 1, 7, 8, last, last + 1, 23] {
            let at = 4 * usize::from(track) + 1 + usize::from(place / 8);
            let bits = sample[disk::offset(MAP) + at] ^ 1 << (place % 8);
            all.push(vec![(MAP, at, vec![bits])]);
        }
    }
    all
}

/// Counts, track 18's bits, sizes, unused bytes, unlisted entries, free sectors, and
/// the rest of a last sector.
fn of_what_is_not_looked_at() -> Vec<Damage> {
    let noise = |sector, at, length| vec![(sector, at, vec![0xEE; length])];
    let mut all: Vec<Damage> = [1, 17, 18, 19, 35]
        .into_iter()
        .flat_map(|track| [0, 1, 0xFF].map(|count| vec![(MAP, 4 * track, vec![count])]))
        .collect();
    all.push(noise(MAP, 4 * 18, 4));
    all.push(noise(MAP, 2, 2));
    all.push(noise(MAP, 0x90, SECTOR_LENGTH - 0x90));
    all.push(in_entry(0, 19, &[0xEE; 11]));
    all.push(in_entry(1, 1, &[0xEE; 29]));
    all.push(in_entry(11, 1, &[18, 1]));
    all.push(noise(DIRECTORY, 32, 2));
    all.push(noise(Sector(1, 1), 0, SECTOR_LENGTH));
    all.push(noise(Sector(35, 16), 0, SECTOR_LENGTH));
    all.push(noise(Sector(DIRECTORY_TRACK, 7), 0, SECTOR_LENGTH));
    all.push(noise(Sector(1, 0), 2, SECTOR_LENGTH - 2));
    all
}

/// Damages a disk of any length at random: mostly where the check looks.
pub fn any(disk: &mut Vec<u8>, random: &mut Random) {
    let at = match random.below(8) {
        0 => disk::offset(MAP) + random.below(4 * 36),
        1 | 2 => {
            let sectors: Vec<Sector> = disk::all_sectors().collect();
            disk::offset(random.pick(&sectors)) + random.below(2)
        }
        3..6 => {
            let sector = Sector(DIRECTORY_TRACK, random.between(1, 2) as u8);
            disk::offset(sector) + 32 * random.below(8) + random.below(22)
        }
        6 => random.below(disk.len()),
        _ => {
            let length = disk.len() + random.below(3);
            return disk.resize(length - 1, 0);
        }
    };
    disk[at] = match random.below(3) {
        0 => random.byte(),
        1 => disk[at] ^ 1 << random.below(8),
        _ => random.pick(&[0, 1, 17, 18, 19, 35, 36, 0x82, 0xA0, 0xFF]),
    };
}
