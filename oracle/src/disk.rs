//! Disks: a model, and no original.
//!
//! The original knows no disks. This module was written from document 02, No. 9,
//! and the 1541's public documents, apart from the port, so that ops 20 to 24 can
//! be held against something; a difference here says only that the two readings
//! differ. It works on sets and maps of sectors, and is not made to be fast. Each
//! call gives the disk that it leaves behind, so a refused call leaves none.

use std::collections::{BTreeMap, BTreeSet};

use crate::refusal::Refusal;

pub const DISK_LENGTH: usize = 174_848;
pub const SECTOR_LENGTH: usize = 256;

/// How many bytes of a file a sector holds, behind its link.
pub const DATA_LENGTH: usize = 254;

pub const LAST_TRACK: u8 = 35;
pub const DIRECTORY_TRACK: u8 = 18;

/// The sector of the map, 18/0, and the directory's first.
pub const MAP: Sector = Sector(DIRECTORY_TRACK, 0);
pub const DIRECTORY: Sector = Sector(DIRECTORY_TRACK, 1);

/// How many files a directory of 18 sectors lists.
pub const MOST_FILES: usize = 144;

const ENTRY_LENGTH: usize = 30;
pub const NAME_LENGTH: usize = 16;

/// What fills up a name.
pub const PADDING: u8 = 0xA0;

/// The types of an entry that is not listed, and of a closed PRG file.
const UNLISTED: u8 = 0x00;
const CLOSED_PRG: u8 = 0x82;

/// A sector by its track, from 1, and its place on the track, from 0. A sector is
/// lower than another if it comes earlier in this order.
#[derive(Debug, Clone, Copy, PartialEq, Eq, PartialOrd, Ord)]
pub struct Sector(pub u8, pub u8);

impl Sector {
    pub fn exists(self) -> bool {
        self.1 < sectors_on(self.0)
    }

    /// Whether a file's chain may go through it.
    pub fn is_for_files(self) -> bool {
        self.exists() && self.0 != DIRECTORY_TRACK
    }

    /// Whether the directory's chain may go through it: 18/1 to 18/18.
    fn is_for_directory(self) -> bool {
        self.exists() && self.0 == DIRECTORY_TRACK && self != MAP
    }
}

/// How many sectors a track has.
pub fn sectors_on(track: u8) -> u8 {
    match track {
        1..=17 => 21,
        18..=24 => 19,
        25..=30 => 18,
        31..=35 => 17,
        _ => 0,
    }
}

/// The 683 sectors, in order.
pub fn all_sectors() -> impl Iterator<Item = Sector> {
    (1..=LAST_TRACK).flat_map(|track| (0..sectors_on(track)).map(move |place| Sector(track, place)))
}

/// The sectors that files can take.
pub fn file_sectors() -> impl Iterator<Item = Sector> {
    all_sectors().filter(|sector| sector.is_for_files())
}

/// The sectors that the directory can take.
fn directory_sectors() -> impl Iterator<Item = Sector> {
    all_sectors().filter(|sector| sector.is_for_directory())
}

/// The offset of a sector that exists in the bytes of a disk.
pub fn offset(Sector(track, place): Sector) -> usize {
    let on_lower_tracks: usize = (1..track).map(|lower| usize::from(sectors_on(lower))).sum();
    (on_lower_tracks + usize::from(place)) * SECTOR_LENGTH
}

/// Where a sector's eight entries begin.
pub fn entry_places() -> impl Iterator<Item = usize> {
    (2..SECTOR_LENGTH).step_by(32)
}

/// A fresh disk in place of these bytes.
pub fn format(disk: &[u8]) -> Result<Vec<u8>, Refusal> {
    let mut disk = Disk::from_bytes(disk).ok_or(Refusal::BadDisk)?;
    for bytes in disk.0.values_mut() {
        bytes.fill(0);
    }
    let map = disk.sector(MAP);
    map[..4].copy_from_slice(&[DIRECTORY.0, DIRECTORY.1, 0x41, 0x00]);
    map[0x90..=0xAA].fill(PADDING);
    map[0xA5..=0xA6].copy_from_slice(b"2A");
    disk.sector(DIRECTORY)[..2].copy_from_slice(&[0x00, 0xFF]);
    for sector in all_sectors().filter(|&sector| sector != MAP && sector != DIRECTORY) {
        disk.mark(sector, true);
    }
    Ok(disk.to_bytes())
}

/// The disk with the image saved under the name.
pub fn save(disk: &[u8], name: &[u8], image: &[u8]) -> Result<Vec<u8>, Refusal> {
    let (mut disk, found) = checked(disk)?;
    check_name(name)?;
    if found.file(name).is_some() {
        return Err(Refusal::NameTaken);
    }
    if found.files.len() == MOST_FILES {
        return Err(Refusal::DirectoryFull);
    }
    let parts = parts(image);
    if found.free.len() < parts.len() {
        return Err(Refusal::DiskFull);
    }
    let taken: Vec<Sector> = found.free.iter().copied().take(parts.len()).collect();
    for (place, part) in parts.iter().enumerate() {
        let link = match taken.get(place + 1) {
            Some(&Sector(track, sector)) => [track, sector],
            None => [0, 1 + part.len() as u8],
        };
        disk.write(taken[place], &[&link, *part].concat());
        disk.mark(taken[place], false);
    }
    let entry = match found.unlisted.first() {
        Some(&entry) => entry,
        None => disk.grown(&found.directory),
    };
    let length = (taken.len() as u16).to_le_bytes();
    let first = [CLOSED_PRG, taken[0].0, taken[0].1];
    let name = [name, &[PADDING; NAME_LENGTH][name.len()..]].concat();
    let written = [&first[..], &name, &[0; 9], &length].concat();
    disk.sector(entry.sector)[entry.at..][..ENTRY_LENGTH].copy_from_slice(&written);
    Ok(disk.to_bytes())
}

/// The bytes that were saved under the name.
pub fn read(disk: &[u8], name: &[u8]) -> Result<Vec<u8>, Refusal> {
    let (disk, found) = checked(disk)?;
    check_name(name)?;
    let file = found.file(name).ok_or(Refusal::NoSuchFile)?;
    Ok(disk.file_bytes(&file.chain))
}

/// The disk with the file scratched.
pub fn scratch(disk: &[u8], name: &[u8]) -> Result<Vec<u8>, Refusal> {
    let (mut disk, found) = checked(disk)?;
    check_name(name)?;
    let file = found.file(name).ok_or(Refusal::NoSuchFile)?;
    disk.sector(file.entry.sector)[file.entry.at] = UNLISTED;
    for &sector in &file.chain {
        disk.mark(sector, true);
    }
    Ok(disk.to_bytes())
}

/// What checking a disk answers.
#[derive(Debug, PartialEq, Eq)]
pub struct CheckedDisk {
    pub files: u64,
    pub free_sectors: u64,
}

pub fn check(disk: &[u8]) -> Result<CheckedDisk, Refusal> {
    let (_, found) = checked(disk)?;
    Ok(CheckedDisk {
        files: found.files.len() as u64,
        free_sectors: found.free.len() as u64,
    })
}

/// A listed file as a reader of the disk sees it.
pub struct ListedFile {
    pub name: Vec<u8>,
    /// Where its entry stands among the eight of a sector, from 0.
    pub place: usize,
    pub bytes: Vec<u8>,
}

/// All listed files, in the directory's order.
pub fn files(disk: &[u8]) -> Result<Vec<ListedFile>, Refusal> {
    let (disk, found) = checked(disk)?;
    let listed = |file: File| ListedFile {
        name: file.name,
        place: file.entry.at / 32,
        bytes: disk.file_bytes(&file.chain),
    };
    Ok(found.files.into_iter().map(listed).collect())
}

fn check_name(name: &[u8]) -> Result<(), Refusal> {
    if name.is_empty() || name.len() > NAME_LENGTH || name.contains(&PADDING) {
        return Err(Refusal::BadName);
    }
    Ok(())
}

/// The image as its sectors hold it: an empty one takes a sector too.
fn parts(image: &[u8]) -> Vec<&[u8]> {
    match image {
        [] => vec![image],
        _ => image.chunks(DATA_LENGTH).collect(),
    }
}

/// Where an entry stands.
#[derive(Debug, Clone, Copy)]
struct Entry {
    sector: Sector,
    at: usize,
}

/// A listed file.
struct File {
    entry: Entry,
    name: Vec<u8>,
    chain: Vec<Sector>,
}

/// What stands on a disk that passes the check.
struct Found {
    directory: Vec<Sector>,
    unlisted: Vec<Entry>,
    files: Vec<File>,
    /// The sectors off track 18 that are in no chain.
    free: BTreeSet<Sector>,
}

impl Found {
    fn file(&self, name: &[u8]) -> Option<&File> {
        self.files.iter().find(|file| file.name == name)
    }
}

/// The disk and what stands on it, or refusal 20.
fn checked(bytes: &[u8]) -> Result<(Disk, Found), Refusal> {
    let disk = Disk::from_bytes(bytes).ok_or(Refusal::BadDisk)?;
    let found = disk.found().ok_or(Refusal::BadDisk)?;
    Ok((disk, found))
}

/// A disk of the right length: the bytes of each sector.
struct Disk(BTreeMap<Sector, Vec<u8>>);

impl Disk {
    fn from_bytes(bytes: &[u8]) -> Option<Disk> {
        let sectors = all_sectors().zip(bytes.chunks(SECTOR_LENGTH).map(<[u8]>::to_vec));
        (bytes.len() == DISK_LENGTH).then(|| Disk(sectors.collect()))
    }

    fn to_bytes(&self) -> Vec<u8> {
        let sectors: Vec<&[u8]> = self.0.values().map(Vec::as_slice).collect();
        sectors.concat()
    }

    fn sector(&mut self, sector: Sector) -> &mut [u8] {
        self.0.get_mut(&sector).expect("the sector exists")
    }

    /// Writes a sector whole: these bytes, then 00.
    fn write(&mut self, sector: Sector, bytes: &[u8]) {
        let whole = self.sector(sector);
        whole.fill(0);
        whole[..bytes.len()].copy_from_slice(bytes);
    }

    fn link(&self, sector: Sector) -> Sector {
        let bytes = &self.0[&sector];
        Sector(bytes[0], bytes[1])
    }

    /// What stands on the disk, if it passes the check.
    fn found(&self) -> Option<Found> {
        if self.link(MAP) != DIRECTORY {
            return None;
        }
        let directory = self.chain(DIRECTORY, Sector::is_for_directory)?;
        let entries = directory
            .iter()
            .flat_map(|&sector| entry_places().map(move |at| Entry { sector, at }));
        let (unlisted, listed): (Vec<_>, Vec<_>) =
            entries.partition(|entry| self.0[&entry.sector][entry.at] == UNLISTED);
        let files: Vec<File> = listed
            .into_iter()
            .map(|entry| self.listed_file(entry))
            .collect::<Option<_>>()?;
        let names: BTreeSet<&[u8]> = files.iter().map(|file| &file.name[..]).collect();
        let met: Vec<Sector> = files.iter().flat_map(|file| file.chain.clone()).collect();
        let used: BTreeSet<Sector> = met.iter().copied().collect();
        let free: BTreeSet<Sector> = file_sectors()
            .filter(|sector| !used.contains(sector))
            .collect();
        let is_sound =
            names.len() == files.len() && used.len() == met.len() && self.map_says(&free);
        is_sound.then_some(Found {
            directory,
            unlisted,
            files,
            free,
        })
    }

    /// The file of a listed entry, if it is a closed PRG file whose chain is sound.
    fn listed_file(&self, entry: Entry) -> Option<File> {
        let bytes = &self.0[&entry.sector][entry.at..][..ENTRY_LENGTH];
        let chain = self.chain(Sector(bytes[1], bytes[2]), Sector::is_for_files)?;
        let last = self.link(*chain.last()?);
        let name = bytes[3..][..NAME_LENGTH].iter().copied();
        (bytes[0] == CLOSED_PRG && last.1 != 0).then(|| File {
            entry,
            name: name.take_while(|&byte| byte != PADDING).collect(),
            chain,
        })
    }

    /// The sectors from this one to the first whose link has track 00; nothing if
    /// one is not allowed, or is met twice.
    fn chain(&self, first: Sector, allowed: fn(Sector) -> bool) -> Option<Vec<Sector>> {
        let mut chain = Vec::new();
        let mut next = first;
        loop {
            if !allowed(next) || chain.contains(&next) {
                return None;
            }
            chain.push(next);
            next = self.link(next);
            if next.0 == 0 {
                return Some(chain);
            }
        }
    }

    /// Whether, for every track but 18, the map's bits call free exactly these.
    fn map_says(&self, free: &BTreeSet<Sector>) -> bool {
        let tracks = (1..=LAST_TRACK).filter(|&track| track != DIRECTORY_TRACK);
        let mut bits = tracks.flat_map(|track| (0..24).map(move |place| Sector(track, place)));
        bits.all(|sector| self.map_bit(sector) == free.contains(&sector))
    }

    fn map_bit(&self, Sector(track, place): Sector) -> bool {
        let of_track = &self.0[&MAP][4 * usize::from(track)..][..4];
        of_track[1 + usize::from(place / 8)] & 1 << (place % 8) != 0
    }

    /// Marks a sector free or used, and counts its track's free sectors anew.
    fn mark(&mut self, Sector(track, place): Sector, is_free: bool) {
        let of_track = &mut self.sector(MAP)[4 * usize::from(track)..][..4];
        let bit = 1 << (place % 8);
        if is_free {
            of_track[1 + usize::from(place / 8)] |= bit;
        } else {
            of_track[1 + usize::from(place / 8)] &= !bit;
        }
        let ones: u32 = of_track[1..].iter().map(|bits| bits.count_ones()).sum();
        of_track[0] = ones as u8;
    }

    /// Adds a sector to the directory; gives its first entry.
    fn grown(&mut self, directory: &[Sector]) -> Entry {
        let sector = directory_sectors()
            .find(|sector| !directory.contains(sector))
            .expect("a directory of 18 sectors without an unlisted entry has 144 files");
        let last = *directory.last().expect("a directory has a first sector");
        self.write(sector, &[0x00, 0xFF]);
        self.sector(last)[..2].copy_from_slice(&[sector.0, sector.1]);
        self.mark(sector, false);
        Entry { sector, at: 2 }
    }

    fn file_bytes(&self, chain: &[Sector]) -> Vec<u8> {
        let parts = chain.iter().map(|sector| match self.link(*sector) {
            Sector(0, last) => &self.0[sector][2..=usize::from(last)],
            _ => &self.0[sector][2..],
        });
        parts.collect::<Vec<_>>().concat()
    }
}
