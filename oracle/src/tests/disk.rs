//! The model of disks, held against the bytes that document 02, No. 9, and the
//! 1541's documents give.

use std::collections::BTreeMap;

use crate::calls;
use crate::disk::{self, CheckedDisk, DISK_LENGTH, SECTOR_LENGTH, Sector};
use crate::frames::PAYLOAD_LIMIT;
use crate::generate::{Cases, disk_damage, disks};
use crate::judge;
use crate::random::Random;
use crate::refusal::Refusal;

fn fresh() -> Vec<u8> {
    disk::format(&[0x55; DISK_LENGTH]).unwrap()
}

fn sector(disk: &[u8], track: u8, place: u8) -> &[u8] {
    &disk[disk::offset(Sector(track, place))..][..SECTOR_LENGTH]
}

/// The four bytes of the map for a track.
fn map(disk: &[u8], track: u8) -> &[u8] {
    &sector(disk, 18, 0)[4 * usize::from(track)..][..4]
}

fn found(files: u64, free_sectors: u64) -> Result<CheckedDisk, Refusal> {
    Ok(CheckedDisk {
        files,
        free_sectors,
    })
}

/// The disk with these bytes over those of a sector, from a place on.
fn patched(disk: &[u8], track: u8, place: u8, at: usize, bytes: &[u8]) -> Vec<u8> {
    let mut disk = disk.to_vec();
    disk[disk::offset(Sector(track, place)) + at..][..bytes.len()].copy_from_slice(bytes);
    disk
}

/// A disk with the files `F0`, `F1`, .. of one byte each.
fn with_files(count: usize) -> Vec<u8> {
    (0..count).fold(fresh(), |disk, number| {
        disk::save(&disk, format!("F{number}").as_bytes(), b"x").unwrap()
    })
}

#[test]
fn sectors_and_their_places() {
    assert_eq!(disk::all_sectors().count(), 683);
    assert_eq!(disk::file_sectors().count(), 664);
    assert_eq!(683 * SECTOR_LENGTH, DISK_LENGTH);
    assert_eq!(disk::offset(Sector(1, 0)), 0);
    assert_eq!(disk::offset(Sector(18, 0)), 91_392);
    assert_eq!(disk::offset(Sector(35, 16)), DISK_LENGTH - SECTOR_LENGTH);
}

#[test]
fn a_fresh_disk() {
    let mut expected = vec![0; DISK_LENGTH];
    let mut map = vec![0x12, 0x01, 0x41, 0x00];
    map.extend([0x15, 0xFF, 0xFF, 0x1F].repeat(17));
    map.extend([0x11, 0xFC, 0xFF, 0x07]);
    map.extend([0x13, 0xFF, 0xFF, 0x07].repeat(6));
    map.extend([0x12, 0xFF, 0xFF, 0x03].repeat(6));
    map.extend([0x11, 0xFF, 0xFF, 0x01].repeat(5));
    assert_eq!(map.len(), 0x90);
    map.extend([0xA0; 21]);
    map.extend(b"2A");
    map.extend([0xA0; 4]);
    assert_eq!(map.len(), 0xAB);
    expected[91_392..][..map.len()].copy_from_slice(&map);
    expected[91_648..][..2].copy_from_slice(&[0x00, 0xFF]);
    assert_eq!(fresh(), expected);
    assert_eq!(disk::check(&expected), found(0, 664));
    for length in [0, DISK_LENGTH - 1, DISK_LENGTH + 1] {
        assert_eq!(disk::format(&vec![0; length]), Err(Refusal::BadDisk));
        assert_eq!(disk::check(&vec![0; length]), Err(Refusal::BadDisk));
    }
}

#[test]
fn a_file_of_two_sectors() {
    let image: Vec<u8> = (1..=255).collect();
    let disk = disk::save(&fresh(), b"HELLO", &image).unwrap();
    let first = [&[1, 1], &image[..254]].concat();
    assert_eq!(sector(&disk, 1, 0), first);
    let mut last = vec![0; SECTOR_LENGTH];
    last[..3].copy_from_slice(&[0, 2, 255]);
    assert_eq!(sector(&disk, 1, 1), last);
    let mut entry = b"\x82\x01\x00HELLO".to_vec();
    entry.extend([0xA0; 11]);
    entry.extend([0; 9]);
    entry.extend([2, 0]);
    assert_eq!(sector(&disk, 18, 1)[2..32], entry);
    assert_eq!(map(&disk, 1), [19, 0xFC, 0xFF, 0x1F]);
    assert_eq!(map(&disk, 18), [0x11, 0xFC, 0xFF, 0x07]);
    assert_eq!(disk::check(&disk), found(1, 662));
    assert_eq!(disk::read(&disk, b"HELLO"), Ok(image));

    let scratched = disk::scratch(&disk, b"HELLO").unwrap();
    let entry = disk::offset(Sector(18, 1)) + 2;
    let mut expected = disk.clone();
    expected[entry] = 0;
    expected[disk::offset(Sector(18, 0)) + 4..][..4].copy_from_slice(&[21, 0xFF, 0xFF, 0x1F]);
    assert_eq!(scratched, expected);
    assert_eq!(disk::read(&scratched, b"HELLO"), Err(Refusal::NoSuchFile));
}

#[test]
fn sectors_for_each_length() {
    for (length, sectors, second) in [
        (0, 1, 1),
        (1, 1, 2),
        (253, 1, 254),
        (254, 1, 255),
        (255, 2, 2),
        (508, 2, 255),
        (509, 3, 2),
        (664 * 254, 664, 255),
    ] {
        let image = vec![7; length];
        let disk = disk::save(&fresh(), b"F", &image).unwrap();
        assert_eq!(disk::check(&disk), found(1, 664 - sectors));
        let last = disk::file_sectors().nth(sectors as usize - 1).unwrap();
        assert_eq!(sector(&disk, last.0, last.1)[..2], [0, second]);
        assert_eq!(sector(&disk, 18, 1)[30..32], (sectors as u16).to_le_bytes());
        assert_eq!(disk::read(&disk, b"F"), Ok(image));
    }
    let too_long = disk::save(&fresh(), b"F", &[0; 664 * 254 + 1]);
    assert_eq!(too_long, Err(Refusal::DiskFull));
}

#[test]
fn the_lowest_sectors_and_entries_are_taken_again() {
    let disk = disk::scratch(&with_files(5), b"F1").unwrap();
    let disk = disk::scratch(&disk, b"F3").unwrap();
    let disk = disk::save(&disk, b"NEW", &[1; 600]).unwrap();
    assert_eq!(sector(&disk, 18, 1)[34..40], *b"\x82\x01\x01NEW");
    assert_eq!(sector(&disk, 1, 1)[..2], [1, 3]);
    assert_eq!(sector(&disk, 1, 3)[..2], [1, 5]);
    assert_eq!(sector(&disk, 1, 5)[..2], [0, 93]);
    let listed = disk::files(&disk).unwrap().into_iter();
    let listed: Vec<_> = listed.map(|file| (file.name, file.place)).collect();
    let expected = [(&b"F0"[..], 0), (b"NEW", 1), (b"F2", 2), (b"F4", 4)];
    assert_eq!(listed, expected.map(|(name, place)| (name.to_vec(), place)));
}

#[test]
fn the_directory_grows_and_fills() {
    let disk = with_files(9);
    assert_eq!(sector(&disk, 18, 1)[..2], [18, 2]);
    assert_eq!(sector(&disk, 18, 2)[..5], [0, 0xFF, 0x82, 1, 8]);
    assert_eq!(map(&disk, 18), [0x10, 0xF8, 0xFF, 0x07]);
    let full = with_files(144);
    assert_eq!(disk::check(&full), found(144, 520));
    assert_eq!(map(&full, 18), [0, 0, 0, 0]);
    assert_eq!(sector(&full, 18, 18)[..2], [0, 0xFF]);
    let refused = disk::save(&full, b"NEW", &[0; 600 * 254]);
    assert_eq!(refused, Err(Refusal::DirectoryFull));
    assert_eq!(disk::save(&full, b"F7", b""), Err(Refusal::NameTaken));
    let disk = disk::scratch(&full, b"F143").unwrap();
    assert!(disk::save(&disk, b"NEW", &[0; 521 * 254]).is_ok());
    let refused = disk::save(&disk, b"NEW", &[0; 521 * 254 + 1]);
    assert_eq!(refused, Err(Refusal::DiskFull));
}

#[test]
fn names() {
    let disk = with_files(1);
    for name in [&b""[..], b"\xA0", b"A\xA0", b"0123456789ABCDEFG"] {
        assert_eq!(disk::save(&disk, name, b""), Err(Refusal::BadName));
        assert_eq!(disk::read(&disk, name), Err(Refusal::BadName));
        assert_eq!(disk::scratch(&disk, name), Err(Refusal::BadName));
        assert_eq!(disk::save(&[], name, b""), Err(Refusal::BadDisk));
    }
    let longest = b"0123456789ABCDEF";
    let disk = disk::save(&disk, longest, b"16").unwrap();
    let disk = disk::save(&disk, &longest[..15], b"15").unwrap();
    assert_eq!(disk::read(&disk, longest), Ok(b"16".to_vec()));
    assert_eq!(disk::read(&disk, &longest[..15]), Ok(b"15".to_vec()));
    assert_eq!(disk::save(&disk, longest, b""), Err(Refusal::NameTaken));
    assert_eq!(disk::read(&disk, b"f0"), Err(Refusal::NoSuchFile));
}

#[test]
fn what_the_check_refuses() {
    let disk = with_files(10);
    let bad = |track, place, at, bytes: &[u8]| {
        let damaged = patched(&disk, track, place, at, bytes);
        assert_eq!(
            disk::check(&damaged),
            Err(Refusal::BadDisk),
            "{track}/{place} {at}"
        );
    };
    for link in [[18, 0], [18, 2], [17, 1], [0, 255]] {
        bad(18, 0, 0, &link);
    }
    for link in [[18, 0], [18, 1], [18, 19], [17, 2], [36, 0]] {
        bad(18, 1, 0, &link);
    }
    bad(18, 2, 0, &[18, 1]);
    bad(18, 2, 0, &[18, 2]);
    for kind in [0x00, 0x01, 0x02, 0x81, 0xC2, 0xFF] {
        bad(18, 1, 2, &[kind]);
    }
    bad(18, 1, 2 + 32 + 4, b"0");
    bad(18, 2, 2 + 3, b"F1\xA0OTHER");
    for first in [[0, 0], [0, 1], [18, 5], [1, 21], [36, 0], [1, 1], [2, 0]] {
        bad(18, 1, 3, &first);
    }
    for link in [
        [0, 0],
        [1, 0],
        [1, 1],
        [18, 3],
        [1, 21],
        [25, 18],
        [31, 17],
        [36, 0],
    ] {
        bad(1, 0, 0, &link);
    }
    bad(18, 0, 4 + 1, &[1]);
    bad(18, 0, 4 + 3, &[0x0F]);
    bad(18, 0, 4 + 3, &[0x3F]);
    bad(18, 0, 4 * 19 + 3, &[0x0F]);
    bad(18, 0, 4 * 25 + 3, &[0x07]);
    bad(18, 0, 4 * 35 + 3, &[0x81]);
    // An entry behind an unlisted one is seen.
    let gap = disk::scratch(&disk, b"F0").unwrap();
    let damaged = patched(&gap, 18, 1, 34, &[0x81]);
    assert_eq!(disk::check(&damaged), Err(Refusal::BadDisk));
}

#[test]
fn what_the_check_does_not_look_at() {
    let disk = disk::scratch(&with_files(10), b"F3").unwrap();
    let good = |track, place, at, bytes: &[u8]| {
        let changed = patched(&disk, track, place, at, bytes);
        assert_eq!(disk::check(&changed), found(9, 655), "{track}/{place} {at}");
    };
    good(18, 0, 4, &[0]);
    good(18, 0, 4 * 18, &[0xEE; 4]);
    good(18, 0, 2, &[0]);
    good(18, 0, 0x90, &[0xEE; 0x70]);
    good(18, 2, 0, &[0, 0]);
    good(18, 2, 0, &[0, 7]);
    good(18, 1, 2 + 19, &[0xEE; 11]);
    good(18, 1, 2 + 3 * 32 + 1, &[0xEE; 29]);
    good(18, 1, 2 + 3 * 32 + 3, b"F0");
    good(18, 1, 32, &[0xEE; 2]);
    good(1, 3, 0, &[0xEE; 256]);
    good(18, 9, 0, &[0xEE; 256]);
    good(1, 0, 3, &[0xEE; 253]);
    good(18, 1, 2 + 3, b"\xA0");
    // A track's count is made anew when one of its sectors is taken.
    let counted = disk::save(&patched(&disk, 18, 0, 4, &[0]), b"NEW", b"").unwrap();
    assert_eq!(map(&counted, 1), [11, 0x00, 0xFC, 0x1F]);
}

/// After any calls the sectors add up, and every file reads back.
#[test]
fn random_calls_keep_the_sum_and_the_files() {
    let mut random = Random::new(9);
    let mut disk = fresh();
    let mut saved: BTreeMap<Vec<u8>, Vec<u8>> = BTreeMap::new();
    for _ in 0..150 {
        let name = format!("F{}", random.below(160)).into_bytes();
        if random.one_in(3) {
            let scratched = disk::scratch(&disk, &name);
            assert_eq!(scratched.is_ok(), saved.remove(&name).is_some());
            disk = scratched.unwrap_or(disk);
        } else {
            let longest = if random.one_in(9) { 60_000 } else { 900 };
            let length = random.below(longest);
            let image = vec![random.byte(); length];
            if let Ok(left) = disk::save(&disk, &name, &image) {
                assert_eq!(saved.insert(name, image), None);
                disk = left;
            }
        }
        let listed = disk::files(&disk).unwrap();
        let sectors: usize = listed
            .iter()
            .map(|file| file.bytes.len().div_ceil(254).max(1))
            .sum();
        let free = disk::check(&disk).unwrap().free_sectors as usize;
        assert_eq!(free + sectors + 19, 683);
        let listed = listed.into_iter().map(|file| (file.name, file.bytes));
        assert_eq!(saved, listed.collect());
    }
}

#[test]
fn answers_end_with_the_disk() {
    let disk = with_files(1);
    let answer = |op, fields: &[u8]| {
        let payload = [fields, &disk].concat();
        judge::answer(&crate::frames::Request { op, payload })
    };
    let behind = |head: &[u8]| [head, &disk].concat();
    assert_eq!(
        answer(calls::FORMAT_DISK, b""),
        [&[0], &fresh()[..]].concat()
    );
    assert_eq!(answer(calls::SAVE_FILE, b"\x02\0F0\0\0\0\0"), behind(&[22]));
    assert_eq!(answer(calls::SCRATCH_FILE, b"\x02\0F1"), behind(&[23]));
    let short = answer(calls::READ_FILE, b"\0\0\0\0\x02\0F0");
    assert_eq!(short, behind(&[6, 1, 0, 0, 0, 0, 0, 0, 0]));
    let read = answer(calls::READ_FILE, b"\x02\0\0\0\x02\0F0");
    assert_eq!(read, behind(b"\0\x01\0\0\0\0\0\0\0x\xA5"));
    let checked = answer(calls::CHECK_DISK, b"");
    assert_eq!(checked, behind(b"\0\x01\0\0\0\0\0\0\0\x97\x02\0\0\0\0\0\0"));
}

#[test]
fn foreign_disks_pass_the_check_and_damaged_ones_are_of_both_kinds() {
    for seed in 0..40 {
        let disk = disks::foreign(&mut Random::new(seed));
        assert!(disk::check(&disk).is_ok(), "seed {seed}");
    }
    let sample = disks::sample();
    let damages = disk_damage::listed();
    let damaged = damages
        .iter()
        .map(|damage| disk_damage::damaged(sample.clone(), damage));
    let sound = damaged.filter(|disk| disk::check(disk).is_ok()).count();
    assert!(0 < sound && sound < damages.len());
}

/// With these a sample is recorded: each op's first cases hold one whole disk.
#[test]
fn the_first_cases_are_short() {
    for op in calls::FORMAT_DISK..=calls::CHECK_DISK {
        let whole = Cases::new(24, 64, &[op])
            .filter(|request| request.payload.len() > 2_000)
            .count();
        assert_eq!(whole, 1, "op {op:02X}");
    }
}

#[test]
fn the_largest_frames_are_among_the_cases() {
    for op in calls::FORMAT_DISK..=calls::CHECK_DISK {
        let mut cases = Cases::new(60, 64, &[op]);
        let largest = cases.find(|request| request.payload.len() == PAYLOAD_LIMIT);
        let answer = judge::answer(&largest.expect("one case fills its frame"));
        assert_eq!(answer[0], 20, "op {op:02X}");
        assert!(op != calls::READ_FILE || answer.len() == 1 + 524_288 + 1_048_587);
    }
}
