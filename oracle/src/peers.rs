//! Disks for other people's tools: made by random calls, and taken back.
//!
//! The script `oracle/peers` has the tools read and write them. A disk stands in a
//! file NUMBER.d64; beside it the folder NUMBER has each of its files under the
//! sixteen bytes of its name in hexadecimal, and `index`, a line for each file in the
//! directory's order: those sixteen bytes, the entry's place in its sector from 0,
//! the length, and the name as text if it is plain.

use std::collections::BTreeMap;
use std::fs;
use std::io;
use std::path::{Path, PathBuf};
use std::process::ChildStdin;

use crate::calls::Call;
use crate::disk::{self, DISK_LENGTH, NAME_LENGTH, PADDING};
use crate::frames;
use crate::generate::disks;
use crate::judge::{self, DONE};
use crate::program::{Answers, Program};
use crate::random::Random;
use crate::show;

/// Who answers the calls: the model, or a program that was started.
pub enum Library {
    Model,
    Program(ChildStdin, Answers),
}

impl Library {
    pub fn start(program: &Program) -> io::Result<Library> {
        let mut child = program.start()?;
        let input = child.stdin.take().expect("standard input is piped");
        let answers = program.answers(&mut child);
        Ok(Library::Program(input, answers))
    }

    /// The body of the answer to a call.
    fn ask(&mut self, call: &Call) -> Result<Vec<u8>, String> {
        let request = call.encode();
        match self {
            Library::Model => Ok(judge::answer(&request)),
            Library::Program(input, answers) => {
                frames::write_request(input, &request).map_err(|error| error.to_string())?;
                answers.next()
            }
        }
    }

    /// Whether a call was done, and the disk that it leaves: it stands last.
    fn left(&mut self, call: &Call) -> Result<(bool, Vec<u8>), String> {
        let answer = self.ask(call)?;
        match answer.len().checked_sub(DISK_LENGTH) {
            Some(start) if start > 0 => Ok((answer[0] == DONE, answer[start..].to_vec())),
            _ => Err(format!("an answer without a disk: {}", show::hex(&answer))),
        }
    }
}

/// The files on a disk, by name.
type Files = BTreeMap<Vec<u8>, Vec<u8>>;

/// Makes the disks, each by random calls from a fresh one. Odd ones have plain names
/// alone, even ones names of any bytes.
pub fn make(count: usize, seed: u64, folder: &Path, library: &mut Library) -> Result<(), String> {
    for number in 1..=count {
        let mut random = Random::for_case(seed, 0, number);
        let (disk, saved) = worked(number % 2 == 1, library, &mut random)?;
        write(&disk, &saved, &folder.join(format!("{number:03}")))?;
    }
    Ok(())
}

/// A disk after random calls, with what was saved on it and not scratched.
fn worked(
    is_plain: bool,
    library: &mut Library,
    random: &mut Random,
) -> Result<(Vec<u8>, Files), String> {
    let blank = vec![random.byte(); DISK_LENGTH];
    let (_, mut disk) = library.left(&Call::FormatDisk { disk: &blank })?;
    let mut saved = Files::new();
    let calls = random.pick(&[5, 20, 60, 200]);
    let longest = random.pick(&[300, 2_000, 2_000, 20_000]);
    for _ in 0..calls {
        if !saved.is_empty() && random.one_in(4) {
            let place = random.below(saved.len());
            let name = saved.keys().nth(place).expect("the place is below").clone();
            let call = Call::ScratchFile {
                name: &name,
                disk: &disk,
            };
            (_, disk) = library.left(&call)?;
            saved.remove(&name);
        }
        let name = match is_plain {
            true => plain_name(random),
            false => disks::good_name(random),
        };
        let image = image(longest, random);
        let call = Call::SaveFile {
            name: &name,
            image: &image,
            disk: &disk,
        };
        let (is_done, left) = library.left(&call)?;
        disk = left;
        if is_done {
            saved.insert(name, image);
        }
    }
    Ok((disk, saved))
}

fn image(longest: usize, random: &mut Random) -> Vec<u8> {
    let length = match random.below(4) {
        0 => random.pick(&disks::IMAGE_LENGTHS),
        _ => random.below(longest),
    };
    (0..length).map(|_| random.byte()).collect()
}

/// A name that every tool takes on a command line: capitals, digits, and between
/// them marks that no tool reads as a pattern.
fn plain_name(random: &mut Random) -> Vec<u8> {
    const LETTERS: &[u8] = b"ABCDEFGHIJKLMNOPQRSTUVWXYZ";
    const INNER: &[u8] = b"ABCDEFGHIJKLMNOPQRSTUVWXYZ0123456789 .+-";
    let mut name = vec![random.pick(LETTERS)];
    for _ in 0..random.below(NAME_LENGTH - 1) {
        name.push(random.pick(INNER));
    }
    if name.len() > 1 {
        name.push(random.pick(LETTERS));
    }
    name
}

/// Writes a disk, and beside it what was saved on it.
fn write(disk: &[u8], saved: &Files, folder: &Path) -> Result<(), String> {
    let listed = disk::files(disk).map_err(|_| "the check refuses a disk made by calls")?;
    if listed.len() != saved.len() {
        return Err(format!(
            "{} files listed, {} saved",
            listed.len(),
            saved.len()
        ));
    }
    let mut index = String::new();
    let mut files = Vec::new();
    for file in listed {
        let bytes = match saved.get(&file.name) {
            Some(bytes) if *bytes == file.bytes => bytes,
            _ => return Err(format!("not as it was saved: {}", show::hex(&file.name))),
        };
        let hex = padded_hex(&file.name);
        let text = match is_plain(&file.name) {
            true => String::from_utf8_lossy(&file.name),
            false => "".into(),
        };
        index += &format!("{hex} {} {} {text}\n", file.place, bytes.len());
        files.push((hex, bytes));
    }
    let written = || {
        fs::create_dir_all(folder)?;
        fs::write(folder.with_extension("d64"), disk)?;
        for (hex, bytes) in &files {
            fs::write(folder.join(hex), bytes)?;
        }
        fs::write(folder.join("index"), &index)
    };
    written().map_err(|error: io::Error| format!("{}: {error}", folder.display()))
}

fn is_plain(name: &[u8]) -> bool {
    name.iter()
        .all(|byte| byte.is_ascii_uppercase() || b"0123456789 .+-".contains(byte))
}

/// The sixteen bytes of a name, in hexadecimal.
fn padded_hex(name: &[u8]) -> String {
    let mut padded = name.to_vec();
    padded.resize(NAME_LENGTH, PADDING);
    padded.iter().map(|byte| format!("{byte:02X}")).collect()
}

/// Has our check take each disk of a folder, and reads from it the files that the
/// index of this name lists, in the folder of the disk's number. Then saves a file on
/// it and scratches the first, so that the tools can test what becomes of it.
pub fn take(
    disks: &Path,
    folder: &Path,
    index: &str,
    library: &mut Library,
) -> Result<bool, String> {
    let told = |error: io::Error| error.to_string();
    let (mut passed, mut disks_met, mut read, mut files_met) = (0, 0, 0, 0);
    for path in disks_of(disks).map_err(told)? {
        let disk = fs::read(&path).map_err(told)?;
        let folder = folder.join(path.file_stem().unwrap_or_default());
        let files = files_of(&folder, index).map_err(told)?;
        let is_taken = library.ask(&Call::CheckDisk { disk: &disk })?[0] == DONE;
        if !is_taken {
            println!("{}: refused by the check", folder.display());
        }
        disks_met += 1;
        passed += usize::from(is_taken);
        for (name, bytes) in &files {
            let is_read = reads_back(&disk, name, bytes, library)?;
            if is_taken && !is_read {
                println!(
                    "{}: {} is read otherwise",
                    folder.display(),
                    show::hex(name)
                );
            }
            files_met += 1;
            read += usize::from(is_read);
        }
        let first = files.first().map_or(&b""[..], |(name, _)| name);
        fs::write(path, worked_on(&disk, first, library)?).map_err(told)?;
    }
    println!(
        "{passed} of {disks_met} disks pass our check, {read} of {files_met} files are read from them"
    );
    Ok(passed == disks_met && read == files_met)
}

/// The disks of a folder, in order.
fn disks_of(folder: &Path) -> io::Result<Vec<PathBuf>> {
    let entries = fs::read_dir(folder)?.map(|entry| Ok(entry?.path()));
    let mut disks = entries.collect::<io::Result<Vec<PathBuf>>>()?;
    disks.sort();
    Ok(disks)
}

/// The names and bytes of the files that an index lists.
fn files_of(folder: &Path, index: &str) -> io::Result<Vec<(Vec<u8>, Vec<u8>)>> {
    let index = fs::read_to_string(folder.join(index))?;
    let names = index.lines().filter_map(|line| line.split(' ').next());
    names
        .map(|hex| Ok((name_of(hex), fs::read(folder.join(hex))?)))
        .collect()
}

/// The disk with one more file, as far as it fits, and without this one.
fn worked_on(disk: &[u8], first: &[u8], library: &mut Library) -> Result<Vec<u8>, String> {
    let save = Call::SaveFile {
        name: b"ONE MORE",
        image: &disks::image(600),
        disk,
    };
    let (_, disk) = library.left(&save)?;
    let scratch = Call::ScratchFile {
        name: first,
        disk: &disk,
    };
    let (_, disk) = library.left(&scratch)?;
    Ok(disk)
}

/// Whether the disk has exactly these bytes under the name.
fn reads_back(
    disk: &[u8],
    name: &[u8],
    bytes: &[u8],
    library: &mut Library,
) -> Result<bool, String> {
    let room = bytes.len();
    let answer = library.ask(&Call::ReadFile { room, name, disk })?;
    let length = (room as u64).to_le_bytes();
    Ok(answer == [&[DONE], &length[..], bytes, disk].concat())
}

/// The name whose sixteen bytes are given in hexadecimal.
fn name_of(hex: &str) -> Vec<u8> {
    let bytes = (0..hex.len() / 2).map(|place| {
        let pair = &hex[2 * place..][..2];
        u8::from_str_radix(pair, 16).expect("the index has hexadecimal digits")
    });
    bytes.take_while(|&byte| byte != PADDING).collect()
}
