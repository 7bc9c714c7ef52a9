//! Answers requests as the batch driver does, with the original behind the calls.

use std::io::{self, Read, Write};
use std::thread;

use crate::addressed;
use crate::calls::{Call, dialect_byte};
use crate::counted::{self, Totals};
use crate::disk::{self, CheckedDisk};
use crate::found::{self, Found};
use crate::frames::{self, Incoming, Request};
use crate::indexes::{self, Pair};
use crate::library::{self, Checked, Step};
use crate::measured::{self, MeasuredLine};
use crate::modes;
use crate::refusal::Refusal;
use crate::relinked::{self, Relinked};
use crate::show;

/// The whole answer to a malformed request.
const MALFORMED: [u8; 1] = [0xFF];

/// The first byte of an answer that is no refusal.
pub const DONE: u8 = 0x00;

/// What every byte of a lent room holds before the call.
pub const ROOM_FILL: u8 = 0xA5;

/// Answers requests until the input ends, each before the next is read.
pub fn serve(input: &mut impl Read, output: &mut impl Write) -> io::Result<()> {
    loop {
        let (body, is_last) = match frames::read_request(input)? {
            Incoming::Request(request) => (answer(&request), false),
            Incoming::TooLong => (MALFORMED.to_vec(), true),
            Incoming::End => return Ok(()),
        };
        frames::write_answer(output, &body)?;
        output.flush()?;
        if is_last {
            return Ok(());
        }
    }
}

/// The body of the answer to one request.
pub fn answer(request: &Request) -> Vec<u8> {
    let _named = NamedIfPanicking(request);
    match Call::decode(request) {
        Some(call) => answer_call(&call),
        None => MALFORMED.to_vec(),
    }
}

/// Says which request the original panicked at, if it did; the panic goes on.
struct NamedIfPanicking<'a>(&'a Request);

impl Drop for NamedIfPanicking<'_> {
    fn drop(&mut self) {
        if thread::panicking() {
            eprintln!("the original panicked: {}", show::request(self.0));
        }
    }
}

fn answer_call(call: &Call) -> Vec<u8> {
    match *call {
        Call::Crunch {
            load,
            dialect,
            room,
            text,
        } => lent(library::crunch(load, dialect, text), room),
        Call::CrunchRoom {
            load,
            dialect,
            text,
        } => plain(library::crunch(load, dialect, text).map(|image| length(&image))),
        Call::ResolvedDialect { dialect, text } => {
            plain(library::resolved_dialect(dialect, text).map(|found| vec![dialect_byte(found)]))
        }
        Call::DialectByName { word } => {
            plain(library::dialect_by_name(word).map(|found| vec![dialect_byte(found)]))
        }
        Call::TsbWord { word } => plain(Ok(vec![library::is_tsb_word(word).into()])),
        Call::Check { by, image } => plain(library::check(by, image).map(checked)),
        Call::Step { by, offset, image } => plain(library::step(by, offset, image).map(stepped)),
        Call::Listing { room, image } => {
            lent(library::listing(image).map(String::into_bytes), room)
        }
        Call::ListingRoom { image } => {
            plain(library::listing(image).map(|listing| length(listing.as_bytes())))
        }
        Call::LineByNumber {
            number,
            limit,
            image,
        } => plain(found::line_by_number(number, limit, image).map(found_line)),
        Call::AddressedStep { by, offset, image } => {
            plain(addressed::step(by, offset, image).map(addressed_line))
        }
        Call::DefaultLoad { dialect, .. } => plain(Ok(fields(&[dialect.default_load().into()]))),
        Call::ListingUnder {
            options,
            room,
            image,
        } => lent(modes::listing(options, image).map(String::into_bytes), room),
        Call::ListingRoomUnder { options, image } => {
            plain(modes::listing(options, image).map(|listing| length(listing.as_bytes())))
        }
        Call::CrunchWith {
            options,
            room,
            text,
        } => lent(library::crunch_with(options, text), room),
        Call::CrunchRoomWith { options, text } => {
            plain(library::crunch_with(options, text).map(|image| length(&image)))
        }
        Call::MeasuredLine {
            options,
            place,
            text,
        } => plain(measured::line(options, place, text).map(measured_line)),
        Call::CountImages { images, .. } => counted_images(&counted::totals(images)),
        Call::LineIndex { room, image } => lent(indexes::index(image), room),
        Call::LookUp { number, index } => plain(Ok(held(indexes::look_up(number, index)))),
        Call::IndexEntry { kind, place, index } => plain(Ok(held(match kind {
            0 => indexes::line_entry(place, index),
            _ => indexes::jump_entry(place, index),
        }))),
        Call::JumpReport { room, image } => lent(indexes::report(image), room),
        Call::FormatDisk { disk } => changed(disk, disk::format(disk)),
        Call::SaveFile { name, image, disk } => changed(disk, disk::save(disk, name, image)),
        Call::ReadFile { room, name, disk } => [&lent(disk::read(disk, name), room), disk].concat(),
        Call::ScratchFile { name, disk } => changed(disk, disk::scratch(disk, name)),
        Call::CheckDisk { disk } => [&plain(disk::check(disk).map(checked_disk)), disk].concat(),
        Call::Relink { image } => plain(relinked::relink(image).map(relinking)),
    }
}

fn plain(outcome: Result<Vec<u8>, Refusal>) -> Vec<u8> {
    match outcome {
        Ok(results) => [&[DONE], &results[..]].concat(),
        Err(refusal) => refusal.to_bytes(),
    }
}

/// The answer of a call that changes a disk: the disk stands last, after a refusal
/// as it was.
fn changed(disk: &[u8], outcome: Result<Vec<u8>, Refusal>) -> Vec<u8> {
    match outcome {
        Ok(left) => [&[DONE], &left[..]].concat(),
        Err(refusal) => [&refusal.to_bytes(), disk].concat(),
    }
}

/// The answer of a call that was lent a room: the room's bytes stand last.
fn lent(outcome: Result<Vec<u8>, Refusal>, room: usize) -> Vec<u8> {
    let mut lent = vec![ROOM_FILL; room];
    let written = outcome.and_then(|result| match lent.get_mut(..result.len()) {
        Some(part) => {
            part.copy_from_slice(&result);
            Ok(length(&result))
        }
        None => {
            let needed = result.len() as u64;
            Err(Refusal::NoRoom { needed })
        }
    });
    [plain(written), lent].concat()
}

fn length(bytes: &[u8]) -> Vec<u8> {
    (bytes.len() as u64).to_le_bytes().to_vec()
}

fn checked(found: Checked) -> Vec<u8> {
    fields(&[found.load_address.into(), found.line_count])
}

fn checked_disk(found: CheckedDisk) -> Vec<u8> {
    fields(&[found.files, found.free_sectors])
}

fn stepped(found: Option<Step>) -> Vec<u8> {
    match found {
        Some(line) => [&[1], &of_line(line)[..]].concat(),
        None => vec![0],
    }
}

fn of_line(line: Step) -> Vec<u8> {
    let numbers = [
        line.link.into(),
        line.number.into(),
        line.next,
        line.body.len() as u64,
    ];
    [fields(&numbers), line.body].concat()
}

fn found_line(found: Found) -> Vec<u8> {
    [fields(&[found.visited]), stepped(found.line)].concat()
}

fn addressed_line(found: Option<(u64, Step)>) -> Vec<u8> {
    match found {
        Some((address, line)) => [vec![1], fields(&[address]), of_line(line)].concat(),
        None => vec![0],
    }
}

fn measured_line(found: Option<MeasuredLine>) -> Vec<u8> {
    let Some(line) = found else {
        return vec![0];
    };
    let numbers = [
        line.address,
        line.link,
        line.number,
        line.body_length,
        line.text_line,
    ];
    [vec![1], fields(&numbers)].concat()
}

fn relinking(found: Relinked) -> Vec<u8> {
    match found {
        Relinked::Same => vec![0],
        Relinked::Changed { offset, link } => [vec![1], fields(&[offset, link])].concat(),
        Relinked::Leaves => vec![2],
        Relinked::Endless => vec![3],
    }
}

/// The totals stand behind 26 too.
fn counted_images(totals: &Totals) -> Vec<u8> {
    let first = match totals.too_many {
        true => Refusal::TooManyImages.to_bytes(),
        false => vec![DONE],
    };
    [first, fields(&totals.numbers())].concat()
}

fn held(found: Option<Pair>) -> Vec<u8> {
    match found {
        Some((first, second)) => [vec![1], fields(&[first, second])].concat(),
        None => vec![0],
    }
}

fn fields(numbers: &[u64]) -> Vec<u8> {
    numbers
        .iter()
        .flat_map(|number| number.to_le_bytes())
        .collect()
}
