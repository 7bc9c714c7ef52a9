//! Requests and answers in a form to read.

use crate::calls::{self, Call, Reader, dialect_byte};
use crate::dialects::DIALECTS;
use crate::disk::{self, DISK_LENGTH, SECTOR_LENGTH, Sector};
use crate::frames::Request;
use crate::judge::{DONE, ROOM_FILL};
use crate::refusal;

/// Longer texts and images are shown by their beginnings.
const SHOWN_BYTES: usize = 400;

pub fn request(request: &Request) -> String {
    match Call::decode(request) {
        Some(call) => of_call(&call),
        None => format!("malformed, payload {}", hex(&request.payload)),
    }
}

fn of_call(call: &Call) -> String {
    match *call {
        Call::Crunch {
            load,
            dialect,
            room,
            text,
        } => format!(
            "crunch at {load:04X} under {dialect:?}, room {room}: {}",
            quoted(text)
        ),
        Call::CrunchRoom {
            load,
            dialect,
            text,
        } => format!(
            "room for crunching at {load:04X} under {dialect:?}: {}",
            quoted(text)
        ),
        Call::ResolvedDialect { dialect, text } => {
            format!("resolved dialect of {dialect:?}: {}", quoted(text))
        }
        Call::DialectByName { word } => format!("dialect by name: {}", quoted(word)),
        Call::TsbWord { word } => format!("test for a TSB word: {}", quoted(word)),
        Call::Check { by, image } => format!("check by {}: {}", reader(by), hex(image)),
        Call::Step { by, offset, image } => {
            format!("step by {} at {offset}: {}", reader(by), hex(image))
        }
        Call::Listing { room, image } => format!("listing, room {room}: {}", hex(image)),
        Call::ListingRoom { image } => format!("room for the listing: {}", hex(image)),
        Call::LineByNumber {
            number,
            limit,
            image,
        } => format!("line {number} within {limit} headers: {}", hex(image)),
        Call::AddressedStep { by, offset, image } => format!(
            "step by {} with the address, at {offset}: {}",
            reader(by),
            hex(image)
        ),
        Call::ListingUnder {
            options,
            room,
            image,
        } => format!("listing, {options:?}, room {room}: {}", hex(image)),
        Call::DefaultLoad { dialect, rest } => {
            format!("default load address of {dialect:?}: {}", hex(rest))
        }
        Call::ListingRoomUnder { options, image } => {
            format!("room for the listing, {options:?}: {}", hex(image))
        }
        Call::CrunchWith {
            options,
            room,
            text,
        } => format!("crunch, {options:?}, room {room}: {}", quoted(text)),
        Call::CrunchRoomWith { options, text } => {
            format!("room for crunching, {options:?}: {}", quoted(text))
        }
        Call::MeasuredLine {
            options,
            place,
            text,
        } => format!("measured line {place}, {options:?}: {}", quoted(text)),
        Call::CountImages { count, images } => {
            format!("counts over {count} images: {}", hex(images))
        }
        Call::LineIndex { room, image } => format!("line index, room {room}: {}", hex(image)),
        Call::LookUp { number, index } => format!("line {number} of an index: {}", hex(index)),
        Call::IndexEntry { kind, place, index } => {
            format!("entry {place} of kind {kind} of an index: {}", hex(index))
        }
        Call::JumpReport { room, image } => {
            format!("report of jumps, room {room}: {}", hex(image))
        }
        Call::FormatDisk { disk } => format!("format a {}", disk_of(disk)),
        Call::SaveFile { name, image, disk } => format!(
            "save {} bytes under {} on a {}",
            image.len(),
            quoted(name),
            disk_of(disk)
        ),
        Call::ReadFile { room, name, disk } => format!(
            "read {}, room {room}, from a {}",
            quoted(name),
            disk_of(disk)
        ),
        Call::ScratchFile { name, disk } => {
            format!("scratch {} on a {}", quoted(name), disk_of(disk))
        }
        Call::CheckDisk { disk } => format!("check a {}", disk_of(disk)),
        Call::Relink { image } => format!("relinking: {}", hex(image)),
    }
}

/// The answer to a request of the op, as far as it has the form of one.
pub fn answer(op: u8, body: &[u8]) -> String {
    match *body {
        [DONE, ref results @ ..] => of_results(op, results),
        [0xFF] => "FF, malformed".to_string(),
        [number, ref rest @ ..] if refusal::named(number).is_some() => of_refusal(op, number, rest),
        _ => format!("no answer: {}", hex(body)),
    }
}

fn of_results(op: u8, results: &[u8]) -> String {
    let shown = match op {
        calls::CRUNCH_WITH => of_lent(op, results),
        calls::CRUNCH | calls::LISTING | calls::LINE_INDEX | calls::JUMP_REPORT => {
            of_lent(op, results)
        }
        calls::DIALECT_LISTING | calls::SECOND_LISTING | calls::LINKED_LISTING => {
            of_lent(op, results)
        }
        calls::DEFAULT_LOAD => named(&["load address"], results),
        calls::CRUNCH_ROOM_WITH => named(&["length"], results),
        calls::CRUNCH_ROOM | calls::LISTING_ROOM => named(&["length"], results),
        calls::DIALECT_LISTING_ROOM => named(&["length"], results),
        calls::SECOND_LISTING_ROOM | calls::LINKED_LISTING_ROOM => named(&["length"], results),
        calls::RESOLVED_DIALECT | calls::DIALECT_BY_NAME => of_dialect(results),
        calls::TSB_WORD => of_test(results),
        calls::CHECK_BY_TERMINATORS | calls::CHECK_BY_LINKS => {
            named(&["load address", "lines"], results)
        }
        calls::STEP_BY_TERMINATORS | calls::STEP_BY_LINKS => of_step(results),
        calls::LINE_BY_NUMBER => of_search(results),
        calls::ADDRESSED_STEP_BY_TERMINATORS | calls::ADDRESSED_STEP_BY_LINKS => {
            of_line(&[&["address"], &LINE_LABELS[..]].concat(), results)
        }
        calls::MEASURED_LINE => of_line(&MEASURED_LABELS, results),
        calls::COUNT_IMAGES => of_totals(results),
        calls::LOOK_UP => of_line(&["place", "link offset"], results),
        calls::INDEX_ENTRY => of_line(&["first", "second"], results),
        calls::RELINK => of_relinking(results),
        calls::FORMAT_DISK | calls::SAVE_FILE | calls::SCRATCH_FILE => Some(disk_of(results)),
        calls::READ_FILE => before_disk(&["length"], results),
        calls::CHECK_DISK => before_disk(&["files", "free sectors"], results),
        _ => None,
    };
    match shown {
        Some(shown) => format!("done: {shown}"),
        None => format!("done, of another form: {}", hex(results)),
    }
}

fn of_refusal(op: u8, number: u8, rest: &[u8]) -> String {
    let (name, labels) = refusal::named(number).expect("the number was looked up before");
    let (values, rest) = rest.split_at(rest.len().min(8 * labels.len()));
    let behind = match calls::is_of_disks(op) {
        true => format!(", {}", room_and_disk(rest)),
        false => room(rest),
    };
    match named(labels, values) {
        Some(values) => format!("refusal {number} {name}({values}){behind}"),
        None => format!("refusal {number} {name}, cut short: {}", hex(values)),
    }
}

fn of_lent(op: u8, results: &[u8]) -> Option<String> {
    let (length, lent) = results.split_at_checked(8)?;
    let written = usize::try_from(number(length)?).ok()?;
    let (result, rest) = lent.split_at_checked(written)?;
    let result = match op {
        calls::LISTING | calls::DIALECT_LISTING => quoted(result),
        calls::SECOND_LISTING | calls::LINKED_LISTING => quoted(result),
        _ => hex(result),
    };
    Some(format!("length {written}: {result}{}", room(rest)))
}

/// What a lent room holds behind the result.
fn room(bytes: &[u8]) -> String {
    if bytes.is_empty() {
        String::new()
    } else if bytes.iter().all(|&byte| byte == ROOM_FILL) {
        format!(", {} bytes of the room as they were", bytes.len())
    } else {
        format!(", the room's other bytes changed: {}", hex(bytes))
    }
}

fn of_dialect(results: &[u8]) -> Option<String> {
    let found = DIALECTS
        .into_iter()
        .find(|&dialect| results == [dialect_byte(dialect)])?;
    Some(format!("{found:?}"))
}

fn of_test(results: &[u8]) -> Option<String> {
    match results {
        [0] => Some("no".to_string()),
        [1] => Some("yes".to_string()),
        _ => None,
    }
}

/// The fields of a line in an answer.
const LINE_LABELS: [&str; 4] = ["link", "number", "next", "body length"];
const MEASURED_LABELS: [&str; 5] = ["address", "link", "number", "body length", "text line"];

fn of_step(results: &[u8]) -> Option<String> {
    of_line(&LINE_LABELS, results)
}

fn of_search(results: &[u8]) -> Option<String> {
    let (visited, line) = results.split_at_checked(8)?;
    Some(format!(
        "{}, {}",
        named(&["visited"], visited)?,
        of_step(line)?
    ))
}

/// The first three of the totals, and where the others are not 0.
fn of_totals(results: &[u8]) -> Option<String> {
    let (first, rest) = results.split_at_checked(3 * 8)?;
    let rest: Vec<u64> = rest.chunks(8).map(number).collect::<Option<_>>()?;
    let places = rest.iter().enumerate().filter(|(_, value)| **value > 0);
    let shown: Vec<_> = places
        .map(|(place, value)| format!("{value} at {}", place + 3))
        .collect();
    Some(format!(
        "{}, {}",
        named(&["images", "refused", "tokens"], first)?,
        shown.join(", ")
    ))
}

/// A line by these fields, and its body behind them.
fn of_line(labels: &[&str], results: &[u8]) -> Option<String> {
    match *results {
        [0] => Some("no line".to_string()),
        [1, ref line @ ..] => {
            let (fields, body) = line.split_at_checked(8 * labels.len())?;
            Some(format!("{}, body {}", named(labels, fields)?, hex(body)))
        }
        _ => None,
    }
}

fn of_relinking(results: &[u8]) -> Option<String> {
    match *results {
        [0] => Some("every link as it was".to_string()),
        [1, ref fields @ ..] => named(&["offset", "new link"], fields),
        [2] => Some("leaves the image".to_string()),
        [3] => Some("never ends".to_string()),
        _ => None,
    }
}

/// Fields, and behind them a disk, before which a room may stand.
fn before_disk(labels: &[&str], results: &[u8]) -> Option<String> {
    let (fields, behind) = results.split_at_checked(8 * labels.len())?;
    Some(format!(
        "{}, {}",
        named(labels, fields)?,
        room_and_disk(behind)
    ))
}

/// A room and a disk, told apart only where the disk can be a whole one.
fn room_and_disk(bytes: &[u8]) -> String {
    match bytes.len().checked_sub(DISK_LENGTH) {
        None | Some(0) => disk_of(bytes),
        Some(room) => format!("{}, {}", hex(&bytes[..room]), disk_of(&bytes[room..])),
    }
}

/// A disk by its length, what the check says of it, and a digest of its bytes.
fn disk_of(bytes: &[u8]) -> String {
    let state = match disk::check(bytes) {
        Ok(found) => format!("{} files, {} free", found.files, found.free_sectors),
        Err(_) => "refused by the check".to_string(),
    };
    let digest = digest(bytes);
    format!(
        "disk of {} bytes, {state}, digest {digest:016X}",
        bytes.len()
    )
}

/// The digest FNV-1a, of 64 bits.
fn digest(bytes: &[u8]) -> u64 {
    bytes.iter().fold(0xCBF2_9CE4_8422_2325, |digest, &byte| {
        (digest ^ u64::from(byte)).wrapping_mul(0x0000_0100_0000_01B3)
    })
}

/// A byte of an answer by its place, and by its sector if it is one of a disk.
pub fn place(op: u8, answer: &[u8], at: usize) -> String {
    let disk = answer.len().checked_sub(DISK_LENGTH);
    match disk.and_then(|start| at.checked_sub(start)) {
        Some(on_disk) if calls::is_of_disks(op) && on_disk < DISK_LENGTH => {
            let sector = disk::all_sectors().nth(on_disk / SECTOR_LENGTH);
            let Sector(track, place) = sector.expect("the byte is one of the disk's");
            format!(
                "byte {at}, {:02X} of {track}/{place},",
                on_disk % SECTOR_LENGTH
            )
        }
        _ => format!("byte {at}"),
    }
}

/// Fields of 8 bytes with their labels; nothing unless there are as many.
fn named(labels: &[&str], fields: &[u8]) -> Option<String> {
    let values: Vec<u64> = fields.chunks(8).map(number).collect::<Option<_>>()?;
    let pairs = labels.iter().zip(&values);
    let shown: Vec<_> = pairs
        .map(|(label, value)| format!("{label} {value}"))
        .collect();
    (values.len() == labels.len()).then(|| shown.join(", "))
}

fn number(field: &[u8]) -> Option<u64> {
    Some(u64::from_le_bytes(field.try_into().ok()?))
}

fn reader(by: Reader) -> &'static str {
    match by {
        Reader::Terminators => "terminators",
        Reader::Links => "links",
    }
}

fn quoted(bytes: &[u8]) -> String {
    let shown = &bytes[..bytes.len().min(SHOWN_BYTES)];
    format!("\"{}\"{}", shown.escape_ascii(), how_many_more(bytes))
}

pub fn hex(bytes: &[u8]) -> String {
    let shown = bytes.iter().take(SHOWN_BYTES);
    let shown: Vec<_> = shown.map(|byte| format!("{byte:02X}")).collect();
    format!("[{}]{}", shown.join(" "), how_many_more(bytes))
}

fn how_many_more(bytes: &[u8]) -> String {
    match bytes.len().saturating_sub(SHOWN_BYTES) {
        0 => String::new(),
        more => format!(" and {more} more bytes"),
    }
}
