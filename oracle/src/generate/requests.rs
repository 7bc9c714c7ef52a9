//! Turns texts, words and images into requests, with rooms and offsets.

use crate::calls::{self, Call, ROOM_LIMIT, Reader};
use crate::dialects::{DIALECTS, Dialect};
use crate::frames::Request;
use crate::indexes;
use crate::library::{self, CrunchOptions};
use crate::modes::{self, ListOptions};
use crate::random::Random;

/// Where a BASIC program of the Commodore 64 stands.
pub const C64_LOAD: u16 = 0x0801;

/// Offsets, limits and places beyond everything.
const HUGE: [u64; 6] = [
    u64::MAX,
    u64::MAX - 3,
    1 << 63,
    1 << 32,
    (1 << 32) + 2,
    1 << 31,
];

/// A text, and how it is to be crunched.
#[derive(Clone)]
pub struct TextCase {
    pub load: u16,
    pub dialect: Dialect,
    pub text: Vec<u8>,
}

impl TextCase {
    pub fn auto(text: impl Into<Vec<u8>>) -> TextCase {
        TextCase::under(Dialect::Auto, text)
    }

    pub fn under(dialect: Dialect, text: impl Into<Vec<u8>>) -> TextCase {
        TextCase {
            load: C64_LOAD,
            dialect,
            text: text.into(),
        }
    }

    pub fn at(load: u16, text: impl Into<Vec<u8>>) -> TextCase {
        TextCase {
            load,
            ..TextCase::auto(text)
        }
    }
}

pub fn of_text(op: u8, case: &TextCase, random: &mut Random) -> Request {
    let &TextCase {
        load,
        dialect,
        ref text,
    } = case;
    let call = match op {
        calls::CRUNCH => {
            let image = library::crunch(load, dialect, text);
            Call::Crunch {
                load,
                dialect,
                room: room(image.ok().map(|image| image.len()), random),
                text,
            }
        }
        calls::CRUNCH_ROOM => Call::CrunchRoom {
            load,
            dialect,
            text,
        },
        calls::RESOLVED_DIALECT => Call::ResolvedDialect { dialect, text },
        calls::CRUNCH_WITH => {
            let options = crunch_options(case, random);
            let image = library::crunch_with(options, text);
            Call::CrunchWith {
                options,
                room: room(image.ok().map(|image| image.len()), random),
                text,
            }
        }
        calls::CRUNCH_ROOM_WITH => Call::CrunchRoomWith {
            options: crunch_options(case, random),
            text,
        },
        calls::MEASURED_LINE => Call::MeasuredLine {
            options: crunch_options(case, random),
            place: line_place(text, random),
            text,
        },
        _ => unreachable!("op {op:02X} takes no text"),
    };
    call.encode()
}

/// A case with every combination of options, those that are asked for more often.
fn crunch_options(case: &TextCase, random: &mut Random) -> CrunchOptions {
    CrunchOptions {
        load: case.load,
        dialect: case.dialect,
        forms: !random.one_in(4),
        profile: !random.one_in(3),
    }
}

pub fn of_texts(op: u8, cases: &[TextCase], random: &mut Random) -> Vec<Request> {
    let request = |case| of_text(op, case, random);
    cases.iter().map(request).collect()
}

pub fn of_word(op: u8, word: &[u8]) -> Request {
    let call = match op {
        calls::DIALECT_BY_NAME => Call::DialectByName { word },
        calls::TSB_WORD => Call::TsbWord { word },
        _ => unreachable!("op {op:02X} takes no word"),
    };
    call.encode()
}

pub fn of_words(op: u8, words: &[Vec<u8>]) -> Vec<Request> {
    words.iter().map(|word| of_word(op, word)).collect()
}

/// The default load address of each dialect.
pub fn default_loads() -> Vec<Request> {
    let rest = &[];
    DIALECTS
        .map(|dialect| Call::DefaultLoad { dialect, rest }.encode())
        .into()
}

/// The same of any, sometimes with bytes behind it.
pub fn any_default_load(random: &mut Random) -> Request {
    let dialect = random.pick(&DIALECTS);
    let rest = vec![random.byte(); random.below(3)];
    Call::DefaultLoad {
        dialect,
        rest: &rest,
    }
    .encode()
}

pub fn of_image(op: u8, image: &[u8], random: &mut Random) -> Request {
    let call = match op {
        calls::CHECK_BY_TERMINATORS => check(Reader::Terminators, image),
        calls::CHECK_BY_LINKS => check(Reader::Links, image),
        calls::STEP_BY_TERMINATORS => step(Reader::Terminators, image, random),
        calls::STEP_BY_LINKS => step(Reader::Links, image, random),
        calls::ADDRESSED_STEP_BY_TERMINATORS => addressed_step(Reader::Terminators, image, random),
        calls::ADDRESSED_STEP_BY_LINKS => addressed_step(Reader::Links, image, random),
        calls::LINE_BY_NUMBER => search(image, random),
        calls::LISTING => {
            let listing = library::listing(image);
            Call::Listing {
                room: room(listing.ok().map(|listing| listing.len()), random),
                image,
            }
        }
        calls::LISTING_ROOM => Call::ListingRoom { image },
        calls::DIALECT_LISTING | calls::SECOND_LISTING | calls::LINKED_LISTING => {
            let options = list_options(op, random);
            let listing = modes::listing(options, image);
            Call::ListingUnder {
                options,
                room: room(listing.ok().map(|listing| listing.len()), random),
                image,
            }
        }
        calls::DIALECT_LISTING_ROOM | calls::SECOND_LISTING_ROOM | calls::LINKED_LISTING_ROOM => {
            Call::ListingRoomUnder {
                options: list_options(op, random),
                image,
            }
        }
        calls::LINE_INDEX => {
            let index = indexes::index(image);
            Call::LineIndex {
                room: room(index.ok().map(|index| index.len()), random),
                image,
            }
        }
        calls::JUMP_REPORT => {
            let report = indexes::report(image);
            Call::JumpReport {
                room: room(report.ok().map(|report| report.len()), random),
                image,
            }
        }
        calls::RELINK => Call::Relink { image },
        calls::LOOK_UP | calls::INDEX_ENTRY => return of_index(op, image, random),
        _ => unreachable!("op {op:02X} takes no image"),
    };
    call.encode()
}

/// Requests for listed images; steps are asked at the first line and elsewhere.
pub fn of_images(op: u8, images: &[Vec<u8>], random: &mut Random) -> Vec<Request> {
    let mut requests = Vec::new();
    for image in images {
        requests.extend(at_first_line(op, image));
        requests.push(of_image(op, image, random));
    }
    requests
}

/// The step at the first line, if the op asks for steps.
fn at_first_line(op: u8, image: &[u8]) -> Option<Request> {
    let by = match op {
        calls::STEP_BY_TERMINATORS | calls::ADDRESSED_STEP_BY_TERMINATORS => Reader::Terminators,
        calls::STEP_BY_LINKS | calls::ADDRESSED_STEP_BY_LINKS => Reader::Links,
        _ => return None,
    };
    let offset = 2;
    let call = match op {
        calls::STEP_BY_TERMINATORS | calls::STEP_BY_LINKS => Call::Step { by, offset, image },
        _ => Call::AddressedStep { by, offset, image },
    };
    Some(call.encode())
}

fn check(by: Reader, image: &[u8]) -> Call<'_> {
    Call::Check { by, image }
}

fn step<'a>(by: Reader, image: &'a [u8], random: &mut Random) -> Call<'a> {
    let offset = offset(by, image, random);
    Call::Step { by, offset, image }
}

fn addressed_step<'a>(by: Reader, image: &'a [u8], random: &mut Random) -> Call<'a> {
    let offset = offset(by, image, random);
    Call::AddressedStep { by, offset, image }
}

fn list_options(op: u8, random: &mut Random) -> ListOptions {
    let dialect = random.pick(&DIALECTS);
    match op {
        calls::DIALECT_LISTING | calls::DIALECT_LISTING_ROOM => ListOptions {
            dialect,
            remarks: false,
            by: Reader::Terminators,
        },
        calls::SECOND_LISTING | calls::SECOND_LISTING_ROOM => ListOptions {
            dialect,
            remarks: true,
            by: Reader::Terminators,
        },
        _ => ListOptions {
            dialect,
            remarks: random.one_in(2),
            by: Reader::Links,
        },
    }
}

/// A question to the index of an image, whole or cut, or to any bytes.
fn of_index(op: u8, image: &[u8], random: &mut Random) -> Request {
    let mut index = match indexes::index(image) {
        Ok(index) if !random.one_in(8) => index,
        _ => image.to_vec(),
    };
    if random.one_in(4) {
        index.truncate(random.below(index.len() + 1));
    }
    let index = &index;
    let place = match random.below(8) {
        0 => random.pick(&HUGE),
        _ => random.below(8) as u64,
    };
    let call = match op {
        calls::LOOK_UP => {
            let number = match indexes::line_entry(place, index) {
                Some((number, _)) => number as u16,
                None => random.pick(&[0, 10, 20, 0xFFFF]),
            };
            Call::LookUp { number, index }
        }
        _ => Call::IndexEntry {
            kind: random.below(2) as u8,
            place,
            index,
        },
    };
    call.encode()
}

/// A search for a line that is there, mostly, with a limit around its place.
fn search<'a>(image: &'a [u8], random: &mut Random) -> Call<'a> {
    let at = line_offset(Reader::Links, image, random);
    let number = match library::step(Reader::Links, at, image) {
        Ok(Some(line)) if !random.one_in(4) => line.number,
        _ => random.pick(&[0, 10, 20, 0xFFFF]),
    };
    let limit = match random.below(4) {
        0 => random.pick(&HUGE),
        _ => random.below(8) as u64,
    };
    Call::LineByNumber {
        number,
        limit,
        image,
    }
}

/// A place among a text's lines, or a little or far beyond them.
fn line_place(text: &[u8], random: &mut Random) -> u64 {
    let ends = text.iter().filter(|byte| b"\n\r".contains(byte)).count();
    match random.below(12) {
        0 => 0,
        1 => random.pick(&HUGE),
        2 => (ends + 1 + random.below(3)) as u64,
        _ => random.between(1, ends + 1) as u64,
    }
}

/// A room around what the call needs; any small one if it gives no result.
pub fn room(needed: Option<usize>, random: &mut Random) -> usize {
    let Some(needed) = needed else {
        return random.below(12);
    };
    let room = match random.below(8) {
        0 => random.pick(&[0, needed / 2]),
        1 => needed.saturating_sub(1),
        2..6 => needed,
        6 => needed + 1,
        _ => needed + random.below(40),
    };
    room.min(ROOM_LIMIT)
}

/// An offset to step from: a line's, one near an end of the image, any, a huge one.
fn offset(by: Reader, image: &[u8], random: &mut Random) -> u64 {
    let length = image.len() as u64;
    match random.below(8) {
        0..4 => line_offset(by, image, random),
        4 => random.below(image.len() + 4) as u64,
        5 => (length + 3).saturating_sub(random.below(7) as u64),
        6 => random.below(3) as u64,
        _ => random.pick(&HUGE),
    }
}

/// The offset of one of the lines, of the end, or of the refusal.
fn line_offset(by: Reader, image: &[u8], random: &mut Random) -> u64 {
    let mut at = 2;
    for _ in 0..random.below(6) {
        match library::step(by, at, image) {
            Ok(Some(line)) => at = line.next,
            _ => break,
        }
    }
    at
}
