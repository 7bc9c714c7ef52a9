//! The calls that a request can stand for, and how each is laid out in a payload.

use crate::counted;
use crate::dialects::Dialect;
use crate::fields::Fields;
use crate::frames::Request;
use crate::library::CrunchOptions;
use crate::modes::ListOptions;

/// The largest room that a call can be lent.
pub const ROOM_LIMIT: usize = 524_288;

pub const CRUNCH: u8 = 0x01;
pub const CRUNCH_ROOM: u8 = 0x02;
pub const RESOLVED_DIALECT: u8 = 0x03;
pub const DIALECT_BY_NAME: u8 = 0x04;
pub const TSB_WORD: u8 = 0x05;
pub const CHECK_BY_TERMINATORS: u8 = 0x06;
pub const STEP_BY_TERMINATORS: u8 = 0x07;
pub const CHECK_BY_LINKS: u8 = 0x08;
pub const STEP_BY_LINKS: u8 = 0x09;
pub const LISTING: u8 = 0x0A;
pub const LISTING_ROOM: u8 = 0x0B;
pub const CRUNCH_WITH: u8 = 0x10;
pub const CRUNCH_ROOM_WITH: u8 = 0x11;
pub const LINE_BY_NUMBER: u8 = 0x12;
pub const DEFAULT_LOAD: u8 = 0x13;
pub const DIALECT_LISTING: u8 = 0x14;
pub const DIALECT_LISTING_ROOM: u8 = 0x15;
pub const SECOND_LISTING: u8 = 0x16;
pub const SECOND_LISTING_ROOM: u8 = 0x17;
pub const ADDRESSED_STEP_BY_TERMINATORS: u8 = 0x18;
pub const ADDRESSED_STEP_BY_LINKS: u8 = 0x19;
pub const MEASURED_LINE: u8 = 0x1A;
pub const COUNT_IMAGES: u8 = 0x1B;
pub const LINE_INDEX: u8 = 0x1C;
pub const LOOK_UP: u8 = 0x1D;
pub const INDEX_ENTRY: u8 = 0x1E;
pub const JUMP_REPORT: u8 = 0x1F;
pub const FORMAT_DISK: u8 = 0x20;
pub const SAVE_FILE: u8 = 0x21;
pub const READ_FILE: u8 = 0x22;
pub const SCRATCH_FILE: u8 = 0x23;
pub const CHECK_DISK: u8 = 0x24;
pub const LINKED_LISTING: u8 = 0x30;
pub const LINKED_LISTING_ROOM: u8 = 0x31;
pub const RELINK: u8 = 0x34;

/// Whether the original, or a model of our own, can answer an op.
pub fn is_known(op: u8) -> bool {
    matches!(op, CRUNCH..=LISTING_ROOM | CRUNCH_WITH..=DEFAULT_LOAD | RELINK)
        || matches!(op, ADDRESSED_STEP_BY_TERMINATORS..=JUMP_REPORT)
        || is_under_options(op)
        || is_of_disks(op)
}

/// Whether an op's payload ends with a text.
pub fn is_of_texts(op: u8) -> bool {
    matches!(op, CRUNCH..=RESOLVED_DIALECT) || is_with_options(op)
}

/// Whether an op crunches as a byte of options asks for it.
pub fn is_with_options(op: u8) -> bool {
    matches!(op, CRUNCH_WITH | CRUNCH_ROOM_WITH | MEASURED_LINE)
}

/// Whether an op lists as options ask for it.
pub fn is_under_options(op: u8) -> bool {
    matches!(op, DIALECT_LISTING..=SECOND_LISTING_ROOM)
        || matches!(op, LINKED_LISTING | LINKED_LISTING_ROOM)
}

/// Whether an op's payload ends with a disk, and its answer too.
pub fn is_of_disks(op: u8) -> bool {
    matches!(op, FORMAT_DISK..=CHECK_DISK)
}

#[derive(Debug, Clone, Copy, PartialEq, Eq)]
pub enum Reader {
    Terminators,
    Links,
}

#[derive(Debug, Clone, Copy)]
pub enum Call<'a> {
    Crunch {
        load: u16,
        dialect: Dialect,
        room: usize,
        text: &'a [u8],
    },
    CrunchRoom {
        load: u16,
        dialect: Dialect,
        text: &'a [u8],
    },
    ResolvedDialect {
        dialect: Dialect,
        text: &'a [u8],
    },
    DialectByName {
        word: &'a [u8],
    },
    TsbWord {
        word: &'a [u8],
    },
    Check {
        by: Reader,
        image: &'a [u8],
    },
    Step {
        by: Reader,
        offset: u64,
        image: &'a [u8],
    },
    Listing {
        room: usize,
        image: &'a [u8],
    },
    ListingRoom {
        image: &'a [u8],
    },
    LineByNumber {
        number: u16,
        limit: u64,
        image: &'a [u8],
    },
    AddressedStep {
        by: Reader,
        offset: u64,
        image: &'a [u8],
    },
    DefaultLoad {
        dialect: Dialect,
        /// What follows the dialect; it is not heeded.
        rest: &'a [u8],
    },
    ListingUnder {
        options: ListOptions,
        room: usize,
        image: &'a [u8],
    },
    ListingRoomUnder {
        options: ListOptions,
        image: &'a [u8],
    },
    CrunchWith {
        options: CrunchOptions,
        room: usize,
        text: &'a [u8],
    },
    CrunchRoomWith {
        options: CrunchOptions,
        text: &'a [u8],
    },
    MeasuredLine {
        options: CrunchOptions,
        place: u64,
        text: &'a [u8],
    },
    /// So many images, each behind its length, and nothing else.
    CountImages {
        count: u32,
        images: &'a [u8],
    },
    LineIndex {
        room: usize,
        image: &'a [u8],
    },
    LookUp {
        number: u16,
        index: &'a [u8],
    },
    IndexEntry {
        kind: u8,
        place: u64,
        index: &'a [u8],
    },
    JumpReport {
        room: usize,
        image: &'a [u8],
    },
    FormatDisk {
        disk: &'a [u8],
    },
    SaveFile {
        name: &'a [u8],
        image: &'a [u8],
        disk: &'a [u8],
    },
    ReadFile {
        room: usize,
        name: &'a [u8],
        disk: &'a [u8],
    },
    ScratchFile {
        name: &'a [u8],
        disk: &'a [u8],
    },
    CheckDisk {
        disk: &'a [u8],
    },
    Relink {
        image: &'a [u8],
    },
}

impl<'a> Call<'a> {
    /// The call that a request asks for; nothing if the request is malformed.
    pub fn decode(request: &'a Request) -> Option<Call<'a>> {
        let mut fields = Fields(&request.payload);
        Some(match request.op {
            CRUNCH => Call::Crunch {
                load: fields.address()?,
                dialect: fields.dialect()?,
                room: fields.room()?,
                text: fields.rest(),
            },
            CRUNCH_ROOM => Call::CrunchRoom {
                load: fields.address()?,
                dialect: fields.dialect()?,
                text: fields.rest(),
            },
            RESOLVED_DIALECT => Call::ResolvedDialect {
                dialect: fields.dialect()?,
                text: fields.rest(),
            },
            DIALECT_BY_NAME => Call::DialectByName {
                word: fields.rest(),
            },
            TSB_WORD => Call::TsbWord {
                word: fields.rest(),
            },
            CHECK_BY_TERMINATORS => fields.check(Reader::Terminators),
            STEP_BY_TERMINATORS => fields.step(Reader::Terminators)?,
            CHECK_BY_LINKS => fields.check(Reader::Links),
            STEP_BY_LINKS => fields.step(Reader::Links)?,
            LISTING => Call::Listing {
                room: fields.room()?,
                image: fields.rest(),
            },
            LISTING_ROOM => Call::ListingRoom {
                image: fields.rest(),
            },
            LINE_BY_NUMBER => Call::LineByNumber {
                number: fields.address()?,
                limit: fields.number()?,
                image: fields.rest(),
            },
            ADDRESSED_STEP_BY_TERMINATORS => fields.addressed_step(Reader::Terminators)?,
            ADDRESSED_STEP_BY_LINKS => fields.addressed_step(Reader::Links)?,
            DEFAULT_LOAD => Call::DefaultLoad {
                dialect: fields.dialect()?,
                rest: fields.rest(),
            },
            DIALECT_LISTING | SECOND_LISTING | LINKED_LISTING => Call::ListingUnder {
                options: fields.list_options(request.op)?,
                room: fields.room()?,
                image: fields.rest(),
            },
            DIALECT_LISTING_ROOM | SECOND_LISTING_ROOM | LINKED_LISTING_ROOM => {
                Call::ListingRoomUnder {
                    options: fields.list_options(request.op)?,
                    image: fields.rest(),
                }
            }
            CRUNCH_WITH => Call::CrunchWith {
                options: fields.crunch_options()?,
                room: fields.room()?,
                text: fields.rest(),
            },
            CRUNCH_ROOM_WITH => Call::CrunchRoomWith {
                options: fields.crunch_options()?,
                text: fields.rest(),
            },
            MEASURED_LINE => Call::MeasuredLine {
                options: fields.crunch_options()?,
                place: fields.number()?,
                text: fields.rest(),
            },
            COUNT_IMAGES => {
                let count = fields.count()?;
                let images = fields.rest();
                (counted::list(images)?.len() as u64 == u64::from(count))
                    .then_some(Call::CountImages { count, images })?
            }
            LINE_INDEX => Call::LineIndex {
                room: fields.room()?,
                image: fields.rest(),
            },
            LOOK_UP => Call::LookUp {
                number: fields.address()?,
                index: fields.rest(),
            },
            INDEX_ENTRY => Call::IndexEntry {
                kind: fields.kind()?,
                place: fields.number()?,
                index: fields.rest(),
            },
            JUMP_REPORT => Call::JumpReport {
                room: fields.room()?,
                image: fields.rest(),
            },
            FORMAT_DISK => Call::FormatDisk {
                disk: fields.rest(),
            },
            SAVE_FILE => Call::SaveFile {
                name: fields.name()?,
                image: fields.image()?,
                disk: fields.rest(),
            },
            READ_FILE => Call::ReadFile {
                room: fields.room()?,
                name: fields.name()?,
                disk: fields.rest(),
            },
            SCRATCH_FILE => Call::ScratchFile {
                name: fields.name()?,
                disk: fields.rest(),
            },
            CHECK_DISK => Call::CheckDisk {
                disk: fields.rest(),
            },
            RELINK => Call::Relink {
                image: fields.rest(),
            },
            _ => return None,
        })
    }

    pub fn encode(&self) -> Request {
        let (op, fixed, rest) = match *self {
            Call::Crunch {
                load,
                dialect,
                room,
                text,
            } => (
                CRUNCH,
                [place(load, dialect), length_field(room)].concat(),
                text,
            ),
            Call::CrunchRoom {
                load,
                dialect,
                text,
            } => (CRUNCH_ROOM, place(load, dialect), text),
            Call::ResolvedDialect { dialect, text } => {
                (RESOLVED_DIALECT, vec![dialect_byte(dialect)], text)
            }
            Call::DialectByName { word } => (DIALECT_BY_NAME, vec![], word),
            Call::TsbWord { word } => (TSB_WORD, vec![], word),
            Call::Check { by, image } => (check_op(by), vec![], image),
            Call::Step { by, offset, image } => (step_op(by), offset.to_le_bytes().to_vec(), image),
            Call::Listing { room, image } => (LISTING, length_field(room), image),
            Call::ListingRoom { image } => (LISTING_ROOM, vec![], image),
            Call::LineByNumber {
                number,
                limit,
                image,
            } => {
                let fixed = [&number.to_le_bytes()[..], &limit.to_le_bytes()].concat();
                (LINE_BY_NUMBER, fixed, image)
            }
            Call::AddressedStep { by, offset, image } => {
                (addressed_op(by), offset.to_le_bytes().to_vec(), image)
            }
            Call::ListingUnder {
                options,
                room,
                image,
            } => {
                let op = match (options.by, options.remarks) {
                    (Reader::Terminators, false) => DIALECT_LISTING,
                    (Reader::Terminators, true) => SECOND_LISTING,
                    (Reader::Links, _) => LINKED_LISTING,
                };
                let fixed = [list_options(options), length_field(room)];
                (op, fixed.concat(), image)
            }
            Call::ListingRoomUnder { options, image } => {
                let op = match (options.by, options.remarks) {
                    (Reader::Terminators, false) => DIALECT_LISTING_ROOM,
                    (Reader::Terminators, true) => SECOND_LISTING_ROOM,
                    (Reader::Links, _) => LINKED_LISTING_ROOM,
                };
                (op, list_options(options), image)
            }
            Call::DefaultLoad { dialect, rest } => {
                (DEFAULT_LOAD, vec![dialect_byte(dialect)], rest)
            }
            Call::CrunchWith {
                options,
                room,
                text,
            } => {
                let fixed = [crunch_options(options), length_field(room)];
                (CRUNCH_WITH, fixed.concat(), text)
            }
            Call::CrunchRoomWith { options, text } => {
                (CRUNCH_ROOM_WITH, crunch_options(options), text)
            }
            Call::MeasuredLine {
                options,
                place,
                text,
            } => {
                let fixed = [crunch_options(options), place.to_le_bytes().to_vec()];
                (MEASURED_LINE, fixed.concat(), text)
            }
            Call::CountImages { count, images } => {
                (COUNT_IMAGES, count.to_le_bytes().to_vec(), images)
            }
            Call::LineIndex { room, image } => (LINE_INDEX, length_field(room), image),
            Call::LookUp { number, index } => (LOOK_UP, number.to_le_bytes().to_vec(), index),
            Call::IndexEntry { kind, place, index } => (
                INDEX_ENTRY,
                [&[kind], &place.to_le_bytes()[..]].concat(),
                index,
            ),
            Call::JumpReport { room, image } => (JUMP_REPORT, length_field(room), image),
            Call::FormatDisk { disk } => (FORMAT_DISK, vec![], disk),
            Call::SaveFile { name, image, disk } => {
                let fixed = [name_field(name), length_field(image.len()), image.to_vec()];
                (SAVE_FILE, fixed.concat(), disk)
            }
            Call::ReadFile { room, name, disk } => (
                READ_FILE,
                [length_field(room), name_field(name)].concat(),
                disk,
            ),
            Call::ScratchFile { name, disk } => (SCRATCH_FILE, name_field(name), disk),
            Call::CheckDisk { disk } => (CHECK_DISK, vec![], disk),
            Call::Relink { image } => (RELINK, vec![], image),
        };
        Request {
            op,
            payload: [&fixed, rest].concat(),
        }
    }
}

/// How many bytes of an op's payload stand before its text, word, image or disk,
/// not counting a name and an image that stand before a disk.
pub fn fixed_part(op: u8) -> usize {
    match op {
        CRUNCH => 2 + 1 + 4,
        CRUNCH_ROOM => 2 + 1,
        RESOLVED_DIALECT => 1,
        STEP_BY_TERMINATORS | STEP_BY_LINKS => 8,
        LISTING => 4,
        LINE_BY_NUMBER => 2 + 8,
        ADDRESSED_STEP_BY_TERMINATORS | ADDRESSED_STEP_BY_LINKS => 8,
        DEFAULT_LOAD => 1,
        DIALECT_LISTING | SECOND_LISTING => 1 + 4,
        DIALECT_LISTING_ROOM | SECOND_LISTING_ROOM => 1,
        LINKED_LISTING => 1 + 1 + 4,
        LINKED_LISTING_ROOM => 1 + 1,
        CRUNCH_WITH => 2 + 1 + 1 + 4,
        CRUNCH_ROOM_WITH => 2 + 1 + 1,
        MEASURED_LINE => 2 + 1 + 1 + 8,
        COUNT_IMAGES => 4,
        LINE_INDEX | JUMP_REPORT => 4,
        LOOK_UP => 2,
        INDEX_ENTRY => 1 + 8,
        SAVE_FILE => 2 + 4,
        READ_FILE => 4 + 2,
        SCRATCH_FILE => 2,
        _ => 0,
    }
}

/// The byte that stands for a dialect in requests and answers.
pub fn dialect_byte(dialect: Dialect) -> u8 {
    match dialect {
        Dialect::Auto => 0,
        Dialect::BasicV2 => 1,
        Dialect::Tsb => 2,
        Dialect::Basic35 => 3,
    }
}

fn check_op(by: Reader) -> u8 {
    match by {
        Reader::Terminators => CHECK_BY_TERMINATORS,
        Reader::Links => CHECK_BY_LINKS,
    }
}

fn step_op(by: Reader) -> u8 {
    match by {
        Reader::Terminators => STEP_BY_TERMINATORS,
        Reader::Links => STEP_BY_LINKS,
    }
}

fn addressed_op(by: Reader) -> u8 {
    match by {
        Reader::Terminators => ADDRESSED_STEP_BY_TERMINATORS,
        Reader::Links => ADDRESSED_STEP_BY_LINKS,
    }
}

fn place(load: u16, dialect: Dialect) -> Vec<u8> {
    let [low, high] = load.to_le_bytes();
    vec![low, high, dialect_byte(dialect)]
}

fn crunch_options(options: CrunchOptions) -> Vec<u8> {
    let bits = u8::from(options.profile) | u8::from(options.forms) << 1;
    [place(options.load, options.dialect), vec![bits]].concat()
}

/// By terminators the op names the mode, and by links it is a field.
fn list_options(options: ListOptions) -> Vec<u8> {
    let dialect = dialect_byte(options.dialect);
    match options.by {
        Reader::Terminators => vec![dialect],
        Reader::Links => vec![dialect, options.remarks.into()],
    }
}

/// A room, or the length of an image that is not the last field.
fn length_field(length: usize) -> Vec<u8> {
    let length = u32::try_from(length).expect("a length fits its field");
    length.to_le_bytes().to_vec()
}

/// A name behind its length.
fn name_field(name: &[u8]) -> Vec<u8> {
    let length = u16::try_from(name.len()).expect("a name's length fits its field");
    [&length.to_le_bytes(), name].concat()
}
