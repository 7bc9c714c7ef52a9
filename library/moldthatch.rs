//! Moldthatch for Rust: safe calls of the proved library.
//!
//! Link with libmoldthatch.a, which `programs/library` makes. Each call
//! takes any bytes. A refusal changes no byte of a lent buffer, and a result
//! only as many bytes at its start as the call answers.

use std::{error, fmt, str};

/// The most bytes that a text may have, and an image.
pub const TEXT_LENGTH: usize = 1_048_576;
pub const IMAGE_LENGTH: usize = 1_048_576;

/// The bytes of a disk image.
pub const DISK_LENGTH: usize = 174_848;

/// No sentence is longer.
const SENTENCE_LENGTH: usize = 128;

#[derive(Debug, Clone, Copy, PartialEq, Eq, Default)]
pub enum Dialect {
    /// Decide by the program.
    #[default]
    Auto,
    BasicV2,
    Tsb,
    /// The BASIC of the Plus/4, whose programs load at 0x1001.
    Basic35,
}

/// Why a call gives no result: a refusal, with what it carries. As text it is a sentence for a person.
#[derive(Debug, Clone, Copy, PartialEq, Eq)]
pub enum Refusal {
    TextTooLong {
        length: usize,
    },
    BadByte {
        offset: usize,
    },
    /// Text lines are counted from 1, blank ones too.
    MissingLineNumber {
        line: usize,
    },
    LineNumberOutOfRange {
        line: usize,
        value: usize,
    },
    AddressOverflow,
    NoRoom {
        needed: usize,
    },
    ImageTooLong {
        length: usize,
    },
    TooShort,
    UnexpectedEof,
    /// The offset of the link, in this and the next three.
    MissingEnd {
        offset: usize,
    },
    LinkBackward {
        offset: usize,
    },
    LinkOutside {
        offset: usize,
    },
    LinkNoEnd {
        offset: usize,
    },
    UnknownDialect,
    /// The text line, in this and the next three.
    NumberTooHigh {
        line: usize,
    },
    NotAscending {
        line: usize,
    },
    ZeroInBody {
        line: usize,
    },
    BodyLength {
        line: usize,
    },
    /// Of [`find_line`] alone.
    LimitReached,
    BadDisk,
    BadName,
    NameTaken,
    NoSuchFile,
    DirectoryFull,
    DiskFull,
    TooManyImages,
    TooManyLines,
    TargetTooHigh,
    /// A number that this module does not know, from a newer library, with the two values beside it.
    Other {
        number: u8,
        first: usize,
        second: usize,
    },
}

impl Refusal {
    fn from_code(number: u8, first: usize, second: usize) -> Self {
        match number {
            1 => Refusal::TextTooLong { length: first },
            2 => Refusal::BadByte { offset: first },
            3 => Refusal::MissingLineNumber { line: first },
            4 => Refusal::LineNumberOutOfRange {
                line: first,
                value: second,
            },
            5 => Refusal::AddressOverflow,
            6 => Refusal::NoRoom { needed: first },
            7 => Refusal::ImageTooLong { length: first },
            8 => Refusal::TooShort,
            9 => Refusal::UnexpectedEof,
            10 => Refusal::MissingEnd { offset: first },
            11 => Refusal::LinkBackward { offset: first },
            12 => Refusal::LinkOutside { offset: first },
            13 => Refusal::LinkNoEnd { offset: first },
            14 => Refusal::UnknownDialect,
            15 => Refusal::NumberTooHigh { line: first },
            16 => Refusal::NotAscending { line: first },
            17 => Refusal::ZeroInBody { line: first },
            18 => Refusal::BodyLength { line: first },
            19 => Refusal::LimitReached,
            20 => Refusal::BadDisk,
            21 => Refusal::BadName,
            22 => Refusal::NameTaken,
            23 => Refusal::NoSuchFile,
            24 => Refusal::DirectoryFull,
            25 => Refusal::DiskFull,
            26 => Refusal::TooManyImages,
            27 => Refusal::TooManyLines,
            28 => Refusal::TargetTooHigh,
            _ => Refusal::Other {
                number,
                first,
                second,
            },
        }
    }

    /// The number, and the values that are carried, 0 where there is none.
    fn code(self) -> (u8, usize, usize) {
        match self {
            Refusal::TextTooLong { length } => (1, length, 0),
            Refusal::BadByte { offset } => (2, offset, 0),
            Refusal::MissingLineNumber { line } => (3, line, 0),
            Refusal::LineNumberOutOfRange { line, value } => (4, line, value),
            Refusal::AddressOverflow => (5, 0, 0),
            Refusal::NoRoom { needed } => (6, needed, 0),
            Refusal::ImageTooLong { length } => (7, length, 0),
            Refusal::TooShort => (8, 0, 0),
            Refusal::UnexpectedEof => (9, 0, 0),
            Refusal::MissingEnd { offset } => (10, offset, 0),
            Refusal::LinkBackward { offset } => (11, offset, 0),
            Refusal::LinkOutside { offset } => (12, offset, 0),
            Refusal::LinkNoEnd { offset } => (13, offset, 0),
            Refusal::UnknownDialect => (14, 0, 0),
            Refusal::NumberTooHigh { line } => (15, line, 0),
            Refusal::NotAscending { line } => (16, line, 0),
            Refusal::ZeroInBody { line } => (17, line, 0),
            Refusal::BodyLength { line } => (18, line, 0),
            Refusal::LimitReached => (19, 0, 0),
            Refusal::BadDisk => (20, 0, 0),
            Refusal::BadName => (21, 0, 0),
            Refusal::NameTaken => (22, 0, 0),
            Refusal::NoSuchFile => (23, 0, 0),
            Refusal::DirectoryFull => (24, 0, 0),
            Refusal::DiskFull => (25, 0, 0),
            Refusal::TooManyImages => (26, 0, 0),
            Refusal::TooManyLines => (27, 0, 0),
            Refusal::TargetTooHigh => (28, 0, 0),
            Refusal::Other {
                number,
                first,
                second,
            } => (number, first, second),
        }
    }

    /// The refusal's number.
    pub fn number(self) -> u8 {
        self.code().0
    }
}

impl fmt::Display for Refusal {
    fn fmt(&self, f: &mut fmt::Formatter<'_>) -> fmt::Result {
        let (number, first, second) = self.code();
        let mut out = [0; SENTENCE_LENGTH];
        // SAFETY: as for the other calls; `out` is borrowed alone.
        let length =
            unsafe { ffi::moldthatch_sentence(number, first, second, out.as_mut_ptr(), out.len()) };
        match str::from_utf8(&out[..length]) {
            Ok(sentence) if length > 0 => write!(f, "{sentence} (refusal {number})"),
            _ => write!(f, "refusal {number}"),
        }
    }
}

impl error::Error for Refusal {}

/// What a whole image is.
#[derive(Debug, Clone, Copy, PartialEq, Eq)]
pub struct Image {
    pub load: u16,
    pub lines: usize,
}

/// Crunches a text into the start of a buffer, and answers the image's length.
pub fn crunch(text: &[u8], load: u16, dialect: Dialect, out: &mut [u8]) -> Result<usize, Refusal> {
    // SAFETY: slices come apart into pointers and lengths, and `out` is borrowed alone.
    let code = unsafe {
        ffi::moldthatch_crunch(
            text.as_ptr(),
            text.len(),
            load,
            dialect as u8,
            out.as_mut_ptr(),
            out.len(),
        )
    };
    length(code)
}

/// The room that the image of a text needs.
pub fn crunch_room(text: &[u8], load: u16, dialect: Dialect) -> Result<usize, Refusal> {
    // SAFETY: as above.
    length(unsafe { ffi::moldthatch_crunch_room(text.as_ptr(), text.len(), load, dialect as u8) })
}

/// The image of a text.
pub fn crunched(text: &[u8], load: u16, dialect: Dialect) -> Result<Vec<u8>, Refusal> {
    let mut out = vec![0; crunch_room(text, load, dialect)?];
    crunch(text, load, dialect, &mut out)?;
    Ok(out)
}

/// What a text is crunched with; by default at 0x0801, under the dialect that its words decide.
#[derive(Debug, Clone, Copy, PartialEq, Eq)]
pub struct Options {
    pub load: u16,
    pub dialect: Dialect,
    /// Whether each line is asked whether the machine takes it.
    pub profile: bool,
    /// Whether short forms of V2 words are taken.
    pub short_forms: bool,
}

impl Default for Options {
    fn default() -> Self {
        Options {
            load: 0x0801,
            dialect: Dialect::Auto,
            profile: false,
            short_forms: false,
        }
    }
}

/// Crunches a text with options into the start of a buffer, and answers the image's length.
pub fn crunch_with(text: &[u8], options: Options, out: &mut [u8]) -> Result<usize, Refusal> {
    // SAFETY: as above.
    length(unsafe {
        ffi::moldthatch_crunch_with(
            text.as_ptr(),
            text.len(),
            options.into(),
            out.as_mut_ptr(),
            out.len(),
        )
    })
}

/// The room that this image needs.
pub fn crunch_with_room(text: &[u8], options: Options) -> Result<usize, Refusal> {
    // SAFETY: as above.
    length(unsafe { ffi::moldthatch_crunch_with_room(text.as_ptr(), text.len(), options.into()) })
}

/// The image of a text, crunched with options.
pub fn crunched_with(text: &[u8], options: Options) -> Result<Vec<u8>, Refusal> {
    let mut out = vec![0; crunch_with_room(text, options)?];
    crunch_with(text, options, &mut out)?;
    Ok(out)
}

/// A line of an image.
#[derive(Debug, Clone, Copy, PartialEq, Eq)]
pub struct Line {
    pub number: u16,
    pub link: u16,
    /// Its own address in memory.
    pub address: usize,
    /// The offsets of its body, and of what follows the line.
    pub from: usize,
    pub to: usize,
    pub next: usize,
}

impl Line {
    /// Its body, where it lies in this image.
    pub fn body<'a>(&self, image: &'a [u8]) -> Option<&'a [u8]> {
        image.get(self.from..self.to)
    }
}

/// A line of the image that a text would have, and the text line that it comes from, from 1.
#[derive(Debug, Clone, Copy, PartialEq, Eq)]
pub struct MeasuredLine {
    pub line: Line,
    pub origin: usize,
}

/// The line at a place, from 1, of the image that a text would have.
pub fn measured_line(
    text: &[u8],
    options: Options,
    place: usize,
) -> Result<Option<MeasuredLine>, Refusal> {
    // SAFETY: as above.
    let told =
        unsafe { ffi::moldthatch_measured_line(text.as_ptr(), text.len(), options.into(), place) };
    let origin = told.code.first;
    Ok(line(told)?.map(|line| MeasuredLine { line, origin }))
}

/// Stores the text lines that give an image its lines, from 1, as many as fit, and answers how many were stored.
pub fn origins(text: &[u8], out: &mut [usize]) -> usize {
    // SAFETY: as above.
    unsafe { ffi::moldthatch_origins(text.as_ptr(), text.len(), out.as_mut_ptr(), out.len()) }
}

impl Dialect {
    /// The dialect that a word names, as `basicv2`.
    pub fn by_name(word: &[u8]) -> Result<Self, Refusal> {
        // SAFETY: as above.
        dialect(unsafe { ffi::moldthatch_dialect_by_name(word.as_ptr(), word.len()) })
    }

    /// The address that its programs are loaded at where no other is asked for.
    pub fn default_load(self) -> u16 {
        ffi::moldthatch_default_load(self as u8).first as u16
    }
}

/// The dialect by which a text is taken, which is never `Auto`.
pub fn resolved_dialect(text: &[u8], asked: Dialect) -> Result<Dialect, Refusal> {
    // SAFETY: as above.
    dialect(unsafe { ffi::moldthatch_resolved_dialect(text.as_ptr(), text.len(), asked as u8) })
}

/// Whether a word is a TSB word, in capitals.
pub fn is_tsb_word(word: &[u8]) -> bool {
    // SAFETY: as above.
    unsafe { ffi::moldthatch_is_tsb_word(word.as_ptr(), word.len()) }
}

/// What stands between two braces of a string: a byte, and how often it is repeated.
pub fn escape(inside: &[u8]) -> Option<(u8, usize)> {
    // SAFETY: as above.
    two(unsafe { ffi::moldthatch_escape(inside.as_ptr(), inside.len()) })
        .map(|(byte, count)| (byte as u8, count))
}

/// Lists an image into the start of a buffer, and answers the listing's length.
pub fn list(image: &[u8], out: &mut [u8]) -> Result<usize, Refusal> {
    // SAFETY: as above.
    length(unsafe {
        ffi::moldthatch_list(image.as_ptr(), image.len(), out.as_mut_ptr(), out.len())
    })
}

/// The room that the listing of an image needs.
pub fn list_room(image: &[u8]) -> Result<usize, Refusal> {
    // SAFETY: as above.
    length(unsafe { ffi::moldthatch_list_room(image.as_ptr(), image.len()) })
}

/// The listing of an image, bytes of ASCII but for E2 94 80.
pub fn listed(image: &[u8]) -> Result<Vec<u8>, Refusal> {
    let mut out = vec![0; list_room(image)?];
    list(image, &mut out)?;
    Ok(out)
}

/// Lists an image under a dialect into the start of a buffer, and answers the listing's length.
/// Under Basic35 its words are listed; under the others this is `list`.
pub fn list_under(image: &[u8], dialect: Dialect, out: &mut [u8]) -> Result<usize, Refusal> {
    // SAFETY: as above.
    length(unsafe {
        ffi::moldthatch_list_under(
            image.as_ptr(),
            image.len(),
            dialect as u8,
            out.as_mut_ptr(),
            out.len(),
        )
    })
}

/// The room that the listing of an image under a dialect needs.
pub fn list_under_room(image: &[u8], dialect: Dialect) -> Result<usize, Refusal> {
    // SAFETY: as above.
    length(unsafe { ffi::moldthatch_list_under_room(image.as_ptr(), image.len(), dialect as u8) })
}

/// The listing of an image under a dialect.
pub fn listed_under(image: &[u8], dialect: Dialect) -> Result<Vec<u8>, Refusal> {
    let mut out = vec![0; list_under_room(image, dialect)?];
    list_under(image, dialect, &mut out)?;
    Ok(out)
}

/// How an image is listed; by default as [`list`] does.
#[derive(Debug, Clone, Copy, PartialEq, Eq, Default)]
pub struct ListOptions {
    pub dialect: Dialect,
    /// Whether a remark is listed as text: the second mode.
    pub remarks: bool,
    /// Whether lines are read by links, and not by terminators.
    pub links: bool,
}

/// Lists an image with options into the start of a buffer, and answers the listing's length.
pub fn list_with(image: &[u8], options: ListOptions, out: &mut [u8]) -> Result<usize, Refusal> {
    // SAFETY: as above.
    length(unsafe {
        ffi::moldthatch_list_with(
            image.as_ptr(),
            image.len(),
            options.into(),
            out.as_mut_ptr(),
            out.len(),
        )
    })
}

/// The room that this listing needs.
pub fn list_with_room(image: &[u8], options: ListOptions) -> Result<usize, Refusal> {
    // SAFETY: as above.
    length(unsafe { ffi::moldthatch_list_with_room(image.as_ptr(), image.len(), options.into()) })
}

/// The listing of an image, listed with options.
pub fn listed_with(image: &[u8], options: ListOptions) -> Result<Vec<u8>, Refusal> {
    let mut out = vec![0; list_with_room(image, options)?];
    list_with(image, options, &mut out)?;
    Ok(out)
}

/// What is left of a line that is listed in stretches.
#[derive(Debug, Clone, Copy, PartialEq, Eq)]
pub struct Place(ffi::Place);

impl Place {
    /// All of a line with this number.
    pub fn whole(number: u16) -> Self {
        Place(ffi::Place {
            kind: 0,
            mode: 0,
            number,
            at: 0,
        })
    }

    /// Whether nothing is left.
    pub fn is_over(self) -> bool {
        self.0.kind > 1
    }
}

/// Stores at a buffer's start what it holds of a line from a place on, in whole pieces: the length, and the place behind it. A
/// buffer of nine bytes always holds a piece.
pub fn list_stretch(
    body: &[u8],
    options: ListOptions,
    place: Place,
    out: &mut [u8],
) -> (usize, Place) {
    // SAFETY: as above. A dialect of the enum is never refused.
    let told = unsafe {
        ffi::moldthatch_list_stretch(
            body.as_ptr(),
            body.len(),
            options.into(),
            place.0,
            out.as_mut_ptr(),
            out.len(),
        )
    };
    (told.code.first, Place(told.place))
}

/// Reads a whole image by its links.
pub fn check(image: &[u8]) -> Result<Image, Refusal> {
    // SAFETY: as above.
    overview(unsafe { ffi::moldthatch_check(image.as_ptr(), image.len()) })
}

/// Reads a whole image by its terminators.
pub fn check_terminators(image: &[u8]) -> Result<Image, Refusal> {
    // SAFETY: as above.
    overview(unsafe { ffi::moldthatch_check_terminators(image.as_ptr(), image.len()) })
}

/// The line at an offset, by its link; none at the end. The first line stands at offset 2.
pub fn step(image: &[u8], offset: usize) -> Result<Option<Line>, Refusal> {
    // SAFETY: as above.
    line(unsafe { ffi::moldthatch_step(image.as_ptr(), image.len(), offset) })
}

/// The same by its terminator.
pub fn step_terminators(image: &[u8], offset: usize) -> Result<Option<Line>, Refusal> {
    // SAFETY: as above.
    line(unsafe { ffi::moldthatch_step_terminators(image.as_ptr(), image.len(), offset) })
}

/// A line that was looked for, and how many lines were looked at.
#[derive(Debug, Clone, Copy, PartialEq, Eq)]
pub struct Sought {
    pub line: Option<Line>,
    pub visited: usize,
}

/// The first line with a number, by links, over at most so many lines.
pub fn find_line(image: &[u8], number: u16, limit: usize) -> Result<Sought, Refusal> {
    // SAFETY: as above.
    let told = unsafe { ffi::moldthatch_find_line(image.as_ptr(), image.len(), number, limit) };
    let visited = told.code.first;
    Ok(Sought {
        line: line(told)?,
        visited,
    })
}

/// Writes the line index of an image into the start of a buffer, and answers its length.
pub fn index(image: &[u8], out: &mut [u8]) -> Result<usize, Refusal> {
    // SAFETY: as above.
    length(unsafe {
        ffi::moldthatch_index(image.as_ptr(), image.len(), out.as_mut_ptr(), out.len())
    })
}

/// Writes the report of an image's jumps to lines that it does not have, as [`index`] does.
pub fn index_report(image: &[u8], out: &mut [u8]) -> Result<usize, Refusal> {
    // SAFETY: as above.
    length(unsafe {
        ffi::moldthatch_index_report(image.as_ptr(), image.len(), out.as_mut_ptr(), out.len())
    })
}

/// A line of an index.
#[derive(Debug, Clone, Copy, PartialEq, Eq)]
pub struct IndexLine {
    pub number: usize,
    /// The offset of its link in the image.
    pub offset: usize,
}

/// A jump of an index.
#[derive(Debug, Clone, Copy, PartialEq, Eq)]
pub struct IndexJump {
    /// Its line's place, from 1.
    pub place: usize,
    pub target: usize,
}

/// The line at a place of an index, from 1.
pub fn index_line(place: usize, index: &[u8]) -> Option<IndexLine> {
    // SAFETY: as above.
    let code = unsafe { ffi::moldthatch_index_line(place, index.as_ptr(), index.len()) };
    two(code).map(|(number, offset)| IndexLine { number, offset })
}

/// The jump at a place of an index, from 1.
pub fn index_jump(place: usize, index: &[u8]) -> Option<IndexJump> {
    // SAFETY: as above.
    let code = unsafe { ffi::moldthatch_index_jump(place, index.as_ptr(), index.len()) };
    two(code).map(|(place, target)| IndexJump { place, target })
}

/// The place of the first line with a number, from 1, and the offset of its link.
pub fn index_look_up(number: usize, index: &[u8]) -> Option<(usize, usize)> {
    // SAFETY: as above.
    two(unsafe { ffi::moldthatch_index_look_up(number, index.as_ptr(), index.len()) })
}

/// What the machine makes of an image's links after loading it.
#[derive(Debug, Clone, Copy, PartialEq, Eq)]
pub enum Relinked {
    Same,
    /// The first line whose link is changed, and its new link.
    Changed {
        offset: usize,
        link: u16,
    },
    /// The routine leaves the image: what it does then is unknown.
    Leaves,
    /// The routine never ends.
    Endless,
}

pub fn relink(image: &[u8]) -> Result<Relinked, Refusal> {
    // SAFETY: as above.
    let code = unsafe { ffi::moldthatch_relink(image.as_ptr(), image.len()) };
    answered(code)?;
    Ok(match (code.count, code.first) {
        (0, _) => Relinked::Same,
        (2, offset) => Relinked::Changed {
            offset,
            link: code.second as u16,
        },
        (_, 0) => Relinked::Leaves,
        _ => Relinked::Endless,
    })
}

/// Counts of words over up to 1,000 images. A token's count stands at its own number, that of a TSB word at the byte behind 64.
#[derive(Debug, Clone, PartialEq, Eq)]
pub struct Totals([u64; 206]);

impl Default for Totals {
    fn default() -> Self {
        Totals([0; 206])
    }
}

impl Totals {
    pub fn counts(&self) -> &[u64; 206] {
        &self.0
    }

    /// Takes one more image: `Some` refusal where it is counted apart. The 1,001st is refused.
    pub fn add(&mut self, image: &[u8]) -> Result<Option<Refusal>, Refusal> {
        // SAFETY: as above.
        let code = unsafe {
            ffi::moldthatch_count(
                self.0.as_mut_ptr(),
                self.0.len(),
                image.as_ptr(),
                image.len(),
            )
        };
        answered(code)?;
        Ok(match code.first {
            0 => None,
            number => Some(Refusal::from_code(number as u8, 0, 0)),
        })
    }

    /// Joins other totals. More than 1,000 images together are refused.
    pub fn join(&mut self, other: &Totals) -> Result<(), Refusal> {
        // SAFETY: as above.
        answered(unsafe {
            ffi::moldthatch_count_join(
                self.0.as_mut_ptr(),
                self.0.len(),
                other.0.as_ptr(),
                other.0.len(),
            )
        })
    }

    /// The totals that these numbers are, where images can give them.
    pub fn of(numbers: [u64; 206]) -> Option<Self> {
        // SAFETY: as above.
        unsafe { ffi::moldthatch_count_are_totals(numbers.as_ptr(), numbers.len()) }
            .then_some(Totals(numbers))
    }

    /// The tokens that are counted, by their places from 0; none behind the last.
    pub fn token_at(place: usize) -> Option<u8> {
        let token = ffi::moldthatch_count_token_at(place);
        (token != 0).then_some(token)
    }

    /// How many words are counted.
    pub fn tokens(&self) -> u64 {
        // SAFETY: as above.
        unsafe { ffi::moldthatch_count_tokens(self.0.as_ptr(), self.0.len()) }
    }

    /// The share of a token in thousandths, rounded down.
    pub fn share(&self, token: u8) -> u64 {
        // SAFETY: as above.
        unsafe { ffi::moldthatch_count_share(self.0.as_ptr(), self.0.len(), token) }
    }
}

/// What makes a program unfit for the master. A number is that of the line.
#[derive(Debug, Clone, Copy, PartialEq, Eq)]
pub enum Fault {
    /// It does not lie within 0x0801 to 0x9FFF.
    OutsideMemory {
        load: u16,
        length: usize,
    },
    /// A number above 63999.
    NumberTooHigh {
        number: u16,
    },
    NotAscending {
        number: u16,
    },
    /// The address of the body's first zero.
    ZeroInBody {
        number: u16,
        address: usize,
    },
    /// A body that has not 1 to 250 bytes.
    BodyLength {
        number: u16,
        length: usize,
    },
    /// No line has the target of a jump.
    NoTarget {
        number: u16,
        target: usize,
    },
    /// The machine gives the line another link.
    LinkChanges {
        number: u16,
        link: u16,
    },
    /// The machine leaves the program when it links it.
    LinksLeave,
    /// The machine never ends linking it.
    LinksEndless,
}

/// The faults of an image, one after the other.
#[derive(Debug, Clone)]
pub struct Faults<'a> {
    image: &'a [u8],
    marked: Vec<u8>,
    place: ffi::Walk,
}

/// What makes a program unfit for the master. Where [`check`] refuses the image, faults of lines behind are not found.
pub fn faults(image: &[u8]) -> Faults<'_> {
    let mut marked = vec![0; 65_536];
    // SAFETY: as above.
    unsafe {
        ffi::moldthatch_mark_numbers(
            image.as_ptr(),
            image.len(),
            marked.as_mut_ptr(),
            marked.len(),
        )
    };
    Faults {
        image,
        marked,
        place: ffi::moldthatch_fault_start(),
    }
}

impl Iterator for Faults<'_> {
    type Item = Fault;

    fn next(&mut self) -> Option<Fault> {
        // SAFETY: as above.
        let told = unsafe {
            ffi::moldthatch_next_fault(
                self.image.as_ptr(),
                self.image.len(),
                self.marked.as_ptr(),
                self.marked.len(),
                self.place,
            )
        };
        self.place = told.place;
        let number = told.first as u16;
        let second = told.second;
        Some(match told.kind {
            1 => Fault::OutsideMemory {
                load: number,
                length: second,
            },
            2 => Fault::NumberTooHigh { number },
            3 => Fault::NotAscending { number },
            4 => Fault::ZeroInBody {
                number,
                address: second,
            },
            5 => Fault::BodyLength {
                number,
                length: second,
            },
            6 => Fault::NoTarget {
                number,
                target: second,
            },
            7 => Fault::LinkChanges {
                number,
                link: second as u16,
            },
            8 => Fault::LinksLeave,
            9 => Fault::LinksEndless,
            _ => return None,
        })
    }
}

/// The SHA-256 of any bytes.
pub fn sha256(bytes: &[u8]) -> [u8; 32] {
    let mut out = [0; 32];
    // SAFETY: as above. A buffer of this length is always long enough.
    unsafe {
        ffi::moldthatch_sha256(bytes.as_ptr(), bytes.len(), out.as_mut_ptr(), out.len());
    }
    out
}

/// A disk image (D64). Each call but [`Disk::format`] checks it first, and a refusal changes no byte of it. A name has 1 to 16
/// bytes, none of them A0.
pub struct Disk<B> {
    bytes: B,
}

/// Stores the name that a text stands for, with `{xx}` for any byte, at the start of a buffer, as much of it as fits, and answers
/// how many bytes that are.
pub fn disk_name(text: &[u8], out: &mut [u8]) -> usize {
    // SAFETY: as above.
    unsafe { ffi::moldthatch_disk_name(text.as_ptr(), text.len(), out.as_mut_ptr(), out.len()) }
}

/// What a disk holds.
#[derive(Debug, Clone, Copy, PartialEq, Eq)]
pub struct Holding {
    pub files: usize,
    pub free_sectors: usize,
}

impl Disk<Vec<u8>> {
    /// A disk without files.
    pub fn fresh() -> Self {
        let mut disk = Disk::of(vec![0; DISK_LENGTH]);
        // A disk of this length is always formatted.
        let _ = disk.format();
        disk
    }
}

impl<B: AsRef<[u8]>> Disk<B> {
    /// The disk that these bytes are, whatever they hold.
    pub fn of(bytes: B) -> Self {
        Disk { bytes }
    }

    pub fn bytes(&self) -> &[u8] {
        self.bytes.as_ref()
    }

    /// Stores the directory as a text at the start of a buffer, as much of it as fits, and answers how many bytes that are.
    pub fn directory(&self, out: &mut [u8]) -> Result<usize, Refusal> {
        let disk = self.bytes();
        // SAFETY: as above.
        length(unsafe {
            ffi::moldthatch_disk_directory(disk.as_ptr(), disk.len(), out.as_mut_ptr(), out.len())
        })
    }

    pub fn check(&self) -> Result<Holding, Refusal> {
        let disk = self.bytes();
        // SAFETY: as above.
        let code = unsafe { ffi::moldthatch_disk_check(disk.as_ptr(), disk.len()) };
        answered(code)?;
        Ok(Holding {
            files: code.first,
            free_sectors: code.second,
        })
    }

    /// Reads the file of a name into the start of a buffer, and answers its length.
    pub fn read_into(&self, name: &[u8], out: &mut [u8]) -> Result<usize, Refusal> {
        let disk = self.bytes();
        // SAFETY: as above.
        length(unsafe {
            ffi::moldthatch_disk_read(
                disk.as_ptr(),
                disk.len(),
                name.as_ptr(),
                name.len(),
                out.as_mut_ptr(),
                out.len(),
            )
        })
    }

    /// The bytes of the file of a name.
    pub fn read(&self, name: &[u8]) -> Result<Vec<u8>, Refusal> {
        let mut out = vec![0; DISK_LENGTH];
        let length = self.read_into(name, &mut out)?;
        out.truncate(length);
        Ok(out)
    }
}

impl<B: AsMut<[u8]>> Disk<B> {
    /// Makes it a disk without files.
    pub fn format(&mut self) -> Result<(), Refusal> {
        let disk = self.bytes.as_mut();
        // SAFETY: as above.
        answered(unsafe { ffi::moldthatch_disk_format(disk.as_mut_ptr(), disk.len()) })
    }

    /// Saves an image under a name that no file of the disk has.
    pub fn save(&mut self, name: &[u8], image: &[u8]) -> Result<(), Refusal> {
        let disk = self.bytes.as_mut();
        // SAFETY: as above.
        answered(unsafe {
            ffi::moldthatch_disk_save(
                disk.as_mut_ptr(),
                disk.len(),
                name.as_ptr(),
                name.len(),
                image.as_ptr(),
                image.len(),
            )
        })
    }

    pub fn scratch(&mut self, name: &[u8]) -> Result<(), Refusal> {
        let disk = self.bytes.as_mut();
        // SAFETY: as above.
        answered(unsafe {
            ffi::moldthatch_disk_scratch(disk.as_mut_ptr(), disk.len(), name.as_ptr(), name.len())
        })
    }
}

fn length(code: ffi::Code) -> Result<usize, Refusal> {
    answered(code)?;
    Ok(code.first)
}

fn overview(code: ffi::Code) -> Result<Image, Refusal> {
    answered(code)?;
    Ok(Image {
        load: code.first as u16,
        lines: code.second,
    })
}

fn dialect(code: ffi::Code) -> Result<Dialect, Refusal> {
    answered(code)?;
    Ok(match code.first {
        0 => Dialect::Auto,
        1 => Dialect::BasicV2,
        2 => Dialect::Tsb,
        _ => Dialect::Basic35,
    })
}

fn line(told: ffi::Line) -> Result<Option<Line>, Refusal> {
    answered(told.code)?;
    Ok((told.found != 0).then_some(Line {
        number: told.number,
        link: told.link,
        address: told.address,
        from: told.from,
        to: told.to,
        next: told.next,
    }))
}

impl From<Options> for ffi::CrunchOptions {
    fn from(options: Options) -> Self {
        ffi::CrunchOptions {
            load: options.load,
            dialect: options.dialect as u8,
            profile: options.profile.into(),
            short_forms: options.short_forms.into(),
        }
    }
}

impl From<ListOptions> for ffi::ListOptions {
    fn from(options: ListOptions) -> Self {
        ffi::ListOptions {
            dialect: options.dialect as u8,
            remarks: options.remarks.into(),
            links: options.links.into(),
        }
    }
}

fn two(code: ffi::Code) -> Option<(usize, usize)> {
    (code.count == 2).then_some((code.first, code.second))
}

fn answered(code: ffi::Code) -> Result<(), Refusal> {
    match code.number {
        0 => Ok(()),
        number => Err(Refusal::from_code(number, code.first, code.second)),
    }
}

/// The calls as the library exports them; moldthatch.h says the same for C.
mod ffi {
    #[repr(C)]
    #[derive(Clone, Copy)]
    pub struct Code {
        pub number: u8,
        pub count: usize,
        pub first: usize,
        pub second: usize,
    }

    #[repr(C)]
    pub struct CrunchOptions {
        pub load: u16,
        pub dialect: u8,
        pub profile: u8,
        pub short_forms: u8,
    }

    #[repr(C)]
    pub struct ListOptions {
        pub dialect: u8,
        pub remarks: u8,
        pub links: u8,
    }

    #[repr(C)]
    pub struct Line {
        pub code: Code,
        pub found: u8,
        pub link: u16,
        pub number: u16,
        pub address: usize,
        pub from: usize,
        pub to: usize,
        pub next: usize,
    }

    #[repr(C)]
    #[derive(Debug, Clone, Copy, PartialEq, Eq)]
    pub struct Place {
        pub kind: u8,
        pub mode: u8,
        pub number: u16,
        pub at: usize,
    }

    #[repr(C)]
    pub struct Stretch {
        pub code: Code,
        pub place: Place,
    }

    #[repr(C)]
    #[derive(Debug, Clone, Copy)]
    pub struct Walk {
        pub stage: u8,
        pub mode: u8,
        pub listed: u8,
        pub begun: u8,
        pub at: usize,
        pub value: usize,
        pub offset: usize,
        pub least: usize,
    }

    #[repr(C)]
    pub struct Fault {
        pub kind: u8,
        pub first: usize,
        pub second: usize,
        pub place: Walk,
    }

    #[link(name = "moldthatch", kind = "static")]
    unsafe extern "C" {
        pub fn moldthatch_crunch(
            text: *const u8,
            text_length: usize,
            load: u16,
            dialect: u8,
            out: *mut u8,
            out_length: usize,
        ) -> Code;
        pub fn moldthatch_crunch_room(
            text: *const u8,
            text_length: usize,
            load: u16,
            dialect: u8,
        ) -> Code;
        pub fn moldthatch_crunch_with(
            text: *const u8,
            text_length: usize,
            options: CrunchOptions,
            out: *mut u8,
            out_length: usize,
        ) -> Code;
        pub fn moldthatch_crunch_with_room(
            text: *const u8,
            text_length: usize,
            options: CrunchOptions,
        ) -> Code;
        pub fn moldthatch_measured_line(
            text: *const u8,
            text_length: usize,
            options: CrunchOptions,
            place: usize,
        ) -> Line;
        pub fn moldthatch_origins(
            text: *const u8,
            text_length: usize,
            out: *mut usize,
            out_length: usize,
        ) -> usize;
        pub fn moldthatch_dialect_by_name(word: *const u8, word_length: usize) -> Code;
        pub safe fn moldthatch_default_load(dialect: u8) -> Code;
        pub fn moldthatch_resolved_dialect(
            text: *const u8,
            text_length: usize,
            dialect: u8,
        ) -> Code;
        pub fn moldthatch_is_tsb_word(word: *const u8, word_length: usize) -> bool;
        pub fn moldthatch_escape(inside: *const u8, inside_length: usize) -> Code;
        pub fn moldthatch_list(
            image: *const u8,
            image_length: usize,
            out: *mut u8,
            out_length: usize,
        ) -> Code;
        pub fn moldthatch_list_room(image: *const u8, image_length: usize) -> Code;
        pub fn moldthatch_list_under(
            image: *const u8,
            image_length: usize,
            dialect: u8,
            out: *mut u8,
            out_length: usize,
        ) -> Code;
        pub fn moldthatch_list_under_room(
            image: *const u8,
            image_length: usize,
            dialect: u8,
        ) -> Code;
        pub fn moldthatch_list_with(
            image: *const u8,
            image_length: usize,
            options: ListOptions,
            out: *mut u8,
            out_length: usize,
        ) -> Code;
        pub fn moldthatch_list_with_room(
            image: *const u8,
            image_length: usize,
            options: ListOptions,
        ) -> Code;
        pub fn moldthatch_list_stretch(
            body: *const u8,
            body_length: usize,
            options: ListOptions,
            place: Place,
            out: *mut u8,
            out_length: usize,
        ) -> Stretch;
        pub fn moldthatch_check(image: *const u8, image_length: usize) -> Code;
        pub fn moldthatch_check_terminators(image: *const u8, image_length: usize) -> Code;
        pub fn moldthatch_step(image: *const u8, image_length: usize, offset: usize) -> Line;
        pub fn moldthatch_step_terminators(
            image: *const u8,
            image_length: usize,
            offset: usize,
        ) -> Line;
        pub fn moldthatch_find_line(
            image: *const u8,
            image_length: usize,
            number: u16,
            limit: usize,
        ) -> Line;
        pub fn moldthatch_index(
            image: *const u8,
            image_length: usize,
            out: *mut u8,
            out_length: usize,
        ) -> Code;
        pub fn moldthatch_index_report(
            image: *const u8,
            image_length: usize,
            out: *mut u8,
            out_length: usize,
        ) -> Code;
        pub fn moldthatch_index_line(place: usize, index: *const u8, index_length: usize) -> Code;
        pub fn moldthatch_index_jump(place: usize, index: *const u8, index_length: usize) -> Code;
        pub fn moldthatch_index_look_up(
            number: usize,
            index: *const u8,
            index_length: usize,
        ) -> Code;
        pub fn moldthatch_relink(image: *const u8, image_length: usize) -> Code;
        pub fn moldthatch_count(
            totals: *mut u64,
            totals_length: usize,
            image: *const u8,
            image_length: usize,
        ) -> Code;
        pub fn moldthatch_count_join(
            totals: *mut u64,
            totals_length: usize,
            other: *const u64,
            other_length: usize,
        ) -> Code;
        pub fn moldthatch_count_tokens(totals: *const u64, totals_length: usize) -> u64;
        pub fn moldthatch_count_share(totals: *const u64, totals_length: usize, token: u8) -> u64;
        pub fn moldthatch_count_are_totals(totals: *const u64, totals_length: usize) -> bool;
        pub safe fn moldthatch_count_token_at(place: usize) -> u8;
        pub fn moldthatch_mark_numbers(
            image: *const u8,
            image_length: usize,
            marked: *mut u8,
            marked_length: usize,
        );
        pub safe fn moldthatch_fault_start() -> Walk;
        pub fn moldthatch_next_fault(
            image: *const u8,
            image_length: usize,
            marked: *const u8,
            marked_length: usize,
            place: Walk,
        ) -> Fault;
        pub fn moldthatch_disk_format(disk: *mut u8, disk_length: usize) -> Code;
        pub fn moldthatch_disk_save(
            disk: *mut u8,
            disk_length: usize,
            name: *const u8,
            name_length: usize,
            image: *const u8,
            image_length: usize,
        ) -> Code;
        pub fn moldthatch_disk_read(
            disk: *const u8,
            disk_length: usize,
            name: *const u8,
            name_length: usize,
            out: *mut u8,
            out_length: usize,
        ) -> Code;
        pub fn moldthatch_disk_scratch(
            disk: *mut u8,
            disk_length: usize,
            name: *const u8,
            name_length: usize,
        ) -> Code;
        pub fn moldthatch_disk_check(disk: *const u8, disk_length: usize) -> Code;
        pub fn moldthatch_disk_directory(
            disk: *const u8,
            disk_length: usize,
            out: *mut u8,
            out_length: usize,
        ) -> Code;
        pub fn moldthatch_disk_name(
            text: *const u8,
            text_length: usize,
            out: *mut u8,
            out_length: usize,
        ) -> usize;
        pub fn moldthatch_sha256(
            bytes: *const u8,
            bytes_length: usize,
            out: *mut u8,
            out_length: usize,
        ) -> Code;
        pub fn moldthatch_sentence(
            number: u8,
            first: usize,
            second: usize,
            out: *mut u8,
            out_length: usize,
        ) -> usize;
    }
}
