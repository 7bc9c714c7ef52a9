//! The library's calls as document 01 names them, each answered by the original.

use crate::basic35;
use crate::calls::Reader;
use crate::corrections;
use crate::dialects::Dialect;
use crate::domain;
use crate::formed;
use crate::links;
use crate::prg::Program;
use crate::profile;
use crate::refusal::Refusal;
use crate::source;
use crate::tokens;

/// What checking a whole image answers.
pub struct Checked {
    pub load_address: u16,
    pub line_count: u64,
}

/// The line that one step of a reader finds.
pub struct Step {
    pub link: u16,
    pub number: u16,
    pub next: u64,
    pub body: Vec<u8>,
}

/// What a text is crunched with.
#[derive(Debug, Clone, Copy)]
pub struct CrunchOptions {
    pub load: u16,
    pub dialect: Dialect,
    /// Short forms of words are taken.
    pub forms: bool,
    /// Only what the machine can be given is taken.
    pub profile: bool,
}

impl CrunchOptions {
    /// With nothing that has to be asked for.
    pub fn none(load: u16, dialect: Dialect) -> CrunchOptions {
        CrunchOptions {
            load,
            dialect,
            forms: false,
            profile: false,
        }
    }
}

pub fn crunch(load: u16, dialect: Dialect, text: &[u8]) -> Result<Vec<u8>, Refusal> {
    crunch_with(CrunchOptions::none(load, dialect), text)
}

pub fn crunch_with(options: CrunchOptions, text: &[u8]) -> Result<Vec<u8>, Refusal> {
    let CrunchOptions { load, forms, .. } = options;
    if options.profile {
        profile::check(options, text)?;
    }
    let Some(dialect) = options.dialect.original() else {
        return basic35::crunch(load, forms, text);
    };
    let text = domain::text(text)?;
    let crunched = |text: &str| -> Result<Vec<u8>, Refusal> {
        Ok(match forms {
            true => formed::tokenize_program_at_with(text, load, dialect)?,
            false => source::tokenize_program_at_with(text, load, dialect)?,
        })
    };
    if let Some(cut) = domain::with_counts_cut(text)
        && let Err(Refusal::AddressOverflow) = crunched(&cut)
    {
        return Err(Refusal::AddressOverflow);
    }
    let image = crunched(text)?;
    match corrections::with_clear(text, &image, |text| crunched(text).ok()) {
        Some(corrected) => crunched(&corrected),
        None => Ok(image),
    }
}

pub fn resolved_dialect(dialect: Dialect, text: &[u8]) -> Result<Dialect, Refusal> {
    let text = domain::text(text)?;
    Ok(match dialect.original() {
        Some(dialect) => source::resolved_dialect(text, dialect).into(),
        None => dialect,
    })
}

pub fn dialect_by_name(word: &[u8]) -> Result<Dialect, Refusal> {
    let name = domain::dialect_name(word)?;
    if name.trim().eq_ignore_ascii_case("basic35") {
        return Ok(Dialect::Basic35);
    }
    let found = tokens::Dialect::parse(name).map_err(|_| Refusal::UnknownDialect)?;
    Ok(found.into())
}

pub fn is_tsb_word(word: &[u8]) -> bool {
    tokens::is_tsb_keyword_name(word)
}

pub fn check(by: Reader, image: &[u8]) -> Result<Checked, Refusal> {
    let image = domain::image(image)?;
    match by {
        Reader::Links => links::check(image),
        Reader::Terminators => {
            let program = Program::parse(image)?;
            Ok(Checked {
                load_address: program.load_address,
                line_count: program.lines.len() as u64,
            })
        }
    }
}

pub fn step(by: Reader, offset: u64, image: &[u8]) -> Result<Option<Step>, Refusal> {
    let image = domain::image(image)?;
    match by {
        Reader::Links => links::step(image, offset),
        Reader::Terminators => step_by_terminators(image, offset),
    }
}

pub fn listing(image: &[u8]) -> Result<String, Refusal> {
    Ok(Program::parse(domain::image(image)?)?.detokenize())
}

/// The original parses whole images only. So the one line at the offset is given
/// to it as an image: the load address, and the line up to its terminator.
fn step_by_terminators(image: &[u8], offset: u64) -> Result<Option<Step>, Refusal> {
    let load_address = image.get(..2).ok_or(Refusal::TooShort)?;
    let at = usize::try_from(offset).unwrap_or(usize::MAX);
    let line = first_line(image.get(at..).unwrap_or_default());
    let program = Program::parse(&[load_address, line].concat())?;
    Ok(program.lines.into_iter().next().map(|parsed| Step {
        link: parsed.next_ptr,
        number: parsed.number,
        next: offset + line.len() as u64,
        body: parsed.body,
    }))
}

/// The bytes up to the first 00 behind link and number, that 00 included.
fn first_line(bytes: &[u8]) -> &[u8] {
    let body = bytes.get(4..).unwrap_or_default();
    match body.iter().position(|&byte| byte == 0) {
        Some(length) => &bytes[..4 + length + 1],
        None => bytes,
    }
}
