//! Listings under a dialect, in the second mode and by links: models over the original.
//!
//! Written from document 02, No. 5 and 6. The original lists whatever has no remark of the
//! second mode in it; the parts that it would list otherwise are kept from it.

use crate::basic35;
use crate::calls::Reader;
use crate::dialects::Dialect;
use crate::domain;
use crate::links;
use crate::petscii;
use crate::prg::{Line, Program};
use crate::refusal::Refusal;
use crate::tokens::TSB_PREFIX;

const QUOTE: u8 = 0x22;
const REMARK: u8 = 0x8F;

/// How an image is to be listed.
#[derive(Debug, Clone, Copy)]
pub struct ListOptions {
    pub dialect: Dialect,
    /// The second mode.
    pub remarks: bool,
    pub by: Reader,
}

pub fn listing(options: ListOptions, image: &[u8]) -> Result<String, Refusal> {
    let lines = lines(options.by, domain::image(image)?)?;
    Ok(lines
        .iter()
        .map(|(number, body)| format!("{number} {}\n", body_text(options, body)))
        .collect())
}

fn lines(by: Reader, image: &[u8]) -> Result<Vec<(u16, Vec<u8>)>, Refusal> {
    if by == Reader::Terminators {
        let lines = Program::parse(image)?.lines;
        return Ok(lines.into_iter().map(|l| (l.number, l.body)).collect());
    }
    let mut lines = Vec::new();
    let mut at = 2;
    while let Some(line) = links::step(image, at)? {
        lines.push((line.number, line.body));
        at = line.next;
    }
    Ok(lines)
}

fn body_text(options: ListOptions, body: &[u8]) -> String {
    let is_basic35 = options.dialect == Dialect::Basic35;
    if !options.remarks {
        return match is_basic35 {
            true => with_words(body),
            false => original(body),
        };
    }
    let has_prefix = matches!(options.dialect, Dialect::Auto | Dialect::Tsb);
    let (before, remark) = body.split_at(remark_start(body, has_prefix));
    let listed = match has_prefix {
        true => original(before),
        false if is_basic35 => with_words(before),
        false => without_prefix(before),
    };
    listed
        + &remark
            .iter()
            .map(|&byte| remark_text(byte))
            .collect::<String>()
}

/// Where a remark starts, behind its token: at the body's end if there is none.
fn remark_start(body: &[u8], has_prefix: bool) -> usize {
    let mut quoted = false;
    let mut at = 0;
    while at < body.len() {
        match body[at] {
            QUOTE => quoted = !quoted,
            TSB_PREFIX if has_prefix && !quoted => at += 1,
            REMARK if !quoted => return at + 1,
            _ => {}
        }
        at += 1;
    }
    body.len()
}

/// What the original lists with every unquoted 64 taken for a character.
fn without_prefix(body: &[u8]) -> String {
    let mut quoted = false;
    let parts = body.split(|&byte| {
        quoted ^= byte == QUOTE;
        byte == TSB_PREFIX && !quoted
    });
    let parts: Vec<String> = parts.map(original).collect();
    parts.join(&petscii::byte_to_string(TSB_PREFIX))
}

/// The listing under BASIC 3.5, byte by byte: no byte takes another with it.
fn with_words(body: &[u8]) -> String {
    let mut quoted = false;
    let mut listed = String::new();
    for &byte in body {
        listed += &match byte {
            _ if quoted => original(&[QUOTE, byte])[1..].to_string(),
            TSB_PREFIX => petscii::byte_to_string(byte),
            _ => basic35::word(byte).map_or_else(|| original(&[byte]), str::to_string),
        };
        quoted ^= byte == QUOTE;
    }
    listed
}

fn remark_text(byte: u8) -> String {
    match byte {
        b'a'..=b'z' => char::from(byte).to_string(),
        _ => petscii::byte_to_string(byte),
    }
}

/// A body as the original lists it.
fn original(body: &[u8]) -> String {
    let program = Program {
        load_address: 0,
        lines: vec![Line {
            next_ptr: 0,
            number: 0,
            body: body.to_vec(),
        }],
    };
    let line = program.detokenize();
    line["0 ".len()..line.len() - "\n".len()].to_string()
}
