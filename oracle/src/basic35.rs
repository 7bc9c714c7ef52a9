//! Crunching under BASIC 3.5, and its words: a model of our own.
//!
//! Written from document 02, No. 5, document 01's rules of lines and modes, and the
//! two machines' words in facts/; short forms are those of `forms`. The original is
//! asked what an escape gives, and nothing else.

use std::sync::LazyLock;

use crate::dialects::Dialect;
use crate::domain::{self, PI};
use crate::forms;
use crate::library;
use crate::refusal::Refusal;

const QUOTE: u8 = 0x22;
const REMARK: u8 = 0x8F;
const DATA: u8 = 0x83;

/// A word and its token.
type Word = (&'static str, u8);

/// The words of BASIC V2 in document 01's order, the operators among them.
static V2_WORDS: LazyLock<Vec<Word>> =
    LazyLock::new(|| words_of(include_str!("../../facts/rom-words.tsv")));

/// The words that BASIC 3.5 adds.
pub static WORDS: LazyLock<Vec<Word>> =
    LazyLock::new(|| words_of(include_str!("../../facts/basic35-words.tsv")));

fn words_of(rows: &'static str) -> Vec<Word> {
    let rows = rows.lines().filter(|row| !row.starts_with("# "));
    rows.map(|row| {
        let (token, word) = row.split_once('\t').expect("a row is a token and a word");
        let token = u8::from_str_radix(token, 16).expect("a token is two digits");
        (word, token)
    })
    .collect()
}

/// The word of a token of BASIC 3.5.
pub fn word(token: u8) -> Option<&'static str> {
    let found = WORDS.iter().find(|(_, own)| *own == token);
    found.map(|&(word, _)| word)
}

#[derive(Clone, Copy)]
enum Mode {
    Plain,
    Text,
    Remark,
    Data,
    QuotedData,
}

pub fn crunch(load: u16, forms: bool, text: &[u8]) -> Result<Vec<u8>, Refusal> {
    let text = domain::text(text)?
        .replace("\r\n", "\n")
        .replace('\r', "\n");
    let mut image = load.to_le_bytes().to_vec();
    for (line, text) in (1..).zip(text.split('\n')) {
        let text = text.trim_matches(['\t', '\n', '\x0B', '\x0C', '\r', ' ']);
        if text.is_empty() {
            continue;
        }
        let behind = text.trim_start_matches(|letter: char| letter.is_ascii_digit());
        let number = line_number(line, &text[..text.len() - behind.len()])?;
        let body = body(forms, behind.trim_start_matches(' ').as_bytes())?;
        let link = usize::from(load) + image.len() - 2 + body.len() + 5;
        let link = u16::try_from(link).map_err(|_| Refusal::AddressOverflow)?;
        image.extend(link.to_le_bytes());
        image.extend(number.to_le_bytes());
        image.extend(body);
        image.push(0);
    }
    image.extend([0, 0]);
    Ok(image)
}

fn line_number(text_line: u64, digits: &str) -> Result<u16, Refusal> {
    if digits.is_empty() {
        return Err(Refusal::MissingLineNumber { text_line });
    }
    let value = digits.parse().unwrap_or(u32::MAX);
    u16::try_from(value).map_err(|_| Refusal::LineNumberOutOfRange {
        text_line,
        value: value.into(),
    })
}

fn body(forms: bool, text: &[u8]) -> Result<Vec<u8>, Refusal> {
    let mut body = Vec::new();
    let mut mode = Mode::Plain;
    let mut at = 0;
    while at < text.len() {
        let (used, bytes, next) = step(forms, mode, &text[at..])?;
        body.extend(bytes);
        mode = next;
        at += used;
    }
    Ok(body)
}

/// How many bytes of the text are taken, what they give, and the mode behind them.
fn step(forms: bool, mode: Mode, text: &[u8]) -> Result<(usize, Vec<u8>, Mode), Refusal> {
    let byte = text[0];
    let raised = byte.to_ascii_uppercase();
    let one = |byte, mode| Ok((1, vec![byte], mode));
    match (mode, byte) {
        (Mode::Plain, QUOTE) => one(QUOTE, Mode::Text),
        (Mode::Plain, _) => Ok(plain_step(forms, text)),
        (Mode::Text, b'{') => match escape(&text[1..])? {
            Some((used, bytes)) => Ok((used, bytes, Mode::Text)),
            None => one(byte, Mode::Text),
        },
        (Mode::Text, QUOTE) => one(QUOTE, Mode::Plain),
        (Mode::Text, b'A'..=b'Z') => one(byte + 0x80, Mode::Text),
        (Mode::Text, _) => one(raised, Mode::Text),
        (Mode::Remark, _) => one(byte, Mode::Remark),
        (Mode::Data, QUOTE) => one(QUOTE, Mode::QuotedData),
        (Mode::Data, b':') => one(byte, Mode::Plain),
        (Mode::Data, _) => one(raised, Mode::Data),
        (Mode::QuotedData, QUOTE) => one(QUOTE, Mode::Data),
        (Mode::QuotedData, _) => one(raised, Mode::QuotedData),
    }
}

fn plain_step(forms: bool, text: &[u8]) -> (usize, Vec<u8>, Mode) {
    let short_form = || forms::short_form(&V2_WORDS, text).filter(|_| forms);
    if let Some((used, token)) = longest_word(text).or_else(short_form) {
        let mode = match token {
            REMARK => Mode::Remark,
            DATA => Mode::Data,
            _ => Mode::Plain,
        };
        return (used, vec![token], mode);
    }
    match text {
        text if text.starts_with(&PI) => (PI.len(), vec![0xFF], Mode::Plain),
        [b'?', ..] => (1, vec![0x99], Mode::Plain),
        [byte, ..] => (1, vec![byte.to_ascii_uppercase()], Mode::Plain),
        [] => (0, vec![], Mode::Plain),
    }
}

/// The length and the token of the longest word of both lists at the text's front.
fn longest_word(text: &[u8]) -> Option<(usize, u8)> {
    let matches = |&&(word, _): &&Word| {
        let front = text.get(..word.len());
        front.is_some_and(|front| front.eq_ignore_ascii_case(word.as_bytes()))
    };
    let words = V2_WORDS.iter().chain(WORDS.iter()).filter(matches);
    let longest = words.max_by_key(|(word, _)| word.len());
    longest.map(|&(word, token)| (word.len(), token))
}

/// What a brace and the text behind it give, if that is a known escape: how many
/// bytes it takes with its braces, and the bytes. The original says so: a string of
/// the escape alone gives one byte, repeated; of an unknown one it gives the braces.
fn escape(behind: &[u8]) -> Result<Option<(usize, Vec<u8>)>, Refusal> {
    let Some(length) = behind.iter().position(|&byte| byte == b'}') else {
        return Ok(None);
    };
    let asked = [b"1\"{", &behind[..=length]].concat();
    let image = library::crunch(0, Dialect::BasicV2, &asked)?;
    let bytes = &image[7..image.len() - 3];
    let known = bytes.iter().all(|&byte| byte == bytes[0]);
    Ok(known.then(|| (length + 2, bytes.to_vec())))
}
