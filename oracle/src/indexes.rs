//! The line index, its look-up and its entries: a model, and no original.
//!
//! Written from document 02, No. 13: an index is made and read bit by bit.

use crate::domain;
use crate::links;
use crate::refusal::Refusal;

const MOST_LINES: usize = 8_191;

/// What an index holds at a place: two numbers.
pub type Pair = (u64, u64);

/// Lines as number and link offset, jumps as place and target.
struct Entries {
    lines: Vec<Pair>,
    jumps: Vec<Pair>,
}

/// The index of an image.
pub fn index(image: &[u8]) -> Result<Vec<u8>, Refusal> {
    let found = entries(image)?;
    let mut bits = field(16, found.lines.len() as u64);
    for &(number, offset) in &found.lines {
        bits.extend([field(16, number), field(16, offset)].concat());
    }
    bits.extend(found.jumps.iter().flat_map(jump_bits));
    Ok(packed(&bits))
}

/// The jumps of an image whose target no line has.
pub fn report(image: &[u8]) -> Result<Vec<u8>, Refusal> {
    let found = entries(image)?;
    let has_line = |target: u64| found.lines.iter().any(|&(number, _)| number == target);
    let lost = found.jumps.iter().filter(|jump| !has_line(jump.1));
    Ok(packed(&lost.flat_map(jump_bits).collect::<Vec<_>>()))
}

/// The first line of an index with a number: its place from 1 and its link offset.
pub fn look_up(number: u16, index: &[u8]) -> Option<Pair> {
    let bits = unpacked(index);
    let lines = read(&bits, 0, 16).unwrap_or(0);
    (1..=lines).find_map(|place| {
        let (found, offset) = line(&bits, place)?;
        (found == u64::from(number)).then_some((place, offset))
    })
}

/// The line of an index at a place from 1.
pub fn line_entry(place: u64, index: &[u8]) -> Option<Pair> {
    line(&unpacked(index), place)
}

/// The jump of an index at a place from 1.
pub fn jump_entry(place: u64, index: &[u8]) -> Option<Pair> {
    let bits = unpacked(index);
    let lines = u128::from(read(&bits, 0, 16)?);
    let before = u128::from(place.checked_sub(1)?);
    pair(&bits, 16 + 32 * lines + 29 * before, 13)
}

fn line(bits: &[bool], place: u64) -> Option<Pair> {
    let before = place.checked_sub(1)?;
    if place > read(bits, 0, 16)? {
        return None;
    }
    pair(bits, 16 + 32 * u128::from(before), 16)
}

/// A field, and one of 16 bits behind it.
fn pair(bits: &[bool], at: u128, width: usize) -> Option<Pair> {
    let at = usize::try_from(at).ok()?;
    Some((
        read(bits, at, width)?,
        read(bits, at.checked_add(width)?, 16)?,
    ))
}

fn entries(image: &[u8]) -> Result<Entries, Refusal> {
    let image = domain::image(image)?;
    links::check(image)?;
    let mut lines = Vec::new();
    let mut jumps = Vec::new();
    let mut at = 2;
    while let Some(found) = links::step(image, at)? {
        lines.push((found.number.into(), at));
        let place = lines.len() as u64;
        jumps.extend(
            targets(&found.body)
                .into_iter()
                .map(|target| (place, target)),
        );
        at = found.next;
    }
    if lines.len() > MOST_LINES {
        return Err(Refusal::TooManyLines);
    }
    let jumps = jumps
        .into_iter()
        .map(|(place, target)| Ok((place, target.ok_or(Refusal::TargetTooHigh)?)))
        .collect::<Result<_, Refusal>>()?;
    Ok(Entries { lines, jumps })
}

/// The targets of a body's jumps; nothing for one above 65535.
fn targets(body: &[u8]) -> Vec<Option<u64>> {
    let mut targets = Vec::new();
    let (mut quoted, mut data) = (false, false);
    let mut at = 0;
    while let Some(&byte) = body.get(at) {
        at += 1;
        let list = match byte {
            0x22 => {
                quoted = !quoted;
                None
            }
            _ if quoted => None,
            0x64 => {
                at += 1;
                None
            }
            b':' => {
                data = false;
                None
            }
            _ if data => None,
            0x83 => {
                data = true;
                None
            }
            0x8F => break,
            0x89 | 0x8D | 0xA7 => Some(at),
            0xCB => behind_to(body, at),
            _ => None,
        };
        if let Some(start) = list {
            let run = body[start..].iter();
            let run: Vec<u8> = run
                .copied()
                .take_while(|byte| b"0123456789 ,".contains(byte))
                .collect();
            at = start + run.len();
            targets.extend(numbers(&run));
        }
    }
    targets
}

/// Where the list starts behind GO, if spaces and TO stand there.
fn behind_to(body: &[u8], at: usize) -> Option<usize> {
    let spaces = body[at..].iter().take_while(|&&byte| byte == b' ').count();
    (body.get(at + spaces) == Some(&0xA4)).then_some(at + spaces + 1)
}

fn numbers(run: &[u8]) -> Vec<Option<u64>> {
    let digits: Vec<u8> = run.iter().copied().filter(|&byte| byte != b' ').collect();
    let parts = digits
        .split(|&byte| byte == b',')
        .filter(|part| !part.is_empty());
    parts.map(number).collect()
}

fn number(digits: &[u8]) -> Option<u64> {
    digits.iter().try_fold(0, |value, digit| {
        let value = 10 * value + u64::from(digit - b'0');
        (value <= 65_535).then_some(value)
    })
}

fn jump_bits(&(place, target): &Pair) -> Vec<bool> {
    [field(13, place), field(16, target)].concat()
}

/// The bits of a number, the most significant first.
fn field(width: u32, value: u64) -> Vec<bool> {
    (0..width).rev().map(|bit| value >> bit & 1 == 1).collect()
}

fn packed(bits: &[bool]) -> Vec<u8> {
    let byte = |eight: &[bool]| {
        (0..8).fold(0, |byte, bit| {
            2 * byte + u8::from(eight.get(bit) == Some(&true))
        })
    };
    bits.chunks(8).map(byte).collect()
}

fn unpacked(bytes: &[u8]) -> Vec<bool> {
    bytes
        .iter()
        .flat_map(|&byte| field(8, byte.into()))
        .collect()
}

fn read(bits: &[bool], at: usize, width: usize) -> Option<u64> {
    let bits = bits.get(at..at.checked_add(width)?)?;
    Some(
        bits.iter()
            .fold(0, |value, &bit| 2 * value + u64::from(bit)),
    )
}
