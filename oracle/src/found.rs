//! The line by its number, following links: a model, and no original.
//!
//! Written from document 02, No. 4: the lines before the fault are listed, and what
//! stands behind them; the answer is read off the list.

use crate::domain;
use crate::library::Step;
use crate::links;
use crate::refusal::Refusal;

/// What a search answers: the headers visited, and the line if there is one.
pub struct Found {
    pub visited: u64,
    pub line: Option<Step>,
}

pub fn line_by_number(number: u16, limit: u64, image: &[u8]) -> Result<Found, Refusal> {
    let image = domain::image(image)?;
    let (mut lines, behind) = lines_before_fault(image)?;
    let place = lines.iter().position(|line| line.number == number);
    // So many headers have to be visited before the answer is known.
    let visited = match place {
        Some(place) => place + 1,
        None => lines.len(),
    } as u64;
    if limit < visited {
        return Err(Refusal::LimitReached);
    }
    let Some(place) = place else {
        return match behind {
            // The end marker is next: it is no header, and may be read at the limit.
            Ok(()) => Ok(Found {
                visited,
                line: None,
            }),
            Err(_) if limit == visited => Err(Refusal::LimitReached),
            Err(fault) => Err(fault),
        };
    };
    Ok(Found {
        visited,
        line: Some(lines.swap_remove(place)),
    })
}

/// The lines that links lead to, and behind them the end or the refusal there.
fn lines_before_fault(image: &[u8]) -> Result<(Vec<Step>, Result<(), Refusal>), Refusal> {
    if image.len() < 2 {
        return Err(Refusal::TooShort);
    }
    let mut lines = Vec::new();
    let mut at = 2;
    loop {
        match links::step(image, at) {
            Ok(Some(line)) => {
                at = line.next;
                lines.push(line);
            }
            Ok(None) => return Ok((lines, Ok(()))),
            Err(fault) => return Ok((lines, Err(fault))),
        }
    }
}
