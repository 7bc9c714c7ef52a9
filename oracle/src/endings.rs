//! How a program ends: inputs that stop within a frame, or pass a frame's limit.

use std::io::{self, Cursor};

use crate::calls::Call;
use crate::frames::{self, PAYLOAD_LIMIT};
use crate::judge;
use crate::program::Program;
use crate::show;

/// Runs the program once for each such input and compares all that it writes.
/// Gives how many of the runs are equal, and how many there are.
pub fn compare(program: &Program) -> io::Result<(usize, usize)> {
    let inputs = inputs();
    let mut equal = 0;
    for (name, input) in &inputs {
        let mut expected = Vec::new();
        judge::serve(&mut Cursor::new(input), &mut expected)?;
        let written = program.output_for(input)?;
        if written.as_ref() == Some(&expected) {
            equal += 1;
            continue;
        }
        println!("ending: {name}");
        println!("  original: {}", show::hex(&expected));
        let Some(written) = written else {
            println!("  the program did not end; no other ending was tried");
            break;
        };
        println!("  program:  {}", show::hex(&written));
    }
    Ok((equal, inputs.len()))
}

fn inputs() -> Vec<(&'static str, Vec<u8>)> {
    let whole = whole_frame();
    let with = |rest: &[u8]| [&whole, rest].concat();
    let too_long = head(0x04, PAYLOAD_LIMIT as u32 + 1);
    vec![
        ("no input", Vec::new()),
        ("an op alone", with(&[0x04])),
        ("a head cut short", with(&whole[..4])),
        ("a head without its payload", with(&whole[..5])),
        ("a payload cut short", with(&whole[..whole.len() - 1])),
        (
            "an unknown op cut short",
            with(&[&head(0xFF, 2)[..], b"A"].concat()),
        ),
        ("a length above the limit", with(&too_long)),
        (
            "frames behind such a length",
            with(&[&too_long[..], &whole].concat()),
        ),
        ("the largest length", with(&head(0x05, u32::MAX))),
        (
            "an unknown op too long",
            with(&head(0x00, PAYLOAD_LIMIT as u32 + 1)),
        ),
    ]
}

/// A request that is answered, to be seen before the ending.
fn whole_frame() -> Vec<u8> {
    let mut frame = Vec::new();
    let request = Call::DialectByName { word: b"tsb" }.encode();
    frames::write_request(&mut frame, &request).expect("a vector takes all bytes");
    frame
}

fn head(op: u8, length: u32) -> Vec<u8> {
    [&[op][..], &length.to_le_bytes()].concat()
}
