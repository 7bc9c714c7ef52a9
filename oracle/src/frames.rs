//! The frames between a caller and the batch driver: requests and answers.

use std::io::{self, ErrorKind, Read, Write};

use crate::calls::ROOM_LIMIT;

/// The longest payload that a request may have.
pub const PAYLOAD_LIMIT: usize = 1_048_577 + 16;

/// No answer is longer than that of a read: a byte, a length, the largest room, and
/// all of a payload that is no room and no name's length.
const ANSWER_LIMIT: usize = 1 + 8 + ROOM_LIMIT + (PAYLOAD_LIMIT - 4 - 2);

#[derive(Debug, Clone, PartialEq, Eq)]
pub struct Request {
    pub op: u8,
    pub payload: Vec<u8>,
}

/// What stands next on a driver's input.
pub enum Incoming {
    Request(Request),
    /// A head whose length is above the limit: answered, but read no further.
    TooLong,
    /// The end of input, also in the middle of a frame.
    End,
}

pub fn read_request(input: &mut impl Read) -> io::Result<Incoming> {
    let mut head = [0; 5];
    if !fill(input, &mut head)? {
        return Ok(Incoming::End);
    }
    let [op, length @ ..] = head;
    let length = u32::from_le_bytes(length) as usize;
    if length > PAYLOAD_LIMIT {
        return Ok(Incoming::TooLong);
    }
    let mut payload = vec![0; length];
    if !fill(input, &mut payload)? {
        return Ok(Incoming::End);
    }
    Ok(Incoming::Request(Request { op, payload }))
}

pub fn write_request(output: &mut impl Write, request: &Request) -> io::Result<()> {
    output.write_all(&[request.op])?;
    write_counted(output, &request.payload)
}

pub fn write_answer(output: &mut impl Write, body: &[u8]) -> io::Result<()> {
    write_counted(output, body)
}

/// The next answer's body; nothing if the output ends instead. It may not end within
/// an answer.
pub fn read_answer(input: &mut impl Read) -> io::Result<Option<Vec<u8>>> {
    let mut length = [0; 4];
    if input.read(&mut length[..1])? == 0 {
        return Ok(None);
    }
    input.read_exact(&mut length[1..]).map_err(cut_short)?;
    let length = u32::from_le_bytes(length) as usize;
    if length > ANSWER_LIMIT {
        let reason = format!("an answer of {length} bytes is announced: no answer is that long");
        return Err(io::Error::new(ErrorKind::InvalidData, reason));
    }
    let mut body = vec![0; length];
    input.read_exact(&mut body).map_err(cut_short)?;
    Ok(Some(body))
}

fn cut_short(error: io::Error) -> io::Error {
    match error.kind() {
        ErrorKind::UnexpectedEof => {
            io::Error::new(error.kind(), "the output ends within an answer")
        }
        _ => error,
    }
}

fn write_counted(output: &mut impl Write, bytes: &[u8]) -> io::Result<()> {
    let length = u32::try_from(bytes.len()).expect("a frame's length fits its field");
    output.write_all(&length.to_le_bytes())?;
    output.write_all(bytes)
}

/// Fills the buffer; false if the input ends before.
fn fill(input: &mut impl Read, buffer: &mut [u8]) -> io::Result<bool> {
    match input.read_exact(buffer) {
        Ok(()) => Ok(true),
        Err(error) if error.kind() == ErrorKind::UnexpectedEof => Ok(false),
        Err(error) => Err(error),
    }
}
