//! The program that is held against the original.
//!
//! It is never waited for without end: what it writes is read by a thread of its own,
//! and is given up after a time.

use std::io::{self, BufReader, ErrorKind, Read, Write};
use std::process::{Child, ChildStdout, Command, ExitStatus, Stdio};
use std::sync::mpsc::{self, Receiver, RecvTimeoutError};
use std::thread;
use std::time::{Duration, Instant};

use crate::frames;

/// So long a program may take for one answer, or to end.
pub const PATIENCE: Duration = Duration::from_secs(60);

/// A program and its arguments, to be started any number of times.
pub struct Program<'a> {
    pub path: &'a str,
    pub arguments: &'a [&'a str],
    pub patience: Duration,
}

impl Program<'_> {
    /// Starts the program with its input and output piped.
    pub fn start(&self) -> io::Result<Child> {
        Command::new(self.path)
            .args(self.arguments)
            .stdin(Stdio::piped())
            .stdout(Stdio::piped())
            .spawn()
            .map_err(|error| io::Error::new(error.kind(), format!("{}: {error}", self.path)))
    }

    /// The answers of the program just started.
    pub fn answers(&self, child: &mut Child) -> Answers {
        Answers {
            incoming: read_answers(taken_output(child)),
            patience: self.patience,
        }
    }

    /// All that the program writes for a short input; nothing if it does not end.
    pub fn output_for(&self, input: &[u8]) -> io::Result<Option<Vec<u8>>> {
        let mut child = self.start()?;
        let mut output = taken_output(&mut child);
        let mut pipe = child.stdin.take().expect("standard input is piped");
        match pipe.write_all(input) {
            // The program may end before it has read all.
            Err(error) if error.kind() != ErrorKind::BrokenPipe => return Err(error),
            _ => drop(pipe),
        }
        let (sender, written) = mpsc::channel();
        thread::spawn(move || {
            let mut bytes = Vec::new();
            sender.send(output.read_to_end(&mut bytes).map(|_| bytes))
        });
        let written = written.recv_timeout(self.patience);
        ended_within(&mut child, Duration::from_secs(1))?;
        written.ok().transpose()
    }
}

fn taken_output(child: &mut Child) -> ChildStdout {
    child.stdout.take().expect("standard output is piped")
}

/// The status of a program that ends within the time; one that does not is stopped.
pub fn ended_within(child: &mut Child, time: Duration) -> io::Result<Option<ExitStatus>> {
    let start = Instant::now();
    loop {
        if let Some(status) = child.try_wait()? {
            return Ok(Some(status));
        }
        if start.elapsed() >= time {
            child.kill()?;
            child.wait()?;
            return Ok(None);
        }
        thread::sleep(Duration::from_millis(5));
    }
}

/// The answers of a running program, in order.
pub struct Answers {
    incoming: Receiver<io::Result<Option<Vec<u8>>>>,
    patience: Duration,
}

impl Answers {
    /// The body of the next answer, or why there is none.
    pub fn next(&self) -> Result<Vec<u8>, String> {
        let missing = "the program ended without an answer";
        self.awaited()?.ok_or_else(|| missing.to_string())
    }

    /// The reason if the output does not end here.
    pub fn end(&self) -> Result<(), String> {
        match self.awaited()? {
            None => Ok(()),
            Some(_) => Err("the program wrote more than its answers".to_string()),
        }
    }

    fn awaited(&self) -> Result<Option<Vec<u8>>, String> {
        match self.incoming.recv_timeout(self.patience) {
            Ok(answer) => answer.map_err(|error| error.to_string()),
            Err(RecvTimeoutError::Disconnected) => Ok(None),
            Err(RecvTimeoutError::Timeout) => {
                let seconds = self.patience.as_secs_f32();
                Err(format!(
                    "the program neither answered nor ended within {seconds} seconds"
                ))
            }
        }
    }
}

/// Reads answers ahead, up to a few, until the output ends.
fn read_answers(output: ChildStdout) -> Receiver<io::Result<Option<Vec<u8>>>> {
    const AHEAD: usize = 8;
    let (sender, incoming) = mpsc::sync_channel(AHEAD);
    let mut output = BufReader::new(output);
    thread::spawn(move || {
        loop {
            let answer = frames::read_answer(&mut output);
            let is_last = !matches!(answer, Ok(Some(_)));
            if sender.send(answer).is_err() || is_last {
                return;
            }
        }
    });
    incoming
}
