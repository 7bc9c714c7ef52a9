//! Holds a program against the original: the same requests, answer by answer.

use std::collections::BTreeMap;
use std::io::{self, BufWriter};
use std::process::ChildStdin;
use std::sync::mpsc::{self, Receiver, Sender};
use std::thread;
use std::time::Duration;

use crate::calls;
use crate::endings;
use crate::frames::{self, Request};
use crate::generate::Cases;
use crate::judge;
use crate::program::{self, Answers, Program};
use crate::show;

/// So many differences are shown in full; the others are only counted.
const SHOWN_DIFFERENCES: usize = 10;

/// Compares, prints what differs and how much is equal; true if all is.
pub fn run(cases: Cases, program: &Program) -> io::Result<bool> {
    let asked = cases.asked();
    let (endings_equal, endings) = endings::compare(program)?;
    let mut counts = Counts::default();
    let is_sound = compare_cases(cases, program, &mut counts)?;
    println!("endings: {endings_equal} of {endings} equal");
    counts.print();
    println!("{} of {asked} equal", counts.equal());
    Ok(is_sound && endings_equal == endings && counts.equal() == asked)
}

/// Runs the program on all cases; false if it did not answer them and end well.
fn compare_cases(cases: Cases, program: &Program, counts: &mut Counts) -> io::Result<bool> {
    let mut child = program.start()?;
    let input = child.stdin.take().expect("standard input is piped");
    let answers = program.answers(&mut child);
    let (sender, requests) = mpsc::channel();
    let writer = thread::spawn(move || write_requests(cases, input, sender));
    let outcome = compare_answers(requests, &answers, counts);
    if let Err(reason) = &outcome {
        println!("{reason}");
    }
    let time = match outcome {
        Ok(()) => program.patience,
        Err(_) => Duration::from_secs(1),
    };
    let Some(status) = program::ended_within(&mut child, time)? else {
        println!("the program did not end, and was stopped");
        return Ok(false);
    };
    writer.join().expect("writing does not panic");
    if !status.success() {
        println!("the program ended with {status}");
    }
    Ok(outcome.is_ok() && status.success())
}

/// Writes the requests to the program, and hands each to the comparison.
///
/// The pipes hold this thread back if either side is slow, so the channel needs
/// no bound. It stops if the program ends early, or if the comparison does.
fn write_requests(cases: Cases, input: ChildStdin, requests: Sender<Request>) {
    let mut input = BufWriter::new(input);
    for request in cases {
        let written = frames::write_request(&mut input, &request);
        if requests.send(request).is_err() || written.is_err() {
            return;
        }
    }
}

/// Compares every answer; the reason if the program's output is too short or too
/// long, or is waited for too long.
fn compare_answers(
    requests: Receiver<Request>,
    answers: &Answers,
    counts: &mut Counts,
) -> Result<(), String> {
    for (place, request) in requests.iter().enumerate() {
        let case = Case {
            number: place + 1,
            expected: judge::answer(&request),
            request,
        };
        let answer = answers.next().map_err(|reason| case.told(&reason))?;
        if answer != case.expected && counts.differences() < SHOWN_DIFFERENCES {
            println!("{}", case.told(&case.difference(&answer)));
        }
        counts.add(case.request.op, answer == case.expected);
    }
    answers.end()
}

/// A request with the original's answer.
struct Case {
    number: usize,
    request: Request,
    expected: Vec<u8>,
}

impl Case {
    /// What is asked, what the original answers, and what is to be said of it.
    fn told(&self, remark: &str) -> String {
        let op = self.request.op;
        format!(
            "case {}, op {op:02X}: {}\n  original: {}\n  {remark}",
            self.number,
            show::request(&self.request),
            show::answer(op, &self.expected)
        )
    }

    fn difference(&self, answer: &[u8]) -> String {
        let op = self.request.op;
        let common = self.expected.iter().zip(answer).take_while(|(a, b)| a == b);
        format!(
            "program:  {}\n  the answers differ from {} on",
            show::answer(op, answer),
            show::place(op, &self.expected, common.count())
        )
    }
}

/// How many answers are equal, and how many there are, by op.
#[derive(Default)]
struct Counts {
    by_op: BTreeMap<String, (usize, usize)>,
}

impl Counts {
    fn add(&mut self, op: u8, is_equal: bool) {
        let name = if calls::is_known(op) {
            format!("op {op:02X}")
        } else {
            "unknown ops".to_string()
        };
        let (equal, all) = self.by_op.entry(name).or_default();
        *equal += usize::from(is_equal);
        *all += 1;
    }

    fn equal(&self) -> usize {
        self.by_op.values().map(|(equal, _)| equal).sum()
    }

    fn differences(&self) -> usize {
        self.by_op.values().map(|(equal, all)| all - equal).sum()
    }

    fn print(&self) {
        for (name, (equal, all)) in &self.by_op {
            println!("{name}: {equal} of {all} equal");
        }
    }
}
