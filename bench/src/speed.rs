//! The table of speeds: both sides in turn on the same input, the least time of each.

use std::hint::black_box;
use std::process::ExitCode;
use std::time::{Duration, Instant};

use crate::subjects::{self, Subject};

/// A round calls one side so often that it takes about this long.
const ROUND: Duration = Duration::from_millis(3);

const ROUNDS: usize = 31;

/// Slow subjects get fewer rounds, but no fewer than three.
const PATIENCE: Duration = Duration::from_secs(8);

pub struct Row {
    name: &'static str,
    /// Bytes in a microsecond, which is MB/s.
    here: f64,
    original: f64,
    agrees: bool,
}

impl Row {
    fn ratio(&self) -> f64 {
        self.here / self.original
    }
}

/// Measures and prints the five tasks and the hostile texts.
pub fn table() -> Vec<Row> {
    let mut subjects = subjects::tasks();
    subjects.extend(subjects::hostile());
    rows(subjects)
}

fn rows(subjects: Vec<Subject>) -> Vec<Row> {
    println!("| task | MB/s here | MB/s Rust | ratio |");
    println!("|---|---|---|---|");
    let mut rows = Vec::new();
    for subject in &subjects {
        let row = measured(subject);
        println!(
            "| {} | {:.1} | {:.1} | {:.2} |{}",
            row.name,
            row.here,
            row.original,
            row.ratio(),
            if row.agrees { "" } else { " ANSWERS DIFFER" }
        );
        rows.push(row);
    }
    rows
}

/// Whether every row is as fast as the original, and is answered as it answers.
pub fn verdict(rows: &[Row]) -> ExitCode {
    let different = rows.iter().filter(|row| !row.agrees).count();
    let slower = rows.iter().filter(|row| row.ratio() < 1.0).count();
    println!(
        "\n{} rows: {slower} below 1.00; {different} answers differ",
        rows.len()
    );
    if different + slower == 0 {
        ExitCode::SUCCESS
    } else {
        ExitCode::FAILURE
    }
}

fn measured(subject: &Subject) -> Row {
    let work = &subject.work;
    let agrees = work.agrees();
    let mut out = work.room();
    let mut here = || {
        let _ = black_box(black_box(work).here(black_box(&mut out)));
    };
    let mut original = || {
        let _ = black_box(black_box(work).original());
    };
    let calls_here = calls_in_a_round(&mut here);
    let calls_original = calls_in_a_round(&mut original);
    let mut least_here = Duration::MAX;
    let mut least_original = Duration::MAX;
    let begin = Instant::now();
    for round in 0..ROUNDS {
        least_here = least_here.min(timed(&mut here, calls_here));
        least_original = least_original.min(timed(&mut original, calls_original));
        if round >= 2 && begin.elapsed() > PATIENCE {
            break;
        }
    }
    let speed = |time: Duration| work.size() as f64 / (time.as_nanos() as f64 / 1000.0);
    Row {
        name: subject.name,
        here: speed(least_here),
        original: speed(least_original),
        agrees,
    }
}

/// The time of one call, over several.
fn timed(call: &mut impl FnMut(), calls: u32) -> Duration {
    let begin = Instant::now();
    for _ in 0..calls {
        call();
    }
    begin.elapsed() / calls
}

fn calls_in_a_round(call: &mut impl FnMut()) -> u32 {
    let once = timed(call, 1).max(Duration::from_nanos(50));
    (ROUND.as_nanos() / once.as_nanos()).clamp(1, 100_000) as u32
}
