//! How the time grows when a text or an image has twice as many bytes. Each run is a process
//! of its own, which is cut off after a minute.

use std::hint::black_box;
use std::process::{Command, ExitCode, Stdio};
use std::time::{Duration, Instant};

use crate::subjects::{self, Growing};

const LIMIT: Duration = Duration::from_secs(60);

/// A run measures the least time of several calls, as many as this allows.
const PATIENCE: Duration = Duration::from_millis(500);

const SIDES: [&str; 2] = ["here", "original"];

/// Prints, for each subject, how many times longer twice the size takes.
pub fn table() {
    println!("\n| text | bytes | ms here | twice as many bytes | ms Rust | twice as many bytes |");
    println!("|---|---|---|---|---|---|");
    for growing in subjects::growing() {
        let [here, original] = SIDES.map(|side| {
            let short = measured(&growing, side, growing.size);
            // What was cut off once would be cut off again.
            let long = short.and_then(|_| measured(&growing, side, 2 * growing.size));
            shown(short, long)
        });
        println!(
            "| {} | {} | {here} | {original} |",
            growing.name, growing.size
        );
    }
}

/// Two columns: the shorter time, and how many times as long the longer one is.
fn shown(short: Option<Duration>, long: Option<Duration>) -> String {
    let Some(short) = short else {
        return String::from("cut off after a minute | cut off after a minute");
    };
    let milliseconds = short.as_secs_f64() * 1000.0;
    match long {
        Some(long) => {
            let times = long.as_secs_f64() / short.as_secs_f64();
            format!("{milliseconds:.3} | x {times:.2}")
        }
        None => format!("{milliseconds:.3} | cut off after a minute"),
    }
}

/// Runs this program again for one subject; nothing if it took more than a minute.
fn measured(growing: &Growing, side: &str, size: usize) -> Option<Duration> {
    let program = std::env::current_exe().expect("a running program has a path");
    let mut child = Command::new(program)
        .args(["once", growing.name, side, &size.to_string()])
        .stdout(Stdio::piped())
        .spawn()
        .expect("the program runs again");
    let begin = Instant::now();
    while child.try_wait().expect("a child can be asked").is_none() {
        if begin.elapsed() > LIMIT {
            child.kill().expect("a child can be cut off");
            child.wait().expect("a child that was cut off ends");
            return None;
        }
        std::thread::sleep(Duration::from_millis(5));
    }
    let output = child
        .wait_with_output()
        .expect("a child's output can be read");
    let nanoseconds = String::from_utf8_lossy(&output.stdout).trim().parse();
    Some(Duration::from_nanos(
        nanoseconds.expect("a run writes its time"),
    ))
}

/// One run: writes the least time in nanoseconds.
pub fn once(name: &str, side: &str, size: &str) -> ExitCode {
    let growing = subjects::growing()
        .into_iter()
        .find(|growing| growing.name == name);
    let (Some(growing), Ok(size), true) = (growing, size.parse(), SIDES.contains(&side)) else {
        return ExitCode::from(2);
    };
    let work = (growing.work)(size);
    let mut out = work.room();
    let mut least = Duration::MAX;
    let begin = Instant::now();
    while begin.elapsed() < PATIENCE {
        let call = Instant::now();
        match side {
            "here" => drop(black_box(black_box(&work).here(black_box(&mut out)))),
            _ => drop(black_box(black_box(&work).original())),
        }
        least = least.min(call.elapsed());
    }
    println!("{}", least.as_nanos());
    ExitCode::SUCCESS
}
