//! Measures the proved library beside the original Rust, in one process, on the
//! same texts and images, and compares their answers.

// The original's modules, the judge's and the bindings hold more than is measured here.
#![allow(dead_code)]

use std::process::ExitCode;

// The modules petscii, prg, source and tokens of the original, unchanged; and formed, which asks the judge's model of short forms and is not measured.
include!(concat!(env!("OUT_DIR"), "/original.rs"));

#[path = "../../oracle/src/forms.rs"]
mod forms;
mod growth;
mod hostile;
mod lifelike;
#[path = "../../library/moldthatch.rs"]
mod moldthatch;
#[path = "../../oracle/src/random.rs"]
mod random;
mod sides;
mod speed;
mod subjects;

fn main() -> ExitCode {
    let arguments: Vec<String> = std::env::args().skip(1).collect();
    let arguments: Vec<&str> = arguments.iter().map(String::as_str).collect();
    match arguments[..] {
        [] => {
            let rows = speed::table();
            growth::table();
            speed::verdict(&rows)
        }
        // A run of its own, which growth::table can cut off.
        ["once", name, side, size] => growth::once(name, side, size),
        _ => {
            eprintln!("usage: bench/run [ORIGINAL-FOLDER]");
            ExitCode::from(2)
        }
    }
}
