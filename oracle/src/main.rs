//! The judge: the original Rust behind the frames of the program `cases`, a
//! generator of requests, and a comparison of the two programs.

use std::fmt::Display;
use std::io::{self, BufWriter, Write};
use std::path::Path;
use std::process::ExitCode;
use std::str::FromStr;

// The modules petscii, prg, source and tokens of the original, unchanged; and formed,
// its source.rs with short forms of words set in.
include!(concat!(env!("OUT_DIR"), "/original.rs"));

mod addressed;
mod basic35;
mod calls;
mod compare;
mod corrections;
mod counted;
mod dialects;
mod disk;
mod domain;
mod endings;
mod fields;
mod forms;
mod found;
mod frames;
mod generate;
mod indexes;
mod judge;
mod library;
mod links;
mod measured;
mod modes;
mod peers;
mod profile;
mod program;
mod random;
mod refusal;
mod relinked;
mod show;
mod tables;
#[cfg(test)]
mod tests;

use generate::Cases;
use peers::Library;
use program::{PATIENCE, Program};

const USAGE: &str = "usage:
  oracle answer                                      answers requests from standard input
  oracle generate COUNT SEED OPS                     writes requests for ops, such as 04,05
  oracle compare COUNT SEED OPS PROGRAM [ARGUMENT..] compares a program with the original
  oracle disks COUNT SEED FOLDER [PROGRAM ARGUMENT..] makes disks by random calls
  oracle take DISKS FOLDER INDEX [PROGRAM ARGUMENT..] reads such files from another tool's disks";

fn main() -> ExitCode {
    let arguments: Vec<String> = std::env::args().skip(1).collect();
    let arguments: Vec<&str> = arguments.iter().map(String::as_str).collect();
    match run(&arguments) {
        Ok(true) => ExitCode::SUCCESS,
        Ok(false) => ExitCode::FAILURE,
        Err(message) => {
            eprintln!("oracle: {message}");
            ExitCode::from(2)
        }
    }
}

/// Runs one subcommand; false if a comparison found a difference.
fn run(arguments: &[&str]) -> Result<bool, String> {
    match arguments {
        ["answer"] => {
            let mut output = BufWriter::new(io::stdout().lock());
            judge::serve(&mut io::stdin().lock(), &mut output).map_err(text)?;
            Ok(true)
        }
        ["generate", count, seed, ops] => {
            let mut output = BufWriter::new(io::stdout().lock());
            for request in cases(count, seed, ops)? {
                frames::write_request(&mut output, &request).map_err(text)?;
            }
            output.flush().map_err(text)?;
            Ok(true)
        }
        ["compare", count, seed, ops, path, arguments @ ..] => {
            let program = program(path, arguments);
            compare::run(cases(count, seed, ops)?, &program).map_err(text)
        }
        ["disks", count, seed, folder, program @ ..] => {
            let mut library = library(program)?;
            let folder = Path::new(folder);
            peers::make(number(count)?, number(seed)?, folder, &mut library)?;
            Ok(true)
        }
        ["take", disks, folder, index, program @ ..] => {
            let mut library = library(program)?;
            peers::take(Path::new(disks), Path::new(folder), index, &mut library)
        }
        _ => Err(USAGE.to_string()),
    }
}

fn program<'a>(path: &'a str, arguments: &'a [&'a str]) -> Program<'a> {
    Program {
        path,
        arguments,
        patience: PATIENCE,
    }
}

/// The program behind the calls on disks, or the model if none is named.
fn library(words: &[&str]) -> Result<Library, String> {
    match words {
        [] => Ok(Library::Model),
        [path, arguments @ ..] => Library::start(&program(path, arguments)).map_err(text),
    }
}

fn cases(count: &str, seed: &str, ops: &str) -> Result<Cases, String> {
    Ok(Cases::new(number(count)?, number(seed)?, &op_list(ops)?))
}

fn number<T: FromStr>(word: &str) -> Result<T, String> {
    word.parse().map_err(|_| format!("{word}: no number"))
}

/// Ops in hexadecimal, between commas or white space.
fn op_list(words: &str) -> Result<Vec<u8>, String> {
    let ops = words
        .split(|mark: char| mark == ',' || mark.is_whitespace())
        .filter(|word| !word.is_empty())
        .map(|word| match u8::from_str_radix(word, 16) {
            Ok(op) if calls::is_known(op) => Ok(op),
            _ => Err(format!("{word}: no op that the judge knows")),
        })
        .collect::<Result<Vec<u8>, String>>()?;
    if ops.is_empty() {
        return Err("no ops are named".to_string());
    }
    Ok(ops)
}

fn text(error: impl Display) -> String {
    error.to_string()
}
