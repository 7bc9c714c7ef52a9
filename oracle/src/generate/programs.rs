//! Random BASIC programs, made from a small grammar.

use super::{escapes, words};
use crate::random::Random;

type Part = fn(&mut Random) -> String;

/// The kinds of statement, each as often as it is named.
const STATEMENTS: [Part; 12] = [
    print,
    print,
    assignment,
    assignment,
    word_run,
    word_run,
    jump,
    condition,
    data,
    remark,
    loose_string,
    noise,
];

/// The line ends of a text: most texts keep to one.
const LINE_ENDS: [&[&str]; 4] = [&["\n"], &["\r\n"], &["\r"], &["\n", "\r", "\r\n", "\n\r"]];

/// Line numbers that are refused or nearly so.
const RARE_NUMBERS: [&str; 9] = [
    "0",
    "65535",
    "65536",
    "007",
    "4294967296",
    "99999999999999999999",
    "",
    "-1",
    "1.5",
];

/// Bytes that mean something somewhere, and some that never do.
const SYMBOLS: &[u8] = b"+-*/^<=>?:;,.()[]@#%&'!$\\_{}\"~`|\x01\x14\x60\x7F";

pub fn any(random: &mut Random) -> Vec<u8> {
    let ends = random.pick(&LINE_ENDS);
    let mut text = String::new();
    let lines = random.below(6);
    for place in 1..=lines {
        text += &white_space(random);
        if !random.one_in(12) {
            text += &line(place, random);
        }
        if place < lines || !random.one_in(3) {
            text += random.pick(ends);
        }
    }
    text.into_bytes()
}

fn line(place: usize, random: &mut Random) -> String {
    let number = match random.below(30) {
        0 => random.pick(&RARE_NUMBERS).to_string(),
        _ => (place * 10).to_string(),
    };
    let space = " ".repeat(random.below(3));
    let statements: Vec<_> = (0..random.below(5)).map(|_| statement(random)).collect();
    let body = statements.join(random.pick(&[":", ":", " : ", ""]));
    format!("{number}{space}{body}{}", white_space(random))
}

fn statement(random: &mut Random) -> String {
    random.pick(&STATEMENTS)(random)
}

/// Mostly nothing; else white space that ends no line.
fn white_space(random: &mut Random) -> String {
    const MARKS: [char; 4] = [' ', '\t', '\x0B', '\x0C'];
    if !random.one_in(6) {
        return String::new();
    }
    (0..random.between(1, 3))
        .map(|_| random.pick(&MARKS))
        .collect()
}

fn print(random: &mut Random) -> String {
    let word = words::in_any_case(random.pick(&["PRINT", "PRINT#", "?", "CHAR"]), random);
    format!("{word}{}{}", white_space(random), expression(random))
}

fn assignment(random: &mut Random) -> String {
    let target = match random.below(3) {
        0 => words::near_any(random),
        _ => variable(random),
    };
    let mark = random.pick(&["", "", "%", "$", "(1)", "(I,\")\")", "\t"]);
    format!(
        "{target}{mark}{}={}",
        white_space(random),
        expression(random)
    )
}

/// Words that touch each other, or stand apart.
fn word_run(random: &mut Random) -> String {
    let run: Vec<_> = (0..random.between(1, 5))
        .map(|_| words::near_any(random))
        .collect();
    run.join(random.pick(&["", "", " ", "(", "1"]))
}

fn jump(random: &mut Random) -> String {
    let word = random.pick(&["GOTO", "GO TO", "GOSUB", "GO", "CGOTO", "ON A GOTO", "EXEC"]);
    format!("{} {}", words::in_any_case(word, random), random.below(100))
}

fn condition(random: &mut Random) -> String {
    let consequence = words::near_any(random);
    let otherwise = random.pick(&["", "", "", ":ELSE", "ELSE A=1"]);
    format!("if {} then{consequence}{otherwise}", expression(random))
}

fn data(random: &mut Random) -> String {
    let items: Vec<_> = (0..random.below(4))
        .map(|_| match random.below(4) {
            0 => string(random),
            1 => words::near_any(random),
            2 => letters(random),
            _ => random.below(1000).to_string(),
        })
        .collect();
    words::in_any_case("DATA", random) + &items.join(random.pick(&[",", ":", " "]))
}

fn remark(random: &mut Random) -> String {
    let text: String = (0..random.below(4))
        .map(|_| string_part(random) + random.pick(&["", ":", "\"", " do "]))
        .collect();
    words::in_any_case("REM", random) + &text
}

fn loose_string(random: &mut Random) -> String {
    string(random) + &words::near_any(random)
}

/// Bytes of any value that may stand in a text.
fn noise(random: &mut Random) -> String {
    (0..random.below(10))
        .map(|_| char::from(random.byte() & 0x7F))
        .collect()
}

fn expression(random: &mut Random) -> String {
    let mut expression = operand(random);
    for _ in 0..random.below(3) {
        expression += random.pick(&[
            "+", "-", "*", "/", "^", "<", "=", ">", ";", ",", " and ", "OR",
        ]);
        expression += &operand(random);
    }
    expression
}

fn operand(random: &mut Random) -> String {
    match random.below(6) {
        0 => random.below(70_000).to_string(),
        1 => variable(random),
        2 => "\u{3C0}".to_string(),
        3 => format!("{}({})", words::near_any(random), variable(random)),
        _ => string(random),
    }
}

fn variable(random: &mut Random) -> String {
    random
        .pick(&["A", "x", "Z9", "a$", "B%", "TI$", "i", "fo"])
        .to_string()
}

/// A string, now and then without its closing quote.
fn string(random: &mut Random) -> String {
    let inside: String = (0..random.below(5)).map(|_| string_part(random)).collect();
    let end = if random.one_in(8) { "" } else { "\"" };
    format!("\"{inside}{end}")
}

fn string_part(random: &mut Random) -> String {
    match random.below(8) {
        0..4 => escapes::any(random),
        4 => "\u{3C0}".to_string(),
        5 => words::near_any(random),
        6 => char::from(random.pick(SYMBOLS)).to_string(),
        _ => letters(random),
    }
}

fn letters(random: &mut Random) -> String {
    let word = random.pick(&["Hello", "abc", "XYZ", "a B", "Ready."]);
    words::in_any_case(word, random)
}
