//! The worst texts and images that we could think of, each of a given size.

use crate::lifelike::{self, Kind};
use crate::random::Random;

/// A string of opening braces that nothing closes.
pub fn braces(size: usize) -> String {
    filled("10 \"", "{", size)
}

/// The same with one closing brace at the end, which each of them finds.
pub fn closed_braces(size: usize) -> String {
    filled("10 \"", "{", size - 1) + "}"
}

/// The same with a digit in front of the closing brace, where a count could end.
pub fn digit_braces(size: usize) -> String {
    filled("10 \"", "{", size - 2) + "5}"
}

/// Opening braces, and as many spaces in front of the closing one.
pub fn spaced_braces(size: usize) -> String {
    filled("10 \"", "{", size / 2) + &" ".repeat(size / 2 - 1) + "}"
}

/// Opening braces, and a count of as many zeros in front of the closing one.
pub fn counted_braces(size: usize) -> String {
    filled("10 \"", "{", size / 2) + "*" + &"0".repeat(size / 2 - 3) + "1}"
}

/// A string of escapes that have no known name.
pub fn unknown_escapes(size: usize) -> String {
    lines("\"", "{unheard of}", size)
}

/// A string of escapes whose name is the last of the list.
pub fn late_escapes(size: usize) -> String {
    lines("\"", "{ct up arrow}", size)
}

/// Calls in calls of a TSB word, behind one that proves the dialect.
pub fn nested_calls(size: usize) -> String {
    filled("10 HIRES 0,1:A=", "MAP(", size)
}

/// The same with the parentheses closed, and assigned to.
pub fn closed_calls(size: usize) -> String {
    let depth = (size - 20) / 5;
    filled("10 HIRES 0,1:", "MAP(", 13 + 4 * depth) + &")".repeat(depth) + "=1"
}

/// Statements in statements, each assigned to.
pub fn assigned_calls(size: usize) -> String {
    let depth = (size - 3) / 7;
    filled("10 ", "MAP(:", 3 + 5 * depth) + &")=".repeat(depth)
}

/// Statements of a game, all on one line.
pub fn one_line(size: usize) -> String {
    let mut random = Random::new(1);
    let mut text = String::from("10 A=1");
    while text.len() < size {
        let statements = lifelike::statements(Kind::V2, &mut random);
        // A remark, DATA or an open string would hide the rest of the line.
        if !statements.contains("REM") && !statements.contains("DATA") {
            text.push(':');
            text += &statements;
        }
    }
    text.truncate(size);
    text
}

pub fn spaces(size: usize) -> String {
    " ".repeat(size)
}

pub fn tabs(size: usize) -> String {
    "\t".repeat(size)
}

pub fn line_ends(size: usize) -> String {
    "\n".repeat(size)
}

/// Short lines of every kind of white space.
pub fn white_space(size: usize) -> String {
    filled("", "   \t\r\n \x0C\x0B \r", size)
}

/// One numbered line with blanks before, within and behind.
pub fn blanks_around(size: usize) -> String {
    let third = " ".repeat(size / 3);
    format!("{third}10{third}A{third}\n")
}

/// Lines of a letter that begins no word.
pub fn no_words(size: usize) -> String {
    lines("", "Q", size)
}

/// Lines of a letter with which many words of both lists begin.
pub fn many_words(size: usize) -> String {
    lines("", "R", size)
}

/// Lines of words that stop one letter short.
pub fn nearly_words(size: usize) -> String {
    lines("", "RESTORRETURRENUMBERIGHT", size)
}

/// Lines of bytes that are neither letters nor digits.
pub fn marks(size: usize) -> String {
    lines("", "()!#.;,&'%", size)
}

/// A megabyte of one letter on one line.
pub fn one_letter(size: usize) -> String {
    filled("10 ", "C", size)
}

/// Lines that end in CR alone, as the machine's own files do.
pub fn carriage_returns(size: usize) -> String {
    lifelike::program(Kind::V2, size).replace('\n', "\r")
}

/// Numbered lines of some 70 bytes: what opens each, then a piece over and over.
fn lines(opening: &str, piece: &str, size: usize) -> String {
    let mut text = String::new();
    let mut number = 0;
    while text.len() < size {
        number += 1;
        text += &filled(&format!("{number} {opening}"), piece, 75);
        text.push('\n');
    }
    text
}

/// A start, then a piece over and over, cut off at a size.
fn filled(start: &str, piece: &str, size: usize) -> String {
    let mut text = String::from(start);
    while text.len() < size {
        text += piece;
    }
    text.truncate(size);
    text
}

/// An image of lines whose bodies repeat a piece.
pub fn image(piece: &[u8], size: usize) -> Vec<u8> {
    let mut image = vec![0x01, 0x08];
    let mut number = 0u16;
    while image.len() + 80 < size {
        number += 1;
        image.extend([0xFF, 0xFF]);
        image.extend(number.to_le_bytes());
        image.extend(piece.iter().cycle().take(74));
        image.push(0);
    }
    image.extend([0, 0]);
    image
}
