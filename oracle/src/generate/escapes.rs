//! Escapes: what may stand between the braces of a string.

use super::words;
use crate::random::Random;
use crate::tables::ESCAPE_NAMES;

const PREFIXES: [&str; 9] = [
    "ctrl", "cntrl", "control", "cm", "cbm", "sh", "shift", "ct", "c=",
];

const MARKS: [char; 3] = [' ', '-', '_'];

/// Counts that take effect, that do not, and that are no counts.
const COUNTS: [&str; 28] = [
    "1",
    "2",
    "+2",
    " 2",
    "2 ",
    " + 2",
    "\t+2\t",
    "\x0B2",
    "002",
    "0",
    "00",
    "+0",
    "-1",
    "",
    " ",
    "+",
    "++2",
    "2+",
    "2x",
    "x2",
    "1 0",
    "$2",
    "256",
    "300",
    "*2",
    "2*2",
    "18446744073709551616",
    "99999999999999999999999999",
];

/// Counts that hardly a line can hold: behind a known name most of them are
/// AddressOverflow.
const LARGE_COUNTS: [&str; 9] = [
    "65521",
    "65536",
    "65537",
    "99999",
    "4294967285",
    "4294967291",
    "4294967296",
    "9223372036854775808",
    "18446744073709551615",
];

/// Strings' insides that go through every name, number, mark and count.
pub fn listed() -> Vec<String> {
    let mut insides: Vec<String> = ESCAPE_NAMES.iter().flat_map(|name| of_name(name)).collect();
    insides.extend((0..=0x1FF).map(of_number));
    insides.extend(PREFIXES.iter().flat_map(|prefix| of_prefix(prefix)));
    for count in COUNTS.iter().chain(&LARGE_COUNTS) {
        insides.push(format!("{{red*{count}}}A"));
        insides.push(format!("{{32 *{count}}}A"));
        insides.push(format!("{{foo*{count}}}A"));
        insides.push(format!("{{sh **{count}}}A"));
    }
    insides.extend((0..0x80).flat_map(of_byte));
    insides
}

/// One byte in every place of an escape.
fn of_byte(byte: u8) -> [String; 8] {
    const ESCAPES: [&str; 8] = [
        "{@}",
        "{@red@}",
        "{red@*@2@}",
        "{red*@}",
        "{ctrl@a}",
        "{sh@ a}",
        "{@5}",
        "{$@5}",
    ];
    let byte = char::from(byte).to_string();
    ESCAPES.map(|form| form.replace('@', &byte) + "A")
}

/// One name in three cases, with counts, and with its spaces changed.
fn of_name(name: &str) -> [String; 3] {
    let upper = name.to_uppercase();
    let mixed = words::in_mixed_case(name);
    let longer = format!("{name}s");
    let shorter = words::cut_short(name);
    let [dashed, underlined, spread] = ["-", "_", "  "].map(|mark| name.replace(' ', mark));
    [
        format!("{{{name}}}{{{upper}}}{{{mixed}}}A"),
        format!("{{{name}*3}}{{{name} * +3 }}{{{name}*0}}{{ {name}**2}}{{{name}\t}}A"),
        format!("{{{dashed}}}{{{underlined}}}{{{spread}}}{{{longer}}}{{{shorter}}}A"),
    ]
}

/// One number in decimal and in hexadecimal, with zeros before it.
fn of_number(number: u16) -> String {
    let decimal = format!("{{{number}}}{{0000000{number}}}{{{number}*2}}");
    let hexadecimal = format!("{{${number:X}}}{{${number:x}}}{{$0000000{number:x}}}{{$ {number}}}");
    decimal + &hexadecimal + "A"
}

/// One prefix before every byte, behind every mark.
fn of_prefix(prefix: &str) -> impl Iterator<Item = String> {
    (0..0x80).map(move |byte| {
        let byte = char::from(byte);
        let marked = MARKS.map(|mark| format!("{{{prefix}{mark}{byte}}}"));
        let upper = prefix.to_uppercase();
        marked.concat() + &format!("{{{upper} - {byte}}}{{{upper}  {byte} }}A")
    })
}

/// One escape, now and then with an unknown name or without its end.
pub fn any(random: &mut Random) -> String {
    let mut inside = any_name(random);
    if random.one_in(3) {
        inside += "*";
        inside += &any_count(random);
    }
    match random.below(20) {
        0..3 => inside = format!(" {inside}\t"),
        3 => inside.push('"'),
        _ => {}
    }
    let end = if random.one_in(25) { "" } else { "}" };
    format!("{{{inside}{end}")
}

fn any_name(random: &mut Random) -> String {
    match random.below(10) {
        0..3 => words::in_any_case(random.pick(&ESCAPE_NAMES), random),
        3 => random
            .pick(&["0", "34", "$22", "$00", "255", "ctrl \""])
            .to_string(),
        4 => random.below(300).to_string(),
        5 => format!("${:0width$x}", random.below(300), width = random.below(5)),
        6 | 7 => {
            let prefix = words::in_any_case(random.pick(&PREFIXES), random);
            let argument = char::from(random.byte() & 0x7F);
            format!("{prefix}{}{argument}", random.pick(&MARKS))
        }
        8 => words::cut_short(random.pick(&ESCAPE_NAMES)).to_string(),
        _ => words::near_any(random),
    }
}

fn any_count(random: &mut Random) -> String {
    match random.below(80) {
        0 => random.pick(&LARGE_COUNTS).to_string(),
        1 => random.below(70_000).to_string(),
        2..22 => random.pick(&COUNTS).to_string(),
        _ => random.below(9).to_string(),
    }
}
