//! Texts that decide the dialect: TSB words as statements, as functions and as
//! variables.

use super::requests::TextCase;
use super::words;
use crate::random::Random;
use crate::tables::TSB_WORDS;

/// Statements in which `@` stands for a TSB word. Those with ELSE are evidence
/// for TSB in any case, and show which words are demoted.
const FORMS: [&str; 37] = [
    "@",
    " @ 1",
    "\t@",
    "\x0B@",
    ":\x0C@",
    "A=1:@",
    "@=1",
    "@\t =1",
    "@\x0B=1",
    "@%=1",
    "@$ =1",
    "@%$=1",
    "@(I)=1",
    "@ (I)\t=1",
    "@(\")\")=1",
    "@((1)=2)",
    "@(1",
    "A=@",
    "A=@(1)",
    "A=@ \t(1)",
    "IFATHEN@",
    "IFATHEN@(1)",
    "REM:@",
    "DATA@:A",
    "DATA\":\"@",
    "\"@",
    "\"\"@",
    "DIM@(3)",
    "@=1:ELSE:@",
    "@(1) =2:ELSE@@",
    "@\t=1:ELSE:@",
    "@%=1:ELSE:@",
    "DIM@(3):ELSE:@",
    "DIM \t@:ELSE:@",
    "DIMA,@(3):ELSE:@",
    "REM@=1:ELSE",
    "DATA@=1:ELSE:@",
];

/// What opens a list behind a TSB word, `@`, and what ends one.
const OPENINGS: [&str; 8] = ["@(", "@(", ":@(", "@(:", ":@$ (", "@%\t(:", "(", "@(\":"];
const ENDINGS: [&str; 8] = [")=", ")=", ") =", ")\t=", ")=1:", ")", ")\"", ")=("];

/// Every form with every TSB word, on one line.
pub fn listed() -> Vec<TextCase> {
    let mut cases = Vec::new();
    for word in TSB_WORDS.iter() {
        cases.extend(FORMS.map(|form| TextCase::auto(format!("1{}", form.replace('@', word)))));
    }
    cases
}

/// A few lines of such statements, run together in any way; or lists in lists.
pub fn any(random: &mut Random) -> Vec<u8> {
    if random.one_in(4) {
        return lists(random);
    }
    let mut text = String::new();
    for line in 0..random.between(1, 3) {
        text += random.pick(&["", "", " ", "\t", "\x0B"]);
        text += &line.to_string();
        for _ in 0..random.between(1, 3) {
            let statement = random.pick(&FORMS).replace('@', random.pick(&TSB_WORDS));
            text += &words::in_any_case(&statement, random);
            text += random.pick(&[":", ":", " : ", "", " ", "=", "(", "DIM", "THEN"]);
        }
        text += random.pick(&["\n", "\n", "\r", "\r\n"]);
    }
    text.into()
}

/// A line of lists behind lists and in lists, up to some thousand bytes long.
/// Most are assigned to: the first that is not is evidence, and all behind it
/// are looked at for variables alone.
fn lists(random: &mut Random) -> Vec<u8> {
    let mut text = String::from(random.pick(&["1 ", "1ELSE:", "1A=1:"]));
    let endings = random.pick(&[1, 2, 4, ENDINGS.len()]);
    let mut open = 0;
    for _ in 0..random.between(1, 300) {
        if open == 0 || random.below(5) < 3 {
            text += &random.pick(&OPENINGS).replace('@', random.pick(&TSB_WORDS));
            open += 1;
        } else {
            text += random.pick(&ENDINGS[..endings]);
            open -= 1;
        }
    }
    text += &random.pick(&ENDINGS).repeat(open);
    words::in_any_case(&text, random).into()
}
