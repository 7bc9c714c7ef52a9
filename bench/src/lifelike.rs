//! Programs such as authors mail: generated, the same ones on every machine.

use crate::random::Random;

#[derive(Clone, Copy, PartialEq, Eq)]
pub enum Kind {
    V2,
    Tsb,
}

/// Statements in which `#` stands for a number and `@` for a variable.
const V2: [&str; 40] = [
    "PRINT \"{clr}{down*3}{right*8}THE CAVES OF KARN\"",
    "PRINT \"{home}{wht}SCORE{cyn}\";@;\"{down}LIVES\";@",
    "print \"You are in a dark room. Exits: north\"",
    "PRINT TAB(#);\"{rvon} PRESS ANY KEY {rvof}\"",
    "PRINT CHR$(147);:PRINT \"----------------------\"",
    "PRINT#1,\"S0:OLD\";:CLOSE 1",
    "PRINT @;@$;SPC(#);@",
    "?\"{yel}{sh *}{sh +}{cm a}{cm s}\";@",
    "FOR I=1 TO #:@=@+I:NEXT I",
    "FOR @=# TO # STEP -1:POKE 1024+@,32:NEXT",
    "FOR I=0 TO 62:READ A:POKE 832+I,A:NEXT",
    "IF @$=\"Y\" OR @$=\"y\" THEN #",
    "IF @>=# AND @<=# THEN GOSUB #:GOTO #",
    "IF PEEK(#)=0 THEN @=@-1:RETURN",
    "GET A$:IF A$=\"\" THEN #",
    "INPUT \"{lblu}WHAT NOW\";A$",
    "GOSUB #",
    "GOTO #",
    "ON @ GOTO #,#,#,#",
    "ON @+1 GOSUB #,#,#",
    "RETURN",
    "POKE 53280,#:POKE 53281,#",
    "POKE V+#,PEEK(V+#) OR 2^@",
    "POKE 54296,15:POKE 54277,#:POKE 54278,#",
    "SYS #",
    "WAIT 198,1:POKE 198,0",
    "@=INT(RND(1)*#)+#",
    "@=SQR(X*X+Y*Y)/#",
    "@$=MID$(@$,#,1)+LEFT$(B$,LEN(B$)-1)",
    "@=ASC(@$+CHR$(0))-64:LET @=@*(@>0)",
    "@(I)=@(I+1)-ABS(@(J)):B(I,J)=#",
    "DIM @(#),B$(#),C%(#,#)",
    "DEF FN R(X)=INT(X*100+.5)/100",
    "READ @,B$,C:RESTORE",
    "DATA #,#,#,#,#,#,#,#,#,#",
    "DATA \"SWORD\",\"Lamp of brass\",#,KEY,#",
    "REM *** MAIN LOOP ***",
    "REM move the player, then the ghosts",
    "OPEN 15,8,15,\"I0\":INPUT#15,E,E$,T,S:CLOSE 15",
    "T=TI:@$=STR$(VAL(@$)+#)",
];

const TSB: [&str; 30] = [
    "HIRES 0,1:MULTI 2,5,7",
    "PLOT @,@,1",
    "LINE 0,#,319,#,1",
    "CIRCLE 160,100,#,#,1",
    "REC #,#,#,#,2",
    "BLOCK #,#,#,#,1",
    "PAINT #,#,1",
    "TEXT 10,#,\"GAME OVER\",1,2,8",
    "PROC SHOW SCORE",
    "END PROC",
    "EXEC SHOW SCORE",
    "CALL MENU",
    "REPEAT:@=@+1:UNTIL @>#",
    "LOOP:GET A$:EXIT IF A$<>\"\":END LOOP",
    "IF @>@ THEN PRINT \"MORE\":ELSE:PRINT \"LESS\"",
    "MOB SET 0,#,1,0,0",
    "MMOB 0,#,#,#,#,0,50",
    "RLOCMOB 0,@,@,0,#",
    "DESIGN 0,#",
    "PRINT AT(#,#)\"{rvs on}READY{rvs off}\"",
    "@=MOD(@,8):B=DIV(@,8)",
    "@=JOY:IF @=128 THEN #",
    "A$=INKEY:IF A$=\"\" THEN #",
    "COLOUR #,#:CLS",
    "VOL 15:WAVE 1,00010000:ENVELOPE 1,8,8,8,0",
    "MUSIC 8,\"{clr}C5E5G5{f1}\":PLAY 1",
    "PAUSE #",
    "FILL #,#,#,#,160,@",
    "KEY 1,\"LIST{return}\"",
    "ON ERROR:OUT:NO ERROR",
];

const VARIABLES: [&str; 12] = [
    "A", "B", "X", "Y", "Z1", "SC", "HP", "N", "K", "PX", "G", "WN",
];

/// A program of nearly `size` bytes, its last line whole.
pub fn program(kind: Kind, size: usize) -> String {
    let mut random = Random::new(0x0801);
    let mut text = String::new();
    // The first statement tells the dialect.
    let mut line = match kind {
        Kind::V2 => String::from("10 REM A GAME\n"),
        Kind::Tsb => String::from("10 HIRES 0,1\n"),
    };
    let mut number = 10;
    while text.len() + line.len() <= size {
        text += &line;
        number += random.pick(&[1, 2, 5, 10, 10]);
        line = format!("{number} {}\n", statements(kind, &mut random));
    }
    text
}

/// One to four statements, as they fill a line of the screen or two.
pub fn statements(kind: Kind, random: &mut Random) -> String {
    let mut line = statement(kind, random);
    while line.len() < 70 && !line.starts_with("REM") && !random.one_in(3) {
        line += ":";
        line += &statement(kind, random);
    }
    line
}

fn statement(kind: Kind, random: &mut Random) -> String {
    let form = match kind {
        Kind::Tsb if random.one_in(2) => random.pick(&TSB),
        _ => random.pick(&V2),
    };
    let mut text = String::new();
    for letter in form.chars() {
        match letter {
            '#' => text += &random.below(400).to_string(),
            '@' => text += random.pick(&VARIABLES),
            _ => text.push(letter),
        }
    }
    text
}
