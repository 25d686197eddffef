//! Texts that are recorded one and all: what a reader of docs/FORMAT.md easily
//! gets wrong, each beside a neighbour that reads otherwise.

use super::generate::{DEAL, NAMED};

const DIGITS: &str = "0123456789abcdABCD00";
const OTHER_DIGITS: &str = "dddddddddddddddddddd";

/// Tag lines: what is a tag, and what follows one on its line.
const TAGS: [&str; 52] = [
    "[ \"x\"]",
    "[A \"]\"]",
    "[Event \"x\"] ;c",
    "[Event \"x\"] {c",
    "[Event \"x\"] {c\nP }\n[Site \"y\"]",
    // Data is split off only if the first `]` after the second quote closes.
    "[A \"x\"y]\"]z",
    "[A \"x\"y]\"]",
    "[A \"x\"y\"]z",
    "[Play \"N\"y]\"] SA",
    "[Play \"N\"y\"] SA",
    "[Play \"N\"] SA]\"]",
    "[A \" ]x\"]",
    "[A \" ]\"]",
    "[A \"\"]",
    "[A \"\" ]",
    "[A \"]",
    "[A x]",
    "[A \"x\" \"y\"]",
    "[A x\"y\"]",
    "[A \"x\"\u{b}]",
    "[A\u{c}\"x\"]",
    "[A \t \"x\" \t ]",
    "[Auction \"N\"] {c",
    "[Auction \"N\"] {c} P",
    "[Auction \"N\"]{c\nP\n[Event \"\"]",
    "[Auction \"N\"] ;P",
    "[Auction \"N\"] %P",
    "[Play \"W\"] %SJ SQ",
    "[Auction \"N\"] 1C=1= ;P",
    "[Auction \"N\"]\u{1c}P",
    "[Event \"x\"] {c} d {e",
    "[Event \"x\"]\n{c} d {e",
    "[Event \"x\"]\n{c} d {e}",
    "[Event \"x\"] {c} ;d",
    "[Event \"x\"];",
    "[Event \"x\"]{}",
    "[ Event \"x\"]",
    "[Event\"x\"]",
    "[Event \"x\"",
    "[\"x\"]",
    "[]",
    "[",
    " \t[Event \"x\"]\t ",
    "x [Event \"x\"]",
    "[[Event \"x\"]",
    "[Event \"a\\\"b\"]",
    "[Event \"\\\"] P\"]",
    "[event \"x\"]\n[EVENT \"y\"]\n[Event \"z\"]",
    "[Événement \"é\"]\n[\u{301} \"\u{301}\"]",
    "\u{feff}[Event \"x\"]",
    "\u{feff}[Event \"x\"]\n[Event \"y\"]",
    "[A \"1\"][B \"2\"]\n[C \"3\"] [D \"4\"]",
];

/// Values: which bad value takes an earlier one away, and which does not.
const VALUES: [&str; 76] = [
    "[Board \"7\"]\n[Board \"x\"]",
    "[Board \"7\"]\n[Board \"\"]",
    "[Board \"x\"]\n[Board \"\"]",
    "[Board \"x\"]\n[Board \"7\"]",
    "[Board \" 7\"]",
    "[Result \"9\"]\n[Result \"x\"]",
    "[Result \"9\"]\n[Result \"\"]",
    "[Result \" 9\"]",
    "[Dealer \"S\"]\n[Dealer \"x\"]",
    "[Dealer \"S\"]\n[Dealer \"\"]",
    "[Dealer \"South\"]\n[Declarer \"west\"]",
    "[Dealer \" S\"]",
    "[Dealer \"é\"]\n[Declarer \"N\u{301}\"]",
    "[Declarer \"S\"]\n[Declarer \"x\"]",
    "[Declarer \"S\"]\n[Declarer \"\"]",
    "[Vulnerable \"NS\"]\n[Vulnerable \"x\"]",
    "[Vulnerable \"EW\"]\n[Vulnerable \"\"]",
    "[Vulnerable \" NS\"]",
    "[Vulnerable \"Love\"]",
    "[Vulnerable \"-\"]",
    "[Vulnerable \"ns\"]",
    "[Vulnerable \"eW\"]",
    "[Vulnerable \"Both\"]",
    "[Vulnerable \"ALL\"]",
    "[Vulnerable \"N-S\"]",
    "[Event \"a\"]\n[Event \"\"]\n[Event \"b\"]\n[Event \"\"]",
    "[Event \"a\"]\n[Event \"?\"]",
    "[Site \"a\"]\n[Site \"\"]",
    "[Date \"a\"]\n[Date \"\"]",
    "[North \"a\"]\n[North \"\"]",
    "[East \"a\"]\n[East \"\"]",
    "[South \"a\"]\n[South \"\"]",
    "[West \"a\"]\n[West \"\"]",
    "[West \" \"]\n[East \" e \"]",
    "[Contract \"4S\"]\n[Contract \"\"]\n[Play \"N\"]\nS2",
    "[Contract \"4S\"]\n[Contract \"?\"]\n[Play \"N\"]\nS2",
    "[Contract \"4S\"]\n[Contract \"x\"]\n[Play \"N\"]\nS2",
    "[Contract \"4S\"]\n[Contract \"??\"]\n[Play \"N\"]\nS2",
    "[Contract \"4H X\"]\n[Play \"N\"]\nS2",
    "[Contract \" 4H\"]\n[Play \"N\"]\nS2",
    "[Contract \"4HX\"]\n[Play \"N\"]\nS2",
    "[Contract \"7cxx\"]\n[Play \"N\"]\nS2",
    "[Contract \"3n\"]\n[Play \"N\"]\nS2",
    "[Contract \"3NTXXX\"]\n[Play \"N\"]\nS2",
    "[Contract \"8S\"]\n[Play \"N\"]\nS2",
    "[Contract \"Pass\"]\n[Play \"N\"]\nS2",
    "[OptimumScore \"NS 420\"]\n[OptimumScore \"\"]",
    "[OptimumScore \"\"]",
    "[ParContract \"NS 4S\"]\n[ParContract \"\"]",
    "[ParContract \"\"]",
    "[Note \"1:a\"]\n[Auction \"E\"]\nP\n[Note \" 2 :b\"]\n[Note \"2:c\"]",
    "[Auction \"E\"]\nP\n[Note \"256:a\"]\n[Note \":\"]\n[Note \"x\"]",
    "[Deal \"N:- - - -\"]",
    "[Deal \" \tN:- - - -\t\"]",
    "[Deal \"N: - - - -\"]",
    "[Deal \"N :- - - -\"]",
    "[Deal \"N:-\t-  -\u{b}-\"]",
    "[Deal \"N:... - - -\"]",
    "[Deal \"s:a... k... q... j...\"]",
    "[Deal \"W:A... .A.. ..A. ...A\"]",
    "[Deal \"N:A... A... - -\"]",
    "[Deal \"N:AA... - - -\"]",
    "[Deal \"N:AKQJT98765432.2.. - - -\"]",
    "[Deal \"N:- - -\"]",
    "[Deal \"N:- - - - -\"]",
    "[Deal \"N:A.. - - -\"]",
    "[Deal \"N:A.... - - -\"]",
    "[Deal \"N:1... - - -\"]",
    "[Deal \"X:- - - -\"]",
    "[Deal \"\"]",
    "[Deal \" \"]",
    "[Deal \"x\"]\n[Deal \"N:A... - - -\"]",
    "[Deal \"N:A... - - -\"]\n[Deal \"x\"]",
    "[Deal \"N:A... - - -\"]\n[Deal \"E:K... - - -\"]",
    "[Deal \"N:A... - - -\"]\n[Deal \"\"]",
    "[Deal \"x\"]\n[Deal \"y\"]",
];

/// Numbers.
const NUMBERS: [&str; 28] = [
    "[Board \"4294967295\"]",
    "[Board \"4294967296\"]",
    "[Board \"+4294967295\"]",
    "[Board \"0004294967295\"]",
    "[Board \"0004294967296\"]",
    "[Board \"18446744073709551617\"]",
    "[Board \"99999999999999999999999999999999999999999\"]",
    "[Board \"0\"]",
    "[Board \"-0\"]",
    "[Board \"+0\"]",
    "[Board \"+\"]",
    "[Board \"-\"]",
    "[Board \"++1\"]",
    "[Board \"1 \"]",
    "[Board \"1a\"]",
    "[Result \"-128\"]",
    "[Result \"-129\"]",
    "[Result \"127\"]",
    "[Result \"128\"]",
    "[Result \"-0\"]",
    "[Result \"+0\"]",
    "[Result \"+\"]",
    "[Result \"-\"]",
    "[Result \"+-1\"]",
    "[Result \"-+1\"]",
    "[Result \"-000128\"]",
    "[Result \"+127\"]",
    "[Result \"^9\"]",
];

/// Auctions.
const AUCTIONS: [&str; 45] = [
    "[Auction \"N\"]\nAP",
    "[Auction \"N\"]\n1C AP 1D",
    "[Auction \"N\"]\n1C ap\n1D\n[Event \"x\"]",
    "[Auction \"N\"]\nAP!",
    "[Auction \"N\"]\nAP! 1C",
    "[Auction \"N\"]\n1C=1= AP",
    "[Auction \"N\"]\n+",
    "[Auction \"N\"]\n+ 1C",
    "[Auction \"N\"]\n+!",
    "[Auction \"N\"]\n+! 1C",
    "[Auction \"N\"]\n*",
    "[Auction \"N\"]\n1C * 1D",
    "[Auction \"N\"]\n+ *",
    "[Auction \"N\"]\n*!",
    "[Auction \"N\"]\n1C + AP",
    "[Auction \"N\"]\nzz! =1=",
    "[Auction \"N\"]\n1C zz! 1D",
    "[Auction \"N\"]\n1C ! ?",
    "[Auction \"N\"]\n1C!=1=$5",
    "[Auction \"N\"]\n! 1C",
    "[Auction \"N\"]\n!\n1C\n=2=",
    "[Auction \"N\"]\nzz",
    "[Auction \"W\"]\n=1= $2",
    "[Event \"x\"]\n[Auction \"W\"]\n*\n[Site \"y\"]",
    "[Auction \"N\"]\nPass P - pass p PASS pAsS",
    "[Auction \"N\"]\n1C 1D 1H 1S 1N 1NT 7n 7nt 7NT",
    "[Auction \"N\"]\n0C 8C 1 1X C1 1CC N1",
    "[Auction \"N\"]\nX XX XXX x xx",
    "[Auction \"N\"]\n_ __ ___ ____ _____ ______ _______ ________ _________",
    "[Auction \"N\"]\nP ; 2C",
    "[Auction \"N\"]\nP\n;c\n%d\n{e}\n[no tag\nX",
    "[Auction \"N\"]\n{e\n\nP\n}\nX",
    "[Auction \"x\"]\nP",
    "[Auction \"\"]\nP",
    "[Auction \"N\"]\n",
    "[Auction \"N\"]\n\nP",
    "[Auction \"E\"]\nP\n[Auction \"W\"]\n1C 1D",
    "[Auction \"E\"]\nP\n[Auction \"W\"]\n[Note \"1:a\"]",
    "[Auction \"E\"]\nP\n[Auction \"x\"]\n1C",
    "[Auction \"E\"]\nP\n[Auction \"W\"]\nzz",
    "[Auction \"E\"]\nP\n[Note \"1:a\"]\nX",
    "[Auction \"North\"]\nP",
    "[Auction \"e\"]P",
    "[Auction \"N\"]\n1C\u{1c}1D 1C\u{b}1D",
    "[Auction \"N\"]\n1é é! 1C=é=",
];

/// Plays.
const PLAYS: [&str; 36] = [
    "[Play \"S\"]\nS2 S3 S4 S5 *",
    "[Play \"S\"]\nS2 S3 S4 S5 zz",
    "[Play \"S\"]\nS2 S3 S4 S5",
    "[Play \"S\"]\nS2 S3 S4 zz S5",
    "[Play \"S\"]\nzz",
    "[Play \"S\"]\n*",
    "[Play \"S\"]\n+",
    "[Play \"S\"]\n-",
    "[Play \"S\"]\nS2 - S4 S5\nH2 H3 H4 H5",
    "[Play \"S\"]\nS2 + S4 S5\nH2 H3 H4 H5",
    "[Play \"S\"]\n- - - HJ\n+ - - CQ\nzz",
    "[Play \"S\"]\n- - - - S2",
    "[Play \"S\"]\nS2 S3 + *",
    "[Play \"S\"]\nS2 * S3",
    "[Play \"S\"]\nS2 -! *x S3",
    // SA! is SA.
    "[Play \"S\"]\nSA! S2x ha? c10",
    "[Play \"S\"]\nS S1 1S SX",
    "[Play \"n\"]\ns2\u{301} S\u{301}2 sa! S2é",
    // Slots run from each trick's leader, tokens from the opening leader.
    "[Play \"N\"]\nS2 S3 S4 S5\nH2 H3 H4 H5",
    "[Play \"W\"]\nS2 S5 S4 S3\nH2 H3 H4 H5\nD2 D3 DA D5",
    "[Play \"E\"]\nS2 S5 S4 S3 H2 H3 H4",
    "[Play \"E\"]\nC2 CA D2 DA C3 C4 C5 C6",
    // Equal cards: the first highest wins.
    "[Play \"E\"]\nS2 SA SA S3 C2 C3 C4 C5",
    "[Contract \"4H\"]\n[Play \"E\"]\nS2 HA HA S3 C2 C3 C4 C5",
    // Trump is that of the last kept contract when the section closes.
    "[Contract \"4H\"]\n[Play \"N\"]\nS2 H2 S4 S5\n[Contract \"4S\"]",
    "[Play \"N\"]\nS2 H2 S4 S5\n[Contract \"4H\"]",
    "[Play \"N\"]\n[Contract \"4H\"]\nS2 H2 S4 S5",
    "[Contract \"4H\"]\n[Contract \"3NT\"]\n[Play \"N\"]\nS2 H2 S4 S5\nC2 C3 C4 C5",
    "[Contract \"4H\"]\n[Contract \"?\"]\n[Play \"N\"]\nS2 H2 S4 S5\nC2 C3 C4 C5",
    "[Contract \"4H\"]\n[Play \"N\"]\nS2 H2 S4 S5\n[Play \"E\"]\nC2",
    "[Play \"N\"]\nS2\n[Play \"x\"]\nC2",
    "[Play \"N\"]\nS2\n[Play \"E\"]\n[Event \"\"]",
    "[Play \"x\"]\nS2",
    "[Play \"N\"]S2\n\nS3",
    "[Play \"N\"]\nS2\n[no tag\n;c\n{d}\nS3",
    "[Auction \"N\"]\n1S AP\n[Play \"E\"]\nHA HK HQ HJ\n+",
];

/// Lines, commentary and records.
const LINES: [&str; 47] = [
    "",
    "\n",
    "\r\n",
    "\r",
    " ",
    "x",
    "x\n\ny\n",
    ";c",
    "{c}",
    "{",
    "}",
    "[Event \"x\"]\n{a} b } c\nP",
    "[Event \"x\"]\n{a\n[Site \"in\"]\n} lost\n[Site \"out\"]",
    "[Event \"x\"]\n{a\n\n[Site \"in\"]\n\n}\n[Site \"out\"]",
    "[Event \"x\"]\n{ open\n\n[Event \"y\"]\n",
    "{ open\n\n[Event \"x\"]\n",
    "{ open\n[Event \"x\"]\n}\n[Event \"y\"]",
    "[Event \"x\"]\n{}\n{ }\n{\r\n}\r\n{a\r\r\nb\r\n}",
    "[Event \"x\"]\n{ }\n{\n\t\n}",
    "[Event \"x\"]\n{a}{b}\n",
    "[Event \"x\"]\n {a} \n",
    "[Event \"x\"]\n{{a}",
    "[Event \"x\"]\n;{a\n%}b",
    "\n\n[Event \"x\"]\n",
    " \n\t\n[Event \"x\"]\n\n\n\n[Event \"y\"]\n",
    "% header\n; before\n\n{note}\n\n[Event \"x\"]\n\n;between\n\n[Event \"y\"]\n\n;after\n",
    "[Event \"x\"]\n\n;after\n{and}\n\n",
    "[Event \"x\"]\n\nP\n[no tag\n",
    "[Event \"x\"]\n\n[",
    ";a\n[Event \"x\"]\n%b\n[Site \"y\"]\n ;c\t\n",
    "{a}\n[Event \"x\"]\n{b}\n[Site \"y\"] {c}\n{d}",
    "[Event \"x\"]\r\n\r\n[Event \"y\"]\r\n",
    "[Event \"x\"]\r\r\n[Event \"y\"]\r",
    "[Event \"x\"]\n\r\n[Event \"y\"]",
    "[Event \"x\"]\n \t\u{b}\u{c}\r\n[Event \"y\"]",
    "[Event \"x\"]\n\u{1c}\n[Event \"y\"]",
    "[Event \"x\"]\n\u{1d}\n[Event \"y\"]",
    "[Event \"x\"]\n\u{1e}\n[Event \"y\"]",
    "[Event \"x\"]\n\u{1f}\n[Event \"y\"]",
    "[Event \"x\"]\n\0\n[Event \"y\"]",
    "[Auction \"N\"]\nP\n\nX\n[Play \"N\"]\nS2\n\nS3",
    "[Auction \"N\"]\nP\n[Event \"x\"]\nX",
    "[Event \"x\"]\nP\nS2\nN NT 5",
    "[Event \"x\"]\n% a\n%b\n %c",
    "[Event \"x\"]\n\n[Event \"y\"]\n\n[Event \"z\"]",
    "[Auction \"N\"]\n1C\n\n[Note \"1:a\"]\n\n[Play \"N\"]\nS2\n",
    "[Board \"1\"]\n[Dealer \"N\"]\n",
];

/// A table with one row replaced, or left out.
fn table(at: usize, row: Option<&str>) -> String {
    let mut rows = Vec::new();
    for seat in ["N", "S", "E", "W"] {
        for strain in ["NT", "S", "H", "D", "C"] {
            rows.push(format!("{seat} {strain} {}\n", rows.len() % 14));
        }
    }
    match row {
        Some(row) => rows[at] = format!("{row}\n"),
        None => {
            rows.remove(at);
        }
    }
    let tag = "[OptimumResultTable \"Declarer;Denomination\\2R;Result\\2R\"]\n";
    tag.to_string() + &rows.concat()
}

fn digits(value: &str) -> String {
    format!("[DoubleDummyTricks \"{value}\"]\n")
}

/// Tables: the rows and digits at each boundary, and each tag after the other.
fn tables() -> Vec<String> {
    let mut texts = Vec::new();
    for row in [
        "N NT 13",
        "N NT 14",
        "N NT 255",
        "N NT 256",
        "N NT +9",
        "N NT -9",
        "N NT 009",
        "North n 9",
        "n nt 9",
        "N NT",
        "N NT 9 x",
        "X NT 9",
        "N X 9",
        " N\tNT\u{b}9 ",
        "É NT 9",
        "W C 5\nN NT 3",
        "N NT 3\n;c\n{d}\n%e\n[no tag",
        "N NT 3\n\nW C 5",
    ] {
        texts.push(table(0, Some(row)));
    }
    for value in [
        DIGITS,
        "0123456789abcd01234",
        "0123456789abcd0123456",
        "0123456789abcd01234e",
        "0123456789abcd01234é",
        " \t0123456789abcd012345 ",
        "0123456789 abcd01234",
        "DDDDDDDDDDDDDDDDDDDD",
        "",
    ] {
        texts.push(digits(value));
    }
    let good = table(19, Some("W C 5"));
    let short = table(7, None);
    let bad = table(3, Some("N D 14"));
    texts.extend([good.clone(), short.clone(), bad.clone()]);
    for (first, second) in [
        (digits(DIGITS), digits("bad")),
        (digits(DIGITS), digits("")),
        (digits(DIGITS), digits(OTHER_DIGITS)),
        (good.clone(), digits(OTHER_DIGITS)),
        (good.clone(), digits("bad")),
        (digits(OTHER_DIGITS), good.clone()),
        (digits(OTHER_DIGITS), short.clone()),
        (digits(OTHER_DIGITS), bad.clone()),
        (good.clone(), bad),
        (short, good.clone()),
        (good.clone(), table(19, Some("W C 6"))),
        (good.clone(), "[OptimumResultTable \"\"]\n".to_string()),
        (good.clone(), format!("\n{}", digits(OTHER_DIGITS))),
    ] {
        texts.push(first + &second);
    }
    texts.push(good.replacen("]\n", "]", 1));
    texts.push(good.replace('\n', "\r\n"));
    texts
}

/// A record with everything in it.
fn full(number: usize) -> String {
    format!(
        "% before {number}\n[Event \"Some event\"] ;own line\n[Site \"\"]\n[Board \"{number}\"]\n\
         [West \"w\"]\n[North \"n\"]\n[East \"e\"]\n[South \"s\"]\n[Dealer \"E\"]\n\
         [Vulnerable \"EW\"]\n[Deal \"{DEAL}\"]\n[Deal \"later\"]\n[Declarer \"S\"]\n\
         [Contract \"3NTX\"]\n[Result \"9\"]\n{{two\n\nlines}}\n[Auction \"E\"]\n\
         1D =1= Pass! 1NT X\n3NT\nAP\n[Note \"1:weak\"]\n[Play \"W\"]\nDA D2 D3 D4\nHA - H2 +\n*\n\
         [DoubleDummyTricks \"{DIGITS}\"]\n[OptimumScore \"NS 400\"]\n[ParContract \"NS 3NT\"]\n\
         [Room \"Open\"]\n; behind\n"
    )
}

/// Every text whose reading is recorded.
pub fn texts() -> Vec<String> {
    let lists: [&[&str]; 6] = [&TAGS, &VALUES, &NUMBERS, &AUCTIONS, &PLAYS, &LINES];
    let mut texts: Vec<String> = lists.concat().iter().map(|t| t.to_string()).collect();
    texts.push(format!("[Deal \"{DEAL}\"]"));
    texts.push(format!("[Deal \"E{}\"]", &DEAL[1..]));
    texts.push(full(1));
    texts.extend(tables());
    for text in NAMED {
        if !texts.iter().any(|known| known == text) {
            texts.push(text.to_string());
        }
    }
    texts
}

/// Editions of several boards.
pub fn editions() -> Vec<String> {
    let tiny = "[ \"\"]\n\n";
    let mixed = [
        "[Auction \"N\"]\n1C=1= AP\n",
        "[Event \"\"]\n{ a\n\n b }\n",
        "[Play \"W\"]\nS2 S5 S4 S3\nH2\n",
        "[Deal \"x\"]\n[Board \"9\"]\n",
        "[Auction \"S\"]\n*\n",
        &digits(DIGITS),
        &table(0, Some("N NT 13")),
    ];
    vec![
        tiny.repeat(2),
        tiny.repeat(40),
        tiny.repeat(64),
        mixed.join("\n"),
        mixed.join("\r\n"),
        mixed.join("\n \t\n\n"),
        mixed.join("\n;between\n\n{and}\n\n"),
        format!("\n\n{}\n{}\n;after\n{{open", full(1), full(2)),
        format!("{}\n{}", full(7), full(7)),
    ]
}

/// Editions that are read with lent sizes around each boundary.
pub const SIZED: [&str; 9] = [
    "",
    ";no board\n\n",
    "[ \"\"]",
    "[Board \"1\"]\n\n;after\n{this}\n",
    "[Auction \"N\"]\n*",
    "[Auction \"N\"]\n1C=1= AP\n",
    "[Event \"x\"]\n\n[Event \"y\"] ;c\n",
    "[Play \"W\"]\nS2 S5 S4 S3\nH2\n\n[ \"\"]\n\n[A \"b\"]\n{c}\n\n",
    "% header\n\n[Deal \"N:A... - - -\"]\n\n[Dealer \"N\"]\n\n[Result \"3\"]\n\n[Note \"x\"]",
];
