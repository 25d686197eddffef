//! Texts that are recorded one and all: what a writer easily gets wrong, each
//! beside a neighbour that is written otherwise.

use crate::read::generate::{DEAL, NAMED};

const DIGITS: &str = "0123456789abcdABCD00";

/// Headers, blank lines between boards, and what stands before a first tag.
const HEADERS: [&str; 22] = [
    ";x\n% y\n\n{c}\n",
    "{c}",
    "% PBN 2.1\n% EXPORT\n\n",
    "[ \"x\"]",
    "% PBN 2.1\n% EXPORT\n\n[Event \"x\"]",
    "% PBN 2.1\n% EXPORT\n[Event \"x\"]",
    ";x\n[Event \"x\"]",
    "{b}\n[Event \"x\"]",
    "{b}\n% h\n\n;i\n{c}\n[Event \"x\"]",
    "% h\n\n[Event \"x\"]\n\n[Event \"y\"]",
    "[Event \"x\"]\n\n% h\n[Event \"y\"]",
    "[Event \"x\"]\n\n% h\n\n;i\n{b}\n[Event \"y\"]",
    "[Event \"x\"]\n\n{b}\n[Event \"y\"]",
    "% g\n[Event \"x\"]\n\n% h\n[Event \"y\"]\n\n;i\n[Event \"z\"]",
    "[Event \"x\"]\n\n\n\n[Event \"y\"]\n\n;lost\n{lost}\n",
    "[Event \"x\"]\n;d\n\n;lost",
    "\n\n[Event \"x\"]\n\n\n",
    "%\n;\n[Event \"\"]",
    " \t% h \t\n[Event \"\"]",
    "[Event \"x\"]\n\n[Site \"x\"]\n\n[Date \"x\"]\n\n[Board \"x\"]\n\n[A \"x\"]",
    "{a}\n{b}\n[Event \"\"]\n{c}\n{d}",
    "no board\n[no tag\n;c",
];

/// Which tags are written, and with which values.
const TAGS: [&str; 46] = [
    "[Event \"e\"]\n[Site \"s\"]\n[Date \"d\"]",
    "[South \"s\"]\n[East \"e\"]\n[North \"n\"]\n[West \"w\"]",
    "[North \"n\"]\n[North \"\"]",
    "[Board \"7\"]",
    "[Board \"\"]",
    "[Board \"7\"]\n[Board \"\"]",
    "[Board \"1-1\"]",
    "[Board \"007\"]",
    "[Board \"+4294967296\"]",
    "[Dealer \"west\"]",
    "[Dealer \"N\"]\n[Dealer \"x\"]",
    "[Vulnerable \"Both\"]",
    "[Vulnerable \"Love\"]",
    "[Vulnerable \"ns\"]",
    "[Vulnerable \"eW\"]",
    "[Vulnerable \" NS\"]",
    "[Declarer \"e\"]",
    "[Declarer \"\"]",
    "[Contract \"4HX\"]",
    "[Contract \"?\"]",
    "[Contract \"4S\"]\n[Contract \"?\"]",
    "[Contract \"Pass\"]",
    "[Result \"9\"]",
    "[Result \"+9\"]",
    "[Result \"-9\"]",
    "[Result \"-0\"]",
    "[Result \"007\"]",
    "[Result \"127\"]",
    "[Result \"-128\"]",
    "[Result \"100\"]",
    "[Result \"10\"]",
    "[Result \"-100\"]",
    "[Result \"128\"]",
    "[OptimumScore \"\"]",
    "[OptimumScore \"NS 420\"]\n[ParContract \"NS 4S=\"]",
    "[ParContract \"\"]\n[OptimumScore \"a\"]\n[OptimumScore \"\"]",
    "[Event \"a\\\"b\"]\n[Site \"\\\\\"]",
    "[Event \"x\"y]\"]\n[Site \"a]b\"]\n[Date \"[c\"]",
    "[Event \" x \"]\n[Site \"\t\"]",
    "[Event \"a\rb\"]\n[A\"b \"c\"]",
    "[Event\t\"x\"\t]\n[Site  \"y\"  ]",
    "[Event \"{x}\"]\n[Site \";x\"]\n[Date \"%x\"]",
    "[Événement \"é\"]\n[Event \"♠♥\"]",
    "[Contract \"4H\"]\n[Event \"x\"] {c",
    "[Event \"a\"]\n[Event \"b\"]\n[Site \"c\"]\n[Site \"\"]",
    "[DoubleDummyTricks \"bad\"]\n[Result \"x\"]",
];

/// Supplemental tags.
const SUPPLEMENTAL: [&str; 34] = [
    "[A \"1\"]\n[B \"2\"]",
    "[B \"1\"]\n[A \"2\"]",
    "[A \"1\"]\n[A \"2\"]",
    "[A \"1\"]\n[B \"2\"]\n[A \"3\"]\n[B \"4\"]",
    "[A \"1\"]\n[Deal \"x\"]",
    "[Deal \"x\"]\n[A \"1\"]",
    "[A \"1\"]\n[Deal \"x\"]\n[B \"2\"]",
    "[A \"1\"]\n[Deal \"x\"]\n[A \"2\"]",
    "[Deal \"x\"]\n[A \"1\"]\n[Deal \"y\"]",
    "[A \"1\"]\n[Deal \"\"]\n[B \"2\"]\n[Deal \"y\"]\n[C \"3\"]",
    "[B \"1\"]\n[A \"2\"]\n[Deal \" \"]\n[C \"3\"]\n[B \"4\"]",
    "[Scoring \"IMP\"]",
    "[Scoring \"IMP\"]\n[Deal \"x\"]",
    "[Deal \"x\"]\n[Scoring \"IMP\"]",
    "[Scoring \"IMP\"]\n[Scoring \"MP\"]",
    "[Scoring \"\"]\n[Scoring \"MP\"]",
    "[A \"1\"]\n[Scoring \"IMP\"]\n[Deal \"x\"]\n[B \"2\"]\n[Scoring \"MP\"]",
    "[ \"x\"]\n[Deal \"\"]\n[ \"y\"]",
    "[Deal \"\"]\n[ \"x\"]\n[ \"y\"]",
    "[scoring \"a\"]\n[SCORING \"b\"]\n[Scoring \"c\"]",
    "[event \"a\"]\n[EVENT \"b\"]\n[Eventx \"c\"]\n[Even \"d\"]",
    "[deal \"a\"]\n[A \"1\"]\n[Deal \"\"]",
    "[Deals \"a\"]\n[Dea \"b\"]\n[Deal \"\"]",
    "[A \"1\"]\n[AA \"2\"]\n[AAA \"3\"]\n[AA \"4\"]",
    "[A \"\"]\n[A \"x\"]",
    "[OptimumResultTable \"x\"]\n[A \"1\"]\n[Deal \"\"]",
    "[Note \"x\"]\n[Notes \"y\"]\n[Not \"z\"]",
    "[A \"1\"]\n\n[A \"2\"]\n[Deal \"\"]",
    "[A \"1\"]\n\n[Deal \"\"]\n[A \"2\"]",
    "[Hidden \"a\"]\n[Auction \"N\"]\nP\n[Deal \"\"]\n[Shown \"b\"]",
    "[Auction \"N\"]\nP\n[A \"1\"]\n[Play \"N\"]\nS2\n[B \"2\"]",
    "[A;b \"1\"]\n[A%b \"2\"]\n[A]b \"3\"]",
    "[\u{301} \"1\"]\n[\u{301} \"2\"]",
    "[A \"1\"]\n[B \"2\"]\n[C \"3\"]\n[Deal \"\"]\n[D \"4\"]\n[B \"5\"]\n[E \"6\"]\n[D \"7\"]",
];

/// Deals.
const DEALS: [&str; 22] = [
    "[Deal \"N:A... K... Q... J...\"]",
    "[Dealer \"E\"]\n[Deal \"N:A... K... Q... J...\"]",
    "[Deal \"N:A... K... Q... J...\"]\n[Dealer \"S\"]",
    "[Dealer \"W\"]\n[Deal \"E:A... K... Q... J...\"]",
    "[Dealer \"W\"]",
    "[Deal \"N:- - - -\"]",
    "[Deal \"S:... - ...2 -\"]",
    "[Deal \"n:23456789tjqka... - - -\"]",
    "[Deal \"E:2.3.4.5 .2.3.4 ..2.3 ...2\"]",
    "[Deal \"W:A.K.Q.J T.9.8.7 6.5.4.3 -\"]",
    "[Deal \" N:A... - - - \"]",
    "[Deal \"x\"]",
    "[Deal \" x \"]",
    "[Deal \"N:xxxx... - - -\"]\n[Dealer \"S\"]",
    "[Deal \"x\"]\n[Deal \"y\"]",
    "[Deal \"x\"]\n[Deal \"N:A... - - -\"]",
    "[Deal \"N:A... - - -\"]\n[Deal \"x\"]",
    "[Deal \"N:A... - - -\"]\n[Deal \"\"]",
    "[Deal \"N:A... - - -\"]\n[Deal \"E:K... - - -\"]",
    "[Deal \"\"]",
    "[Deal \"N:AK.. - - -\"]",
    "[Deal \"N:A\u{301}... - - -\"]",
];

/// Directives and commentary, and where they go.
const REMARKS: [&str; 56] = [
    "[Event \"x\"]\n;a\n%b\n[Site \"y\"]\n;c",
    "[Site \"y\"]\n;c\n[Event \"x\"]\n;a",
    "[Event \"x\"] ;c",
    "[Event \"x\"] {c}",
    "[Event \"x\"] {c} d {e",
    "[Event \"x\"]{}",
    "[Event \"x\"];",
    "[Event \"x\"] ;a\n;b\n[Event \"y\"] ;c",
    "[Event \"x\"]\n{a}\n;b\n{c}\n;d",
    "[Event \"x\"]\n{a}\n[Site \"\"]\n{b}\n[Event \"\"]\n{c}",
    "[Event \"\"]\n;a",
    "[West \"\"]\n{a}\n;b",
    "[Board \"\"]\n;a\n{b}",
    "[Board \"1\"]\n;a\n{b}",
    "[Dealer \"x\"]\n;a\n{b}",
    "[Dealer \"N\"]\n;a\n{b}",
    "[Vulnerable \"x\"]\n;a\n{b}",
    "[Deal \"\"]\n;a\n{b}",
    "[Deal \"x\"]\n;a\n{b}\n[Deal \"y\"]\n;c",
    "[Scoring \"x\"]\n;a\n{b}\n[Deal \"\"]\n[Scoring \"y\"]\n;c\n{d}",
    "[Result \"\"]\n;a\n[Contract \"\"]\n;b\n[Declarer \"\"]\n;c",
    "[DoubleDummyTricks \"bad\"]\n;a\n{b}",
    "[DoubleDummyTricks \"0123456789abcdABCD00\"]\n;a\n{b}",
    "[OptimumResultTable \"\"]\n;a\nN NT 1\n{b}",
    "[OptimumScore \"\"]\n;a\n[ParContract \"\"]\n{b}",
    "[A \"1\"]\n;a\n[B \"2\"]\n;b\n[A \"3\"]\n;c\n{d}",
    "[A \"1\"]\n{a}\n[Deal \"\"]\n{b}\n[A \"2\"]\n{c}",
    "[ \"x\"]\n;a\n{b}",
    "[Auction \"N\"]\n;a\nP\n{b}\nX\n;c",
    "[Auction \"x\"]\n;a\n{b}",
    "[Auction \"N\"]\n;a\n{b}",
    "[Auction \"N\"]\nP\n;a\n[Auction \"E\"]\n;b\n{c}",
    "[Auction \"N\"]\nP\n;a\n[Auction \"E\"]\nX\n;b\n{c}",
    "[Auction \"N\"] ;P\nX",
    "[Play \"N\"]\n;a\nS2\n{b}\nS3\n;c",
    "[Play \"x\"]\n;a\n{b}",
    "[Note \"1:a\"]\n;a\n{b}",
    "[Auction \"N\"]\nP\n[Note \"x\"]\n;a\n{b}",
    "[Auction \"N\"]\nP\n[Note \"1:a\"]\n;a\n{b}",
    "[Auction \"N\"]\nP\n[Note \"2:b\"]\n;a\n{b}\n[Note \"1:a\"]\n;c\n{d}",
    "[Auction \"N\"]\nP\n[Note \"1:a\"]\n[Note \"2:b\"]\n[Note \"3:c\"]\n;a\n%b\n{c}",
    "[Auction \"N\"]\nP\n[Note \"1:a\"] {c}\n[Note \"2:b\"]",
    "[Note \"0:lost\"] ;kept\n[Auction \"N\"]\nP\n[Note \"1:a\"]",
    "[Board \"\"]\n;1\n{2}\n[Dealer \"\"]\n{3}\n;4\n[Play \"\"]\n;5\n{6}",
    "[OptimumResultTable \"\"]\n;1\n[Event \"\"]\n;2\n[OptimumResultTable \"\"]\n{3}",
    "[Event \"\"]\n{a\n b\n\n c}",
    "[Event \"\"]\n{a\r\nb\r\n}",
    "[Event \"\"]\n{a\r\r\nb\r}",
    "[Event \"\"]\n{[Event \"x\"]\n;c\n[Site \"y\"]}",
    "[Event \"\"]\n{ a } b } c",
    "[Event \"\"]\n{a\nb} c } d",
    "[Event \"\"]\n{}\n{ }\n{\n}",
    "[Event \"\"]\n{a{b}",
    "[Event \"\"]\n  {a}\n  ;b  ",
    "[Event \"\"]\n{\n\n a\n\n}",
    "[Event \"\"]\n{open\n[Site \"y\"]",
];

/// Auctions.
const AUCTIONS: [&str; 46] = [
    "[Auction \"N\"]\nP",
    "[Auction \"w\"]\n1C - - -",
    "[Auction \"N\"]\n1C 1D 1H 1S 1N",
    "[Auction \"N\"]\n1C\n1D\n1H\n1S\n1N\n2C\n2D\n2H\n2S",
    "[Auction \"N\"]\nAP",
    "[Auction \"N\"]\n1C AP",
    "[Auction \"N\"]\n1C 1D AP",
    "[Auction \"N\"]\nap! 1C",
    "[Auction \"N\"]\n+",
    "[Auction \"N\"]\nP +",
    "[Auction \"N\"]\nP + P",
    "[Auction \"N\"]\nP +! P",
    "[Auction \"N\"]\nP +!",
    "[Auction \"N\"]\nP + !",
    "[Auction \"N\"]\nP + *",
    "[Auction \"N\"]\nP +! *",
    "[Auction \"N\"]\nP + P *",
    "[Auction \"N\"]\nP + AP",
    "[Auction \"N\"]\n*",
    "[Auction \"N\"]\nP *",
    "[Auction \"N\"]\nP P P P *",
    "[Auction \"N\"]\nP P P P +",
    "[Auction \"N\"]\nP P P +",
    "[Auction \"N\"]\nzz",
    "[Auction \"N\"]\n!",
    "[Auction \"N\"]\nzz *",
    "[Auction \"N\"]\n1C! 1D? 1H!! 1S$5 1N=1=",
    "[Auction \"N\"]\n1C ! =1= $2\n?? 1D",
    "[Auction \"N\"]\n1C!{x} 1D=\"]",
    "[Auction \"N\"]\nx xx X XX",
    "[Auction \"N\"]\n_ __ ___ ____ _____ ______ _______ ________ _________",
    "[Auction \"N\"]\n1n 2nt 3N 7NT 7c 1d 2h 3s",
    "[Auction \"N\"]\npass p - Pass",
    "[Auction \"N\"]\nP\n[Auction \"E\"]\nX",
    "[Auction \"N\"]\nP\n[Auction \"E\"]",
    "[Auction \"N\"]\nP\n[Auction \"x\"]\nX",
    "[Auction \"N\"] 1C\n1D",
    "[Auction \"N\"]\nP\n[Note \"1:a\"]",
    "[Auction \"N\"]\nP\n[Note \"10:a\"]\n[Note \"9:b\"]\n[Note \"100:c\"]\n[Note \"0:d\"]\n[Note \"255:e\"]",
    "[Auction \"N\"]\nP\n[Note \"1:a\"]\n[Note \" +01 :b\"]",
    "[Auction \"N\"]\nP\n[Note \"1:a:b\"]\n[Note \"2:\"]\n[Note \"3: x \"]",
    "[Auction \"N\"]\nP\n[Note \"256:a\"]\n[Note \"-1:b\"]\n[Note \":c\"]\n[Note \"4\"]",
    "[Auction \"N\"]\nP\n[Note \"1:a\"]\n[Auction \"E\"]\nX\n[Note \"2:b\"]",
    "[Auction \"N\"]\nP\n[Note \"1:a\"]\n[Auction \"E\"]\n[Note \"2:b\"]",
    "[Auction \"N\"]\nzz\n[Note \"1:a\"]",
    "[Auction \"N\"]\nP\n[Play \"N\"]\nS2\n[Note \"1:a\"]",
];

/// Plays.
const PLAYS: [&str; 26] = [
    "[Play \"N\"]\nS2",
    "[Play \"w\"]\nS2 S3 S4 S5",
    "[Play \"N\"]\nS2 S3 S4 S5\nH2 H3 H4 H5",
    "[Play \"N\"]\nS2 SA S3 S4\nH2 H3 H4 H5",
    "[Play \"N\"]\nS2 S3 SA S4\nH2 H3 H4 H5",
    "[Play \"N\"]\nSA S2 S3 S4\nH2 H3 H4 H5",
    "[Contract \"4C\"]\n[Play \"E\"]\nS2 C2 S3 S4\nH2 H3 H4 H5\nD2 D3 D4 DA\nC3 C4 C5 C6",
    "[Play \"N\"]\n- - - HJ\n+ - - CQ",
    "[Play \"N\"]\nS2 - S4 -\n- S3 - S5",
    "[Play \"N\"]\nS2 S3 S4 S5 *",
    "[Play \"N\"]\nS2 S3 *",
    "[Play \"N\"]\n*",
    "[Play \"N\"]\n+",
    "[Play \"N\"]\n-",
    "[Play \"N\"]\nzz",
    "[Play \"N\"]\n- - - -\nS2",
    "[Play \"N\"]\n- - - -\n- - - -\n*",
    "[Play \"N\"]\nS2 + *",
    "[Play \"N\"]\nS2 S3 S4 S5 +",
    "[Play \"N\"]\nSA! h10 d2x zz ct",
    "[Play \"N\"]\nS2\n[Play \"E\"]\nH2",
    "[Play \"N\"]\nS2\n[Play \"E\"]",
    "[Play \"N\"] S2\n;c\nS3\n{d}\nS4",
    "[Play \"S\"]\nS2 S3 S4 SA - H3 H4 H5\nD2 D3 D4 D5",
    "[Play \"N\"]\nS2\n[Auction \"N\"]\nP\n[Note \"1:a\"]",
    "[Play \"N\"]\nC2 D2 H2 S2\nC3 D3 H3 S3\nC4 D4 H4 S4\nC5 D5 H5 S5",
];

/// Twenty rows, the cells counting up to 13 and from 0 again.
fn rows() -> String {
    let mut rows = "[OptimumResultTable \"Declarer;Denomination\\2R;Result\\2R\"]\n".to_string();
    for cell in 0..20 {
        let (seat, strain) = (cell / 5, cell % 5);
        let (seat, strain) = (
            ["N", "S", "E", "W"][seat],
            ["NT", "S", "H", "D", "C"][strain],
        );
        rows += &format!("{seat} {strain:>2} {:>2}\n", cell % 14);
    }
    rows
}

/// One text of each case, none twice.
pub fn texts() -> Vec<String> {
    let digits = format!("[DoubleDummyTricks \"{DIGITS}\"]\n");
    let other = "[DoubleDummyTricks \"dddddddddddddddddddd\"]\n";
    let rows = rows();
    let tables = [
        digits.clone(),
        rows.clone(),
        format!("{rows}{digits}"),
        format!("{digits}{rows}"),
        format!("{other}[DoubleDummyTricks \"bad\"]\n"),
        format!("{rows}[DoubleDummyTricks \"bad\"]\n"),
        format!("{digits}[OptimumResultTable \"\"]\nN NT 1\n"),
        format!("{rows};c\n{{d}}\n{digits};e\n"),
        format!("[Deal \"{DEAL}\"]\n[Dealer \"E\"]\n{digits}"),
    ];
    let mut texts: Vec<String> = Vec::new();
    for list in [
        &HEADERS[..],
        &TAGS,
        &SUPPLEMENTAL,
        &DEALS,
        &REMARKS,
        &AUCTIONS,
        &PLAYS,
        &NAMED,
    ] {
        texts.extend(list.iter().map(|text| text.to_string()));
    }
    texts.extend(tables);
    texts.push(FULL.join("\n"));
    texts.push(UNWRITTEN.join("\n"));
    let mut met = std::collections::BTreeSet::new();
    texts.retain(|text| met.insert(text.clone()));
    texts
}

/// A record with every tag, some of them twice.
pub const FULL: [&str; 29] = [
    "[Event \"e\"]",
    "[Site \"s\"]",
    "[Date \"d\"]",
    "[Board \"7\"]",
    "[Room \"early\"]",
    "[West \"w\"]",
    "[North \"n\"]",
    "[East \"e\"]",
    "[South \"s\"]",
    "[Dealer \"E\"]",
    "[Vulnerable \"NS\"]",
    "[Scoring \"IMP\"]",
    "[Deal \"N:A... K... Q... J...\"]",
    "[Declarer \"S\"]",
    "[Contract \"4S\"]",
    "[Result \"10\"]",
    "[DoubleDummyTricks \"0123456789abcdABCD00\"]",
    "[OptimumResultTable \"\"]",
    "[OptimumScore \"\"]",
    "[ParContract \"p\"]",
    "[Room \"again\"]",
    "[Late \"l\"]",
    "[Note \"1:too soon\"]",
    "[Auction \"E\"]\n1C=1= X\nP AP",
    "[Note \"2:b\"]",
    "[Note \"1:a\"]",
    "[Play \"W\"]\nS2 H3 - +",
    "[Event \"again\"]",
    "[Scoring \"MP\"]",
];

/// A record of tags that are not written, or not here.
pub const UNWRITTEN: [&str; 9] = [
    "[Board \"\"]",
    "[Late \"l\"]",
    "[Dealer \"x\"]",
    "[DoubleDummyTricks \"bad\"]",
    "[OptimumResultTable \"\"]\nN NT 1",
    "[Auction \"x\"]\nP",
    "[Note \"1:a\"]",
    "[Play \"\"]\nS2",
    "[Late \"again\"]",
];

/// Editions of several boards.
pub fn editions() -> Vec<String> {
    let full = FULL.join("\n") + "\n";
    let unwritten = UNWRITTEN.join("\n") + "\n";
    let remarks: String = FULL
        .iter()
        .map(|line| format!("{line}\n;after {line}\n{{after}}\n"))
        .collect();
    vec![
        format!("{full}\n{unwritten}\n{full}"),
        format!("% PBN 2.1\n% EXPORT\n\n{full}\n% h\n{unwritten}\n{{b}}\n{full}"),
        remarks.clone(),
        format!("; own header\n\n{unwritten}\n{remarks}"),
        "[A \"1\"]\n\n".repeat(20),
        format!(
            "{}\n[Event \"last\"]",
            ";d\n\n[Board \"\"]\n{b}\n\n".repeat(10)
        ),
        format!("{full}\n").replace('\n', "\r\n").repeat(2),
    ]
}

/// What every board has between its Event and what is chosen here.
const MIDDLE: &str = "[Site \"\"]\n[Date \"\"]\n[West \"\"]\n[North \"\"]\n[East \"\"]\n\
    [South \"\"]\n[Vulnerable \"None\"]\n[Deal \"N:- - - -\"]\n[Scoring \"\"]\n\
    [Declarer \"\"]\n[Contract \"\"]\n[Result \"\"]\n";

/// Records with directives after a tag whose name is written not just once, or is met
/// more than once: the record, its Event with what follows it, and the lines behind
/// Result.
const PLACED: [[&str; 3]; 16] = [
    [
        "[Auction \"N\"]\n1C\n[Note \"1:a\"]\n;c\n[Note \"2:b\"]",
        "[Event \"\"]\n",
        "[Auction \"N\"]\n1C\n[Note \"1:a\"]\n;c\n[Note \"2:b\"]\n",
    ],
    [
        "[Auction \"N\"]\n1C\n[Note \"1:a\"]\n[Note \"2:b\"]\n;c",
        "[Event \"\"]\n",
        "[Auction \"N\"]\n1C\n[Note \"1:a\"]\n[Note \"2:b\"]\n;c\n",
    ],
    [
        "[Auction \"N\"]\n1C\n[Note \"2:b\"]\n;c\n[Note \"1:a\"]",
        "[Event \"\"]\n",
        "[Auction \"N\"]\n1C\n[Note \"1:a\"]\n[Note \"2:b\"]\n;c\n",
    ],
    [
        "[Auction \"N\"]\n1C\n[Note \"01:a\"]\n;c\n[Note \"0:z\"]",
        "[Event \"\"]\n",
        "[Auction \"N\"]\n1C\n[Note \"0:z\"]\n;c\n[Note \"1:a\"]\n",
    ],
    [
        "[Auction \"N\"]\n1C\n[Note \"1:a\"]\n;c\n[Note \"1:b\"]\n[Note \"2:d\"]",
        "[Event \"\"]\n",
        "[Auction \"N\"]\n1C\n[Note \"1:b\"]\n;c\n[Note \"2:d\"]\n",
    ],
    [
        "[Auction \"N\"]\n1C\n[Note \"1:a\"]\n;p\n[Note \"2:b\"]\n;q\n[Note \"1:d\"]",
        "[Event \"\"]\n",
        "[Auction \"N\"]\n1C\n[Note \"1:d\"]\n;p\n[Note \"2:b\"]\n;q\n",
    ],
    [
        "[Auction \"N\"]\n1C\n[Note \"9\"]\n;p\n[Note \"1:a\"]\n;q\n[Note \"2:b\"]",
        "[Event \"\"]\n",
        "[Auction \"N\"]\n1C\n[Note \"1:a\"]\n;p\n;q\n[Note \"2:b\"]\n",
    ],
    [
        "[Note \"2:b\"]\n;p\n[Auction \"N\"]\n1C\n[Note \"1:a\"]\n[Note \"2:b\"]",
        "[Event \"\"]\n",
        "[Auction \"N\"]\n1C\n[Note \"1:a\"]\n[Note \"2:b\"]\n;p\n",
    ],
    [
        "[Auction \"N\"]\n1C\n[Note \"1:a\"]\n;c\n[Auction \"E\"]\n1D\n[Note \"2:b\"]\n[Note \"3:d\"]",
        "[Event \"\"]\n",
        "[Auction \"E\"]\n1D\n[Note \"2:b\"]\n;c\n[Note \"3:d\"]\n",
    ],
    [
        "[Auction \"N\"]\n1C\n[Note \"1:a\"]\n[Note \"2:b\"]\n{x}\n;c",
        "[Event \"\"]\n",
        "[Auction \"N\"]\n1C\n[Note \"1:a\"]\n{x}\n[Note \"2:b\"]\n;c\n",
    ],
    [
        "[Auction \"N\"]\n1C\n[Note \"1:a\"] ;c\n[Note \"2:b\"] {d}",
        "[Event \"\"]\n",
        "[Auction \"N\"]\n1C\n[Note \"1:a\"]\n;c\n[Note \"2:b\"]\n{d}\n",
    ],
    [
        "[Auction \"N\"]\n1C\n;e\n[Note \"1:a\"]\n;c\n[Play \"N\"]\nSA\n;f\n[Note \"2:b\"]\n;g",
        "[Event \"\"]\n",
        "[Auction \"N\"]\n1C\n;e\n[Note \"1:a\"]\n;c\n[Note \"2:b\"]\n;g\n[Play \"N\"]\nSA\n;f\n",
    ],
    ["[Note \"1:a\"]\n;c", "[Event \"\"]\n", ";c\n"],
    [
        "[OptimumResultTable \"\"]\n;c\n{b}",
        "[Event \"\"]\n",
        "{b}\n;c\n",
    ],
    [
        "[X \"1\"]\n[X \"2\"]\n;c",
        "[Event \"\"]\n",
        "[X \"1\"]\n;c\n",
    ],
    [
        "[Event \"a\"]\n;c\n[Event \"b\"]\n;d",
        "[Event \"b\"]\n;c\n;d\n",
        "",
    ],
];

/// These records with their pages.
pub fn placed() -> Vec<(&'static str, String)> {
    let page = |event: &str, lines: &str| format!("% PBN 2.1\n% EXPORT\n\n{event}{MIDDLE}{lines}");
    let records = PLACED.iter();
    records
        .map(|[text, event, lines]| (*text, page(event, lines)))
        .collect()
}
