//! Chosen LIN texts: those whose pages are written out here by hand, and others
//! that are easily got wrong.

use crate::write::model::HEADER;

/// What is written of a board, but for what is the same on every one.
#[derive(Clone, Copy)]
pub struct Written {
    dealer: &'static str,
    vulnerable: &'static str,
    deal: &'static str,
    declarer: &'static str,
    contract: &'static str,
    auction: &'static str,
    /// The seat that leads, and the lines.
    play: (&'static str, &'static str),
}

/// The page of a text, or none where refusal 16 is given.
type Page = Option<&'static [Written]>;

const fn dealt(dealer: &'static str, deal: &'static str) -> Written {
    Written {
        dealer,
        vulnerable: "None",
        deal,
        declarer: "",
        contract: "",
        auction: "",
        play: ("", ""),
    }
}

/// South's ace of spades alone, dealt by North.
const ACE: Written = dealt("N", "N:- - A... -");
/// South's ace of hearts alone.
const HEART: Written = dealt("S", "S:.A.. - - -");
const KING: [Written; 1] = [dealt("N", "N:- - K... -")];
const EMPTY: Written = dealt("N", "N:- - - -");

/// Three whole hands.
const WHOLE: &str = "SAKQJT98765432,HAKQJT98765432,DAKQJT98765432";

impl Written {
    const fn vulnerable(mut self, vulnerable: &'static str) -> Self {
        self.vulnerable = vulnerable;
        self
    }

    const fn auction(mut self, auction: &'static str) -> Self {
        self.auction = auction;
        self
    }

    const fn contract(mut self, declarer: &'static str, contract: &'static str) -> Self {
        self.declarer = declarer;
        self.contract = contract;
        self
    }

    const fn play(mut self, leader: &'static str, lines: &'static str) -> Self {
        self.play = (leader, lines);
        self
    }

    fn text(&self) -> String {
        let mut text = format!(
            "[Event \"\"]\n[Site \"\"]\n[Date \"\"]\n[West \"\"]\n[North \"\"]\n[East \"\"]\n\
             [South \"\"]\n[Dealer \"{}\"]\n[Vulnerable \"{}\"]\n[Deal \"{}\"]\n[Scoring \"\"]\n\
             [Declarer \"{}\"]\n[Contract \"{}\"]\n[Result \"\"]\n",
            self.dealer, self.vulnerable, self.deal, self.declarer, self.contract
        );
        if !self.auction.is_empty() {
            text += &format!("[Auction \"{}\"]\n{}\n", self.dealer, self.auction);
        }
        let (leader, lines) = self.play;
        if !lines.is_empty() {
            text += &format!("[Play \"{leader}\"]\n{lines}\n");
        }
        text
    }
}

/// The page of these boards.
pub fn page(boards: &[Written]) -> Vec<u8> {
    let texts: Vec<String> = boards.iter().map(Written::text).collect();
    [HEADER, texts.join("\n").as_bytes()].concat()
}

/// A text, in which `W` stands for three whole hands, and its boards.
type Case = (&'static str, &'static [Written]);

const REFUSED: [&[u8]; 21] = [
    b"",
    b" \n\t\r\n",
    b"hello",
    b"md|0SA|",
    b"md||",
    b"md",
    b"md|3|",
    b"md|3,,,|",
    b"md|3S10|",
    b"md|3SA|md|1|",
    b"md|1SAA|",
    b"md|1SA,SA|",
    b"md|1SAKQJT98765432H2|",
    b"qx|o1|",
    b"\xef\xbb\xbfmd|3SA|",
    b"md|3\x80SA|",
    b"md|3S\x80A|",
    b"md|3SA|\nmd|1SAA|",
    b"qx|o1|md|3SA|qx|o2|md|1SK,H2,,SK|",
    b"md|3SAKQJT98765432,SAKQJT98765432,HAKQJT98765432|",
    b"md|3SAKQJT9876543AA,,|",
];

/// South's, West's and North's whole hands, with the rest, nothing and a deuce for
/// East.
const ALL: Written = dealt(
    "S",
    "S:AKQJT98765432... .AKQJT98765432.. ..AKQJT98765432. ...AKQJT98765432",
);
const NO_EAST: Written = dealt(
    "S",
    "S:AKQJT98765432... .AKQJT98765432.. ..AKQJT98765432. -",
);
const TWO: Written = dealt(
    "S",
    "S:AKQJT98765432... .AKQJT98765432.. ..AKQJT98765432. ...2",
);

const DEALS: &[Case] = &[
    ("md|3SA|", &[ACE]),
    ("md|3SA", &[ACE]),
    ("md|3SA|md|0SK|", &[ACE]),
    ("md|1W|", &[ALL]),
    ("md|1W, |", &[ALL]),
    ("md|1W,,S2|", &[ALL]),
    ("md|1W,x|", &[NO_EAST]),
    ("md|1W,C2|", &[TWO]),
    ("md|1W,C2,S2|", &[TWO]),
    ("md| 4sak xh2 |", &[dealt("E", "E:- AK.2.. - -")]),
    ("md|3AKQS2|", &[dealt("N", "N:- - 2... -")]),
    (
        "MD|3sa|Sv| Ns |",
        &[dealt("N", "N:- - A... -").vulnerable("NS")],
    ),
    ("md|3SA|sv|b|sv|x|", &[ACE]),
    ("md|3SA|sv|b|sv", &[ACE.vulnerable("All")]),
    (
        "md|2,,SA|sv|ew|",
        &[dealt("W", "W:- A... - -").vulnerable("EW")],
    ),
    ("md|3|md|3SA|", &[ACE]),
    ("md|3SAA|md|3SA|", &[ACE]),
    ("md|31SA|", &[ACE]),
    ("md|3SA|nt|qx|", &[ACE]),
    ("\t md\r|3SA|", &[ACE]),
];

const AUCTIONS: &[Case] = &[
    (
        "md|3SA|mb|1C|mb|p|mb|1N!|an|weak|mb|d|mb|r|mb|p|mb|p|mb|p|",
        &[ACE
            .contract("S", "1NTXX")
            .auction("1C Pass 1NT X\nXX Pass Pass Pass")],
    ),
    (
        "md|3SA|mb|1S|mb|p|mb|2S|",
        &[ACE.contract("N", "2S").auction("1S Pass 2S")],
    ),
    (
        "md|3SA|mb|1H|mb|p|mb|p|mb|2H|",
        &[ACE.contract("W", "2H").auction("1H Pass Pass 2H")],
    ),
    (
        "md|3SA|mb|1C|mb|d|mb|1D|",
        &[ACE.contract("S", "1D").auction("1C X 1D")],
    ),
    (
        "md|3SA|mb| 1C|mb|zz|mb|1D|",
        &[ACE.contract("N", "1D").auction("1D")],
    ),
    (
        "md|3SA|mb|r|mb|1C|mb|+|mb|_|",
        &[ACE.contract("E", "1C").auction("XX 1C + _")],
    ),
    (
        "md|3SA|mb|3N|mb|-|mb|x|mb|xx|mb|PASS!!|",
        &[ACE.contract("N", "3NTXX").auction("3NT Pass X XX\nPass")],
    ),
    (
        "md|3SA|mb|p|mb|p|mb|p|mb|p|pc|SA|",
        &[ACE.auction("Pass Pass Pass Pass")],
    ),
    ("md|3SA|mb||mb|!|mb|ap|mb|1C |mb|1C! |", &[ACE]),
    // A line is trimmed before it is cut, so its last value is too.
    ("md|3SA|mb|1C \t", &[ACE.contract("N", "1C").auction("1C")]),
    ("qx||md|3SA|mb|1C ", &[ACE]),
    (
        "mb|1C|md|4SA|mb|1D|",
        &[dealt("E", "E:- A... - -")
            .contract("S", "1D")
            .auction("1C 1D")],
    ),
];

const HEARTS: Written = ACE.contract("N", "1H").auction("1H");
const NO_TRUMP: Written = ACE.contract("N", "1NT").auction("1NT");

const PLAYS: &[Case] = &[
    (
        "md|3SA|mb|1N|pc|D2|pc|DA|pc|D6|pc|D5|pc|S3|pc|S2|",
        &[NO_TRUMP.play("E", "D2 DA D6 D5\n- S3 S2 -")],
    ),
    (
        "md|3SA|mb|1H|pc|D2|pc|H2|pc|SA!|pc|S10|pc|D6|pc| d5 |pc|CA|",
        &[HEARTS.play("E", "D2 H2 D6 D5\n- CA - -")],
    ),
    (
        "md|3SA|mb|1N|pc|D2|pc|D2|pc|D2|pc|D2|pc|D2|",
        &[NO_TRUMP.play("E", "D2 D2 D2 D2\nD2 - - -")],
    ),
    (
        "pc|D2|md|3SA|pc|s|pc|!sa|mb|1H|pc|sA|",
        &[HEARTS.play("E", "D2 SA - -")],
    ),
    (
        "md|3SA|mb|1N|pc|D2|pc|D3|pc|D4|pc|D5|pc|S5|pc|S4|pc|S3|pc|S6|pc|H2|",
        &[NO_TRUMP.play("E", "D2 D3 D4 D5\nS4 S3 S6 S5\n- - H2 -")],
    ),
    ("md|3SA|pc|D2|", &[ACE]),
];

const BOARDS: &[Case] = &[
    ("md|3SA|\n\n \nmd|1HA|\r\n", &[ACE, HEART]),
    ("vg|x|\nqx|o1|md|3SA|\nqx|o2|md|1HA|", &[ACE, HEART]),
    ("md|3SA|qx|o1|md|1HA|", &[ACE, HEART]),
    ("qx|o1|md|0SA|\nqx|o2|md|1HA|", &[EMPTY, HEART]),
    ("md|3SA|\nhello", &[ACE, EMPTY]),
    ("hello\nqx|o1|md|3SA|", &[EMPTY, ACE]),
    ("md|3SA\n|mb|1C|", &[ACE, EMPTY]),
    (
        "mn|t|pn|a,b|QX|o1|md|3SA|pn|c|mn|u| qx\n|o2|md|1HA|",
        &[ACE, HEART],
    ),
    // The md behind the names stays with the first board.
    ("qx||mn||md|3SA|pn||qx||md|1HA|", &[ACE, HEART]),
    (
        "qx||md|3SA|pn||mb|1C|qx||",
        &[ACE.contract("N", "1C").auction("1C")],
    ),
    ("qx||qx||md|3SA|\nmd|1HA|", &[HEART]),
];

fn text_of(text: &str) -> Vec<u8> {
    text.replace('W', WHOLE).into_bytes()
}

/// The texts with their pages.
pub fn cases() -> Vec<(Vec<u8>, Page)> {
    let mut cases: Vec<(Vec<u8>, Page)> = Vec::new();
    cases.extend(REFUSED.map(|text| (text.to_vec(), None)));
    for (text, boards) in [DEALS, AUCTIONS, PLAYS, BOARDS].concat() {
        cases.push((text_of(text), Some(boards)));
    }
    // The ace has a second byte, and is none.
    cases.push((b"md|3SA\x80K|".to_vec(), Some(&KING)));
    cases
}

/// Texts of several boards.
pub fn several() -> Vec<Vec<u8>> {
    let texts = BOARDS.iter().map(|(text, _)| text_of(text));
    let long = [
        "md|3SA|\n".repeat(40),
        "qx||md|3SA|mb|1N|pc|D2|".repeat(30),
        "x\n".repeat(20) + "md|3SA|",
    ];
    texts.chain(long.map(String::into_bytes)).collect()
}

/// Texts that are easily got wrong, each judged by the Rust.
pub const TEXTS: [&str; 34] = [
    "md|3SA|mb|1C|mb|1D|mb|2C|mb|2D|mb|3C|mb|d|mb|p|mb|r|mb|d!|",
    "md|3SA|mb|d|mb|1C|mb|x|mb|1D|",
    "md|3SA|mb|1C|mb|+|mb|X|",
    "md|3SA|mb|1C|mb|________|mb|_________|mb|xx|",
    "md|3SA|mb|7NT|mb|8C|mb|0C|mb|1nt|mb|1NTX|mb|1|mb|NT|",
    "md|3SA|mb|*|mb|=1=|mb|1C=1=|mb|1C!=|mb|!1C|",
    "md|3SA|MB|1c|Mb|P|mB|D|",
    "md|3SA|mb|1C|an|one\nmb|1D|",
    "md|3SA|mb|1C\r\n|",
    "md|3SA|sv||sv|N\n|sv",
    "md|3SA|sv| both |",
    "md|3SA|sv|NS EW|",
    "md|3SA|sv|BOTH|sv|ALL|",
    "md|3SA|sv|e|\nmd|1HA|sv|-|",
    "md|3SA||mb|1C|",
    "|md|3SA|",
    "||md|3SA|",
    "md|3SA|pn|md|1HA|",
    "md|3S,A|",
    "md|3SA ,H,,|",
    "md|3s2h3d4c5, 6, T, Q|",
    "md|3SAKQJT98765432,HAKQJT98765432,DAKQJT9876543|",
    "md|4SAKQJT98765432,HAKQJT98765432,DAKQJT98765432,-|",
    "md|2SAKQJT98765432,HAKQJT98765432,DAKQJT98765432,\t,C2|",
    "md|1SAKQJT98765432,,DAKQJT98765432,CAKQJT98765432|",
    "qx|a|md|3SA|qx|b|mb|1C|qx|c|md|1HA|",
    "qx|a|mn|b|mn|c|qx|d|pn|e|md|3SA|",
    "mn|a|md|3SA|mn|b|qx|c|md|1HA|mn|d|",
    "md|3SA|\nmd|1HA|\nQx|",
    "md|3SA|\nmd|1HA|\nQx||",
    "md|3SA|mb|3N|pc|S2|pc|H2|pc|C2|pc|D2|pc|SA|pc|SK|pc|SQ|pc|SJ|pc|H3|",
    "md|1SA|mb|p|mb|1S|mb|p|mb|4S|mb|p|mb|p|mb|p|pc|DA|pc|D2|pc|S2|pc|D3|pc|C2|pc|C3|",
    "md|2SA|mb|2D|mb|p|mb|2D|pc|H2|pc|D2|pc|D3|pc|HA|pc|S2|mc|9|",
    "st||md|3SA|ah|Board 1|sv|o|pg||nt|text|mc|7|",
];

#[cfg(test)]
mod tests {
    use super::*;

    #[test]
    fn the_first_page() {
        assert_eq!(page(&[ACE]).len(), 201);
    }
}
