//! Calls, auctions, contracts and the marks that end a section.

use crate::{Direction, Strain};
use std::collections::BTreeMap;

#[derive(Debug, Clone, Copy, PartialEq, Eq, Hash)]
pub enum Call {
    Pass,
    /// Level 1 to 7.
    Bid(u8, Strain),
    Double,
    Redouble,
    /// `+`, in the place of the next call.
    Continue,
    /// One to eight underscores.
    Blank(u8),
}

impl Call {
    /// `Pass`, `P` or `-`; `1C` to `7NT` (`N` or `NT`); `X`, `XX`; `+`; one to
    /// eight underscores.
    pub fn from_pbn(text: &str) -> Option<Self> {
        match text.to_ascii_uppercase().as_str() {
            "PASS" | "P" | "-" => return Some(Call::Pass),
            "X" => return Some(Call::Double),
            "XX" => return Some(Call::Redouble),
            "+" => return Some(Call::Continue),
            _ => {}
        }
        if (1..=8).contains(&text.len()) && text.bytes().all(|b| b == b'_') {
            return Some(Call::Blank(text.len() as u8));
        }
        let (level, strain) = level_and_rest(text)?;
        Some(Call::Bid(level, Strain::from_token(strain)?))
    }

    pub fn to_pbn(&self) -> String {
        match self {
            Call::Pass => "Pass".to_string(),
            Call::Bid(level, strain) => format!("{level}{}", strain.token()),
            Call::Double => "X".to_string(),
            Call::Redouble => "XX".to_string(),
            Call::Continue => "+".to_string(),
            Call::Blank(count) => "_".repeat(*count as usize),
        }
    }

    /// The code on a card: Pass 0, bids 1 to 35, X 36, XX 37, `+` 38,
    /// underscores 39 to 46.
    pub fn code(&self) -> u32 {
        match self {
            Call::Pass => 0,
            Call::Bid(level, strain) => 1 + 5 * (u32::from(*level) - 1) + strain.to_index() as u32,
            Call::Double => 36,
            Call::Redouble => 37,
            Call::Continue => 38,
            Call::Blank(count) => 38 + u32::from(*count),
        }
    }
}

/// A level 1 to 7 and the text after it.
fn level_and_rest(text: &str) -> Option<(u8, &str)> {
    match *text.as_bytes().first()? {
        digit @ b'1'..=b'7' => Some((digit - b'0', &text[1..])),
        _ => None,
    }
}

#[derive(Debug, Clone, Copy, PartialEq, Eq, Default)]
pub enum Doubled {
    #[default]
    No,
    Once,
    Twice,
}

#[derive(Debug, Clone, Copy, PartialEq, Eq)]
pub struct Contract {
    pub level: u8,
    pub strain: Strain,
    pub doubled: Doubled,
}

impl Contract {
    /// Level, strain, then nothing, `X` or `XX`. White space is not trimmed.
    pub fn parse(text: &str) -> Option<Self> {
        let (level, rest) = level_and_rest(text)?;
        let rest = rest.to_ascii_uppercase();
        // The strain has no X in it, so the first X starts the doubling.
        let at = rest.find('X').unwrap_or(rest.len());
        let doubled = match &rest[at..] {
            "" => Doubled::No,
            "X" => Doubled::Once,
            "XX" => Doubled::Twice,
            _ => return None,
        };
        Some(Contract {
            level,
            strain: Strain::from_token(&rest[..at])?,
            doubled,
        })
    }
}

/// How an auction or a play ends.
#[derive(Debug, Clone, Copy, PartialEq, Eq, Default)]
pub enum SectionEnd {
    /// No mark.
    #[default]
    Unmarked,
    /// `+`
    Continued,
    /// `*`
    Ended,
}

impl SectionEnd {
    /// `+` or `*`; no other token ends a section.
    pub fn from_pbn(token: &str) -> Option<Self> {
        match token {
            "+" => Some(SectionEnd::Continued),
            "*" => Some(SectionEnd::Ended),
            _ => None,
        }
    }

    pub fn to_pbn(self) -> Option<&'static str> {
        match self {
            SectionEnd::Unmarked => None,
            SectionEnd::Continued => Some("+"),
            SectionEnd::Ended => Some("*"),
        }
    }
}

#[derive(Debug, Clone, PartialEq, Eq)]
pub struct AnnotatedCall {
    pub call: Call,
    pub annotation: Option<String>,
}

#[derive(Debug, Clone, PartialEq, Eq)]
pub struct Auction {
    pub dealer: Direction,
    pub calls: Vec<AnnotatedCall>,
    pub notes: BTreeMap<u8, String>,
    pub end: SectionEnd,
}

impl Auction {
    pub fn new(dealer: Direction) -> Self {
        Auction {
            dealer,
            calls: Vec::new(),
            notes: BTreeMap::new(),
            end: SectionEnd::default(),
        }
    }

    pub fn add_call(&mut self, call: Call) {
        self.add_annotated_call(call, None);
    }

    pub fn add_annotated_call(&mut self, call: Call, annotation: Option<String>) {
        self.calls.push(AnnotatedCall { call, annotation });
    }

    /// A note replaces one of its number.
    pub fn add_note(&mut self, number: u8, text: String) {
        self.notes.insert(number, text);
    }

    pub fn get_note(&self, number: u8) -> Option<&str> {
        self.notes.get(&number).map(String::as_str)
    }
}
