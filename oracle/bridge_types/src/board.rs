//! A board: everything kept of one record.

use crate::{Auction, DdTable, Deal, Direction, PlaySequence};

#[derive(Debug, Clone, Copy, PartialEq, Eq, Default, Hash)]
pub enum Vulnerability {
    #[default]
    None,
    NorthSouth,
    EastWest,
    Both,
}

impl Vulnerability {
    /// `None`, `Love`, `-`; `NS`; `EW`; `All`, `Both`. Not trimmed.
    pub fn from_pbn(text: &str) -> Option<Self> {
        match text.to_ascii_uppercase().as_str() {
            "NONE" | "LOVE" | "-" => Some(Vulnerability::None),
            "NS" => Some(Vulnerability::NorthSouth),
            "EW" => Some(Vulnerability::EastWest),
            "ALL" | "BOTH" => Some(Vulnerability::Both),
            _ => None,
        }
    }

    pub fn to_pbn(self) -> &'static str {
        match self {
            Vulnerability::None => "None",
            Vulnerability::NorthSouth => "NS",
            Vulnerability::EastWest => "EW",
            Vulnerability::Both => "All",
        }
    }
}

#[derive(Debug, Clone, PartialEq, Eq, Default)]
pub struct PlayerNames {
    names: [Option<String>; 4],
}

impl PlayerNames {
    pub fn new() -> Self {
        Self::default()
    }

    pub fn set(&mut self, seat: Direction, name: String) {
        self.names[seat.to_index()] = Some(name);
    }

    pub fn get(&self, seat: Direction) -> Option<&str> {
        self.names[seat.to_index()].as_deref()
    }
}

/// A `%` or `;` line, or a comment on a tag's own line.
#[derive(Debug, Clone, PartialEq, Eq)]
pub struct Directive {
    pub text: String,
    /// The tag it followed; none before the record's first tag.
    pub after_tag: Option<String>,
}

#[derive(Debug, Clone, PartialEq, Eq, Default)]
pub struct Board {
    pub number: Option<u32>,
    pub board_id: Option<String>,
    pub dealer: Option<Direction>,
    pub vulnerable: Vulnerability,
    pub deal: Deal,
    pub unparsed_deal: Option<String>,
    pub event: Option<String>,
    pub site: Option<String>,
    pub date: Option<String>,
    pub player_names: Option<PlayerNames>,
    pub declarer: Option<Direction>,
    pub contract: Option<String>,
    pub result: Option<i8>,
    pub auction: Option<Auction>,
    pub play: Option<PlaySequence>,
    pub double_dummy_tricks: Option<DdTable>,
    pub optimum_score: Option<String>,
    pub par_contract: Option<String>,
    pub extra_tags: Vec<(String, String)>,
    /// The names of the record's tags as met.
    pub tag_order: Vec<String>,
    pub directives: Vec<Directive>,
    pub commentary: Vec<String>,
    /// For each commentary block, how many tags stood before it.
    pub commentary_anchors: Vec<usize>,
}

impl Board {
    /// The directives before every tag.
    pub fn leading_directives(&self) -> impl Iterator<Item = &str> + '_ {
        self.directives
            .iter()
            .filter(|d| d.after_tag.is_none())
            .map(|d| d.text.as_str())
    }

    /// The directives that followed a tag of this name.
    pub fn directives_after<'a>(&'a self, name: &'a str) -> impl Iterator<Item = &'a str> + 'a {
        self.directives
            .iter()
            .filter(move |d| d.after_tag.as_deref() == Some(name))
            .map(|d| d.text.as_str())
    }

    /// The name of the last tag before commentary block `i`.
    pub fn commentary_anchor_tag(&self, i: usize) -> Option<&str> {
        let last = self.commentary_anchors.get(i)?.checked_sub(1)?;
        self.tag_order.get(last).map(String::as_str)
    }

    /// The value of the first supplemental tag of this name.
    pub fn extra_tag(&self, name: &str) -> Option<&str> {
        self.extra_tags
            .iter()
            .find(|(tag, _)| tag == name)
            .map(|(_, value)| value.as_str())
    }
}
