//! Pages with each directive written once: the unchanged Rust's page, but for the
//! directives that have a tag before them.
//!
//! `write_pbn` writes such a directive after every written tag of that tag's name.
//! Wanted is one place: after the first written tag of that name and value, else of
//! that name, else at the board's end. So `write_pbn` writes the boards without these
//! directives, its page is cut at its tags, and each directive is put in at its place.
//! Where no such name is written twice, that must be `write_pbn`'s own page.
//!
//! The Rust's boards tell the name of the tag before a directive and not its value. A
//! walk over the lines finds both; what it finds is held to the boards.

use super::same_page;
use crate::read::judge::MODELLED;
use crate::read::Checked;
use bridge_encodings::pbn::{parse_tag_line, parse_tag_pair, write_pbn, TagPair};
use bridge_types::Board;

/// How often the names that directives stand after are written: each once; one of
/// them not at all; one of them twice or more.
#[derive(Clone, Copy, PartialEq, Eq, PartialOrd, Ord, Debug)]
pub enum Names {
    Once,
    Unwritten,
    Repeated,
}

impl Names {
    fn of(times: usize) -> Self {
        match times {
            0 => Names::Unwritten,
            1 => Names::Once,
            _ => Names::Repeated,
        }
    }

    /// Who says what the page is.
    pub fn judge(self) -> &'static str {
        match self {
            Names::Once => "writer.rs",
            _ => "writer.rs with each directive once",
        }
    }
}

/// The page that is wanted, and by whom.
pub struct Judged {
    pub page: Vec<u8>,
    pub names: Names,
}

/// The page of the boards that `read_pbn` reads of a text, tables put into them or not.
pub fn judge(text: &str, boards: &[Board]) -> Result<Judged, String> {
    let records = records(text);
    compare_records(&records, boards)?;
    if records.iter().all(|it| it.anchored().next().is_none()) {
        let (page, names) = (write_pbn(boards).into_bytes(), Names::Once);
        return Ok(Judged { page, names });
    }
    let bare: Vec<Board> = boards.iter().map(without_anchored).collect();
    let bare = write_pbn(&bare);
    let places = cut(&bare);
    if places.len() != boards.len() {
        return Err(format!("{} boards on the page", places.len()));
    }
    let (mut names, mut puts) = (Names::Once, Vec::new());
    for (record, place) in records.iter().zip(&places) {
        for (tag, directive) in record.anchored() {
            let (times, at) = place.of(tag);
            names = names.max(Names::of(times));
            puts.push((at, directive));
        }
    }
    let page = put(&bare, puts).into_bytes();
    if names < Names::Repeated {
        let rust = write_pbn(boards).into_bytes();
        same_page("writer.rs", &rust, Names::Repeated.judge(), &page)?;
    }
    Ok(Judged { page, names })
}

fn without_anchored(board: &Board) -> Board {
    let mut bare = board.clone();
    bare.directives.retain(|it| it.after_tag.is_none());
    bare
}

// ---- What stands before a directive ----

/// A record's tags, and its directives with how many tags stand before each.
#[derive(Default)]
struct Record<'a> {
    tags: Vec<TagPair>,
    directives: Vec<(usize, &'a str)>,
}

impl<'a> Record<'a> {
    /// The directives that have a tag before them, each with that tag.
    fn anchored(&self) -> impl Iterator<Item = (&TagPair, &'a str)> + '_ {
        let directives = self.directives.iter();
        directives.filter_map(|(tags, text)| Some((self.tags.get(tags.checked_sub(1)?)?, *text)))
    }
}

fn records(text: &str) -> Vec<Record<'_>> {
    let mut records = Vec::new();
    let mut record = Record::default();
    let mut open = false;
    for line in text.lines().map(str::trim) {
        if open || line.starts_with('{') {
            open = !line.contains('}');
        } else if line.is_empty() && !record.tags.is_empty() {
            records.push(std::mem::take(&mut record));
        } else if line.starts_with([';', '%']) {
            record.directives.push((record.tags.len(), line));
        } else if let Some((tag, comment)) = tag_of(line) {
            record.tags.push(tag);
            let comment = comment.map(|comment| (record.tags.len(), comment));
            record.directives.extend(comment);
        }
    }
    if !record.tags.is_empty() {
        records.push(record);
    }
    records
}

/// The tag of a line and the comment behind it; in its place may be a section's data.
fn tag_of(line: &str) -> Option<(TagPair, Option<&str>)> {
    parse_tag_line(line).or_else(|| {
        let (second, _) = line.match_indices('"').nth(1)?;
        let bracket = second + line[second..].find(']')?;
        let tag = parse_tag_pair(&line[..=bracket])?;
        Some((tag, None))
    })
}

/// What the walk found, against all that the Rust's boards tell of it: the names of
/// the tags, the values of the supplemental ones, the directives and their anchors.
fn compare_records(records: &[Record], boards: &[Board]) -> Checked {
    let same = |(record, board): (&Record, &Board)| {
        let names = record.tags.iter().map(|tag| &tag.name);
        let tags = record.tags.iter().map(|tag| (&tag.name[..], &tag.value));
        let extra = board
            .extra_tags
            .iter()
            .map(|(name, value)| (&name[..], value));
        let anchors = record.directives.iter().map(|(tags, text)| {
            let before = tags.checked_sub(1).map(|last| &record.tags[last].name[..]);
            (*text, before)
        });
        let directives = board.directives.iter();
        let directives = directives.map(|it| (&it.text[..], it.after_tag.as_deref()));
        names.eq(&board.tag_order)
            && tags.filter(|(name, _)| !MODELLED.contains(name)).eq(extra)
            && anchors.eq(directives)
    };
    if records.len() == boards.len() && records.iter().zip(boards).all(same) {
        return Ok(());
    }
    Err("the walk over the lines found other tags or directives than reader.rs".into())
}

// ---- Where it goes ----

/// A tag on a page; it ends behind its data.
struct Written<'a> {
    name: &'a str,
    value: &'a str,
    end: usize,
}

/// A board on a page.
#[derive(Default)]
struct Place<'a> {
    tags: Vec<Written<'a>>,
    end: usize,
}

/// A place on a page, and whether it is meant as a board's end: what follows the
/// board's last tag goes before that.
type At = (usize, bool);

impl Place<'_> {
    /// How often a tag's name is written, and where a directive after that tag goes.
    fn of(&self, tag: &TagPair) -> (usize, At) {
        let named = self.tags.iter().filter(|it| it.name == tag.name);
        let named: Vec<&Written> = named.collect();
        let same = named.iter().find(|it| it.value == tag.value);
        let at = match same.or(named.first()) {
            Some(written) => (written.end, false),
            None => (self.end, true),
        };
        (named.len(), at)
    }
}

/// The boards of a page without directives but the leading ones. A board starts with
/// its Event tag, the first and the only one, and ends at an empty line; a block ends
/// with the first line that has a closing brace.
fn cut(page: &str) -> Vec<Place<'_>> {
    let mut boards: Vec<Place> = Vec::new();
    let (mut at, mut in_block, mut in_board) = (0, false, false);
    for line in page.split_inclusive('\n') {
        at += line.len();
        let line = line.trim_end_matches('\n');
        let is_block = in_block || line.starts_with('{');
        in_block = is_block && !line.contains('}');
        if !is_block {
            in_board &= !line.is_empty();
            if let Some((name, value)) = written_tag(line) {
                if name == "Event" {
                    boards.push(Place::default());
                    in_board = true;
                }
                let board = boards.last_mut().expect("Event comes first");
                board.tags.push(Written {
                    name,
                    value,
                    end: at,
                });
            } else if let (true, Some(board)) = (in_board, boards.last_mut()) {
                board.tags.last_mut().expect("data is a tag's").end = at;
            }
        }
        if let (true, Some(board)) = (in_board, boards.last_mut()) {
            board.end = at;
        }
    }
    boards
}

/// A name has no blank.
fn written_tag(line: &str) -> Option<(&str, &str)> {
    let inner = line.strip_prefix('[')?.strip_suffix("\"]")?;
    inner.split_once(" \"")
}

/// The page with these lines put in, at one place in the order given.
fn put(page: &str, mut puts: Vec<(At, &str)>) -> String {
    puts.sort_by_key(|(at, _)| *at);
    let mut whole = String::new();
    let mut from = 0;
    for ((at, _), line) in puts {
        whole += &page[from..at];
        whole += line;
        whole += "\n";
        from = at;
    }
    whole + &page[from..]
}

#[cfg(test)]
mod tests {
    use super::*;
    use crate::read::read_rust;

    fn judged(text: &str) -> Judged {
        judge(text, &read_rust(text).expect("boards")).expect("a page")
    }

    #[test]
    fn names() {
        let names = |text: &str| judged(text).names;
        assert_eq!(names(";c\n[Note \"1:a\"]"), Names::Once);
        assert_eq!(names("[Event \"\"]\n;c"), Names::Once);
        assert_eq!(names("[X \"1\"]\n[X \"2\"] ;c"), Names::Once);
        assert_eq!(names("[Board \"\"]\n;c"), Names::Unwritten);
        let bad = "[DoubleDummyTricks \"bad\"]\n;c";
        assert_eq!(names(bad), Names::Unwritten);
        let notes = "[Auction \"N\"]\n1C\n[Note \"1:a\"]\n";
        assert_eq!(names(&format!("{notes};c")), Names::Once);
        assert_eq!(names(&format!("{notes}[Note \"1:b\"] ;c")), Names::Once);
        let two = format!("{notes}[Note \"2:b\"] {{c}}");
        assert_eq!(names(&two), Names::Repeated);
        assert_eq!(names(&format!("{bad}\n\n{two}\n\n{bad}")), Names::Repeated);
    }

    /// Where a page is cut: blocks with tags and empty lines in them, data, several
    /// boards.
    #[test]
    fn places() {
        let block = "{[Event \"x\"]\n\n;c\n[A \"y\"]} z}\n";
        let first = format!("% h\n\n{block}[Event \"\"]\n[A \"b\" \"1\"]\n{block}");
        let second = "[Event \"e\"]\n[Auction \"N\"]\n1C\nPass\n";
        let page = format!("{first}\n;i\n{block}{second}");
        let boards = cut(&page);
        let ends: Vec<usize> = boards.iter().map(|board| board.end).collect();
        assert_eq!(ends, [first.len(), page.len()]);
        let tags = |board: &Place| -> Vec<String> {
            let tags = board.tags.iter();
            tags.map(|tag| format!("{}:{}", tag.name, tag.value))
                .collect()
        };
        assert_eq!(tags(&boards[0]), ["Event:", "A:b\" \"1"]);
        assert_eq!(tags(&boards[1]), ["Event:e", "Auction:N"]);
        assert_eq!(boards[0].tags[1].end, first.len() - block.len());
        assert_eq!(boards[1].tags[1].end, page.len());
        // What follows the last tag goes before what goes to the end.
        let (last, end) = ((page.len(), false), (page.len(), true));
        let put = put(&page, vec![(end, ";e"), (last, ";l"), (end, ";f")]);
        assert_eq!(put, format!("{page};l\n;e\n;f\n"));
    }

    #[test]
    fn other_tags_or_directives_are_seen() {
        let text = "% h\n[X \"1\"] ;c\n[Play \"N\"]SA\n{\n[Y \"\"]\n}\n%d\n\n;lost";
        let boards = read_rust(text).expect("boards");
        let seen = |text: &str| compare_records(&records(text), &boards).is_err();
        assert!(!seen(text));
        for (old, new) in [
            ("% h", "% i"),
            ("\"1\"", "\"2\""),
            ("[X", "[Z"),
            (" ;c", ""),
            ("\n%d", "\n[Z \"\"]\n%d"),
            ("[Play \"N\"]SA\n", ""),
            ("\n\n", "\n"),
        ] {
            assert!(seen(&text.replacen(old, new, 1)), "{old}");
        }
    }
}
