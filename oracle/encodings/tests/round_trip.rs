//! The unchanged reader and writer, through the stand-ins.

use bridge_encodings::error::ParseError;
use bridge_encodings::pbn::{dd_table_from_pbn, dd_table_to_pbn, read_pbn, write_pbn};
use bridge_types::{Call, Direction, SectionEnd};

const EDITION: &str = r#"% PBN 2.1
% EXPORT

[Event "Match"] ; a comment
[Site ""]
[Date "2024.05.01"]
[Board "7"]
[West "w"]
[North "n"]
[East ""]
[South ""]
[Dealer "E"]
[Vulnerable "Both"]
[Deal "N:AKQJT98765432... .AKQJT98765432.. ..AKQJT98765432. ...AKQJT98765432"]
{ what was
  thought }
[Scoring "IMP"]
[Declarer "N"]
[Contract "4SX"]
[Result "13"]
[DoubleDummyTricks "0123456789abcd000000"]
[Room "Open"]
[Auction "E"]
pass 1s! =1= X 4S
ap
[Note "1:strong"]
[Play "E"]
HA DA CA SA
H2 - - *

[Event "Second"]
[OptimumResultTable "Declarer;Denomination\2R;Result\1R"]
N NT 1
North n 2
"#;

#[test]
fn reads_what_stands_there() {
    let boards = read_pbn(EDITION).unwrap();
    assert_eq!(boards.len(), 2);
    let board = &boards[0];
    assert_eq!(board.number, Some(7));
    assert_eq!(board.dealer, Some(Direction::East));
    assert_eq!(board.result, Some(13));
    assert_eq!(board.commentary, [" what was\n  thought "]);
    assert_eq!(board.commentary_anchors, [11]);
    assert_eq!(board.commentary_anchor_tag(0), Some("Deal"));
    let auction = board.auction.as_ref().unwrap();
    let codes: Vec<u32> = auction.calls.iter().map(|c| c.call.code()).collect();
    assert_eq!(codes, [0, 4, 36, 19, 0, 0, 0]);
    assert_eq!(auction.calls[1].annotation.as_deref(), Some("!=1="));
    assert_eq!(auction.get_note(1), Some("strong"));
    assert_eq!(auction.calls[4].call, Call::Pass);
    let play = board.play.as_ref().unwrap();
    assert_eq!(play.end, SectionEnd::Ended);
    // Spades are trump and North's slot is the fourth.
    assert_eq!(play.tricks[0].winner, Some(Direction::North));
    assert_eq!(play.tricks[1].leader, Direction::North);
    // East's card stands in the slot after the leader's.
    assert!(play.tricks[1].cards[1].is_some());
    assert!(boards[1].double_dummy_tricks.is_none());
}

#[test]
fn written_twice_it_stays() {
    let once = write_pbn(&read_pbn(EDITION).unwrap());
    let twice = write_pbn(&read_pbn(&once).unwrap());
    assert_eq!(once, twice);
    assert!(once.starts_with("% PBN 2.1\n% EXPORT\n\n[Event \"Match\"]\n; a comment\n"));
    assert!(once.contains("\n[Vulnerable \"All\"]\n"));
    assert!(once.contains(
        "[Deal \"E:.AKQJT98765432.. ..AKQJT98765432. ...AKQJT98765432 AKQJT98765432...\"]\n{ what was\n  thought }\n"
    ));
    assert!(
        once.contains("[Auction \"E\"]\nPass 1S!=1= X 4S\nPass Pass Pass\n[Note \"1:strong\"]\n")
    );
    assert!(once.contains("[Play \"E\"]\nHA DA CA SA\nH2\n*\n"));
    assert_eq!(write_pbn(&[]).len(), 20);
}

#[test]
fn errors_speak() {
    let error = dd_table_from_pbn("0").unwrap_err();
    assert_eq!(
        error.to_string(),
        "PBN parse error: DoubleDummyTricks must be 20 characters, got 1"
    );
    assert!(matches!(error, ParseError::Pbn(_)));
    let error = ParseError::from(std::io::Error::other("gone"));
    assert_eq!(error.to_string(), "IO error: gone");
    assert!(std::error::Error::source(&error).is_some());
    let table = dd_table_from_pbn(" 0123456789ABCD000000\n").unwrap();
    assert_eq!(dd_table_to_pbn(&table), "0123456789abcd000000");
}
