//! The unchanged `lin/mod.rs` over the stand-in for its document.

use bridge_encodings::lin::{parse_lin_file, LinDocument};
use bridge_types::Direction;

#[test]
fn pairs() {
    let pairs = |text: &str| -> Vec<(String, String)> {
        let tokens = LinDocument::parse(text).tokens;
        let pair = |token: &bridge_encodings::lin::LinToken| {
            (token.command().to_string(), token.value.clone())
        };
        tokens.iter().map(pair).collect()
    };
    let own = |list: &[(&str, &str)]| -> Vec<(String, String)> {
        let pair = |(command, value): &(&str, &str)| (command.to_string(), value.to_string());
        list.iter().map(pair).collect()
    };
    assert_eq!(pairs(" md\n| 3 |sv"), own(&[("md", " 3 ")]));
    assert_eq!(pairs("md|3"), own(&[("md", "3")]));
    assert_eq!(pairs("||md|"), own(&[("", ""), ("md", "")]));
    assert_eq!(pairs("md"), []);
    assert!(LinDocument::parse("\tQx |").tokens[0].is("qx"));
}

#[test]
fn a_file() {
    let text = "vg|x|\nmn|t|qx|o1|\nmd|1SA|mb|1N!|an|weak|\npc|D2|qx|o2|md|4HA|sv|b|";
    let boards = parse_lin_file(text).unwrap();
    assert_eq!(boards.len(), 2);
    assert_eq!(boards[0].dealer, Direction::South);
    assert_eq!(boards[0].title.as_deref(), Some("t"));
    assert_eq!(boards[0].auction[0].bid, "1N");
    assert_eq!(boards[0].play.len(), 1);
    assert_eq!(boards[1].deal.to_pbn(Direction::East), "E:- .A.. - -");
}
