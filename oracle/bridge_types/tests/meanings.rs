//! The meanings of the stand-ins, as docs/FORMAT.md gives them.

use bridge_types::*;

#[test]
fn seats() {
    for (i, (upper, lower)) in "NESW".chars().zip("nesw".chars()).enumerate() {
        let seat = Direction::from_char(upper).unwrap();
        assert_eq!(Direction::from_char(lower), Some(seat));
        assert_eq!(seat.to_index(), i);
        assert_eq!(seat.to_char(), upper);
    }
    // Either case is ASCII alone: ſ and the Kelvin sign fold to s and k elsewhere.
    assert_eq!(Direction::from_char('ſ'), None);
    assert_eq!(Suit::from_char('ſ'), None);
    assert_eq!(Rank::from_char('\u{212a}'), None);
    assert_eq!(Direction::from_char('X'), None);
}

#[test]
fn cards_have_their_bits() {
    let card = |suit, rank| {
        Card::new(
            Suit::from_char(suit).unwrap(),
            Rank::from_char(rank).unwrap(),
        )
    };
    assert_eq!(card('C', '2').bit(), 0);
    assert_eq!(card('c', 'a').bit(), 12);
    assert_eq!(card('D', '2').bit(), 13);
    assert_eq!(card('H', 't').bit(), 34);
    assert_eq!(card('S', 'A').bit(), 51);
    assert_eq!(Rank::from_char('1'), None);
}

#[test]
fn calls() {
    let code = |text: &str| Call::from_pbn(text).map(|call| call.code());
    for text in ["Pass", "pASS", "P", "p", "-"] {
        assert_eq!(code(text), Some(0), "{text}");
        assert_eq!(Call::from_pbn(text).unwrap().to_pbn(), "Pass");
    }
    let mut next = 1;
    for level in 1..=7 {
        for strain in ["C", "D", "H", "S", "NT"] {
            let text = format!("{level}{strain}");
            assert_eq!(code(&text), Some(next));
            assert_eq!(code(&text.to_lowercase()), Some(next));
            assert_eq!(Call::from_pbn(&text).unwrap().to_pbn(), text);
            next += 1;
        }
        assert_eq!(code(&format!("{level}N")), Some(next - 1));
        assert_eq!(
            Call::from_pbn(&format!("{level}n")).unwrap().to_pbn(),
            format!("{level}NT")
        );
    }
    assert_eq!(
        (code("X"), code("x"), code("XX"), code("xX")),
        (Some(36), Some(36), Some(37), Some(37))
    );
    assert_eq!(code("+"), Some(38));
    for count in 1..=8 {
        let text = "_".repeat(count);
        assert_eq!(code(&text), Some(38 + count as u32));
        assert_eq!(Call::from_pbn(&text).unwrap().to_pbn(), text);
    }
    for text in [
        "",
        "_________",
        "_ ",
        "0C",
        "8C",
        "1",
        "1NTT",
        "1 C",
        "XXX",
        "AP",
        "Pas",
        "*",
        "é",
        "1é",
        "--",
    ] {
        assert_eq!(code(text), None, "{text:?}");
    }
}

#[test]
fn contracts() {
    let parsed = |text: &str| Contract::parse(text).map(|c| (c.level, c.strain, c.doubled));
    assert_eq!(parsed("4H"), Some((4, Strain::Hearts, Doubled::No)));
    assert_eq!(parsed("4hx"), Some((4, Strain::Hearts, Doubled::Once)));
    assert_eq!(parsed("7NTXX"), Some((7, Strain::NoTrump, Doubled::Twice)));
    assert_eq!(parsed("1nX"), Some((1, Strain::NoTrump, Doubled::Once)));
    for text in [
        "", "Pass", "4H X", " 4H", "4H ", "4", "4X", "0C", "8C", "4HXXX", "4HR", "4HXé", "é",
    ] {
        assert_eq!(parsed(text), None, "{text:?}");
    }
}

#[test]
fn section_ends() {
    assert_eq!(SectionEnd::from_pbn("+"), Some(SectionEnd::Continued));
    assert_eq!(SectionEnd::from_pbn("*"), Some(SectionEnd::Ended));
    for text in ["", "+!", "**", "-"] {
        assert_eq!(SectionEnd::from_pbn(text), None);
    }
    assert_eq!(SectionEnd::default().to_pbn(), None);
}

#[test]
fn vulnerability() {
    for (texts, written) in [
        (&["None", "love", "-", "NONE"][..], "None"),
        (&["NS", "ns"], "NS"),
        (&["EW", "eW"], "EW"),
        (&["All", "both", "ALL"], "All"),
    ] {
        for text in texts {
            assert_eq!(
                Vulnerability::from_pbn(text).map(Vulnerability::to_pbn),
                Some(written)
            );
        }
    }
    for text in ["", " NS", "NS ", "N", "N-S", "?"] {
        assert_eq!(Vulnerability::from_pbn(text), None, "{text:?}");
    }
    assert_eq!(Vulnerability::default(), Vulnerability::None);
}

#[test]
fn deals() {
    let a = "N:AKQJT98765432... .AKQJT98765432.. ..AKQJT98765432. ...AKQJT98765432";
    let deal = Deal::from_pbn(a).unwrap();
    assert_eq!(deal.hands[0], Hand::of_bits(0x1fff << 39));
    assert_eq!(deal.hands[1], Hand::of_bits(0x1fff << 26));
    assert_eq!(deal.hands[2], Hand::of_bits(0x1fff << 13));
    assert_eq!(deal.hands[3], Hand::of_bits(0x1fff));
    assert_eq!(deal.to_pbn(Direction::North), a);
    assert_eq!(
        deal.to_pbn(Direction::South),
        "S:..AKQJT98765432. ...AKQJT98765432 AKQJT98765432... .AKQJT98765432.."
    );
    // From another seat the hands go clockwise from it.
    let b = Deal::from_pbn(&a.replace("N:", "e:").to_lowercase()).unwrap();
    assert_eq!(b.hands[1], Hand::of_bits(0x1fff << 39));
    assert_eq!(b.hands[0], Hand::of_bits(0x1fff));
    // Outer white space goes; runs of it stand between hands.
    assert_eq!(
        Deal::from_pbn("\t N:2.3.4.5 \t\u{b}- -\r\n... \u{c}").map(|d| d.to_pbn(Direction::North)),
        Some("N:2.3.4.5 - - -".to_string())
    );
    // Cards in any order, written high to low.
    assert_eq!(
        Deal::from_pbn("W:2a3.t9k.. - - -").map(|d| d.to_pbn(Direction::West)),
        Some("W:A32.KT9.. - - -".to_string())
    );
    for text in [
        "",
        "N",
        "N:",
        "N:- - -",
        "N:- - - - -",
        "N: - - - -",
        "N :- - - -",
        "X:- - - -",
        "N:- - - 2..",
        "N:- - - 2....",
        "N:- - - 22...",
        "N:2... - - 2...",
        "N:- - - x...",
        "N:AKQJT98765432.A.. - - -",
        "N:-- - - -",
        "N:- - -\u{a0}-",
        "N:- - - -.",
        "N:10... - - -",
    ] {
        assert_eq!(Deal::from_pbn(text), None, "{text:?}");
    }
}

fn trick(cards: &str) -> Trick {
    let mut trick = Trick::new(Direction::East);
    for (slot, text) in cards.split(' ').enumerate() {
        let mut chars = text.chars();
        let suit = Suit::from_char(chars.next().unwrap()).unwrap();
        let rank = Rank::from_char(chars.next().unwrap()).unwrap();
        trick.cards[slot] = Some(Card::new(suit, rank));
    }
    trick
}

#[test]
fn winners() {
    let winner = |cards, trump| {
        let mut trick = trick(cards);
        assert!(trick.is_complete());
        trick.determine_winner(trump);
        trick.winner.unwrap()
    };
    // East leads, so slot 1 is South's.
    assert_eq!(winner("S2 S3 SA S4", None), Direction::West);
    assert_eq!(winner("S2 HA DA CA", None), Direction::East);
    assert_eq!(winner("S2 HA H3 CA", Some(Suit::Hearts)), Direction::South);
    assert_eq!(winner("S2 H3 CA HA", Some(Suit::Hearts)), Direction::North);
    // The same card twice: the first one takes it.
    assert_eq!(winner("S2 SA SA S3", None), Direction::South);
    assert_eq!(winner("S2 H3 H3 S3", Some(Suit::Hearts)), Direction::South);
    assert_eq!(winner("S2 D3 C4 D5", Some(Suit::Hearts)), Direction::East);
}

#[test]
fn notes_and_names() {
    let mut auction = Auction::new(Direction::North);
    auction.add_note(3, "a".to_string());
    auction.add_note(1, "b".to_string());
    auction.add_note(3, "c".to_string());
    assert_eq!(auction.get_note(3), Some("c"));
    assert_eq!(auction.get_note(2), None);
    assert_eq!(auction.notes.len(), 2);

    let mut names = PlayerNames::new();
    names.set(Direction::South, "x".to_string());
    assert_eq!(
        (names.get(Direction::South), names.get(Direction::North)),
        (Some("x"), None)
    );
}

#[test]
fn tables_take_any_byte() {
    let mut table = DdTable::new();
    table.set(Direction::West, Strain::NoTrump, 255);
    assert_eq!(table.tricks(Direction::West, Strain::NoTrump), 255);
    assert_eq!(table.cells().count(), 20);
    assert_eq!(
        table.cells().filter(|(_, _, tricks)| *tricks == 0).count(),
        19
    );
}

#[test]
fn boards() {
    let mut board = Board {
        tag_order: vec!["A".to_string(), "B".to_string()],
        commentary: vec![String::new(); 2],
        commentary_anchors: vec![0, 2],
        extra_tags: vec![
            ("X".to_string(), "1".to_string()),
            ("X".to_string(), "2".to_string()),
        ],
        ..Board::default()
    };
    for (text, after) in [("%a", None), ("%b", Some("A")), ("%c", None)] {
        board.directives.push(Directive {
            text: text.to_string(),
            after_tag: after.map(str::to_string),
        });
    }
    assert_eq!(board.leading_directives().collect::<Vec<_>>(), ["%a", "%c"]);
    assert_eq!(board.directives_after("A").collect::<Vec<_>>(), ["%b"]);
    assert_eq!(board.commentary_anchor_tag(0), None);
    assert_eq!(board.commentary_anchor_tag(1), Some("B"));
    assert_eq!(board.commentary_anchor_tag(2), None);
    assert_eq!(board.extra_tag("X"), Some("1"));
    assert_eq!(board.extra_tag("Y"), None);
}

#[test]
fn a_hand_counts_a_card_that_is_added_again() {
    let ace = Card::new(Suit::Spades, Rank::from_char('A').unwrap());
    let mut hand = Hand::new();
    assert!(hand.is_empty() && !hand.has_card(ace));
    hand.add_card(ace);
    hand.add_card(ace);
    assert_eq!((hand.len(), hand.cards()), (2, vec![ace]));
    let mut deal = Deal::new();
    deal.set_hand(Direction::West, hand);
    assert_eq!(deal.hand(Direction::West).len(), 2);
    assert_eq!(deal.to_pbn(Direction::North), "N:- - - A...");
    let letters: String = Rank::ALL.iter().map(|rank| rank.to_char()).collect();
    assert_eq!(letters, "23456789TJQKA");
}
