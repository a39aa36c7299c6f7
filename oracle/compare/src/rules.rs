//! The known differences. A rule rewrites the crate's answer into the one that is owed; then the whole is compared. A rule
//! that never fires in a run of its part fails the run, for then it hides nothing and should go.

pub struct Rule {
    pub name: &'static str,
    /// The part in which it must fire.
    pub part: &'static str,
    pub why: &'static str,
}

pub const EN_PASSANT_RANK: usize = 0;
pub const TOO_FEW_TOKENS: usize = 1;
pub const BAD_PLACEMENT: usize = 2;
pub const BAD_SIDE: usize = 3;
pub const BAD_SQUARE_BYTE: usize = 4;
pub const NO_PAIR: usize = 5;
pub const BAD_FIFTH_BYTE: usize = 6;
pub const LAWS_COUNT: usize = 7;
pub const TAKEN_BESIDES: usize = 8;

pub const RULES: [Rule; 9] = [
    Rule {
        name: "en-passant-rank",
        part: "fen-write",
        why: "the crate writes the rank of the pawn that moved (5 or 4), the PGN standard the one behind it (6 or 3)",
    },
    Rule {
        name: "too-few-tokens",
        part: "fen-read",
        why: "the crate's InvalidFen is 18 with the text's length (document 02, order 2)",
    },
    Rule {
        name: "bad-placement",
        part: "fen-read",
        why: "the crate's InvalidFen is 19 with the place of the first bad byte (document 02, order 2)",
    },
    Rule {
        name: "bad-side",
        part: "fen-read",
        why: "the crate's InvalidFen is 20 with the place where the side token starts (document 02, order 2)",
    },
    Rule {
        name: "bad-square-byte",
        part: "moves",
        why: "the crate's InvalidSquare has the place of the file byte, or of the rank byte (document 02, order 3)",
    },
    Rule {
        name: "no-pair",
        part: "moves",
        why: "the crate's InvalidUciMove has the text's length where a pair is not there (document 02, order 3)",
    },
    Rule {
        name: "bad-fifth-byte",
        part: "moves",
        why: "the crate's InvalidUciMove has the place of the fifth byte, 4 (document 02, order 3)",
    },
    Rule {
        name: "laws-count",
        part: "log",
        why: "a change of rights restarts the crate's count and not that of article 9.3, by which a claim stands (order 5)",
    },
    Rule {
        name: "taken-besides",
        part: "after",
        why: "a pawn takes a man on the square passed over, which no play reaches: the crate takes the pawn beside it too (order 9)",
    },
];

/// What document 02 says of a refused text: of a FEN, in place of the crate's one refusal (order 2); of a coordinate text, where
/// it is wrong (order 3).
#[derive(Clone, Copy, PartialEq, Eq, Debug)]
pub struct Fault {
    pub rule: usize,
    pub number: u64,
    pub offset: usize,
}

/// Which part of a refused text is wrong: too few tokens (the text's length), a bad placement byte (its place), a bad side
/// token (its start), in this order. None if none of them is; should the crate refuse such a text, its own number stays and
/// is then seen as a difference.
pub fn fault_of_fen(text: &str) -> Option<Fault> {
    let tokens: Vec<&str> = text.split(' ').collect();
    let [placement, side, _, _, ..] = tokens[..] else {
        return Some(Fault { rule: TOO_FEW_TOKENS, number: 18, offset: text.len() });
    };
    // A character that is none of a placement begins with a byte that is none: each of those is a character of its own.
    if let Some(offset) = placement.find(|sign| !"/12345678PNBRQKpnbrqk".contains(sign)) {
        return Some(Fault { rule: BAD_PLACEMENT, number: 19, offset });
    }
    match side {
        "w" | "W" | "b" | "B" => None,
        _ => Some(Fault { rule: BAD_SIDE, number: 20, offset: placement.len() + 1 }),
    }
}

/// Where a refused coordinate text is wrong: at the faulty byte, or at the text's length where a pair is not there; with the
/// number that document 01 has for it, which must be the crate's. None if nothing is wrong.
pub fn fault_of_move(text: &str) -> Option<Fault> {
    let bytes = text.as_bytes();
    for start in [0, 2] {
        let Some(pair) = bytes.get(start..start + 2) else {
            return Some(Fault { rule: NO_PAIR, number: 3, offset: bytes.len() });
        };
        let good = [b"abcdefgh".contains(&pair[0]), b"12345678".contains(&pair[1])];
        if let Some(at) = good.iter().position(|good| !good) {
            return Some(Fault { rule: BAD_SQUARE_BYTE, number: 2, offset: start + at });
        }
    }
    match bytes {
        [_, _, _, _, fifth] if !b"qrnb".contains(fifth) => Some(Fault { rule: BAD_FIFTH_BYTE, number: 3, offset: 4 }),
        _ => None,
    }
}

/// The crate's FEN with the standard's en passant rank, and whether that changed it. Only the rank that the crate is known
/// to write is replaced; any other stays and is then seen as a difference.
pub fn en_passant_rank(text: &str) -> (String, bool) {
    let mut tokens: Vec<&str> = text.split(' ').collect();
    let (known, owed) = if tokens.get(1) == Some(&"w") { ('5', "6") } else { ('4', "3") };
    match tokens.get(3).copied() {
        Some(square) if square.len() == 2 && square.ends_with(known) => {
            let new = format!("{}{}", &square[..1], owed);
            tokens[3] = &new;
            (tokens.join(" "), true)
        }
        _ => (text.to_string(), false),
    }
}

#[test]
fn tells_the_first_fault_and_its_place() {
    let tells = |text: &str, rule: usize, number: u64, offset: usize| {
        assert_eq!(fault_of_fen(text), Some(Fault { rule, number, offset }), "{:?}", text);
    };
    tells("", TOO_FEW_TOKENS, 18, 0);
    tells("8/8 w -", TOO_FEW_TOKENS, 18, 7);
    tells("\u{e9} x ", TOO_FEW_TOKENS, 18, 5);
    tells("8/8/8/8/8/8/8/9 w - -", BAD_PLACEMENT, 19, 14);
    tells("k9\u{e9} x - -", BAD_PLACEMENT, 19, 1);
    tells("k\u{e9} w - -", BAD_PLACEMENT, 19, 1);
    tells("8/8/8/8/8/8/8/8  w - -", BAD_SIDE, 20, 16);
    tells("   ", BAD_SIDE, 20, 1);
    assert_eq!(fault_of_fen(" w  "), None);
}

#[test]
fn tells_where_a_coordinate_text_is_wrong() {
    let tells = |text: &str, rule: usize, number: u64, offset: usize| {
        assert_eq!(fault_of_move(text), Some(Fault { rule, number, offset }), "{:?}", text);
    };
    for (text, length) in [("", 0), ("z", 1), ("e2", 2), ("e2z", 3)] {
        tells(text, NO_PAIR, 3, length);
    }
    for (text, place) in [("z2e", 0), ("z9e4", 0), ("e9z9", 1), ("e2z9k", 2), ("e2e9", 3), ("e2e9xx", 3)] {
        tells(text, BAD_SQUARE_BYTE, 2, place);
    }
    tells("e2e4k", BAD_FIFTH_BYTE, 3, 4);
    assert_eq!(["e2e4", "e2e4q", "e2e4kx"].map(fault_of_move), [None; 3]);
}

#[test]
fn rewrites_only_the_rank() {
    let to = |a: &str, b: &str, fired: bool| assert_eq!(en_passant_rank(a), (b.to_string(), fired));
    to("8/8 w - e5 0 1", "8/8 w - e6 0 1", true);
    to("8/8 b - e4 0 1", "8/8 b - e3 0 1", true);
    to("8/8 b - e5 0 1", "8/8 b - e5 0 1", false);
    to("8/8 w KQ - 0 1", "8/8 w KQ - 0 1", false);
}
