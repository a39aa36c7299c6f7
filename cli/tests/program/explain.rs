//! `menkhodur explain`.

use crate::common::{expect, run};

#[test]
fn an_accepted_text_is_shown_with_its_board() {
    let owed = "accepted
  rnbqkbnr/pppppppp/8/8/4P3/8/PPPP1PPP/RNBQKBNR b KQkq e3 0 1

  8  r n b q k b n r
  7  p p p p p p p p
  6  . . . . . . . .
  5  . . . . . . . .
  4  . . . . P . . .
  3  . . . . . . . .
  2  P P P P . P P P
  1  R N B Q K B N R
     a b c d e f g h

  key         rnbqkbnr/pppppppp/8/8/4P3/8/PPPP1PPP/RNBQKBNR b KQkq e3 0 1, the same as the text
  settled key rnbqkbnr/pppppppp/8/8/4P3/8/PPPP1PPP/RNBQKBNR b KQkq - 0 1
  to move     black
  castling    white both sides, black both sides
  en passant  e3
  half-moves  0
  move number 1

note en-passant-unusable, at byte 53: no black pawn stands beside this file on rank 4, so none can use it; the settled key has no square
  rnbqkbnr/pppppppp/8/8/4P3/8/PPPP1PPP/RNBQKBNR b KQkq e3 0 1
                                                       ^
";
    let text = "rnbqkbnr/pppppppp/8/8/4P3/8/PPPP1PPP/RNBQKBNR b KQkq e3 0 1";
    expect(&["explain", text], "", (owed, "", 0));
    let words: Vec<&str> = ["explain"].into_iter().chain(text.split(' ')).collect();
    expect(&words, "", (owed, "", 0));
}

#[test]
fn a_warning_stands_under_its_byte_and_leaves_the_status() {
    let ran = run(&["explain", "8/8/8/8/8/8/PPPPPPP/8 w Kk e4"], b"");
    let text = ran.text();
    assert!(text.starts_with("accepted, with 3 warnings: the PGN standard (16.1) would not allow this text\n"), "{text}");
    for owed in [
        "\nwarning short-rank, at byte 19: rank 2 has 7 of 8 files; the others stay empty\n  8/8/8/8/8/8/PPPPPPP/8 w Kk e4\n                     ^\n",
        "\nwarning en-passant-rank, at byte 28: ",
        "\nwarning counters, at byte 29: ",
        "\n  castling    white king side, black king side\n",
        "\n  en passant  e6\n",
        "\n  key         8/8/8/8/8/8/PPPPPPP1/8 w Kk e6 0 1\n",
        "\n  counters    none: a counter of the FEN text is missing, is not one to four digits, or is a move number of 0, at byte 29 (answer 25)\n",
    ] {
        assert!(text.contains(owed), "{owed}{text}");
    }
    assert_eq!((ran.err.as_str(), ran.status), ("", 0));
}

#[test]
fn a_refused_text_says_why_and_where() {
    let owed =
        "refused: the placement of the FEN text has something other than pieces, digits from 1 to 8 and slashes, at byte 14 (answer 19)
  8/8/8/8/8/8/8/9 w - -
                ^
";
    expect(&["explain", "8/8/8/8/8/8/8/9 w - -"], "", (owed, "", 1));
    let owed = "refused: the side to move of the FEN text is not w, W, b or B, at byte 4 (answer 20)\n  8/8 x - -\n      ^\n";
    expect(&["explain", "8/8 x - -"], "", (owed, "", 1));
    let ran = run(&["explain", "-"], b"8/\t\xff\\ w - -\n");
    assert!(ran.text().ends_with(", at byte 2 (answer 19)\n  8/\\x09\\xff\\\\ w - -\n    ^\n"), "{}", ran.text());
}

#[test]
fn texts_from_standard_input_are_numbered() {
    let ran = run(&["explain", "-"], b" w - -\n8/8 w -\n");
    assert!(ran.text().starts_with("line 1: accepted, with 2 warnings"), "{}", ran.text());
    let owed = "\n\nline 2: refused: the FEN text ends before its fourth token, at byte 7 (answer 18)\n  8/8 w -\n         ^\n";
    assert!(ran.text().ends_with(owed), "{}", ran.text());
    assert_eq!((ran.err.as_str(), ran.status), ("", 1));
    let long = " ".repeat(200_000);
    expect(&["explain", "-"], long, ("line 1: refused: the line has more than 131071 bytes\n", "", 1));
}

#[test]
fn json_has_one_object_a_text() {
    let owed = "{\"line\":1,\"text\":\"8/8/8/8/8/8/8/1N6 b q - 0 1\",\"accepted\":true,\"key\":\"8/8/8/8/8/8/8/1N6 b q - 0 1\",\
                \"settled_key\":\"8/8/8/8/8/8/8/1N6 b q - 0 1\",\
                \"ranks\":[\"........\",\"........\",\"........\",\"........\",\"........\",\"........\",\"........\",\".N......\"],\
                \"side\":\"black\",\"castling\":\"q\",\"en_passant\":null,\"half_moves\":0,\"full_moves\":1,\"warnings\":[],\"notes\":[]}\n\
                {\"line\":2,\"text\":\"x\",\"accepted\":false,\"number\":18,\"offset\":1,\"reason\":\"the FEN text ends before its fourth token\"}\n";
    expect(&["explain", "--json", "-"], "8/8/8/8/8/8/8/1N6 b q - 0 1\nx", (owed, "", 1));
    let ran = run(&["explain", "--json", "8/8/8/8/8/8/8/8 W - - 0 1"], b"");
    let owed = "\"warnings\":[{\"name\":\"side\",\"offset\":16,\"reason\":\"the side to move is a capital; it should be w or b\"}],\"notes\":[]}\n";
    assert!(ran.text().ends_with(owed), "{}", ran.text());
}

/// What explain says in its row of a name, if it has one.
fn row<'a>(text: &'a str, name: &str) -> Option<&'a str> {
    text.lines().find_map(|line| line.strip_prefix(&format!("  {name:12}")))
}

// Document 02, order 12: one to four digits, the move number not 0; tokens behind the sixth are ignored.
const COUNTERS: [(&str, u16, u16); 7] = [
    ("8/8/8/8/8/8/8/8 w - - 0 1", 0, 1),
    ("8/8/8/8/8/8/8/8 w - - 49 120", 49, 120),
    ("8/8/8/8/8/8/8/8 b - - 9999 9999", 9_999, 9_999),
    ("8/8/8/8/8/8/8/8 w - - 0000 0001", 0, 1),
    ("8/8/8/8/8/8/8/8 w - - 500 1", 500, 1),
    (" W - - 7 8 9", 7, 8),
    (" W - - 7 8 ", 7, 8),
];

#[test]
fn counters_are_shown_and_no_part_of_the_key() {
    for (text, half, full) in COUNTERS {
        let (plain, counted) = (run(&["explain", text], b""), run(&["explain", "--full", text], b""));
        let side = if text.contains(" b ") { "b" } else { "w" };
        let (key, fen) = (format!("8/8/8/8/8/8/8/8 {side} - - 0 1"), format!("8/8/8/8/8/8/8/8 {side} - - {half} {full}"));
        let same = |owed: &str| format!("{owed}{}", if owed == text { ", the same as the text" } else { "" });
        for ran in [&plain, &counted] {
            let rows = ["key", "half-moves", "move number", "counters"].map(|name| row(ran.text(), name));
            let owed = [Some(same(&key)), Some(half.to_string()), Some(full.to_string()), None];
            assert_eq!((rows, ran.err.as_str(), ran.status), (owed.each_ref().map(|owed| owed.as_deref()), "", 0), "{text}");
        }
        assert_eq!((row(plain.text(), "full FEN"), row(counted.text(), "full FEN")), (None, Some(same(&fen).as_str())));
        let without: Vec<&str> = counted.text().lines().filter(|line| !line.starts_with("  full FEN ")).collect();
        assert_eq!(without, plain.text().lines().collect::<Vec<_>>());
    }
}

// The same order: 25 after 20, for the fifth token and then for the sixth, at its start or at the text's length.
const REFUSED: [(&str, u64, usize); 18] = [
    ("8 w -", 18, 5),
    ("9 w - -", 19, 0),
    ("8 x - -", 20, 2),
    ("8 x - - y 0", 20, 2),
    ("8 w - -", 25, 7),
    ("8 w - - ", 25, 8),
    ("8 w - - x", 25, 8),
    ("8 w - -  1", 25, 8),
    ("8 w - - 0", 25, 9),
    ("8 w - - 0 ", 25, 10),
    ("8 w - - x 0", 25, 8),
    ("8 w - - 0 0", 25, 10),
    ("8 w - - 0 0000", 25, 10),
    ("8 w - - 00000 1", 25, 8),
    ("8 w - - 10000 1", 25, 8),
    ("8 w - - 0 00001", 25, 10),
    ("8 w - - -0 +1", 25, 8),
    ("8 w - - 0 1\r", 25, 10),
];

#[test]
fn without_its_counters_a_text_is_refused_only_with_full() {
    for (text, number, offset) in REFUSED {
        let input = format!("{text}\n");
        let counted = run(&["explain", "--full", "-"], input.as_bytes());
        let shown = text.replace('\r', "\\x0d");
        let tail = format!(", at byte {offset} (answer {number})\n  {shown}\n  {}^\n", " ".repeat(offset));
        assert!(counted.text().starts_with("line 1: refused: ") && counted.text().ends_with(&tail), "{}", counted.text());
        assert_eq!((counted.err.as_str(), counted.status), ("", 1), "{text}");
        let ran = run(&["explain", "--full", "--json", "-"], input.as_bytes());
        assert!(
            ran.text().contains(&format!("\"accepted\":false,\"number\":{number},\"offset\":{offset},\"reason\":\"")),
            "{}",
            ran.text()
        );
        let plain = run(&["explain", "-"], input.as_bytes());
        assert_eq!(plain.status, i32::from(number != 25), "{text}");
        if number == 25 {
            let rows = ["half-moves", "move number"].map(|name| row(plain.text(), name));
            let told = row(plain.text(), "counters").unwrap_or_default();
            assert_eq!(rows, [None; 2], "{text}");
            assert!(told.starts_with("none: ") && told.ends_with(&format!(", at byte {offset} (answer 25)")), "{told}");
        }
    }
}

#[test]
fn json_has_the_counters_or_null() {
    let text = "8/8/8/8/8/8/8/8 w - - 49 120";
    let fields = "\"en_passant\":null,\"half_moves\":49,\"full_moves\":120,\"warnings\":[],\"notes\":[]}\n";
    let plain = run(&["explain", "--json", text], b"");
    assert!(plain.text().ends_with(fields) && !plain.text().contains("\"fen\""), "{}", plain.text());
    let counted = run(&["explain", "--json", "--full", text], b"");
    let key = "\"settled_key\":\"8/8/8/8/8/8/8/8 w - - 0 1\",";
    assert_eq!(counted.text(), plain.text().replace(key, &format!("{key}\"fen\":\"{text}\",")));
    // A clock of five digits is the standard's, and not the archive's: no warning, and no counters.
    let ran = run(&["explain", "--json", "8/8/8/8/8/8/8/8 w - - 12345 1"], b"");
    assert!(ran.text().ends_with("\"half_moves\":null,\"full_moves\":null,\"warnings\":[],\"notes\":[]}\n"), "{}", ran.text());
}
