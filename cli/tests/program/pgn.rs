//! `menkhodur pgn`. The answers are by the words of document 02, order 8, and of the command's issues.

use crate::common::{Folder, Ran, expect, program, run};
use std::io::{BufRead, BufReader, Write};
use std::process::{Command, Stdio};

const PGN: &[&str] = &["pgn"];

const FILE: &str = "{ about this file }
[Event \"first\"]
[Site \"a ] in quotes\"]

1. e4 (1. d4 d5 (1... Nf6)) e5 $1 {good} 1-0

[Event \"second\"]
1. e4
  e5 ) Nf3 *

[Event \"third\"]

1. c4 1/2-1/2 {behind its result}
1. g3 *
";

const ERROR_23: &str = "the move text has something that is no token of it, or not there";
const ERROR_21: &str = "a comment or a bracket of the move text is left open";

#[test]
fn a_line_for_each_game() {
    let owed = format!("1 2 2 3 1-0\n2 7 ! 23 9:6 {ERROR_23}\n    e5 ) Nf3 *\n       ^\n3 11 1 0 1/2-1/2\n4 14 1 0 *\n");
    expect(PGN, FILE, (&owed, "menkhodur: 4 games, 3 accepted, 1 refused\n", 1));
    expect(PGN, FILE.replace('\n', "\r\n"), (&owed, "menkhodur: 4 games, 3 accepted, 1 refused\n", 1));
    expect(
        PGN,
        format!("\u{feff}{}", &FILE[20..]),
        (
            owed.replace("1 2 ", "1 1 ").replace(" 7 ! 23 9:", " 6 ! 23 8:").replace("3 11 ", "3 10 ").replace("4 14 ", "4 13 "),
            "menkhodur: 4 games, 3 accepted, 1 refused\n",
            1,
        ),
    );
    expect(PGN, "", ("", "menkhodur: 0 games, 0 accepted, 0 refused\n", 0));
    expect(PGN, "{only a comment}\n\n; and a line\n", ("", "menkhodur: 0 games, 0 accepted, 0 refused\n", 0));
    expect(PGN, "[Event \"no moves\"]\n*\n", ("1 1 0 0 *\n", "menkhodur: 1 game, 1 accepted, 0 refused\n", 0));
}

/// What is told of an input that ends in a game, and how many games it has.
fn cut(line: u64, games: &str) -> String {
    format!("menkhodur: standard input: the file ends in the game of line {line}, which has no result\nmenkhodur: {games} refused\n")
}

#[test]
fn a_file_that_ends_without_a_result_or_in_mid_game_is_told() {
    const STRICT: &[&str] = &["pgn", "--strict"];
    for (input, line, owed) in [
        ("1. e4 e5", 1, "1 1 2 0 -\n"),
        ("e4 *\n\n1. e4 e5\n", 3, "1 1 1 0 *\n2 3 2 0 -\n"),
        ("e4 *\n[Event \"a\"]\n", 2, "1 1 1 0 *\n2 2 0 0 -\n"),
        ("\n1. e4 e5 {behind} ; its *\n", 2, "1 2 2 0 -\n"),
    ] {
        let games = owed.lines().count();
        let counted = format!("{games} game{}, {games} accepted, 0", if games == 1 { "" } else { "s" });
        expect(PGN, input, (owed, &cut(line, &counted), 0));
        expect(STRICT, input, (owed, &cut(line, &counted), 1));
    }
    for input in ["e4 {x\n", "e4 (e5\n"] {
        let ran = run(PGN, input.as_bytes());
        assert_eq!((ran.text().starts_with("1 1 ! 21 1:4 "), ran.err, ran.status), (true, cut(1, "1 game, 0 accepted, 1"), 1));
    }
    for input in ["e4 *", "e4 * {comment}\n", "{comment}", "", "\n"] {
        assert!(run(STRICT, input.as_bytes()).err.starts_with(if input.starts_with('e') {
            "menkhodur: 1 game,"
        } else {
            "menkhodur: 0 games,"
        }));
    }
    // A game without a result that another follows is told by its line; in its own words only with --strict.
    let (input, owed) = ("[Event \"a\"]\ne4\n[Event \"b\"]\nd4 *\n", "1 1 1 0 -\n2 3 1 0 *\n");
    expect(PGN, input, (owed, "menkhodur: 2 games, 2 accepted, 0 refused\n", 0));
    let told = "menkhodur: standard input: the game of line 1 has no result\nmenkhodur: 2 games, 2 accepted, 0 refused\n";
    expect(STRICT, input, (owed, told, 1));
}

#[test]
fn files_that_were_joined_have_the_games_of_each() {
    let game = |name: &str, end: &str| format!("[Event \"{name}\"]\n[White \"{name}\"]\n\n1. e4 e5\n2. Nf3 {end}");
    let mark = "\u{feff}";
    for between in ["", "\n", mark, "\r\n", " ", "\n \t", "\n\u{feff}", "\u{feff}\u{feff}", "\n\u{feff} "] {
        let joined = ["a", "b", "c"].map(|name| game(name, "1-0")).join(between);
        let ran = run(PGN, joined.as_bytes());
        let ends: Vec<String> = ran.text().lines().map(|line| line.splitn(3, ' ').nth(2).unwrap().to_string()).collect();
        assert_eq!(ends, ["3 0 1-0", "3 0 1-0", "3 0 1-0"], "{between:?}");
        assert_eq!((ran.err.as_str(), ran.status), ("menkhodur: 3 games, 3 accepted, 0 refused\n", 0));
        // One of them was cut in mid-game, or has no moves.
        for first in [game("a", ""), "[Event \"a\"]\n[White \"a\"]".to_string()] {
            let ran = run(PGN, [first, game("b", "*")].join(between).as_bytes());
            let results: Vec<&str> = ran.text().lines().map(|line| line.rsplit(' ').next().unwrap()).collect();
            assert_eq!((results, ran.status), (vec!["-", "*"], 0), "{between:?} {}", ran.text());
        }
    }
    // Without tag pairs, a mark stands before the first move.
    expect(
        PGN,
        format!("e4 *{mark}d4 *\n{mark}c4 *"),
        ("1 1 1 0 *\n2 1 1 0 *\n3 2 1 0 *\n", "menkhodur: 3 games, 3 accepted, 0 refused\n", 0),
    );
}

#[test]
fn a_place_is_told_behind_marks_and_tag_pairs_too() {
    for (input, owed) in [
        ("e4 *[Event \"b\"] $ *", format!("1 1 1 0 *\n2 1 ! 23 1:17 {ERROR_23}\n  e4 *[Event \"b\"] $ *\n                  ^\n")),
        ("e4\n\u{feff}$ *\n", format!("1 1 ! 23 2:4 {ERROR_23}\n     $ *\n     ^\n")),
        ("\u{feff}$ *\n", format!("1 1 ! 23 1:4 {ERROR_23}\n  \\xef\\xbb\\xbf$ *\n              ^\n")),
    ] {
        let ran = run(PGN, input.as_bytes());
        assert_eq!((ran.text(), ran.status), (owed.as_str(), 1));
    }
}

#[test]
fn indented_tag_pairs_and_lines_of_any_length_are_passed_over() {
    let long = "x".repeat(200_000);
    let input = format!(
        "  [Event \"a\"]\n\t[Annotator \"{long}\"]\n[White \"{long}\"] [Black \"b\"]\n\n1. e4 {{{long}}} e5 *\n  [Event \"b\"]\n\nd4 *\n"
    );
    expect(PGN, input, ("1 1 2 0 *\n2 6 1 0 *\n", "menkhodur: 2 games, 2 accepted, 0 refused\n", 0));
    // What is wrong far into a line is told by its column, with what stands near it.
    let ran = run(PGN, format!("e4 {{{long}}} $ *\n").as_bytes());
    assert!(ran.text().starts_with(&format!("1 1 ! 23 1:200007 {ERROR_23}\n  ..xxx")), "{}", ran.text());
    let ran = run(&["pgn", "--json"], format!("e4 {{{long}}} $ *\n").as_bytes());
    let (from, near) = (200_007 - 4_096, "x".repeat(4_094));
    assert!(
        ran.text().contains(&format!("\"at\":1,\"column\":200007,\"text\":\"{near}}} $ *\",\"text_column\":{from},\"reason\"")),
        "{}",
        ran.text()
    );
}

/// Comments of about a million bytes.
fn comment(bytes: usize) -> String {
    format!("{{{}}}", "x".repeat(bytes - 2))
}

#[test]
fn a_game_that_is_too_large_is_refused_by_its_line_and_the_next_is_read() {
    const MB: usize = 1 << 20;
    let told = "the game has more than 1 MB, or more than there is memory for";
    let limited = ["pgn", "--limit", "1"];
    // As large as can be, in one line and in several, and one byte more.
    for (more, lines) in [(0, 1), (1, 1), (0, 4), (1, 4)] {
        let comments = vec![comment((MB - 8) / lines - 1); lines - 1].join("\n");
        let rest = MB - 8 - comments.len() - usize::from(lines > 1) + more;
        let input = format!("e4\n{comments}{}{}\ne5 *\nd4 *\n", if lines > 1 { "\n" } else { "" }, comment(rest));
        let last = lines + 2;
        let first = if more == 0 { "2 0 *".to_string() } else { format!("! large {last} {told}") };
        let counted = format!("menkhodur: 2 games, {} accepted, {more} refused\n", 2 - more);
        expect(&limited, input, (format!("1 1 {first}\n2 {} 1 0 *\n", last + 1), &counted, more as i32));
    }
    // The longest line, and one byte more.
    let line = |bytes: usize| format!("e4 {} *\n[Event \"b\"]\nd4 *\n", comment(bytes - 5));
    expect(&limited, line(MB), ("1 1 1 0 *\n2 2 1 0 *\n", "menkhodur: 2 games, 2 accepted, 0 refused\n", 0));
    let owed = format!("1 1 ! large 1 {told}\n2 2 1 0 *\n");
    expect(&limited, line(MB + 1), (owed, "menkhodur: 2 games, 1 accepted, 1 refused\n", 1));
    // A line that is too large by itself: of a game, of comments, and of tag pairs.
    for (before, line, owed) in [("e4\n", comment(MB + 1), 1), ("", comment(MB + 1), 1), ("\n\n", format!("[A \"{}\"]", "x".repeat(MB)), 3)]
    {
        let input = format!("{before}{line}\n*\n[Event \"b\"]\nd4 *\n");
        let at = before.lines().count() + 1;
        let owed = format!("1 {owed} ! large {at} {told}\n2 {} 1 0 *\n", at + 2);
        expect(&limited, input, (owed, "menkhodur: 2 games, 1 accepted, 1 refused\n", 1));
    }
    let json = format!("{{\"file\":\"-\",\"game\":1,\"line\":1,\"large\":true,\"at\":2,\"reason\":\"{told}\",\"result\":null}}\n");
    expect(&["pgn", "--json", "--limit=1"], format!("e4\n{}", comment(2 * MB)), (json, &cut(1, "1 game, 0 accepted, 1"), 1));
}

#[test]
fn without_an_option_a_game_may_have_64_mb() {
    let large = comment(1 << 25);
    expect(PGN, format!("e4 {large}\n e5 *\nd4\n"), ("1 1 2 0 *\n2 3 1 0 -\n", &cut(3, "2 games, 2 accepted, 0"), 0));
    let told = "the game has more than 64 MB, or more than there is memory for";
    let owed = format!("1 1 ! large 2 {told}\n2 3 1 0 *\n");
    expect(PGN, format!("e4 {large}\n{large} *\nd4 *\n"), (owed, "menkhodur: 2 games, 1 accepted, 1 refused\n", 1));
}

// The limit is larger than what a process may have here.
#[test]
fn a_game_for_which_there_is_no_memory_is_refused_and_the_program_goes_on() {
    let folder = Folder::new();
    let input = folder.file("in", format!("e4\n{} *\nd4 *\n", format!("{}\n", comment(100_000)).repeat(2_000)));
    for script in [
        format!("{} pgn --limit 100000 {input}", env!("CARGO_BIN_EXE_menkhodur")),
        format!("tr '\\n' ' ' <{input} | {} pgn --limit 100000", env!("CARGO_BIN_EXE_menkhodur")),
    ] {
        let ran = Ran::of(Command::new("sh").args(["-c", &format!("ulimit -v 150000; {script}")]).output().unwrap());
        let told = "the game has more than 100000 MB, or more than there is memory for\n";
        assert!(ran.text().starts_with("1 1 ! large ") && ran.text().contains(told), "{} {}", ran.text(), ran.err);
        assert_eq!(ran.status, 1);
    }
}

// A comment left open takes all that follows, and the game is still the one of the line in which it begins.
#[test]
fn a_comment_left_open_over_the_file_is_told_by_the_games_own_line() {
    let rest = "some\nmore\n1. e4 *\n";
    for (input, line, at) in [
        (format!("{{open\n{rest}"), 1, "1:1"),
        (format!("\n\n{{open\n{rest}"), 3, "3:1"),
        (format!("e4 *\n{{open\n{rest}"), 2, "2:1"),
        (format!("e4\n{{open\n{rest}"), 1, "2:1"),
        (format!("{{a comment}}\ne4\n{{open\n{rest}"), 2, "3:1"),
        (format!("[Site \"a\"]\n\n{{open\n{rest}"), 1, "3:1"),
    ] {
        let ran = run(PGN, input.as_bytes());
        let number = ran.text().lines().filter(|told| !told.starts_with(' ')).count();
        let owed = format!("{number} {line} ! 21 {at} {ERROR_21}");
        assert!(ran.text().lines().any(|told| told == owed), "{owed} in {}", ran.text());
        assert!(ran.err.starts_with(&format!("menkhodur: standard input: the file ends in the game of line {line}, ")), "{}", ran.err);
    }
}

#[test]
fn tag_pairs_are_told_as_they_stand() {
    let input = b"[White \"M\xc3\xbcller \\\"x\\\" \\\\\"]  [Black\"\xfc\"]\n[A]\n[ B_1 \"\" ]\n[White \"\"again\"\"]\n\n1. e4 * $ *\n";
    let tags = b"  [White \"M\xc3\xbcller \\\"x\\\" \\\\\"]\n  [Black\"\xfc\"]\n  [ B_1 \"\" ]\n  [White \"\"again\"\"]\n".to_vec();
    let refused = format!("2 6 ! 23 6:9 {ERROR_23}\n  1. e4 * $ *\n          ^\n");
    let owed = [b"1 1 1 0 *\n".to_vec(), tags.clone(), refused.clone().into_bytes()].concat();
    expect(&["pgn", "--tags"], input, (owed, "menkhodur: 2 games, 1 accepted, 1 refused\n", 1));
    let owed = [b"1 1 1 0 *\n".to_vec(), tags, b"  0 e4\n".to_vec(), refused.into_bytes()].concat();
    expect(&["pgn", "--tags", "--moves"], input, (owed, "menkhodur: 2 games, 1 accepted, 1 refused\n", 1));
    let tag = |name: &str, value: &str| format!("{{\"name\":\"{name}\",\"value\":\"{value}\"");
    let tags = [
        tag("White", "Müller \\\"x\\\" \\\\") + "}",
        tag("Black", "\u{fffd}") + ",\"value_hex\":\"fc\"}",
        tag("B_1", "") + "}",
        tag("White", "\\\"again\\\"") + "}",
    ];
    let first =
        format!("{{\"file\":\"-\",\"game\":1,\"line\":1,\"moves\":1,\"variations\":0,\"result\":\"*\",\"tags\":[{}]}}\n", tags.join(","));
    let ran = run(&["pgn", "--json", "--tags"], input);
    assert!(String::from_utf8_lossy(&ran.out).starts_with(&first), "{}", String::from_utf8_lossy(&ran.out));
    assert!(String::from_utf8_lossy(&ran.out).ends_with("\"result\":\"*\",\"tags\":[]}\n"));
}

#[test]
fn moves_with_their_levels() {
    let owed = "1 1 2 3 1-0\n  0 e4\n  1 d4\n  1 d5\n  2 Nf6\n  0 e5\n";
    expect(&["pgn", "--moves"], "1. e4 (1. d4 d5 (1... Nf6)) e5 1-0", (owed, "menkhodur: 1 game, 1 accepted, 0 refused\n", 0));
}

#[test]
fn objects_of_json() {
    let owed = format!(
        "{{\"file\":\"-\",\"game\":1,\"line\":1,\"moves\":1,\"variations\":1,\"result\":\"*\",\
         \"list\":[{{\"move\":\"e4\",\"level\":0}},{{\"move\":\"d4\",\"level\":1}}]}}\n\
         {{\"file\":\"-\",\"game\":2,\"line\":1,\"moves\":0,\"variations\":0,\"result\":\"0-1\",\"list\":[]}}\n\
         {{\"file\":\"-\",\"game\":3,\"line\":1,\"number\":23,\"at\":1,\"column\":25,\"text\":\"1. e4 (d4) * 0-1 1. (d4 % *\",\
         \"reason\":\"{ERROR_23}\",\"result\":null}}\n"
    );
    expect(&["pgn", "--json", "--moves"], "1. e4 (d4) * 0-1 1. (d4 % *\n", (owed, &cut(1, "3 games, 2 accepted, 1"), 1));
}

#[test]
fn what_is_wrong_is_told_where_it_stands_in_the_file() {
    let deep = "(".repeat(9);
    for (input, owed) in [
        ("e4 (e5\n{x\ny\n", format!("1 1 ! 21 2:1 {ERROR_21}\n  {{x\n  ^\n")),
        ("e4 (e5\n\n1-0\n", format!("1 1 ! 23 3:1 {ERROR_23}\n  1-0\n  ^\n")),
        ("% a line\n% and one\ne4 $ e5 *\n", format!("1 3 ! 23 3:4 {ERROR_23}\n  e4 $ e5 *\n     ^\n")),
        (&deep, format!("1 1 ! 22 1:9 the brackets of the move text go deeper than 8 levels\n  {deep}\n          ^\n")),
        ("e4 *\n d4 * \tPe4\n", format!("1 1 1 0 *\n2 2 1 0 *\n3 2 ! 23 2:8 {ERROR_23}\n   d4 * \\x09Pe4\n          {}^\n", " ".repeat(2))),
    ] {
        let ran = run(PGN, input.as_bytes());
        assert_eq!((ran.text(), ran.status), (owed.as_str(), 1));
    }
}

#[test]
fn one_bad_game_hides_no_other() {
    let input = "[Event \"a\"]\n\ne4 {left open\n\n[Event \"b\"]\n\nd4 ( c4 *\n\n[Event \"c\"]\n\nc4 *\n";
    let ran = run(PGN, input.as_bytes());
    let heads: Vec<&str> = ran.text().lines().filter(|line| !line.starts_with(' ')).collect();
    assert_eq!(heads, [format!("1 1 ! 21 3:4 {ERROR_21}"), format!("2 5 ! 23 7:9 {ERROR_23}"), "3 9 1 0 *".to_string()]);
    assert_eq!((ran.err.as_str(), ran.status), ("menkhodur: 3 games, 1 accepted, 2 refused\n", 1));
}

#[test]
fn files_are_told_apart_and_a_cut_one_is_trouble() {
    let folder = Folder::new();
    let (a, b, none) = (folder.file("a", "e4 e5"), folder.file("b", "1. d4 *\n"), folder.path("none"));
    let owed = format!("{a}: 1 1 2 0 -\n-: 1 1 1 0 *\n-: 2 1 1 0 *\n{b}: 1 1 1 0 *\n{b}: 1 1 1 0 *\n");
    let told =
        format!("menkhodur: {a}: the file ends in the game of line 1, which has no result\nmenkhodur: 5 games, 5 accepted, 0 refused\n");
    expect(&["pgn", &a, "-", &b, &b], "c4 * d4 *", (owed, &told, 0));
    let told = format!("menkhodur: {none}: No such file or directory\nmenkhodur: 1 game, 1 accepted, 0 refused; input incomplete\n");
    expect(&["pgn", &none, &b], "", (format!("{b}: 1 1 1 0 *\n"), &told, 2));
}

#[test]
fn a_slow_pipe_gets_each_game_at_once() {
    let mut command = program();
    command.args(PGN).stdin(Stdio::piped()).stdout(Stdio::piped()).stderr(Stdio::null());
    let mut child = command.spawn().unwrap();
    let mut to = child.stdin.take().unwrap();
    let mut from = BufReader::new(child.stdout.take().unwrap());
    for index in 1..=3 {
        to.write_all(b"1. e4 e5 *\n").unwrap();
        let mut line = String::new();
        from.read_line(&mut line).unwrap();
        assert_eq!(line, format!("{index} {index} 2 0 *\n"));
    }
    drop(to);
    assert!(child.wait().unwrap().success());
}
