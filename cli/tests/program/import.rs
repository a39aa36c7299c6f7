//! `menkhodur import` without a database. What is expected is by the words of the command's help and of its issue.

use crate::common::{Folder, Ran, expect, program, run, skipped};
use crate::pipes::{self, lines_of, next_line};
use std::collections::BTreeSet;
use std::fs;
use std::io::Write;
use std::process::{Command, Stdio};
use std::thread;
use std::time::Duration;

const DRY: &[&str] = &["import", "--dry-run"];

/// The last line of a dry run.
fn counted(games: u64, accepted: u64, moves: u64) -> String {
    let (refused, positions) = (games - accepted, moves + accepted);
    format!("menkhodur: import: dry run: {games} games, {accepted} accepted, {refused} refused; {moves} moves, {positions} positions\n")
}

/// A run on standard input without its last line.
fn dry(words: &[&str], input: impl AsRef<[u8]>) -> (String, i32) {
    let ran = run(&[DRY, words].concat(), input.as_ref());
    (ran.text().to_string(), ran.status)
}

/// The first line that a game gives, if it gives any.
fn line(input: impl AsRef<[u8]>) -> String {
    dry(&[], input).0.lines().next().unwrap_or_default().to_string()
}

/// The folder of files with one odd thing each.
fn odd(name: &str) -> String {
    format!("{}/tests/odd/{name}", env!("CARGO_MANIFEST_DIR"))
}

/// A run on an odd file in the words of the table.
fn answer(file: &str, words: &[&str]) -> String {
    let ran = run(&[DRY, words, &[file]].concat(), b"");
    if let Some(refused) = ran.text().lines().find_map(|line| line.strip_prefix(file)?.split_once(" ! ")) {
        let place = refused.0.trim_start_matches(':').split(": ").next().unwrap_or_default();
        let told: Vec<&str> = refused.1.split(' ').take(2).collect();
        assert_eq!(ran.status, 1);
        return format!("refuses {} {place}", told.join(" "));
    }
    let last = ran.err.lines().last().unwrap_or_default();
    let counts: Vec<&str> = last.split(|letter: char| !letter.is_ascii_digit()).filter(|word| !word.is_empty()).collect();
    let (games, moves) = (counts[0], counts[3]);
    let games = if games == "1" { String::new() } else { format!(" in {games} games") };
    let note = if ran.text().contains(" note: ") { " with a note" } else { "" };
    let taken = ran.err.lines().find_map(|line| line.strip_prefix("menkhodur: import: --loose has taken "));
    assert_eq!(ran.status, i32::from(!note.is_empty()));
    format!("takes {moves}{games}{note}{}", taken.map_or(String::new(), |taken| format!(" by {taken}")))
}

/// What pgn-extract makes of a file, in the words of the table, if it is installed.
fn extracted(file: &str) -> Option<String> {
    let run = |name: &str| Command::new(name).args(["-s", "-Wlalg", "-C", "-V", "-N", file]).output().ok();
    let ran = run("pgn-extract").or_else(|| run("/usr/games/pgn-extract"))?;
    let is_move = |word: &&str| matches!(word.as_bytes(), [b'a'..=b'h', b'1'..=b'8', b'a'..=b'h', b'1'..=b'8', ..]);
    let text = String::from_utf8_lossy(&ran.stdout).into_owned();
    let moves = text.lines().filter(|line| !line.starts_with('[')).flat_map(str::split_whitespace).filter(is_move).count();
    Some(format!("writes {moves}{}", if ran.stderr.trim_ascii().is_empty() { "" } else { ", told" }))
}

/// The rows of the table: a file, and what is made of it.
fn rows() -> Vec<Vec<String>> {
    let table = fs::read_to_string(odd("table")).unwrap();
    let rows = table.lines().filter(|line| !line.starts_with('#'));
    rows.map(|row| row.split(" | ").map(|cell| cell.trim().to_string()).collect()).collect()
}

#[test]
fn each_odd_file_is_answered_as_the_table_says() {
    let files: BTreeSet<String> = fs::read_dir(odd("")).unwrap().map(|file| file.unwrap().file_name().into_string().unwrap()).collect();
    let listed: BTreeSet<String> = rows().iter().map(|row| format!("{}.pgn", row[0])).chain(["table".to_string()]).collect();
    assert_eq!(files, listed);
    for row in rows() {
        let [name, plain, loose, _, _] = row.as_slice() else { panic!("{row:?}") };
        let file = odd(&format!("{name}.pgn"));
        assert_eq!(answer(&file, &[]), *plain, "{name}");
        assert_eq!(answer(&file, &["--loose"]), *if loose == "the same" { plain } else { loose }, "{name} --loose");
        // A game that is taken without it is never touched.
        assert!(plain.starts_with("refuses") || loose == "the same", "{name}");
    }
}

// Skipped by name where it is not installed.
#[test]
fn the_table_says_what_pgn_extract_does() {
    if extracted(&odd("plain.pgn")).is_none() {
        return skipped("pgn-extract is missing, of the Debian package pgn-extract");
    }
    for row in rows() {
        assert_eq!(extracted(&odd(&format!("{}.pgn", row[0]))).unwrap(), row[3], "{}", row[0]);
    }
}

#[test]
fn one_of_three_is_needed_and_what_is_not_known_is_trouble() {
    let one = "one of --sqlite, --postgres and --dry-run is needed, and no other; see menkhodur import --help";
    for (words, told) in [
        (&["x.pgn"][..], one),
        (&["--dry-run", "--sqlite", "x.db"], one),
        (&["--dry-run", "--postgres", "dbname=x"], one),
        (&["--sqlite", "x.db", "--postgres=dbname=x"], one),
        (&["--dry-run", "--nope"], "unknown option --nope; see menkhodur import --help"),
        (&["--sqlite"], "a value (FILE) is needed for --sqlite; see menkhodur import --help"),
        (&["--dry-run=1"], "no value is allowed for --dry-run; see menkhodur import --help"),
        (&["--dry-run", "--duplicates", "drop"], "--duplicates drop: keep, skip or tell is needed"),
        (&["--dry-run", "--batch=0"], "--batch 0: a number of positions from 1 up is needed"),
        (&["--dry-run", "--batch", "x"], "--batch x: a number of positions from 1 up is needed"),
        (&["--dry-run", "--limit", "0"], "--limit 0: a number of MB from 1 up is needed"),
    ] {
        expect(&[&["import"], words].concat(), "e4 *", ("", &format!("menkhodur: {told}\n"), 2));
    }
    for words in [&["--duplicates", "keep"][..], &["--duplicates=skip", "--batch", "1"], &["--places"]] {
        assert_eq!(dry(words, "e4 *"), (String::new(), 0));
    }
}

#[test]
fn games_are_counted_and_refused_ones_told_with_their_place() {
    let input = "[Event \"a\"]\n\n1. e4 e5 2. Nf3 *\n\n[Event \"b\"]\n\n1. e4 e5\n2. Ke3! *\n\n[Event \"c\"]\n\n1. d4 $ *\n\n1. c4 *\n";
    let owed = "-:8:4: game 2 ! 4 move no king can go to e3: 'Ke3'\n  2. Ke3! *\n     ^\n\
                -:12:7: game 3 ! 23 text the move text has something that is no token of it, or not there: '$'\n  1. d4 $ *\n        ^\n";
    expect(DRY, input, (owed, &counted(4, 2, 4), 1));
    expect(DRY, input.replace('\n', "\r\n"), (owed, &counted(4, 2, 4), 1));
    expect(&["import", "--dry-run", "-"], "", ("", &counted(0, 0, 0), 0));
    expect(DRY, "{only a comment}\n", ("", &counted(0, 0, 0), 0));
    expect(DRY, "e4 * d4 d5 * {c} Nf3 *\n", ("", &counted(3, 3, 4), 0));
    let told = "menkhodur: standard input: the file ends in the game of line 1, which has no result\n";
    expect(DRY, "e4", ("", &format!("{told}{}", counted(1, 1, 1)), 0));
}

#[test]
fn files_are_told_apart_and_one_that_is_missing_is_trouble() {
    let folder = Folder::new();
    let (a, b, none) = (folder.file("a", "e4 *\nKe2 *\n"), folder.file("b", "[Event \"b\"]\nd5 *"), folder.path("none"));
    let told = format!("menkhodur: {none}: No such file or directory\n{}", counted(4, 2, 2).replace('\n', "; input incomplete\n"));
    let owed = format!(
        "{a}:2:1: game 2 ! 4 move no king can go to e2: 'Ke2'\n  Ke2 *\n  ^\n{b}:2:1: game 1 ! 4 move no pawn can go to d5: 'd5'\n  d5 *\n  ^\n"
    );
    expect(&["import", "--dry-run", &a, &none, &b, "-"], "c4 *", (owed, &told, 2));
}

#[test]
fn variations_are_looked_at_only_if_asked_for() {
    let all = |moves: u64| counted(1, 1, moves);
    expect(&["import", "--dry-run", "--variations"], "e4 (d4 d5) (c4 e5) e5 *", ("", &all(6), 0));
    expect(DRY, "e4 (d4 d5) (c4 e5) e5 *", ("", &all(2), 0));
    // The same moves in one bracket: c4 may follow d5, and Nc6 may not follow e5 by white.
    expect(&["import", "--dry-run", "--variations"], "e4 (d4 d5 c4 e5) e5 *", ("", &all(6), 0));
    let input = "e4 (d4 d5) (Nc3 d4) e5 *";
    expect(DRY, input, ("", &all(2), 0));
    let owed = format!("-:1:17: game 1 ! 4 move no pawn can go to d4: 'd4'\n  {input}\n  {}^\n", " ".repeat(16));
    expect(&["import", "--dry-run", "--variations"], input, (owed, &counted(1, 0, 0), 1));
    // Where siblings were not told apart this would be refused, and the other taken.
    expect(&["import", "--dry-run", "--variations"], "e4 (e3 d5) (e3 e5) (Na3 d5 Nb1) d5 *", ("", &all(9), 0));
    assert!(dry(&["--variations"], "e4 (e3 d5 e3 e5) d5 *").0.contains(":1:11: game 1 ! 4 move "));
    // What the walk refuses in a variation refuses the game in either way.
    assert!(line("e4 (--) e5 *").starts_with("-:1:5: game 1 ! 23 text "));
}

/// A game of so many moves, which ends where it began every four of them.
fn long(moves: usize) -> String {
    let words = ["Nf3", "Nf6", "Ng1", "Ng8"].iter().cycle().take(moves);
    words.fold(String::new(), |text, word| text + word + "\n") + "*\n"
}

#[test]
fn a_game_has_4096_moves_and_no_more() {
    expect(DRY, long(4_096), ("", &counted(1, 1, 4_096), 0));
    let owed = "-:4097:1: game 1 ! 13 limit the game has more than 4096 moves: 'Nf3'\n  Nf3\n  ^\n";
    expect(DRY, long(4_097), (owed, &counted(1, 0, 0), 1));
    // Those of variations are not counted there.
    let many = format!("e4 ({}) e5 *\n", long(6_000).trim_end_matches("*\n"));
    expect(&["import", "--dry-run", "--variations"], many, ("", &counted(1, 1, 6_002), 0));
}

#[test]
fn a_game_that_is_too_large_is_refused_by_its_line() {
    let comment = format!("{{{}}}", "x".repeat(600_000));
    let owed = "-:4:1: game 1 ! - large the game has more than 1 MB, or more than there is memory for: ''\n";
    expect(&["import", "--dry-run", "--limit", "1"], format!("\ne4\n{comment}\n{comment} *\nd4 *\n"), (owed, &counted(2, 1, 1), 1));
}

#[test]
fn a_variant_is_refused_always_and_chess_by_any_of_its_names_is_not() {
    for name in ["Standard", "chess", "NORMAL", "From Position", "from position", "", "?", "-"] {
        assert_eq!(dry(&[], format!("[Variant \"{name}\"]\n\ne4 *")), (String::new(), 0), "{name}");
    }
    for name in ["Crazyhouse", "Atomic", "chess960", "Fischerandom", "standard 960"] {
        let owed = format!("-:2:11: game 1 ! - variant the game is of a variant, not of chess: '{name}'");
        for words in [&[][..], &["--loose"]] {
            let told = dry(words, format!("[Event \"a\"]\n[Variant \"{name}\"]\n\ne4 *"));
            assert_eq!((told.0.lines().next(), told.1), (Some(owed.as_str()), 1));
        }
    }
    assert!(line("[variant \"Atomic\"]\n\ne4 *").contains(" variant "));
}

const HOME: &str = "a castling right without king and rook at home";

/// FEN texts that are refused, each with the column in its line and what is told.
const NO_STARTS: &[(&str, usize, &str)] = &[
    ("4k3/8/8/8 w", 18, "18 start the FEN text ends before its fourth token"),
    ("4k3/8/8/8/8/8/8/4X3 w - -", 24, "19 start "),
    ("4k3/8/8/8/8/8/8/4K3 x - -", 27, "20 start "),
    ("4k3/8/8/8/8/8/8/4K2 w - - 0 1", 26, "- start rank 1 has 7 of 8 files"),
    ("4k3/8/8/8/8/8/8/4K4 w - - 0 1", 25, "- start rank 1 has 9 files"),
    ("4k3/8/8/8/8/8/4K3 w - - 0 1", 24, "- start the placement has 7 ranks"),
    ("4k3/8/8/8/8/8/8/44 w - - 0 1", 24, "- start two digits in a row"),
    ("bqnbrnkr/pppppppp/8/8/8/8/PPPPPPPP/BQNBRNKR w HEhe - 0 1", 53, "- start the castling field has something other than K, Q, k and q"),
    ("r3k2r/8/8/8/8/8/8/R3K2R w QK - 0 1", 34, "- start the letters of the castling field are not in the order KQkq"),
    ("r3k2r/8/8/8/8/8/8/R3K2R w KK - 0 1", 34, "- start a letter of the castling field occurs twice"),
    ("4k3/8/8/8/8/8/8/8 w - - 0 1", 7, "- start white has 0 kings, not 1"),
    ("4k3/4k3/8/8/8/8/8/4K3 w - - 0 1", 7, "- start black has 2 kings, not 1"),
    ("4k3/8/8/8/8/8/8/4K3 w K - 0 1", 29, HOME),
    ("4k3/8/8/8/8/8/8/R3K3 w K - 0 1", 30, HOME),
    ("4k2r/8/8/8/8/8/8/4K3 w q - 0 1", 30, HOME),
    ("3k3r/8/8/8/8/8/8/4K3 w k - 0 1", 30, HOME),
    ("4k3/8/8/8/8/8/4R3/4K3 w - - 0 1", 29, "the side that is not to move is in check"),
    ("4k3/4r3/8/8/8/8/8/4K3 b - - 0 1", 29, "the side that is not to move is in check"),
    ("4k3/8/8/3P4/8/8/8/4K3 w - e6 0 1", 33, "no pawn has just come over the en passant square"),
    ("4k3/4n3/8/3Pp3/8/8/8/4K3 w - e6 0 1", 36, "no pawn has just come over the en passant square"),
];

#[test]
fn a_start_must_be_one_that_a_game_can_come_from() {
    let game = |fen: &str| format!("[FEN \"{fen}\"]\n\n*");
    for fen in [
        "4k3/8/8/8/8/8/8/4K3 w - - 0 1",
        "4k3/8/8/8/8/8/8/4K3 w - -",
        "4k3/8/8/8/8/8/8/4K3 w - - x y",
        "4k3/8/8/8/8/8/8/4K3 W - -",
        "r3k2r/8/8/8/8/8/8/R3K2R w KQkq - 0 1",
        // A square that no pawn can use is settled, whatever stands there.
        "4k3/8/8/8/8/8/8/4K3 w - e6 0 1",
        "4k3/8/8/3Pp3/8/8/8/4K3 w - e6 0 1",
    ] {
        assert_eq!(line(game(fen)), "", "{fen}");
    }
    for (fen, column, told) in NO_STARTS {
        let (owed, found) = (format!("-:1:{column}: game 1 ! "), line(game(fen)));
        assert!(found.starts_with(&owed) && found.contains(told) && found.ends_with(&format!(": '{fen}'")), "{found}");
        assert!(dry(&["--loose"], game(fen)).0.starts_with(&owed));
    }
    let two = "[FEN \"4k3/8/8/8/8/8/8/4K3 w - -\"]\n[FEN \"4k3/8/8/8/8/8/8/3K4 w - -\"]\n\n*";
    assert!(line(two).starts_with("-:2:7: game 1 ! - start the game has another FEN tag"));
    assert_eq!(line(two.replace("3K4", "4K3")), "");
}

#[test]
fn a_result_that_the_board_or_the_tag_contradicts_is_a_note() {
    const MATE: &str = "f3 e5 g4 Qh4#";
    const STALEMATE: &str = "[FEN \"7k/8/6K1/8/8/8/8/5Q2 w - - 0 1\"]\n\nQf7";
    let note = |input: String| dry(&[], input);
    for (input, owed) in [
        (format!("{MATE} 1-0"), "white is mated, and the result is '1-0'"),
        (format!("{MATE} 1/2-1/2"), "white is mated, and the result is '1/2-1/2'"),
        (format!("[Result \"1-0\"]\n\n{MATE}\n[Event \"\"]\n\n*"), "white is mated, and the result is '1-0'"),
        ("e4 e5 Bc4 Nc6 Qh5 Nf6 Qxf7# 0-1".to_string(), "black is mated, and the result is '0-1'"),
        (format!("{STALEMATE} 1-0"), "the last position is stalemate, and the result is '1-0'"),
        ("[Result \"1-0\"]\n\ne4 0-1".to_string(), "the Result tag is '1-0', and the game ends with 0-1"),
        ("[Result \"?\x1b\"]\n\ne4 *".to_string(), "the Result tag is '?\\x1b', and the game ends with *"),
    ] {
        assert_eq!(note(input.clone()), (format!("-:1: game 1 note: {owed}\n"), 1), "{input}");
    }
    for input in [
        format!("{MATE} 0-1"),
        format!("[Result \"0-1\"]\n\n{MATE} 0-1"),
        format!("{STALEMATE} 1/2-1/2"),
        format!("{MATE}\n[Event \"\"]\n\n*"),
        format!("{MATE} *"),
        "e4 1-0".to_string(),
        "[Result \"1-0\"]\n\ne4\n[Event \"\"]\n\n*".to_string(),
    ] {
        assert_eq!(note(input.clone()), (String::new(), 0), "{input}");
    }
    expect(DRY, format!("{MATE} 1-0"), ("-:1: game 1 note: white is mated, and the result is '1-0'\n", &counted(1, 1, 4), 1));
}

#[test]
fn what_is_taken_loosely_is_counted_by_its_kinds() {
    let input = "e2-e4 ! e7-e5 Nxf3 Nc6 Bc4 Bc5 0-0 *\n\ne4 d5 ed5 Qd5 += *\n\nKe2 ! *\n";
    let owed = "-:5:1: game 3 ! 4 move no king can go to e2: 'Ke2'\n  Ke2 ! *\n  ^\n";
    let told = "menkhodur: import: --loose has taken 1 zeros, 1 marks, 1 glyphs, 2 hyphens, 3 captures\n";
    expect(&["import", "--dry-run", "--loose"], input, (owed, &format!("{told}{}", counted(3, 2, 11)), 1));
}

/// The length of the JSON value at the front of a text; no number is wanted here but whole ones.
fn json(text: &str) -> Option<usize> {
    let bytes = text.as_bytes();
    match bytes.first()? {
        b'{' | b'[' => {
            let mut at = 1;
            while bytes.get(at)? != &(bytes[0] + 2) {
                at += usize::from(at > 1 && bytes[at] == b',');
                if bytes[0] == b'{' {
                    at += json(&text[at..]).filter(|_| bytes[at] == b'"')?;
                    at += usize::from(bytes.get(at)? == &b':');
                }
                at += json(&text[at..])?;
            }
            Some(at + 1)
        }
        b'"' => {
            let mut at = 1;
            loop {
                match bytes.get(at)? {
                    b'"' => return Some(at + 1),
                    b'\\' if bytes.get(at + 1) == Some(&b'u') => at += 6,
                    b'\\' => at += 2,
                    0..32 => return None,
                    _ => at += 1,
                }
            }
        }
        b'0'..=b'9' => Some(bytes.iter().take_while(|byte| byte.is_ascii_digit()).count()),
        _ => ["true", "false", "null"].iter().find(|word| text.starts_with(**word)).map(|word| word.len()),
    }
}

#[test]
fn objects_of_json_are_one_per_line_and_the_last_counts() {
    let input = b"[White \"\xe9\"]\n[Variant \"\x01\xff\"]\n\ne4 *\n\ne4 e5 Ke3 *\n\nf3 e5 g4 Qh4 1-0\n\ne4 \xff *\n";
    let ran = run(&["import", "--dry-run", "--json", "--loose"], input);
    let lines: Vec<&str> = ran.text().lines().collect();
    for line in &lines {
        assert_eq!(json(line), Some(line.len()), "{line}");
    }
    let variant = "{\"file\":\"-\",\"game\":1,\"line\":1,\"number\":null,\"kind\":\"variant\",\"at\":2,\"column\":11,\"token\":\"\\u0001\u{fffd}\",\
                   \"token_hex\":\"01ff\",\"text\":\"[Variant \\\"\\u0001\u{fffd}\\\"]\",\"text_hex\":\"5b56617269616e74202201ff225d\",\
                   \"reason\":\"the game is of a variant, not of chess\"}";
    let moved = "{\"file\":\"-\",\"game\":2,\"line\":6,\"number\":4,\"kind\":\"move\",\"at\":6,\"column\":7,\"token\":\"Ke3\",\
                 \"text\":\"e4 e5 Ke3 *\",\"reason\":\"no king can go to e3\"}";
    let note = "{\"file\":\"-\",\"game\":3,\"line\":8,\"note\":\"mate\",\"reason\":\"white is mated, and the result is '1-0'\"}";
    assert_eq!(lines[..3], [variant, moved, note]);
    let loose = "\"loose\":{\"zeros\":0,\"en_passant\":0,\"marks\":0,\"glyphs\":0,\"periods\":0,\"brackets\":0,\"hyphens\":0,\"captures\":0,\
                 \"double_checks\":0,\"promotions\":0,\"coordinates\":0}";
    let last = format!(
        "{{\"games\":4,\"accepted\":1,\"refused\":3,\"moves\":4,\"positions\":5,\"notes\":1,\"dry_run\":true,{loose},\"stopped\":null,\
         \"complete\":true}}"
    );
    assert_eq!((lines.len(), lines[4], ran.status), (5, last.as_str(), 1));
    let ran = run(&["import", "--dry-run", "--json", "/none"], b"");
    assert!(ran.text().ends_with("\"dry_run\":true,\"stopped\":null,\"complete\":false}\n") && ran.status == 2, "{}", ran.text());
}

#[test]
fn a_game_that_a_failed_read_cut_is_not_counted() {
    for text in ["1. e4 *\n1. d4 d5\n", "1. e4 *\n[Event \"x\"]\n", "1. e4 *\n1. d4 d5 Nf"] {
        let ran = pipes::cut(program().args(DRY), text);
        assert!(ran.err.ends_with(&counted(1, 1, 1).replace('\n', "; input incomplete\n")), "{}", ran.err);
        assert_eq!((ran.text(), ran.status), ("", 2));
    }
}

#[test]
fn lines_that_cannot_be_written_are_trouble_and_not_counted() {
    let ran = pipes::full(DRY, "1. e4 *\nKe2 *\nd4 *\n");
    let told = counted(0, 0, 0).replace('\n', "; stopped: standard output: No space left on device\n");
    assert_eq!((ran.err, ran.status), (told, 2));
    // Nothing is written where nothing is wrong.
    assert_eq!(pipes::full(DRY, "1. e4 *\n").status, 0);
}

#[test]
fn a_closed_pipe_ends_a_dry_run_quietly() {
    assert_eq!(pipes::gone(DRY, "Ke2 *"), (String::new(), Some(1)));
    assert_eq!(pipes::gone(&["import", "--dry-run", "--json"], "f3 e5 g4 Qh4 1-0"), (String::new(), Some(1)));
}

#[test]
fn a_slow_pipe_gets_each_refusal_at_once() {
    let mut child = program().args(DRY).stdin(Stdio::piped()).stdout(Stdio::piped()).stderr(Stdio::null()).spawn().unwrap();
    let (mut to, from) = (child.stdin.take().unwrap(), lines_of(child.stdout.take().unwrap()));
    for index in 1..=3 {
        to.write_all(b"1. e4 * Ke2 *\n").unwrap();
        assert_eq!(next_line(&from), format!("-:{index}:9: game {} ! 4 move no king can go to e2: 'Ke2'", 2 * index));
        assert_eq!((next_line(&from), next_line(&from)), ("  1. e4 * Ke2 *".to_string(), "          ^".to_string()));
    }
    drop(to);
    assert_eq!(child.wait().unwrap().code(), Some(1));
}

#[test]
fn progress_is_told_on_a_terminal() {
    let (own, given) = pipes::terminal();
    let mut child = program().args(DRY).stdin(Stdio::piped()).stdout(Stdio::null()).stderr(given).spawn().unwrap();
    let (mut to, from) = (child.stdin.take().unwrap(), lines_of(own));
    to.write_all(b"e4 *\n").unwrap();
    thread::sleep(Duration::from_millis(1_500));
    to.write_all(b"d4 *\n").unwrap();
    let told = next_line(&from);
    assert!(told.starts_with("menkhodur: import: 2 games so far, ") && told.trim_end().ends_with(" positions a second"), "{told}");
    drop(to);
    assert_eq!(next_line(&from).trim_end(), counted(2, 2, 2).trim_end());
    assert_eq!(child.wait().unwrap().code(), Some(0));
}

#[test]
fn a_terminal_gets_no_control_characters_of_a_games_text() {
    let folder = Folder::new();
    let file = folder.file("a\x1b.pgn", b"e4 \x1b]0;x\x07 *\n");
    let seen = pipes::seen_by(program().args(DRY).arg(&file));
    let shown = folder.path("a\\x1b.pgn");
    assert_eq!(
        seen[0],
        format!("{shown}:1:4: game 1 ! 23 text the move text has something that is no token of it, or not there: '\\x1b]0;x\\x07'")
    );
    assert_eq!(seen[1], "  e4 \\x1b]0;x\\x07 *");
}

// The book would be slow here: as many games as a page or two of reads, in as much memory as one takes.
#[test]
fn memory_does_not_grow_with_the_file() {
    let folder = Folder::new();
    let game = "[Event \"a\"]\n[White \"b\"]\n\n1. e4 e5 2. Nf3 Nc6 3. Bb5 a6 4. Ba4 Nf6 5. O-O Be7 1-0\n\n";
    let file = folder.file("many", game.repeat(20_000));
    let script = format!("ulimit -v 24000; exec {} import --dry-run {file}", program().get_program().to_str().unwrap());
    let ran = Ran::of(Command::new("sh").args(["-c", &script]).output().unwrap());
    assert_eq!((ran.text(), ran.err.as_str(), ran.status), ("", counted(20_000, 20_000, 200_000).as_str(), 0));
}

// Bytes of any kind, cut out of and put into a good file: an answer, and never a signal.
#[test]
fn no_input_ends_it_otherwise_than_by_a_status() {
    let good = "[Event \"a\"]\n[FEN \"4k3/8/8/3pP3/8/8/8/R3K3 w Q d6 0 1\"]\n\n1. exd6 e.p. {x} (O-O-O! 0-0-0) Kd7 ; y\n2. O-O-O+ $3 *\n";
    let mut state = 1_u64;
    let mut next = |bound: usize| {
        state = state.wrapping_mul(6_364_136_223_846_793_005).wrapping_add(1_442_695_040_888_963_407);
        (state >> 33) as usize % bound
    };
    let words: [&[u8]; 12] = [b"(", b")", b"{", b"}", b";", b"\n", b"[FEN \"", b"e8(Q)", b"0-0", b"\0", b"\xff\xfe", b"!?"];
    let mut games = vec![];
    for _ in 0..2_000 {
        let mut text = good.as_bytes().to_vec();
        for _ in 0..=next(4) {
            let at = next(text.len());
            let until = (at + next(6)).min(text.len());
            text.splice(at..until, words[next(words.len())].iter().copied());
        }
        games.extend(text);
        games.push(b'\n');
    }
    for words in [&[][..], &["--loose", "--variations"], &["--json", "--loose"]] {
        let ran = run(&[DRY, words].concat(), &games);
        assert_eq!((ran.status, ran.err.contains(" games, ")), (1, true));
    }
}

#[test]
fn lists_may_come_from_another_program() {
    let with = |host: &str, input: &str| run(&["import", "--dry-run", "--host", host], input.as_bytes());
    let both = "while read fen; do echo 'e7e5 e2e4'; done";
    let ran = with(both, "e4 e5 *\n\nd4 *\n");
    // It is believed, whatever it says.
    let owed = "-:3:1: game 2 ! 4 move no pawn can go to d4: 'd4'\n  d4 *\n  ^\n";
    assert_eq!((ran.text(), ran.err.as_str(), ran.status), (owed, counted(2, 1, 2).as_str(), 1));
    // A position without moves is mate or stalemate.
    let ran = with("while read fen; do echo; done", "1-0\n");
    assert_eq!(ran.text(), "-:1: game 1 note: the last position is stalemate, and the result is '1-0'\n");
    for host in ["true", "echo '! no list'", "while read fen; do echo e2e9; done", "exit 3", "while read fen; do echo e2e4; done; exit 3"] {
        let ran = with(host, "e4 *\n");
        let last = ran.err.lines().last().unwrap_or_default();
        let games = if host.contains("e2e4") { counted(1, 1, 1) } else { counted(0, 0, 0) };
        assert!(last.starts_with(&format!("{}; stopped: --host ", games.trim_end())), "{host}: {}", ran.err);
        assert_eq!((ran.text(), ran.status), ("", 2), "{host}");
    }
}
