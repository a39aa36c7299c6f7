//! `menkhodur roll --pgn`: a game of a PGN file as a roll. What a roll is, is said by document 02, orders 1 and 12.

use crate::common::{Folder, expect, run};
use crate::stores::Store;
use menkhodur::{Action, Board, Move, Roll};
use std::fs;

/// The roll of a start and of moves in coordinates.
fn owed(start: Board, moves: &str) -> Vec<u8> {
    let actions = moves.split_whitespace().map(|text| Action::MakeMove(Move::from_text(text).unwrap())).collect();
    Roll { start, actions }.to_bytes().unwrap()
}

const GAMES: &str = "; a comment\n[Event \"a\"]\n\n1. e4 (1. d4 Ke3) e5 2. Nf3! *\n\n[Event \"b\"]\n\n1. e4 Ke3 *\n\n\
                     [Event \"c\"]\n[FEN \"4k3/8/8/8/4P3/8/8/4K3 b - e3 3 12\"]\n\n12... Kd7 1-0\n\nd4";

#[test]
fn a_game_has_the_roll_of_its_main_line() {
    let folder = Folder::new();
    let file = folder.file("a.pgn", GAMES);
    let first = owed(Board::default(), "e2e4 e7e5 g1f3");
    expect(&["roll", "--pgn", &file], "", (&first, "", 0));
    expect(&["roll", "--pgn", "-", "--game=1"], GAMES, (&first, "", 0));
    // The start is settled, and keeps its counters.
    let third = owed(Board::from_fen_full("4k3/8/8/8/4P3/8/8/4K3 b - - 3 12").unwrap(), "e8d7");
    expect(&["roll", "--pgn", &file, "--game", "3"], "", (third, "", 0));
    let told = format!("menkhodur: {file}: the file ends in the game of line 15, which has no result\n");
    expect(&["roll", "--pgn", &file, "--game", "4"], "", (owed(Board::default(), "d2d4"), &told, 0));
    let new = folder.path("new");
    expect(&["roll", "--pgn", &file, "-o", &new], "", ("", "", 0));
    assert_eq!(fs::read(&new).unwrap(), first);
    expect(&["roll", "--pgn", &file, "-o", &new], "", ("", &format!("menkhodur: {new}: it exists; --force replaces it\n"), 2));
    let shown = run(&["show", &new], b"");
    assert!(shown.text().lines().nth(3).unwrap().contains(" white g1f3 "), "{}", shown.text());
}

#[test]
fn a_refused_game_is_told_as_the_import_tells_it() {
    let folder = Folder::new();
    let file = folder.file("a.pgn", GAMES);
    let refused = run(&["import", "--dry-run", &file], b"");
    let new = folder.path("new");
    expect(&["roll", "--pgn", &file, "--game", "2", "-o", &new], "", ("", &format!("menkhodur: {}", refused.text()), 2));
    assert!(!fs::exists(new).unwrap());
    let large = format!("e4 {{{}}} *\n", "x".repeat(65 << 20));
    for bad in ["[Variant \"Atomic\"]\n\n*", "[FEN \"8/8 w - -\"]\n\n*", "e4 (e5 *", "e4 \x1b *", &large] {
        let refused = run(&["import", "--dry-run"], bad.as_bytes());
        let told: String = refused.err.lines().filter(|line| !line.contains(" import: ")).map(|line| format!("{line}\n")).collect();
        expect(&["roll", "--pgn", "-"], bad, ("", &format!("{told}menkhodur: {}", refused.text()), 2));
    }
}

#[test]
fn a_game_that_is_not_there_and_words_that_do_not_fit_are_trouble() {
    let folder = Folder::new();
    let (file, none) = (folder.file("a.pgn", GAMES), folder.path("none"));
    for (words, told) in [
        (&["--pgn", &file, "--game", "5"][..], format!("{file}: game 5 is not there, it has 4 games")),
        (&["--pgn", "/dev/null"], "/dev/null: game 1 is not there, it has 0 games".to_string()),
        (&["--pgn", &none], format!("{none}: No such file or directory")),
        (&["--pgn", &file, "--game", "0"], "--game 0: a number from 1 up is needed".to_string()),
        (&["--pgn", &file, "--game", "x"], "--game x: a number from 1 up is needed".to_string()),
        (&["--pgn", &file, "a", "b"], "with --pgn no log is needed; see menkhodur roll --help".to_string()),
        (&["--game", "1", "a", "b"], "--game is for a file of --pgn; see menkhodur roll --help".to_string()),
        (&["--game", "1"], "missing ACTIONS; see menkhodur roll --help".to_string()),
    ] {
        expect(&[&["roll"], words].concat(), "", ("", &format!("menkhodur: {told}\n"), 2));
    }
}

#[test]
fn it_is_the_roll_that_a_store_has() {
    let folder = Folder::new();
    let file = folder.file("a.pgn", GAMES);
    for store in Store::each(&folder) {
        store.run("import", &[&file]);
        for number in [1, 3, 4] {
            let roll = run(&["roll", "--pgn", &file, "--game", &number.to_string()], b"").out;
            let hex: String = roll.iter().map(|byte| format!("{byte:02x}")).collect();
            assert_eq!(store.ask(&format!("SELECT lower(hex(roll)) FROM game WHERE number = {number}")).trim(), hex);
        }
    }
}
