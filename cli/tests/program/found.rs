//! `menkhodur games`: which games came to a position. What is owed is read off the games, by hand.

use crate::common::{Folder, INITIAL, expect};
use crate::stores::Store;

/// Four games: two that come to one position by different moves, one that repeats its start, and one that starts elsewhere.
const GAMES: &str = "[White \"a\tx\"]\n[Black \"b\"]\n[Date \"1990.01.02\"]\n[Result \"1-0\"]\n\n1. e4 e5 2. Nf3 (2. Nc3) Nc6 1-0\n\n\
                     [White \"c\"]\n\n1. Nf3 Nc6 2. e4 e5 *\n\n\
                     [White \"d\"]\n\n1. Nf3 Nf6 2. Ng1 Ng8 3. Nf3 Nf6 4. Ng1 Ng8 5. e4 1/2-1/2\n\n\
                     [White \"e\"]\n[FEN \"4k3/8/8/8/8/8/4P2r/4K2R w K - 5 40\"]\n\n40. e4 Rxh1+ 0-1\n";

const KNIGHTS: &str = "r1bqkbnr/pppp1ppp/2n5/4p3/4P3/5N2/PPPP1PPP/RNBQKB1R w KQkq -";

/// Stores with the games, by places and without them, of each kind, and the name of their file.
fn stores(folder: &Folder) -> (Vec<Store>, String) {
    let file = folder.file("four.pgn", GAMES);
    let mut all = vec![];
    for store in Store::each(folder) {
        let placed = store.another(folder);
        store.file(&[&file]);
        placed.file(&["--places", &file]);
        all.extend([store, placed]);
    }
    (all, file)
}

#[test]
fn each_place_has_a_line_of_ten_columns() {
    let folder = Folder::new();
    let (stores, file) = stores(&folder);
    let lone = "4k3/8/8/8/4P3/8/7r/4K2R b K -";
    let rows = |rows: &[&str]| rows.iter().map(|row| format!("{file}\t{row}\n")).collect::<String>();
    let (unknown, drawn, lost) = ("?\t????.??.??\t*", "?\t????.??.??\t1/2-1/2", "?\t????.??.??\t0-1");
    for (position, owed, told) in [
        (
            KNIGHTS,
            rows(&["1\t1\t4\t2...\tNc6\ta\\x09x\tb\t1990.01.02\t1-0", &format!("2\t8\t4\t2...\te5\tc\t{unknown}")]),
            "2 games, 2 places",
        ),
        (
            INITIAL,
            rows(&[
                "1\t1\t0\t-\t-\ta\\x09x\tb\t1990.01.02\t1-0",
                &format!("2\t8\t0\t-\t-\tc\t{unknown}"),
                &format!("3\t12\t0\t-\t-\td\t{drawn}"),
                &format!("3\t12\t4\t2...\tNg8\td\t{drawn}"),
                &format!("3\t12\t8\t4...\tNg8\td\t{drawn}"),
            ]),
            "3 games, 5 places",
        ),
        // Counters and a square that no pawn can use are no part of it.
        (lone, rows(&[&format!("4\t16\t1\t40.\te4\te\t{lost}")]), "1 game, 1 place"),
        ("4k3/8/8/8/4P3/8/7r/4K2R b K e3 77 99", rows(&[&format!("4\t16\t1\t40.\te4\te\t{lost}")]), "1 game, 1 place"),
        ("4k3/8/8/8/4P3/8/8/4K2r w - - 0 1", rows(&[&format!("4\t16\t2\t40...\tRxh1+\te\t{lost}")]), "1 game, 1 place"),
        // Only a variation comes to this one, and nothing to the other.
        ("rnbqkbnr/pppp1ppp/8/4p3/4P3/2N5/PPPP1PPP/R1BQKBNR b KQkq -", String::new(), "0 games, 0 places"),
        ("8/8/8/8/8/8/8/8 w - -", String::new(), "0 games, 0 places"),
    ] {
        for store in &stores {
            let ran = store.run("games", &["--position", position]);
            let status = i32::from(owed.is_empty());
            assert_eq!((ran.text(), ran.err.as_str(), ran.status), (owed.as_str(), format!("menkhodur: games: {told}\n").as_str(), status));
        }
    }
}

#[test]
fn an_object_has_null_for_what_is_not_there() {
    let folder = Folder::new();
    let (stores, file) = stores(&folder);
    for store in &stores {
        let ran = store.run("games", &["--json", "--position", KNIGHTS]);
        let owed = format!(
            "{{\"source\":\"{file}\",\"game\":1,\"line\":1,\"ply\":4,\"number\":2,\"side\":\"black\",\"move\":\"Nc6\",\"white\":\"a\\u0009x\",\
             \"black\":\"b\",\"date\":\"1990.01.02\",\"result\":\"1-0\"}}\n\
             {{\"source\":\"{file}\",\"game\":2,\"line\":8,\"ply\":4,\"number\":2,\"side\":\"black\",\"move\":\"e5\",\"white\":\"c\",\
             \"black\":null,\"date\":null,\"result\":null}}\n"
        );
        assert_eq!((ran.text(), ran.status), (owed.as_str(), 0));
        let ran = store.run("games", &["--json", "--position", "4k3/8/8/8/8/8/4P2r/4K2R w K -"]);
        assert!(ran.text().contains("\"ply\":0,\"number\":null,\"side\":null,\"move\":null,\"white\":\"e\","), "{}", ran.text());
    }
}

// Every position of every game, by both ways.
#[test]
fn places_and_rolls_give_the_same_lines() {
    let folder = Folder::new();
    let (stores, _) = stores(&folder);
    for pair in stores.chunks(2) {
        let keys = pair[0].ask("SELECT fen FROM position ORDER BY fen");
        assert!(keys.lines().count() > 10);
        for key in keys.lines() {
            let [rolls, places] = [&pair[0], &pair[1]].map(|store| store.run("games", &["--position", key]));
            assert_eq!((&rolls, rolls.status), (&places, 0), "{key}");
        }
    }
}

#[test]
fn a_position_is_needed_and_one_that_is_refused_or_odd_is_told() {
    let folder = Folder::new();
    expect(&["games", "--sqlite", "x"], "", ("", "menkhodur: --position FEN is needed; see menkhodur games --help\n", 2));
    let few = "menkhodur: --position: the FEN text ends before its fourth token, at byte 7 (answer 18)\n  8/8 w -\n         ^\n";
    expect(&["games", "--sqlite", "x", "--position", "8/8 w -"], "", ("", few, 2));
    let (stores, _) = stores(&folder);
    for store in &stores {
        let ran = store.run("games", &["--position", "8/8/8/8/8/8/8/7 w - - x"]);
        let told = "menkhodur: --position: warning short-rank: rank 1 has 7 of 8 files; the others stay empty\n  8/8/8/8/8/8/8/7 w - - x\n";
        assert!(ran.err.starts_with(told) && ran.err.ends_with("\nmenkhodur: games: 0 games, 0 places\n"), "{}", ran.err);
        assert_eq!((ran.text(), ran.status), ("", 1));
    }
}
