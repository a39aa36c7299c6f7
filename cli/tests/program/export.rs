//! `menkhodur export`. The form is that of the PGN standard of 1994, read off its words; that games come back is judged by the databases' own shells,
//! and the moves' names by pgn-extract.

use crate::closed::redirected;
use crate::common::{Folder, INITIAL, Ran, expect, program, run, skipped};
use crate::pipes;
use crate::stores::{self, Store};
use menkhodur::{Board, Color, Lent};
use std::fs;

/// The openings of pgn-extract's package.
const OPENINGS: &str = "/usr/share/pgn-extract/eco.pgn";

/// A file with one odd thing, which may be one that no import takes.
fn odd() -> Vec<String> {
    let folder = format!("{}/tests/odd", env!("CARGO_MANIFEST_DIR"));
    let files = fs::read_dir(folder).unwrap().map(|file| file.unwrap().path().to_str().unwrap().to_string());
    let mut files: Vec<String> = files.filter(|file| file.ends_with(".pgn")).collect();
    files.sort();
    files
}

/// The text of all games of a store.
#[track_caller]
fn exported(store: &Store) -> String {
    let ran = store.run("export", &[]);
    assert_eq!((ran.status, ran.err.lines().count()), (0, 1), "{}", ran.err);
    ran.text().to_string()
}

#[test]
fn games_are_written_in_export_form() {
    let folder = Folder::new();
    let file = folder.file(
        "a.pgn",
        "[White \"O'Neill, \\\"Q\\\" \\\\\"]\n[ECO \"C20\"]\n[Black \"b\tc\"]\n[Annotator \"\u{e9}\"]\n\n1. e4 {x} (1. d4) e5 $1 2.Nf3! *\n\n\
         [Result \"0-1\"]\n[FEN \"4k3/8/8/8/3Pp3/8/8/R3K3 b Q d3 0 30\"]\n\n30... exd3 31. O-O-O Ke7 0-1\n",
    );
    let seven = |white: &str, black: &str, result: &str| {
        format!(
            "[Event \"?\"]\n[Site \"?\"]\n[Date \"????.??.??\"]\n[Round \"?\"]\n[White \"{white}\"]\n[Black \"{black}\"]\n[Result \"{result}\"]\n"
        )
    };
    let owed = seven("O'Neill, \\\"Q\\\" \\\\", "b c", "*")
        + "[Annotator \"\u{e9}\"]\n[ECO \"C20\"]\n\n1. e4 e5 2. Nf3 *\n\n"
        + &seven("?", "?", "0-1")
        + "[FEN \"4k3/8/8/8/3Pp3/8/8/R3K3 b Q d3 0 30\"]\n[SetUp \"1\"]\n\n30... exd3 31. O-O-O Ke7 0-1\n\n";
    for store in Store::each(&folder) {
        store.file(&[&file]);
        let ran = store.run("export", &[]);
        assert_eq!((ran.text(), ran.err.as_str(), ran.status), (owed.as_str(), "menkhodur: export: 2 games, 6 moves\n", 0));
    }
}

/// What is in a store, but for numbers, lines and the names of files: positions, and of each game its roll, its seven tags and its others, the
/// ones that say the start left out and all in the order of their names.
fn held(store: &Store) -> (String, Vec<Vec<String>>) {
    let seven = "coalesce(event, '?'), coalesce(site, '?'), coalesce(date, '????.??.??'), coalesce(round, '?'), coalesce(white, '?'), \
                 coalesce(black, '?'), coalesce(result, '*')";
    let rows = store.ask(&format!("SELECT moves, hex(roll), {seven}, tags FROM game ORDER BY source, number"));
    let row = |row: &str| {
        let (front, tags) = row.split_at(row.rfind("|[").unwrap());
        let tags =
            tags.trim_matches(['|', '[', ']']).split("],[").filter(|tag| !tag.starts_with("\"FEN\"") && !tag.starts_with("\"SetUp\""));
        let mut tags: Vec<String> = tags.map(str::to_string).collect();
        tags.sort();
        [vec![front.to_string()], tags].concat()
    };
    (store.ask("SELECT fen FROM position ORDER BY fen"), rows.lines().map(row).collect())
}

/// What an import has left, exported and imported again, is the same; and once more, to the byte.
fn comes_back(folder: &Folder, store: &Store) {
    let text = exported(store);
    let (second, third) = (store.another(folder), store.another(folder));
    second.file(&["--duplicates=keep", &folder.file("second.pgn", &text)]);
    assert_eq!(held(&second), held(store));
    assert_eq!(exported(&second), text);
    third.file(&["--duplicates=keep", &folder.file("third.pgn", &text)]);
    let all = "SELECT number, line, moves, hex(roll), event, site, date, round, white, black, result, tags, mark FROM game ORDER BY number";
    assert_eq!(second.ask(all), third.ask(all));
}

#[test]
fn odd_games_come_back() {
    let folder = Folder::new();
    for store in Store::each(&folder) {
        for words in [&["--duplicates=keep"][..], &["--duplicates=keep", "--loose"]] {
            let store = store.another(&folder);
            for file in odd() {
                assert!(store.run("import", &[words, &[&file]].concat()).status < 2);
            }
            let games = store.ask("SELECT count(*) FROM game").trim().parse::<u64>().unwrap();
            assert!(games > 30, "{games}");
            comes_back(&folder, &store);
        }
    }
}

#[test]
fn openings_come_back() {
    let folder = Folder::new();
    if !fs::exists(OPENINGS).unwrap_or(false) {
        return skipped(&format!("{OPENINGS} is missing, of the Debian package pgn-extract"));
    }
    for store in Store::each(&folder) {
        store.file(&[OPENINGS]);
        comes_back(&folder, &store);
    }
}

/// A game of legal moves in coordinates, each picked by a number that goes on and on, until it is over or long.
fn wandering(state: &mut u64) -> String {
    let (mut list, mut board, mut moves) = (Lent::new(), Board::default(), vec![]);
    menkhodur_moves::legal(board.record(), &mut list).unwrap();
    while !list.is_empty() && moves.len() < 400 {
        *state = state.wrapping_mul(6_364_136_223_846_793_005).wrapping_add(1_442_695_040_888_963_407);
        let made = list.moves()[(*state >> 33) as usize % list.len()];
        moves.push(made.to_string());
        board = board.after(made);
        menkhodur_moves::legal(board.record(), &mut list).unwrap();
    }
    let result = match (list.is_empty(), menkhodur_moves::in_check(board.record()), board.get_side_to_move()) {
        (false, ..) => "*",
        (true, false, _) => "1/2-1/2",
        (true, true, Color::White) => "0-1",
        (true, true, Color::Black) => "1-0",
    };
    format!("[Result \"{result}\"]\n\n{} {result}\n\n", moves.join(" "))
}

/// The words of all move text.
fn tokens(text: &str) -> Vec<&str> {
    text.lines().filter(|line| !line.starts_with('[')).flat_map(str::split_whitespace).collect()
}

/// What pgn-extract tells of an exported file beside its count. It makes the names of the moves anew, from its own board: they must be the same.
fn extracted(folder: &Folder, text: &str) -> Option<Vec<String>> {
    let (again, told) = stores::extracted(&["-Wsan"], &folder.file("exported.pgn", text))?;
    assert_eq!(tokens(&again).len(), tokens(text).len());
    assert!(tokens(&again) == tokens(text));
    let told = told.split(['\n', '\r']).filter(|line| !line.is_empty() && !line.starts_with("Games: "));
    Some(told.map(str::to_string).collect())
}

#[test]
fn pgn_extract_takes_every_game_without_a_word() {
    let (folder, mut state) = (Folder::new(), 1);
    let wandering = folder.file("wandering.pgn", (0..60).map(|_| wandering(&mut state)).collect::<String>());
    for store in Store::each(&folder) {
        store.file(&["--loose", &wandering]);
        odd().iter().for_each(|file| assert!(store.run("import", &["--duplicates=keep", file]).status < 2));
        let text = exported(&store);
        assert_eq!(extracted(&folder, &text).unwrap_or_default(), [""; 0]);
        let has = |mark: &str| tokens(&text).iter().any(|token| token.contains(mark));
        assert!(["=Q", "=N", "=R+", "O-O", "O-O-O", "#", "R1", "Nb"].into_iter().all(has), "the games have too little in them");
        assert!(text.lines().all(|line| line.len() < 80));
    }
}

// Two of them end in mate, and have no result.
#[test]
fn pgn_extract_tells_of_openings_only_what_their_results_are() {
    let folder = Folder::new();
    if !fs::exists(OPENINGS).unwrap_or(false) {
        return skipped(&format!("{OPENINGS} is missing, of the Debian package pgn-extract"));
    }
    for store in Store::each(&folder) {
        // `*` is no result that mate contradicts, and pgn-extract tells of it.
        assert_eq!(store.run("import", &[OPENINGS]).text(), "");
        let Some(told) = extracted(&folder, &exported(&store)) else { return };
        let is_mate = |line: &&String| line.contains("is inconsistent with checkmate");
        assert_eq!((told.iter().filter(is_mate).count(), told.len()), (2, 6));
    }
}

#[test]
fn a_source_is_written_alone() {
    let folder = Folder::new();
    let (a, b) = (folder.file("a", "e4 *"), folder.file("b", "d4 * c4 *"));
    for store in Store::each(&folder) {
        store.file(&[&a, &b]);
        let all = exported(&store);
        let [of_a, of_b] = [&a, &b].map(|file| store.run("export", &["--source", file]));
        assert_eq!(
            (of_a.err.as_str(), of_b.err.as_str()),
            ("menkhodur: export: 1 game, 1 move\n", "menkhodur: export: 2 games, 2 moves\n")
        );
        assert_eq!(of_a.text().to_string() + of_b.text(), all);
        let none = store.run("export", &["--source", "c"]);
        assert_eq!((none.text(), none.err.as_str(), none.status), ("", "menkhodur: --source c: the store has no games of it\n", 2));
    }
}

#[test]
fn a_file_is_written_whole_or_not_at_all() {
    let folder = Folder::new();
    let file = folder.file("a", "e4 *");
    for store in Store::each(&folder) {
        store.file(&[&file]);
        let (text, new) = (exported(&store), folder.path("new"));
        let ran = store.run("export", &["-o", &new]);
        assert_eq!((ran.text(), ran.err.as_str(), ran.status), ("", "menkhodur: export: 1 game, 1 move\n", 0));
        assert_eq!(fs::read_to_string(&new).unwrap(), text);
        fs::write(&new, "mine").unwrap();
        let ran = store.run("export", &["--output", &new]);
        assert_eq!((ran.err, ran.status), (format!("menkhodur: {new}: it exists; --force replaces it\n"), 2));
        let ran = store.run("export", &["--output", &new, "--force", "--source", "none"]);
        assert_eq!((ran.status, fs::read_to_string(&new).unwrap().as_str()), (2, "mine"));
        assert_eq!(store.run("export", &["--output", &new, "--force"]).status, 0);
        assert_eq!(fs::read_to_string(&new).unwrap(), text);
        assert_eq!(store.run("export", &["--output", "-"]).text(), text);
        fs::remove_file(&new).unwrap();
    }
    assert!(fs::read_dir(&folder.0).unwrap().all(|entry| !entry.unwrap().file_name().to_str().unwrap().starts_with(".menkhodur-")));
}

#[test]
fn a_store_is_never_replaced_by_its_games() {
    let folder = Folder::new();
    let (file, store) = (folder.file("a", "e4 *"), folder.path("store"));
    if run(&["import", "--sqlite", &store, &file], b"").err.contains("libsqlite3-0") {
        return skipped("SQLite is missing, of the Debian package libsqlite3-0");
    }
    let ran = run(&["export", "--sqlite", &store, "--force", "-o", &format!("{}/./store", folder.0.display())], b"");
    assert!(ran.err.ends_with("/./store: it is the store\n") && ran.status == 2, "{ran:?}");
    assert_eq!(run(&["export", "--sqlite", &store], b"").status, 0);
}

#[test]
fn a_reader_who_goes_ends_it_quietly_and_a_full_device_is_trouble() {
    let folder = Folder::new();
    let (many, store) = (folder.file("many", "e4 *\n".repeat(20_000)), folder.path("store"));
    if run(&["import", "--sqlite", &store, "--duplicates=keep", &many], b"").err.contains("libsqlite3-0") {
        return skipped("SQLite is missing, of the Debian package libsqlite3-0");
    }
    let head = format!("{} export --sqlite {store} | head -n 1; echo ${{PIPESTATUS[0]}}", program().get_program().to_str().unwrap());
    let ran = Ran::of(std::process::Command::new("bash").args(["-c", &head]).output().unwrap());
    assert_eq!((ran.text(), ran.err.as_str()), ("[Event \"?\"]\n0\n", ""));
    let ran = pipes::full(&["export", "--sqlite", &store], "");
    let told = "menkhodur: standard output: No space left on device\n\
                menkhodur: export: 0 games, 0 moves; output incomplete: these games were written whole\n";
    assert_eq!((ran.err.as_str(), ran.status), (told, 2));
}

#[test]
fn a_terminal_gets_no_control_characters_and_a_closed_output_is_trouble() {
    let folder = Folder::new();
    let (file, store, new) = (folder.file("a", b"[White \"a\x1bb\xc2\x9bc\"]\n\ne4 *\n"), folder.path("store"), folder.path("new"));
    if run(&["import", "--sqlite", &store, &file], b"").err.contains("libsqlite3-0") {
        return skipped("SQLite is missing, of the Debian package libsqlite3-0");
    }
    let words = ["export", "--sqlite", &store];
    assert_eq!(pipes::seen_by(program().args(words))[4], "[White \"a b\\xc2\\x9bc\"]");
    assert!(run(&words, b"").text().contains("\n[White \"a b\u{9b}c\"]\n"));
    let games = ["games", "--sqlite", &store, "--position", INITIAL];
    for words in [&words[..], &games] {
        let told = Ran { out: vec![], err: "menkhodur: standard output: it is not open\n".to_string(), status: 2 };
        assert_eq!(redirected(words, ">&-"), told);
    }
    assert_eq!(redirected(&[&words[..], &["-o", &new]].concat(), "<&- >&-").status, 0);
    assert!(fs::read_to_string(&new).unwrap().ends_with("\n\n1. e4 *\n\n"));
}

#[test]
fn one_store_is_needed_and_what_is_none_is_told() {
    let one =
        |command: &str| format!("menkhodur: one of --sqlite and --postgres is needed, and not both; see menkhodur {command} --help\n");
    expect(&["export"], "", ("", &one("export"), 2));
    expect(&["export", "--sqlite", "a", "--postgres", "b"], "", ("", &one("export"), 2));
    expect(&["games", "--position", "8/8/8/8/8/8/8/8 w - -"], "", ("", &one("games"), 2));
    expect(&["export", "x"], "", ("", "menkhodur: one word too many: x; see menkhodur export --help\n", 2));
    let folder = Folder::new();
    let (none, text) = (folder.path("none"), folder.file("text", "e4 *"));
    for store in [&none, &text] {
        for words in [&["export", "--sqlite", store][..], &["games", "--position", "8/8/8/8/8/8/8/8 w - -", "--sqlite", store]] {
            let ran = run(words, b"");
            assert!(ran.err.starts_with("menkhodur: ") && ran.err.lines().count() == 1, "{}", ran.err);
            assert_eq!((ran.text(), ran.status), ("", 2));
        }
    }
    assert!(!fs::exists(&none).unwrap(), "what is read is not made");
}
