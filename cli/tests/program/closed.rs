//! Standard streams that are not open, by the words: trouble where they are written or read, and nowhere else.

use crate::common::{EMPTY, Folder, Ran, empty_position, program};
use crate::figures::{self, File};
use crate::games::{Game, old_roll, roll};
use std::fs;
use std::process::Command;

/// Runs the program with streams as a shell redirects them.
pub fn redirected(words: &[&str], how: &str) -> Ran {
    let mut shell = Command::new("sh");
    shell.args(["-c", &format!("exec \"$0\" \"$@\" {how}")]).arg(program().get_program()).args(words);
    Ran::of(shell.output().unwrap())
}

/// Files that the commands can be tried on.
struct Files {
    folder: Folder,
    fens: String,
    pgn: String,
    actions: String,
    positions: String,
    roll: String,
    old: String,
}

impl Files {
    fn new() -> Files {
        let folder = Folder::new();
        let (fens, pgn) = (folder.file("fens", format!("{EMPTY}\n")), folder.file("pgn", "e4 *\n"));
        let (actions, positions) = (folder.file("actions", ""), folder.file("positions", empty_position()));
        let (roll, old) = (folder.file("roll", roll(&Game::empty())), folder.file("old", old_roll(&Game::empty())));
        Files { folder, fens, pgn, actions, positions, roll, old }
    }
}

#[test]
fn standard_output_that_is_not_open_is_trouble_in_every_command_that_writes() {
    let Files { folder: _folder, fens, pgn, actions: a, positions: p, roll, old } = &Files::new();
    for words in [
        &["keys", fens][..],
        &["keys", "--check", fens],
        &["keys", "--json", "--strict", "--crlf", fens],
        &["report"],
        &["report", "--json", fens],
        &["explain", EMPTY],
        &["explain", "-"],
        &["pgn", pgn],
        &["pgn", "--json", pgn],
        &["import", "--dry-run", pgn],
        &["ruling", a, p],
        &["show", a, p],
        &["show", roll],
        &["show", "--old", old],
        &["diff", roll, roll],
        &["diff", roll, old],
        &["roll", a, p],
        &["roll", "-o", "-", a, p],
        &["roll", "--pgn", pgn],
        &["roll", "upgrade", old, "-"],
        &["completion", "bash"],
        &["man"],
        &["help"],
        &["help", "keys"],
        &["--help"],
        &["keys", "--help"],
        &["--version"],
    ] {
        let told = Ran { out: vec![], err: "menkhodur: standard output: it is not open\n".to_string(), status: 2 };
        assert_eq!(redirected(words, ">&-"), told, "{words:?}");
        assert_eq!(redirected(words, "<&- >&-"), told, "{words:?}");
        assert_eq!(redirected(words, ">&- 2>&-").status, 2, "{words:?}");
    }
}

#[test]
fn a_file_is_written_whatever_standard_output_is() {
    let Files { folder, actions: a, positions: p, roll, old, .. } = &Files::new();
    let (first, second) = (folder.path("first"), folder.path("second"));
    for (words, new) in [(["roll", "-o", &first, a, p], &first), (["roll", "upgrade", old, &second, "--force"], &second)] {
        assert_eq!(redirected(&words, "<&- >&-"), Ran { out: vec![], err: String::new(), status: 0 });
        assert_eq!(fs::read(new).unwrap(), fs::read(roll).unwrap());
    }
}

#[test]
fn standard_input_that_is_not_open_is_trouble_where_it_is_read() {
    let Files { folder, fens, pgn, actions: a, positions: p, roll, .. } = &Files::new();
    let new = folder.path("new");
    for words in [
        &["explain", "-"][..],
        &["ruling", "-", p],
        &["ruling", a, "-"],
        &["show", "-", p],
        &["show", "-"],
        &["diff", "-", roll],
        &["diff", roll, "-"],
        &["roll", "-", p],
        &["roll", "--pgn", "-"],
        &["roll", "upgrade", "-", "-"],
        &["roll", "upgrade", "-", &new],
    ] {
        let told = Ran { out: vec![], err: "menkhodur: standard input: it is not open\n".to_string(), status: 2 };
        assert_eq!(redirected(words, "<&-"), told, "{words:?}");
    }
    assert!(!fs::exists(new).unwrap());
    // Commands that count go on with the next file.
    let read = figures::keys(EMPTY);
    for (words, out, counted) in [
        (&["keys"][..], "", "0 lines, 0 accepted, 0 refused"),
        (&["keys", "-", fens], EMPTY, "1 line, 1 accepted, 0 refused"),
        (&["report", "--json"], figures::owed(&[File("-", &[], false)]).trim_end(), "0 lines, 0 accepted, 0 refused"),
        (
            &["report", "--json", "-", fens],
            figures::owed(&[File("-", &[], false), File(fens, &read, true)]).trim_end(),
            "1 line, 1 accepted, 0 refused",
        ),
        (&["pgn"], "", "0 games, 0 accepted, 0 refused"),
        (&["pgn", "-", pgn], &format!("{pgn}: 1 1 1 0 *"), "1 game, 1 accepted, 0 refused"),
        (&["import", "--dry-run", "-", pgn], "", "import: dry run: 1 games, 1 accepted, 0 refused; 1 moves, 2 positions"),
    ] {
        let ran = redirected(words, "<&-");
        let err = format!("menkhodur: standard input: it is not open\nmenkhodur: {counted}; input incomplete\n");
        assert_eq!((ran.text().trim_end(), ran.err.as_str(), ran.status), (out, err.as_str(), 2), "{words:?}");
    }
    for words in [
        &["keys", fens][..],
        &["report", fens],
        &["explain", EMPTY],
        &["pgn", pgn],
        &["import", "--dry-run", pgn],
        &["show", a, p],
        &["diff", roll, roll],
        &["roll", "--pgn", pgn],
    ] {
        assert_eq!(redirected(words, "<&-"), redirected(words, "</dev/null"), "{words:?}");
        assert_eq!(redirected(words, "<&-").status, 0, "{words:?}");
    }
}

// They are open, but not for what is wanted: the system's own words.
#[test]
fn a_stream_that_is_open_the_wrong_way_is_trouble_too() {
    let Files { folder: _folder, fens, .. } = &Files::new();
    for (words, how, stream) in
        [(&["keys"][..], "0>/dev/null", "input"), (&["keys", fens], "1</dev/null", "output"), (&["man"], "1</dev/null", "output")]
    {
        let ran = redirected(words, how);
        assert!(ran.err.starts_with(&format!("menkhodur: standard {stream}: Bad file descriptor\n")), "{}", ran.err);
        assert_eq!(ran.status, 2);
    }
}
