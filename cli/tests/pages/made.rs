//! The pages that are looked at: those of the example logs, and of a long game.

use menkhodur::{Lent, Log, Position};
use std::ffi::OsStr;
use std::fs;
use std::os::unix::ffi::OsStrExt;
use std::path::{Path, PathBuf};
use std::process::Command;

/// A page, and what it must show.
pub struct Page {
    pub path: PathBuf,
    pub is_ruling: bool,
    pub shown: Shown,
}

/// The FENs of the record, which the last diagrams of a page have in this order.
#[derive(Default)]
pub struct Shown {
    pub moves: usize,
    pub fens: Vec<String>,
}

/// A FEN's men, read by the words of the standard: `e4P` and so on, sorted.
pub fn men(fen: &str) -> Vec<String> {
    let mut men = vec![];
    for (rank, row) in ('1'..='8').rev().zip(fen.split(' ').next().unwrap_or_default().split('/')) {
        let mut file = b'a';
        for letter in row.chars() {
            match letter.to_digit(10) {
                Some(empty) => file += empty as u8,
                None => {
                    men.push(format!("{}{rank}{letter}", char::from(file)));
                    file += 1;
                }
            }
        }
    }
    men.sort();
    men
}

fn program(words: &[&OsStr]) -> Vec<u8> {
    Command::new(env!("CARGO_BIN_EXE_menkhodur")).args(words).output().expect("the program runs").stdout
}

/// The FENs of a log's moves as `show` prints them, which has no part in a page.
fn shown(words: &[&OsStr]) -> Shown {
    let text = String::from_utf8(program(&[&[OsStr::new("show")], words].concat())).expect("ASCII");
    let fields = |line: &str| line.split_whitespace().map(str::to_string).collect::<Vec<_>>();
    let mut fens: Vec<(String, String)> =
        text.lines().map(fields).map(|words| (words[1].clone(), words[words.len() - 6..].join(" "))).collect();
    // What is no move leaves the number of moves as it was.
    fens.dedup_by(|next, before| next.0 == before.0);
    Shown { moves: fens.len() - 1, fens: fens.into_iter().map(|(_, fen)| fen).collect() }
}

/// A page of a command.
fn page(folder: &Path, name: &str, words: &[&OsStr], shown: Shown) -> Page {
    let path = folder.join(format!("{name}.html"));
    let html = [words[0], OsStr::new("--html"), path.as_os_str()];
    program(&[&html, &words[1..]].concat());
    Page { path, is_ruling: words[0] == "ruling", shown }
}

pub fn pages(folder: &Path) -> Vec<Page> {
    let example = |name: &str| Path::new(env!("CARGO_MANIFEST_DIR")).join("../examples").join(name);
    let mut pages = vec![];
    for name in ["threefold", "laws-count", "not-good"] {
        let parts = ["actions", "positions"].map(|part| example(&format!("{name}.{part}")));
        let words = [parts[0].as_os_str(), parts[1].as_os_str()];
        for command in ["ruling", "show"] {
            pages.push(page(folder, &format!("{command}-{name}"), &[&[OsStr::new(command)], &words[..]].concat(), shown(&words)));
        }
    }
    let rolls = ["threefold", "laws-count"].map(|name| {
        let (parts, roll) = (["actions", "positions"].map(|part| example(&format!("{name}.{part}"))), folder.join(name));
        program(
            &["roll", "-o"].map(OsStr::new).into_iter().chain([&roll, &parts[0], &parts[1]].map(|p| p.as_os_str())).collect::<Vec<_>>(),
        );
        roll
    });
    let words = [OsStr::new("diff"), rolls[0].as_os_str(), rolls[1].as_os_str()];
    pages.push(page(folder, "diff", &words, Shown::default()));
    pages.push(page(folder, "show-roll", &[OsStr::new("show"), rolls[0].as_os_str()], shown(&[rolls[0].as_os_str()])));
    pages.push(long(folder));
    pages.push(hostile(folder, [example("threefold.actions"), example("threefold.positions")]));
    pages
}

/// A page made from files whose names are markup and scripts, if they are not escaped.
fn hostile(folder: &Path, parts: [PathBuf; 2]) -> Page {
    let names: [&[u8]; 2] =
        [b"<script>console.log(1)<\\script><img src=x onerror=console.log(2)>", b"\"'><svg onload=console.log(3)>\xff\x01\xe2\x80\xae"];
    let paths = names.map(|name| folder.join(OsStr::from_bytes(name)));
    for (part, path) in parts.iter().zip(&paths) {
        fs::copy(part, path).expect("a file");
    }
    let words = [OsStr::new("ruling"), paths[0].as_os_str(), paths[1].as_os_str()];
    page(folder, "ruling-hostile", &words, shown(&words[1..]))
}

/// A game of 700 moves by each side, with an offer behind every third move: its ruling must not take more paper than another.
fn long(folder: &Path) -> Page {
    let (mut log, mut list) = (begun(), Lent::new());
    for turn in 0..1_400_usize {
        let moves = log.current_moves();
        let quiet = |made: &&menkhodur::Move| log.current_position().piece_on(made.get_dest()).is_none();
        let made = *moves.iter().filter(quiet).nth(turn * 7 % moves.len().min(5)).unwrap_or(&moves[0]);
        let after = log.current_position().after(made);
        menkhodur_moves::legal(after.record(), &mut list).expect("a list");
        log.play(made, menkhodur_moves::in_check(after.record()), list.moves()).expect("a move");
        if log.result().is_some() {
            break;
        }
        if turn % 3 == 0 {
            log.offer_draw(!log.side_to_move()).expect("an offer");
        }
    }
    assert!(log.counts().moves == 1_400, "the game has {} moves", log.counts().moves);
    let parts = [("long.actions", log.used_actions()), ("long.positions", log.used_positions())];
    let paths = parts.map(|(name, bytes)| {
        let path = folder.join(name);
        fs::write(&path, bytes).expect("a file");
        path
    });
    let words = [OsStr::new("ruling"), paths[0].as_os_str(), paths[1].as_os_str()];
    page(folder, "ruling-long", &words, shown(&words[1..]))
}

fn begun() -> Log {
    let (board, mut list) = (menkhodur::Board::default(), Lent::new());
    menkhodur_moves::legal(board.record(), &mut list).expect("a list");
    Log::start(&Position { board, in_check: false, list: list.moves() }).expect("a start")
}
