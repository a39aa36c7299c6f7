//! `menkhodur roll` and `menkhodur roll upgrade`. What a roll is, is said by document 02, orders 1 and 12; what an old one is owed, by order 12:
//! the same game, with 0 and 1 after its 68 numbers.

use crate::common::{FULL_MOVES, Folder, HALF_MOVES, Ran, empty_position, expect, program, repository, run};
use crate::games::{FULL, Game, HALF, old_roll, roll};
use menkhodur::lent::{MAX_ACTIONS, MAX_MOVES, MAX_ROLL};
use std::fs::{self, File, Permissions};
use std::os::fd::OwnedFd;
use std::os::unix::fs::{PermissionsExt, symlink};
use std::os::unix::net::UnixStream;
use std::process::Command;

/// Everything that a folder has in it, so that nothing is left beside a file.
fn names(folder: &Folder) -> Vec<String> {
    let entries = fs::read_dir(&folder.0).unwrap();
    let mut names: Vec<String> = entries.map(|entry| entry.unwrap().file_name().into_string().unwrap()).collect();
    names.sort();
    names
}

#[test]
fn the_roll_of_a_log_has_its_start_with_its_counters_and_its_actions() {
    let folder = Folder::new();
    for (index, (actions, positions, game)) in Game::logs().into_iter().enumerate() {
        expect(&["roll", &actions, &positions], "", (roll(&game), "", 0));
        let file = folder.path(&index.to_string());
        expect(&["roll", "-o", &file, &actions, &positions], "", ("", "", 0));
        assert_eq!(fs::read(&file).unwrap(), roll(&game));
        expect(&["diff", "-", &file], roll(&game), ("", "", 0));
    }
    // A start with counters of two bytes each, which the crate's games have not.
    let (mut start, mut game) = (empty_position(), Game::empty());
    (game.start[HALF], game.start[FULL]) = (9_999, 300);
    start[HALF_MOVES..HALF_MOVES + 2].copy_from_slice(&9_999_u16.to_le_bytes());
    start[FULL_MOVES..FULL_MOVES + 2].copy_from_slice(&300_u16.to_le_bytes());
    let empty = folder.file("empty", "");
    expect(&["roll", &empty, "-"], start, (roll(&game), "", 0));
    let words = ["roll", "--output=-", &empty, "-"];
    expect(&words, start, (roll(&game), "", 0));
}

#[test]
fn a_roll_is_put_where_it_is_asked_for_and_replaces_only_by_force() {
    let folder = Folder::new();
    let (a, p) = (folder.file("a", ""), folder.file("p", empty_position()));
    let taken = folder.file("taken", "mine");
    expect(&["roll", "-o", &taken, &a, &p], "", ("", &format!("menkhodur: {taken}: it exists; --force replaces it\n"), 2));
    assert_eq!(fs::read(&taken).unwrap(), b"mine");
    expect(&["roll", &a, &p, "--force", "--output", &taken], "", ("", "", 0));
    assert_eq!((fs::read(&taken).unwrap(), names(&folder).len()), (roll(&Game::empty()), 3));
    expect(&["roll", "-o", "/dev/null", "--force", &a, &p], "", ("", "menkhodur: /dev/null: it is not a regular file\n", 2));
    expect(&["roll", "-", "-"], "", ("", "menkhodur: standard input can be only one of ACTIONS and POSITIONS\n", 2));
}

#[test]
fn a_file_named_as_the_other_command_is_reached_by_its_path() {
    let folder = Folder::new();
    folder.file("upgrade", "");
    folder.file("p", empty_position());
    for words in [&["roll", "./upgrade", "p"][..], &["roll", "--", "upgrade", "p"], &["roll", "--force", "--", "upgrade", "p"]] {
        let ran = Ran::of(program().args(words).current_dir(&folder.0).output().unwrap());
        assert_eq!(ran, Ran { out: roll(&Game::empty()), err: String::new(), status: 0 });
    }
    let ran = Ran::of(program().args(["roll", "-o", "upgrade", "--force", "./upgrade", "p"]).current_dir(&folder.0).output().unwrap());
    assert_eq!((ran.err.as_str(), ran.status, fs::read(folder.path("upgrade")).unwrap()), ("", 0, roll(&Game::empty())));
}

// Whether its actions make a game, a roll does not say: white resigns, black moves a man that is not there, and a draw is accepted.
#[test]
fn a_roll_that_is_no_game_is_shown_too() {
    let game = Game { actions: vec![(10, None), (2, Some(52 + 64 * 36)), (6, None), (5, None), (8, None)], ..Game::empty() };
    let (empty, after) = ("8/8/8/8/8/8/8/8 w - - 0 1", "8/8/8/8/8/8/8/8 b - - 1 1");
    let lines = [
        format!("   0    0 -     start           - {empty}"),
        format!("   1    0 white resigns         - {empty}"),
        format!("   2    1 white e7e5            - {after}"),
        format!("   3    1 -     draw accepted   - {after}"),
        format!("   4    1 black offers a draw   - {after}"),
        format!("   5    1 -     draw declared   - {after}"),
    ];
    expect(&["show", "-"], roll(&game), (lines.join("\n") + "\n", "", 0));
}

#[test]
fn what_is_no_roll_is_not_shown() {
    let folder = Folder::new();
    let over = MAX_ACTIONS + 1;
    let many = [vec![0; 68], vec![0, 1, 128 + (over % 128) as u8, (over / 128) as u8]].concat();
    let (old, new) = (old_roll(&Game::empty()), roll(&Game::empty()));
    let none = folder.path("none");
    for (words, bytes, number) in [
        (&["show", "-"][..], &[13; 71][..], 5),
        (&["show", "-"], &many, 13),
        (&["show", "-"], &old, 17),
        (&["show", "--old", "-"], &new, 17),
        (&["show", "--json", "-"], &[], 17),
    ] {
        let ran = run(words, bytes);
        assert_eq!((ran.text(), ran.status), ("", 2));
        assert!(ran.err.starts_with("menkhodur: standard input: ") && ran.err.ends_with(&format!(" (answer {number})\n")), "{}", ran.err);
    }
    expect(&["show", &none], "", ("", &format!("menkhodur: {none}: No such file or directory\n"), 2));
}

const NOT_A_ROLL: &str = "the bytes are not a roll, or not the actions of one (answer 17)";

#[test]
fn a_game_of_the_crate_is_written_with_0_and_1() {
    for game in Game::of_the_crate() {
        let folder = Folder::new();
        let (old, new) = (folder.file("old", old_roll(&game)), folder.path("new"));
        expect(&["roll", "upgrade", &old, &new], "", ("", "", 0));
        assert_eq!(fs::read(&new).unwrap(), roll(&game));
        assert_eq!((fs::read(&old).unwrap(), names(&folder)), (old_roll(&game), vec!["new".to_string(), "old".to_string()]));
        expect(&["roll", "upgrade", "-", "-"], old_roll(&game), (roll(&game), "", 0));
    }
}

#[test]
fn the_longest_old_roll_is_written_anew() {
    let moves = (0..MAX_MOVES).map(|_| (2, Some(28_671)));
    let actions = moves.chain((MAX_MOVES..MAX_ACTIONS).map(|_| (11, None))).collect();
    let game = Game { actions, ..Game::empty() };
    // Counters of two bytes each are the longest; these have one.
    assert_eq!((old_roll(&game).len(), roll(&game).len()), (MAX_ROLL - 4, MAX_ROLL - 2));
    expect(&["roll", "upgrade", "-", "-"], old_roll(&game), (roll(&game), "", 0));
}

// As an old roll one action, the move 0; as a new one the counters 1 and 2, and no action.
#[test]
fn bytes_that_are_a_new_roll_too_are_taken_for_an_old_one() {
    let both = [&[0; 68][..], &[1, 2, 0]].concat();
    expect(&["roll", "upgrade", "-", "-"], both, ([&[0; 68][..], &[0, 1, 1, 2, 0]].concat(), "", 0));
}

#[test]
fn what_is_no_old_roll_is_refused_and_nothing_is_written() {
    let folder = Folder::new();
    let over = MAX_ACTIONS + 1;
    let many = [vec![0; 68], vec![128 + (over % 128) as u8, (over / 128) as u8]].concat();
    let range = "a number of the board, a square, rank, file, colour, rights number or in-check byte is out of range (answer 5)";
    let full = "the log has all the actions, or all the moves, that a log may have, or the roll has more (answer 13)";
    let anew = roll(&Game::empty());
    for (bytes, told) in
        [(&[13; 69][..], range), (&many, full), (&[0; 68], NOT_A_ROLL), (&[0; 70], NOT_A_ROLL), (&anew, NOT_A_ROLL), (&[], NOT_A_ROLL)]
    {
        let (old, new) = (folder.file("old", bytes), folder.path("new"));
        expect(&["roll", "upgrade", &old, &new], "", ("", &format!("menkhodur: {old}: {told}\n"), 2));
        expect(&["roll", "upgrade", "-", &new], bytes, ("", &format!("menkhodur: standard input: {told}\n"), 2));
        expect(&["roll", "upgrade", &old, "-"], "", ("", &format!("menkhodur: {old}: {told}\n"), 2));
        // What was there stays, also if it might have been replaced.
        expect(&["roll", "upgrade", "--force", &old, &old], "", ("", &format!("menkhodur: {old}: {told}\n"), 2));
        assert_eq!((fs::read(&old).unwrap().as_slice(), names(&folder)), (bytes, vec!["old".to_string()]));
    }
    expect(&["roll", "upgrade", "/dev/zero", "-"], "", ("", &format!("menkhodur: /dev/zero: {NOT_A_ROLL}\n"), 2));
}

#[test]
fn a_roll_that_was_upgraded_is_not_upgraded_again() {
    for game in Game::of_the_crate().into_iter().chain([Game::empty()]) {
        expect(&["roll", "upgrade", "-", "-"], roll(&game), ("", &format!("menkhodur: standard input: {NOT_A_ROLL}\n"), 2));
    }
}

#[test]
fn a_file_that_exists_is_replaced_only_by_force() {
    let folder = Folder::new();
    let (game, taken) = (Game::empty(), folder.file("taken", "mine"));
    let old = folder.file("old", old_roll(&game));
    expect(&["roll", "upgrade", &old, &taken], "", ("", &format!("menkhodur: {taken}: it exists; --force replaces it\n"), 2));
    expect(&["roll", "upgrade", &old, &old], "", ("", &format!("menkhodur: {old}: it exists; --force replaces it\n"), 2));
    assert_eq!((fs::read(&taken).unwrap(), fs::read(&old).unwrap()), (b"mine".to_vec(), old_roll(&game)));
    fs::set_permissions(&taken, Permissions::from_mode(0o640)).unwrap();
    expect(&["roll", "upgrade", "--force", &old, &taken], "", ("", "", 0));
    assert_eq!((fs::read(&taken).unwrap(), fs::metadata(&taken).unwrap().permissions().mode() & 0o777), (roll(&game), 0o640));
    expect(&["roll", "upgrade", &old, "--force", &old], "", ("", "", 0));
    assert_eq!((fs::read(&old).unwrap(), names(&folder)), (roll(&game), vec!["old".to_string(), "taken".to_string()]));
}

#[test]
fn a_link_stays_and_the_file_that_it_leads_to_is_replaced() {
    let folder = Folder::new();
    let (game, file, link, loose) = (Game::empty(), folder.file("file", "mine"), folder.path("link"), folder.path("loose"));
    let old = folder.file("old", old_roll(&game));
    symlink("file", &link).unwrap();
    symlink("nowhere", &loose).unwrap();
    for link in [&link, &loose] {
        expect(&["roll", "upgrade", &old, link], "", ("", &format!("menkhodur: {link}: it exists; --force replaces it\n"), 2));
    }
    expect(&["roll", "upgrade", "--force", &old, &link], "", ("", "", 0));
    assert!(fs::symlink_metadata(&link).unwrap().is_symlink() && !fs::exists(folder.path("nowhere")).unwrap());
    assert_eq!(fs::read(&file).unwrap(), roll(&game));
    expect(&["roll", "upgrade", "--force", &old, &loose], "", ("", "", 0));
    assert_eq!((fs::read(&loose).unwrap(), names(&folder).len()), (roll(&game), 4));
}

#[test]
fn what_is_no_regular_file_is_never_replaced() {
    let folder = Folder::new();
    let (game, place) = (Game::empty(), folder.path("place"));
    fs::create_dir(&place).unwrap();
    let old = folder.file("old", old_roll(&game));
    for words in [&["roll", "upgrade"][..], &["roll", "upgrade", "--force"]] {
        for other in [place.as_str(), "/dev/null", "/dev/full"] {
            let words: Vec<&str> = words.iter().copied().chain([old.as_str(), other]).collect();
            expect(&words, "", ("", &format!("menkhodur: {other}: it is not a regular file\n"), 2));
        }
    }
    let (none, far) = (folder.path("none"), folder.path("none/new"));
    expect(&["roll", "upgrade", &none, &place], "", ("", &format!("menkhodur: {none}: No such file or directory\n"), 2));
    expect(&["roll", "upgrade", &old, &far], "", ("", &format!("menkhodur: {far}: No such file or directory\n"), 2));
    expect(&["roll", "upgrade", &place, &none], "", ("", &format!("menkhodur: {place}: Is a directory\n"), 2));
    assert_eq!(names(&folder), ["old", "place"]);
}

/// Runs the program where no file may grow.
fn without_room(words: &str) -> Ran {
    let script = format!("trap '' XFSZ; ulimit -f 0; exec {} roll {words}", env!("CARGO_BIN_EXE_menkhodur"));
    Ran::of(Command::new("sh").args(["-c", &script]).output().unwrap())
}

#[test]
fn a_write_that_fails_leaves_nothing() {
    let folder = Folder::new();
    let (game, new, taken) = (Game::empty(), folder.path("new"), folder.file("taken", "mine"));
    let old = folder.file("old", old_roll(&game));
    let (a, p) = (folder.file("a", ""), folder.file("p", empty_position()));
    for (words, name) in [
        (format!("upgrade {old} {new}"), &new),
        (format!("upgrade --force {old} {taken}"), &taken),
        (format!("-o {new} {a} {p}"), &new),
        (format!("--force -o {taken} {a} {p}"), &taken),
    ] {
        let ran = without_room(&words);
        assert_eq!((ran.text(), ran.err.as_str(), ran.status), ("", format!("menkhodur: {name}: File too large\n").as_str(), 2));
    }
    assert_eq!((fs::read(&taken).unwrap(), names(&folder)), (b"mine".to_vec(), ["a", "old", "p", "taken"].map(str::to_string).to_vec()));
    let full = program().args(["roll", "upgrade", &old, "-"]).stdout(File::create("/dev/full").unwrap()).output().unwrap();
    assert_eq!(Ran::of(full).err, "menkhodur: standard output: No space left on device\n");
}

// Elsewhere a closed pipe is no fault, but part of a roll is no roll.
#[test]
fn a_closed_pipe_is_trouble_and_quiet() {
    let folder = Folder::new();
    let old = folder.file("old", old_roll(&Game::empty()));
    let (a, p) = (folder.file("a", ""), folder.file("p", empty_position()));
    for words in [["roll", "upgrade", &old, "-"].as_slice(), &["roll", &a, &p]] {
        let (from, to) = UnixStream::pair().unwrap();
        drop(from);
        let ran = Ran::of(program().args(words).stdout(OwnedFd::from(to)).output().unwrap());
        assert_eq!((ran.err.as_str(), ran.status), ("", 2));
    }
}

/// The lines of docs/STORE.md that upgrade a folder of rolls.
fn loop_of_the_store() -> String {
    let page = fs::read_to_string(repository("docs/STORE.md")).unwrap();
    let lines = page.lines().skip_while(|line| *line != "    mkdir -p new");
    let block: Vec<&str> = lines.take_while(|line| line.starts_with("    ")).map(|line| &line[4..]).collect();
    assert_eq!(block.last(), Some(&"done"), "{block:?}");
    block.join("\n")
}

#[test]
fn the_loop_of_the_stores_page_upgrades_a_folder_and_can_be_run_again() {
    let folder = Folder::new();
    let games = Game::of_the_crate();
    let games = &games[..20];
    fs::create_dir(folder.path("old")).unwrap();
    for (number, game) in games.iter().enumerate() {
        folder.file(&format!("old/{number} of the store.roll"), old_roll(game));
    }
    folder.file("old/bad.roll", "");
    let bin = std::path::Path::new(env!("CARGO_BIN_EXE_menkhodur")).parent().unwrap();
    let path = format!("{}:{}", bin.display(), std::env::var("PATH").unwrap_or_default());
    for _ in 0..2 {
        let ran =
            Ran::of(Command::new("sh").args(["-c", &loop_of_the_store()]).env("PATH", &path).current_dir(&folder.0).output().unwrap());
        assert_eq!((ran.text(), ran.err.as_str()), ("", format!("menkhodur: old/bad.roll: {NOT_A_ROLL}\n").as_str()));
        assert_eq!(fs::read_dir(folder.path("new")).unwrap().count(), games.len());
    }
    assert_eq!(fs::read_to_string(folder.path("refused")).unwrap(), "old/bad.roll\nold/bad.roll\n");
    for (number, game) in games.iter().enumerate() {
        assert_eq!(fs::read(folder.path(&format!("new/{number} of the store.roll"))).unwrap(), roll(game));
        assert_eq!(fs::read(folder.path(&format!("old/{number} of the store.roll"))).unwrap(), old_roll(game));
    }
}
