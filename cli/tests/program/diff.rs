//! `menkhodur diff`. What two rolls are owed is made here by the words of document 02, orders 10 and 12.

use crate::common::{Folder, expect, run};
use crate::games::{FULL, Game, HALF, old_roll, roll};
use menkhodur::lent::MAX_ACTIONS;
use std::fs;

fn game(actions: &[(u32, Option<u32>)]) -> Game {
    Game { actions: actions.to_vec(), ..Game::empty() }
}

/// The lines owed, by the orders' words.
fn owed(first: &Game, second: &Game) -> String {
    let mut text = String::new();
    for place in 0..first.start.len() {
        let key = match place {
            64 => "side".to_string(),
            65 => "white".to_string(),
            66 => "black".to_string(),
            67 => "ep".to_string(),
            68 => "half".to_string(),
            69 => "full".to_string(),
            square => square.to_string(),
        };
        let (a, b) = (first.start[place], second.start[place]);
        if a != b {
            text += &format!("{key} {a} {b}\n");
        }
    }
    let number = |game: &Game, index: usize| game.actions.get(index).map_or(0, |(code, made)| code + 16 * made.unwrap_or(0));
    let longer = first.actions.len().max(second.actions.len());
    if let Some(index) = (0..longer).find(|index| number(first, *index) != number(second, *index)) {
        text += &format!("action {index} {} {}\n", number(first, index), number(second, index));
    }
    text
}

/// The program on two files with these bytes.
#[track_caller]
fn check(first: &Game, second: &Game) {
    let folder = Folder::new();
    let words = [folder.file("first", roll(first)), folder.file("second", roll(second))];
    let text = owed(first, second);
    let status = if text.is_empty() { 0 } else { 1 };
    expect(&["diff", &words[0], &words[1]], "", (text, "", status));
}

#[test]
fn squares_that_differ_on_e4() {
    let (mut first, second) = (game(&[]), game(&[]));
    first.start[28] = 1;
    let folder = Folder::new();
    let (a, b) = (folder.file("a", roll(&first)), folder.file("b", roll(&second)));
    expect(&["diff", &a, &b], "", ("28 1 0\n", "", 1));
    expect(&["diff", &b, &a], "", ("28 0 1\n", "", 1));
    expect(&["diff", &a, &a], "", ("", "", 0));
    expect(&["diff", "-", &b], roll(&first), ("28 1 0\n", "", 1));
    expect(&["diff", &a, "-"], roll(&second), ("28 1 0\n", "", 1));
    expect(&["diff", "--names", &a, &b], "", ("28 1 0\te4: white pawn, nothing\n", "", 1));
}

#[test]
fn every_start_number_and_action_in_words() {
    let (mut first, mut second) = (game(&[(2, Some(12 + 64 * 28)), (4, None)]), game(&[(2, Some(12 + 64 * 28))]));
    (first.start[0], second.start[63]) = (12, 5);
    (first.start[64], first.start[65], first.start[66], second.start[66], second.start[67]) = (1, 3, 1, 2, 3);
    (first.start[HALF], first.start[FULL], second.start[FULL]) = (9_999, 128, 127);
    let told = "0 12 0\ta1: black king, nothing\n63 0 5\th8: nothing, white queen\nside 1 0\tside to move: black, white\n\
                white 3 0\twhite may castle: both sides, no\nblack 1 2\tblack may castle: king side, queen side\n\
                ep 0 3\ten passant file: none, c\nhalf 9999 0\thalf-move clock: 9999, 0\n\
                full 128 127\tmove number: 128, 127\naction 1 4 0\taction 1: white offers a draw, nothing\n";
    let folder = Folder::new();
    let (a, b) = (folder.file("a", roll(&first)), folder.file("b", roll(&second)));
    expect(&["diff", "--names", &a, &b], "", (told, "", 1));
    let words = [(2, Some(52 + 64 * 60 + 4096 * 5)), (5, None), (6, None), (8, None), (10, None), (11, None)];
    let names = ["e7e8q", "black offers a draw", "draw accepted", "draw declared", "white resigns", "black resigns"];
    for ((code, made), name) in words.into_iter().zip(names) {
        let a = folder.file("c", roll(&game(&[(code, made)])));
        let number = code + 16 * made.unwrap_or(0);
        let b = folder.file("d", roll(&game(&[])));
        expect(&["diff", "--names", &a, &b], "", (format!("action 0 {number} 0\taction 0: {name}, nothing\n"), "", 1));
    }
}

#[test]
fn objects_of_json_have_numbers_and_words() {
    let (mut first, mut second) = (game(&[(2, Some(12 + 64 * 28)), (4, None)]), game(&[(2, Some(12 + 64 * 28))]));
    (first.start[0], first.start[64], first.start[66], second.start[67]) = (12, 1, 1, 3);
    (first.start[HALF], second.start[FULL]) = (9_999, 127);
    let told = [
        r#"{"key":"0","first":12,"second":0,"name":"a1","first_name":"black king","second_name":"nothing"}"#,
        r#"{"key":"side","first":1,"second":0,"name":"side to move","first_name":"black","second_name":"white"}"#,
        r#"{"key":"black","first":1,"second":0,"name":"black may castle","first_name":"king side","second_name":"no"}"#,
        r#"{"key":"ep","first":0,"second":3,"name":"en passant file","first_name":"none","second_name":"c"}"#,
        r#"{"key":"half","first":9999,"second":0,"name":"half-move clock","first_name":"9999","second_name":"0"}"#,
        r#"{"key":"full","first":1,"second":127,"name":"move number","first_name":"1","second_name":"127"}"#,
        r#"{"key":"action","index":1,"first":4,"second":0,"name":"action 1","first_name":"white offers a draw","second_name":"nothing"}"#,
    ];
    let folder = Folder::new();
    let (a, b) = (folder.file("a", roll(&first)), folder.file("b", roll(&second)));
    expect(&["diff", "--json", &a, &b], "", (told.join("\n") + "\n", "", 1));
    expect(&["diff", "--json", "--names", &a, &b], "", (told.join("\n") + "\n", "", 1));
    expect(&["diff", "--json", &a, &a], "", ("", "", 0));
    let bad = "the bytes are not a roll, or not the actions of one";
    let object = format!("{{\"roll\":\"second\",\"number\":17,\"reason\":\"{bad}\"}}\n");
    expect(&["diff", "--json", &a, "-"], "", (object, &format!("menkhodur: standard input, the second roll: {bad} (answer 17)\n"), 2));
}

#[test]
fn games_of_the_crate_with_one_thing_changed() {
    let games = Game::of_the_crate();
    for (index, game) in games.iter().enumerate() {
        check(game, game);
        check(game, &games[(index + 1) % games.len()]);
        let mut changed = game.clone();
        changed.start[index % 64] = (changed.start[index % 64] + 1) % 13;
        check(game, &changed);
        changed.start[HALF] = [1, 127, 128, 9_999][index % 4];
        changed.start[FULL] = [2, 127, 128, 9_999][index / 4 % 4];
        check(game, &changed);
        check(&changed, game);
        if game.actions.len() < MAX_ACTIONS {
            let mut changed = game.clone();
            changed.actions.push((10, None));
            check(game, &changed);
            check(&changed, game);
        }
        if !game.actions.is_empty() {
            let mut changed = game.clone();
            let at = index % changed.actions.len();
            changed.actions[at] = if changed.actions[at].1.is_some() { (2, Some(28_671)) } else { (10, None) };
            check(game, &changed);
        }
    }
}

#[test]
fn of_a_refused_roll_only_the_number_is_printed() {
    let folder = Folder::new();
    let good = folder.file("good", roll(&game(&[])));
    let cut = folder.file("cut", &roll(&game(&[]))[..70]);
    let man = folder.file("man", [vec![13], vec![0; 70]].concat());
    let zero = folder.file("zero", [0; 71]);
    let over = MAX_ACTIONS + 1;
    let many = folder.file("many", [vec![0; 68], vec![0, 1, 128 + (over % 128) as u8, (over / 128) as u8]].concat());
    let bad = "the bytes are not a roll, or not the actions of one (answer 17)";
    let range = "a number of the board, a square, rank, file, colour, rights number or in-check byte is out of range (answer 5)";
    expect(&["diff", &cut, &man], "", ("17\n", &format!("menkhodur: {cut}, the first roll: {bad}\n"), 2));
    expect(&["diff", &man, &cut], "", ("5\n", &format!("menkhodur: {man}, the first roll: {range}\n"), 2));
    expect(&["diff", &good, &man], "", ("5\n", &format!("menkhodur: {man}, the second roll: {range}\n"), 2));
    expect(&["diff", &good, &zero], "", ("5\n", &format!("menkhodur: {zero}, the second roll: {range}\n"), 2));
    expect(&["diff", "--names", &good, "-"], [0; 69], ("17\n", &format!("menkhodur: standard input, the second roll: {bad}\n"), 2));
    let ran = run(&["diff", &good, &many], b"");
    assert_eq!((ran.text(), ran.status), ("13\n", 2));
    assert!(ran.err.starts_with(&format!("menkhodur: {many}, the second roll: ")) && ran.err.ends_with("(answer 13)\n"));
    // Nothing that stands behind the longest roll is looked at: an endless file is refused, by its move number or, if old, by its end.
    for (words, number) in [(["diff", "/dev/zero", &good].as_slice(), "5\n"), (&["diff", "--old-first", "/dev/zero", &good], "17\n")] {
        let ran = run(words, b"");
        assert_eq!((ran.text(), ran.status), (number, 2));
    }
}

#[test]
fn trouble_with_files() {
    let folder = Folder::new();
    let (good, none) = (folder.file("good", roll(&game(&[]))), folder.path("none"));
    expect(&["diff", "-", "-"], "", ("", "menkhodur: standard input can be only one of FIRST and SECOND\n", 2));
    expect(&["diff", &good], "", ("", "menkhodur: missing SECOND; see menkhodur diff --help\n", 2));
    expect(&["diff", &good, &none], "", ("", &format!("menkhodur: {none}: No such file or directory\n"), 2));
    let ran = run(&["diff", folder.0.to_str().unwrap(), &good], b"");
    assert_eq!((ran.text(), ran.status), ("", 2));
    assert!(ran.err.contains("directory"), "{}", ran.err);
}

#[test]
fn an_old_roll_is_compared_as_one_with_0_and_1() {
    let folder = Folder::new();
    for mut game in Game::of_the_crate() {
        let (old, new) = (folder.file("old", old_roll(&game)), folder.file("new", roll(&game)));
        expect(&["diff", "--old-first", &old, &new], "", ("", "", 0));
        expect(&["diff", "--old-second", &new, &old], "", ("", "", 0));
        expect(&["diff", "--old-first", "--old-second", &old, &old], "", ("", "", 0));
        (game.start[28], game.start[HALF], game.start[FULL]) = ((game.start[28] + 1) % 13, 300, 40);
        let (before, changed) = ((game.start[28] + 12) % 13, folder.file("changed", roll(&game)));
        let told = format!("28 {before} {}\nhalf 0 300\nfull 1 40\n", game.start[28]);
        expect(&["diff", "--old-first", &old, &changed], "", (&told, "", 1));
        expect(&["diff", "--old-first", "-", &changed], fs::read(&old).unwrap(), (&told, "", 1));
    }
}

// The smallest bytes that are both: as an old roll one action, the move 0; as a new one the counters 1 and 2, and no action.
#[test]
fn bytes_that_are_both_are_what_the_options_say() {
    let folder = Folder::new();
    let (both, empty) = (folder.file("both", [&[0; 68][..], &[1, 2, 0]].concat()), folder.file("empty", roll(&game(&[]))));
    expect(&["diff", &both, &empty], "", ("half 1 0\nfull 2 1\n", "", 1));
    expect(&["diff", "--old-first", &both, &empty], "", ("action 0 2 0\n", "", 1));
    expect(&["diff", "--old-second", &both, &both], "", ("half 1 0\nfull 2 1\naction 0 0 2\n", "", 1));
}

#[test]
fn a_roll_of_the_other_kind_is_refused_first_roll_first() {
    let folder = Folder::new();
    let (old, new) = (folder.file("old", old_roll(&game(&[]))), folder.file("new", roll(&game(&[]))));
    let man = folder.file("man", [13; 71]);
    let refused = |words: &[&str], (number, roll, file): (u8, &str, &str)| {
        let ran = run(&[&["diff"], words].concat(), b"");
        assert_eq!((ran.text(), ran.status), (format!("{number}\n").as_str(), 2));
        let told = format!("menkhodur: {file}, the {roll} roll: ");
        assert!(ran.err.starts_with(&told) && ran.err.ends_with(&format!(" (answer {number})\n")), "{}", ran.err);
    };
    refused(&[&old, &new], (17, "first", &old));
    refused(&["--old-first", &new, &new], (17, "first", &new));
    refused(&["--old-second", &new, &new], (17, "second", &new));
    refused(&["--old-second", &man, &new], (5, "first", &man));
    refused(&["--old-first", &man, &old], (5, "first", &man));
    refused(&["--old-first", "--old-second", &man, &new], (5, "first", &man));
    refused(&["--old-second", &new, &man], (5, "second", &man));
}
