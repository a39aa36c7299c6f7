//! An en passant file that no pawn can use: `keys --settle`, `report --settle`, and what `explain` says. What is owed comes from the words of the
//! rule: "cleared unless a pawn of the side to move stands beside the pawn that moved (white to move: rank 5, black: rank 4; file f-1 or f+1)".

use crate::common::{EMPTY, Folder, INITIAL, expect, repository, run};
use crate::figures::Says::{Position, Refused};
use crate::figures::{self, File, Kind, Line, line};
use std::fs;

const SETTLE: &[&str] = &["keys", "--settle"];
const CHECK: &[&str] = &["keys", "--check", "--settle"];

/// A text's fields: placement, side, rights and en passant square.
fn fields(text: &str) -> [&str; 4] {
    text.split(' ').take(4).collect::<Vec<_>>().try_into().unwrap()
}

/// What stands on a square, `1` if nothing does or if there is no such file.
fn man(text: &str, file: i32, rank: usize) -> char {
    let squares: String = (1..9).fold(fields(text)[0].to_string(), |men, empty| men.replace(&empty.to_string(), &"1".repeat(empty)));
    let letters: Vec<char> = squares.split('/').nth(8 - rank).unwrap().chars().collect();
    usize::try_from(file).ok().and_then(|file| letters.get(file)).copied().unwrap_or('1')
}

/// The file of the en passant square, from 0.
fn file(text: &str) -> Option<i32> {
    "abcdefgh".find(fields(text)[3].chars().next().unwrap()).map(|file| i32::try_from(file).unwrap())
}

/// The text has a file, and by the rule it is cleared.
fn is_unsettled(text: &str) -> bool {
    let (pawn, rank) = if fields(text)[1] == "w" { ('P', 5) } else { ('p', 4) };
    file(text).is_some_and(|file| man(text, file - 1, rank) != pawn && man(text, file + 1, rank) != pawn)
}

/// The record's own key: a file is written on the rank behind a pawn of the other side.
fn key(text: &str) -> String {
    let [men, side, rights, square] = fields(text);
    let rank = if side == "w" { 6 } else { 3 };
    let square = if square == "-" { square.to_string() } else { format!("{}{rank}", &square[..1]) };
    format!("{men} {side} {rights} {square} 0 1")
}

fn settled(text: &str) -> String {
    let [men, side, rights, _] = fields(text);
    if is_unsettled(text) { format!("{men} {side} {rights} - 0 1") } else { key(text) }
}

/// Whether the last move can have been a double step on a file: the pawn stands there, and both squares behind it are empty.
fn was_double_step(text: &str, file: i32) -> bool {
    let (pawn, ranks) = if fields(text)[1] == "w" { ('p', [5, 6, 7]) } else { ('P', [4, 3, 2]) };
    ranks.map(|rank| man(text, file, rank)) == [pawn, '1', '1']
}

/// The examples, each as it is, without a square, and with the square of each double step that can have led to it: as programs write them that
/// put a square in after every one.
fn texts() -> Vec<String> {
    let read = |name| fs::read_to_string(repository(name)).unwrap();
    let all = read("examples/positions.fen") + &read("examples/en-passant.fen");
    let with = |text: &str, square: &str| {
        let [men, side, rights, _] = fields(text);
        key(&format!("{men} {side} {rights} {square}"))
    };
    let variants = |text: &str| -> Vec<String> {
        let steps = (0..8).filter(|file| was_double_step(text, *file)).map(|file| &"abcdefgh"[file as usize..][..1]);
        [key(text)].into_iter().chain(["-"].into_iter().chain(steps).map(|square| with(text, square))).collect()
    };
    all.lines().flat_map(variants).collect()
}

fn lines<'a>(texts: impl IntoIterator<Item = &'a String>) -> String {
    texts.into_iter().fold(String::new(), |made, text| made + text + "\n")
}

#[test]
fn the_examples_have_files_of_both_kinds() {
    let texts = texts();
    let with_file = texts.iter().filter(|text| file(text).is_some()).count();
    let unsettled = texts.iter().filter(|text| is_unsettled(text)).count();
    assert!(unsettled > 4_000 && with_file - unsettled > 4_000, "{} {with_file} {unsettled}", texts.len());
}

#[test]
fn a_key_has_no_file_that_no_pawn_can_use() {
    let texts = texts();
    let told = format!("menkhodur: {0} lines, {0} accepted, 0 refused\n", texts.len());
    let keys: Vec<String> = texts.iter().map(|text| settled(text)).collect();
    expect(SETTLE, lines(&texts), (lines(&keys), &told, 0));
    expect(SETTLE, lines(&keys), (lines(&keys), &told, 0));
    // Counters and spellings are no part of it, and without the option every file stays.
    let others: Vec<String> = texts.iter().map(|text| text.replace(" w ", " W ").replace(" 0 1", " 7 20 x")).collect();
    expect(SETTLE, lines(&others), (lines(&keys), &told, 0));
    expect(&["keys"], lines(&others), (lines(&texts), &told, 0));
    let file = Folder::new();
    let path = file.file("texts", lines(&texts).replace('\n', "\r\n"));
    expect(&["keys", "--crlf", "--settle", &path], "", (lines(&keys), &told, 0));
}

#[test]
fn a_check_tells_unsettled_keys_from_second_names() {
    let texts = texts();
    let unsettled = texts.iter().filter(|text| is_unsettled(text)).count();
    let row = |(at, text): (usize, &String)| is_unsettled(text).then(|| format!("-:{}: {text} => {}", at + 1, settled(text)));
    let owed: Vec<String> = texts.iter().enumerate().filter_map(row).collect();
    let told = format!("{} lines, {} keys, 0 second names", texts.len(), texts.len() - unsettled);
    expect(CHECK, lines(&texts), (lines(&owed), &format!("menkhodur: {told}, {unsettled} unsettled keys, 0 refused\n"), 1));
    let strict = &["keys", "--check", "--settle", "--strict"];
    expect(strict, lines(&texts), (lines(&owed), &format!("menkhodur: {told}, {unsettled} unsettled keys, 0 refused\n"), 1));
    // The same lines are a store's own keys without the option.
    let told = format!("menkhodur: {0} lines, {0} keys, 0 second names, 0 refused\n", texts.len());
    expect(&["keys", "--check"], lines(&texts), ("", &told, 0));
    let keys: Vec<String> = texts.iter().map(|text| settled(text)).collect();
    let told = told.replace(" names,", " names, 0 unsettled keys,");
    expect(CHECK, lines(&keys), ("", &told, 0));
}

const ALONE: &str = "8/8/8/8/4P3/8/8/8 b - e3 0 1";
const CLEARED: &str = "8/8/8/8/4P3/8/8/8 b - - 0 1";
const BESIDE: &str = "8/8/8/8/3pP3/8/8/8 b - e3 0 1";

/// A line of every kind.
fn kinds() -> String {
    let second = ALONE.replace("0 1", "7 20");
    format!(
        "{INITIAL}\n{ALONE}\n{second}\n{BESIDE}\n8/8 w -\n{CLEARED}\n{CLEARED}\r\n{ALONE} \n{BESIDE} => x\n{}\n{ALONE}",
        " ".repeat(131_072)
    )
}

#[test]
fn every_kind_of_line_by_its_sign() {
    let few = "the FEN text ends before its fourth token";
    let owed = [
        format!("-:2: {ALONE} => {CLEARED}"),
        format!("-:3: {} -> {CLEARED}", ALONE.replace("0 1", "7 20")),
        format!("-:5: 8/8 w - ! 18 7 {few}"),
        format!("-:7: {CLEARED}\r -> {CLEARED}"),
        format!("-:8: {ALONE}  -> {CLEARED}"),
        format!("-:9: {BESIDE} => x -> {BESIDE}"),
        "-:10: ! long the line has more than 131071 bytes".to_string(),
        format!("-:11: {ALONE} => {CLEARED}"),
    ];
    let told = "menkhodur: 11 lines, 3 keys, 4 second names, 2 unsettled keys, 2 refused\n";
    expect(CHECK, kinds(), (lines(&owed), told, 1));
    // By the last of the two arrows a script tells which it is, whatever the text has.
    let last = |row: &String| row.rsplit(' ').nth(6).unwrap().to_string();
    let arrows: Vec<String> = owed.iter().filter(|row| !row.contains(" ! ")).map(last).collect();
    assert_eq!(arrows, ["=>", "->", "->", "->", "->", "=>"]);
    expect(
        CHECK,
        format!("{ALONE}\n"),
        (format!("-:1: {ALONE} => {CLEARED}\n"), "menkhodur: 1 line, 0 keys, 0 second names, 1 unsettled key, 0 refused\n", 1),
    );
}

#[test]
fn an_object_says_which_keys_are_unsettled() {
    let object = |at: usize, text: &str, rest: &str| format!("{{\"file\":\"-\",\"line\":{at},\"text\":\"{text}\",{rest}}}");
    let key = |key: &str, unsettled: bool| format!("\"key\":\"{key}\",\"unsettled\":{unsettled}");
    let second = ALONE.replace("0 1", "7 20");
    let refused = "\"number\":18,\"offset\":1,\"reason\":\"the FEN text ends before its fourth token\"";
    let input = format!("{ALONE}\n{second}\nx\n{BESIDE}\n");
    let mut owed = vec![
        object(1, ALONE, &key(CLEARED, true)),
        object(2, &second, &key(CLEARED, false)),
        object(3, "x", refused),
        object(4, BESIDE, &key(BESIDE, false)),
    ];
    expect(&["keys", "--settle", "--json"], &input, (lines(&owed), "menkhodur: 4 lines, 3 accepted, 1 refused\n", 1));
    owed.pop();
    let told = "menkhodur: 4 lines, 1 key, 1 second name, 1 unsettled key, 1 refused\n";
    expect(&["keys", "--check", "--settle", "--json"], &input, (lines(&owed), told, 1));
    expect(
        &["keys", "--json"],
        ALONE,
        (object(1, ALONE, &format!("\"key\":\"{ALONE}\"")) + "\n", "menkhodur: 1 line, 1 accepted, 0 refused\n", 0),
    );
}

// The standard, 16.1.3.4: the square is given after every double step, "even if there is no pawn of the opposing side that may immediately
// execute the en passant capture".
#[test]
fn strict_refuses_no_file_that_no_pawn_can_use() {
    let told = "menkhodur: 1 line, 1 accepted, 0 refused\n";
    expect(&["keys", "--strict"], ALONE, (format!("{ALONE}\n"), told, 0));
    expect(&["keys", "--strict", "--settle"], ALONE, (format!("{CLEARED}\n"), told, 0));
    let told = "menkhodur: 1 line, 0 accepted, 1 refused\n";
    expect(&["keys", "--strict", "--settle"], "8/8/8/8/4P3/8/8/8 b - e6 0 1", ("! strict 23 en-passant-rank\n", told, 1));
}

/// The name of a note, and its offset, or an empty text.
fn note(object: &str) -> &str {
    object.split("\"notes\":[").nth(1).unwrap().split(",\"reason\"").next().unwrap().trim_end_matches("]}")
}

#[test]
fn explain_notes_a_file_that_no_pawn_can_use() {
    let texts = texts();
    let ran = run(&["explain", "--json", "-"], lines(&texts).as_bytes());
    let objects: Vec<&str> = ran.text().lines().collect();
    assert_eq!((objects.len(), ran.err.as_str(), ran.status), (texts.len(), "", 0));
    for (text, object) in texts.iter().zip(objects) {
        assert!(object.contains(&format!("\"key\":\"{text}\",\"settled_key\":\"{}\",", settled(text))), "{object}");
        let offset = fields(text)[..3].join(" ").len() + 1;
        let owed = if is_unsettled(text) { format!("{{\"name\":\"en-passant-unusable\",\"offset\":{offset}") } else { String::new() };
        assert_eq!(note(object), owed, "{object}");
        assert!(object.contains("\"warnings\":[],"), "{object}");
    }
}

#[test]
fn the_note_stands_behind_the_warnings_with_the_text_of_its_place() {
    let ran = run(&["explain", "--full", "8/8/8/8/8/8/8/8 w  c3x 7 20"], b"");
    let owed = "\nnote en-passant-unusable, at byte 19: no white pawn stands beside this file on rank 5, so none can use it; \
                the settled key has no square\n  8/8/8/8/8/8/8/8 w  c3x 7 20\n                     ^\n";
    assert!(ran.text().starts_with("accepted, with 3 warnings: ") && ran.text().ends_with(owed), "{}", ran.text());
    let rows = format!(
        "\n  key         {}\n  settled key {EMPTY}\n  full FEN    {}\n",
        EMPTY.replace("- -", "- c6"),
        EMPTY.replace("- - 0 1", "- c6 7 20")
    );
    assert!(ran.text().contains(&rows), "{}", ran.text());
    let ran = run(&["explain", BESIDE], b"");
    assert!(ran.text().starts_with("accepted\n") && !ran.text().contains("note") && !ran.text().contains("settled"), "{}", ran.text());
}

/// The object that is owed for files with --settle.
fn owed(files: &[File]) -> String {
    figures::owed(files).strip_suffix("}\n").unwrap().to_string() + ",\"settled\":true}\n"
}

fn named(texts: &[String], name: fn(&str) -> String) -> Vec<Line> {
    texts.iter().map(|text| line(text, Position(name(text)))).collect()
}

#[test]
fn a_report_compares_settled_keys_in_pages_and_over_all() {
    let (folder, texts) = (Folder::new(), texts());
    let (first, second) = texts.split_at(5_000);
    let (a, b) = (folder.file("a", lines(first)), folder.file("b", lines(second)));
    let told = format!("menkhodur: {0} lines, {0} accepted, 0 refused\n", texts.len());
    let [settled_first, settled_second] = [first, second].map(|texts| named(texts, settled));
    let with = owed(&[File(&a, &settled_first, true), File(&b, &settled_second, true)]);
    expect(&["report", "--settle", "--json", &a, &b], "", (&with, &told, 0));
    let [own_first, own_second] = [first, second].map(|texts| named(texts, key));
    let without = figures::owed(&[File(&a, &own_first, true), File(&b, &own_second, true)]);
    expect(&["report", "--json", &a, &b], "", (&without, &told, 0));
    let figures = |object: &str| object.split(",\"men\"").next().unwrap().to_string();
    assert_ne!(figures(&with), figures(&without));
}

#[test]
fn a_report_tells_refused_lines_as_they_stand() {
    let alone = Position("alone".to_string());
    let lines = [
        line("8/8 x - -", Refused(Kind::BadSide, 4)),
        line(ALONE, alone.clone()),
        line(" ".repeat(131_072), Refused(Kind::Long, 0)),
        line(CLEARED, alone.clone()),
        line("", Refused(Kind::TooFew, 0)),
        line("K9 w - -", Refused(Kind::BadPlacement, 1)),
        line(BESIDE, Position("beside".to_string())),
        line(ALONE.replace("0 1", "7 20"), alone),
        line("8/8 w -", Refused(Kind::TooFew, 7)),
    ];
    let (told, status) = figures::last(&lines);
    expect(&["report", "--settle", "--json"], figures::text(&lines), (owed(&[File("-", &lines, true)]), &told, status));
    expect(&["report", "--settle", "--json"], figures::text(&lines).trim_end(), (owed(&[File("-", &lines, true)]), &told, status));
    let ran = run(&["report", "--settle"], figures::text(&lines).as_bytes());
    let rows = "repeated             2  in pages of 4096 lines, each of one file, by settled keys\n\
                repeated             2  over all lines, by their settled keys\n";
    assert!(ran.text().contains(rows), "{}", ran.text());
    expect(&["report", "--settle", "--json"], "", (owed(&[File("-", &[], true)]), "menkhodur: 0 lines, 0 accepted, 0 refused\n", 0));
}
