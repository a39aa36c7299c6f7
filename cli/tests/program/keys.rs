//! `menkhodur keys`. The answers are those of tests/keys, which has them from the papers; `--check` and `--strict` by the issue's words.

use crate::common::{EMPTY, Folder, INITIAL, expect, repository, run};

const KEYS: &[&str] = &["keys"];
const CHECK: &[&str] = &["keys", "--check"];
const STRICT: &[&str] = &["keys", "--strict"];

#[test]
fn a_line_of_output_for_each_line_in_order() {
    let input = format!("{INITIAL}\n8/8 w -\n\n w - -\r\n w - -");
    let owed = format!("{INITIAL}\n! 18 7\n! 18 0\n{EMPTY}\n{EMPTY}\n");
    expect(KEYS, input, (owed, "menkhodur: 5 lines, 3 accepted, 2 refused\n", 1));
    expect(KEYS, "8/8/8/8/8/8/8/8 w\r - -\n", ("! 20 16\n", "menkhodur: 1 line, 0 accepted, 1 refused\n", 1));
    expect(KEYS, "", ("", "menkhodur: 0 lines, 0 accepted, 0 refused\n", 0));
    expect(KEYS, b"K\xff w - -\n\xff\n", ("! 19 1\n! 18 1\n", "menkhodur: 2 lines, 0 accepted, 2 refused\n", 1));
}

#[test]
fn what_is_wrong_is_told_where_it_is_far_into_a_long_line_too() {
    let far = "/".repeat(130_000);
    let input = format!("8/8\tw - -\n8/9/x w - -\n9 x - -\n8/8 x - -\n  - -\n{far}x w - -\n{far} x - -\n{far}x w -\n");
    let owed = "! 18 9\n! 19 2\n! 19 0\n! 20 4\n! 20 1\n! 19 130000\n! 20 130001\n! 18 130005\n";
    expect(KEYS, input, (owed, "menkhodur: 8 lines, 0 accepted, 8 refused\n", 1));
}

#[test]
fn a_line_past_the_room_is_long_and_the_one_after_it_is_read() {
    let spaces = |count| " ".repeat(count);
    let (fits, long, longer) = (spaces(131_064), spaces(131_065), spaces(400_000));
    let input = format!(" w - - {fits}\n w - -\n w - - {long}\n b - -\n w - - {longer}\n W - -\n w - - {longer}");
    let black = EMPTY.replace('w', "b");
    let owed = format!("{EMPTY}\n{EMPTY}\n! long\n{black}\n! long\n{EMPTY}\n! long\n");
    expect(KEYS, input, (owed, "menkhodur: 7 lines, 4 accepted, 3 refused\n", 1));
    let owed = "-:1: ! long the line has more than 131071 bytes\n";
    expect(CHECK, format!("{longer}\n{EMPTY}\n"), (owed, "menkhodur: 2 lines, 1 key, 0 second names, 1 refused\n", 1));
    let long = "{\"file\":\"-\",\"line\":1,\"long\":true,\"reason\":\"the line has more than 131071 bytes\"}";
    let owed = format!("{long}\n{{\"file\":\"-\",\"line\":2,\"text\":\" w - -\",\"key\":\"{EMPTY}\"}}\n");
    expect(&["keys", "--json"], format!("{longer}\n w - -\n"), (owed, "menkhodur: 2 lines, 1 accepted, 1 refused\n", 1));
}

#[test]
fn files_and_standard_input_in_the_order_named() {
    let folder = Folder::new();
    let (a, b, none) = (folder.file("a", " b - e3\n"), folder.file("b", " w - e3"), folder.path("none"));
    let (first, last) = ("8/8/8/8/8/8/8/8 b - e3 0 1\n", "8/8/8/8/8/8/8/8 w - e6 0 1\n");
    let owed = format!("{first}{EMPTY}\n{last}");
    expect(&["keys", &a, "-", &b], " w - -", (&owed, "menkhodur: 3 lines, 3 accepted, 0 refused\n", 0));
    expect(&["keys", "--", &a, "-", &b], " w - -", (&owed, "menkhodur: 3 lines, 3 accepted, 0 refused\n", 0));
    let told = format!("menkhodur: {none}: No such file or directory\nmenkhodur: 2 lines, 2 accepted, 0 refused; input incomplete\n");
    expect(&["keys", &a, &none, &b], "", (format!("{first}{last}"), &told, 2));
    let directory = folder.path("");
    let told = format!(
        "menkhodur: {directory}: Is a directory\nmenkhodur: {directory}: stopped after 0 lines\n\
         menkhodur: 1 line, 1 accepted, 0 refused; input incomplete\n"
    );
    expect(&["keys", &directory, &a], "", (first, &told, 2));
}

#[test]
fn a_check_prints_what_is_not_its_own_key() {
    let folder = Folder::new();
    let store = folder.file("store", format!("{INITIAL}\n{EMPTY}\n w - -\n8/8 w -\n{EMPTY} \n{EMPTY}"));
    let owed = format!(
        "{store}:3:  w - - -> {EMPTY}\n{store}:4: 8/8 w - ! 18 7 the FEN text ends before its fourth token\n{store}:5: {EMPTY}  -> {EMPTY}\n"
    );
    expect(&["keys", "--check", &store], "", (owed, "menkhodur: 6 lines, 3 keys, 2 second names, 1 refused\n", 1));
    expect(CHECK, format!("{INITIAL}\n"), ("", "menkhodur: 1 line, 1 key, 0 second names, 0 refused\n", 0));
    let keys = run(&["keys", &repository("examples/positions.fen")], b"");
    expect(CHECK, &keys.out, ("", "menkhodur: 2048 lines, 2048 keys, 0 second names, 0 refused\n", 0));
    let wrapped = format!("PPPPPPPPN w - -\n{EMPTY}\n");
    let owed = "-:1: PPPPPPPPN w - - -> NPPPPPPP/8/8/8/8/8/8/8 w - - 0 1\n";
    expect(CHECK, wrapped, (owed, "menkhodur: 2 lines, 1 key, 1 second name, 0 refused\n", 1));
}

#[test]
fn bad_bytes_are_printed_as_they_are_and_escaped_in_json() {
    let owed = b"-:1: K\xff w - - ! 19 1 the placement of the FEN text has something other than pieces, digits from 1 to 8 and slashes\n";
    expect(CHECK, b"K\xff w - -\n", (owed, "menkhodur: 1 line, 0 keys, 0 second names, 1 refused\n", 1));
    let owed = "{\"file\":\"-\",\"line\":1,\"text\":\"K\u{fffd} w - \\u0001\",\"text_hex\":\"4bff2077202d2001\",\"number\":19,\"offset\":1,\"reason\":\
                \"the placement of the FEN text has something other than pieces, digits from 1 to 8 and slashes\"}\n";
    expect(&["keys", "--check", "--json"], b"K\xff w - \x01\n", (owed, "menkhodur: 1 line, 0 keys, 0 second names, 1 refused\n", 1));
}

#[test]
fn with_crlf_a_carriage_return_ends_a_line_and_is_no_part_of_it() {
    let input = format!("{INITIAL}\r\n w - -\r\n\r\n{EMPTY}\n8/8 w\r -\r\r\n{EMPTY}\r");
    let owed = format!("{INITIAL}\n{EMPTY}\n! 18 0\n{EMPTY}\n! 18 9\n{EMPTY}\n");
    expect(&["keys", "--crlf"], &input, (owed, "menkhodur: 6 lines, 4 accepted, 2 refused\n", 1));
    let few = "the FEN text ends before its fourth token";
    let owed = format!("-:2:  w - - -> {EMPTY}\n-:3:  ! 18 0 {few}\n-:5: 8/8 w\r -\r ! 18 9 {few}\n");
    expect(&["keys", "--check", "--crlf"], &input, (owed, "menkhodur: 6 lines, 3 keys, 1 second name, 2 refused\n", 1));
    // Every line of a store that went over a Windows machine is a second name, and with the option none is.
    let keys = run(&["keys", &repository("examples/positions.fen")], b"");
    let sent = keys.text().replace('\n', "\r\n");
    assert!(run(CHECK, sent.as_bytes()).err.ends_with(" 0 keys, 2048 second names, 0 refused\n"));
    expect(&["keys", "--check", "--crlf"], sent, ("", "menkhodur: 2048 lines, 2048 keys, 0 second names, 0 refused\n", 0));
    // A long line stays one, its carriage return counted, and the line after it has its own number.
    let long = format!("{}\r\n w - -\r\n", " ".repeat(131_071));
    let owed = format!("-:1: ! long the line has more than 131071 bytes\n-:2:  w - - -> {EMPTY}\n");
    expect(&["keys", "--check", "--crlf"], long, (owed, "menkhodur: 2 lines, 0 keys, 1 second name, 1 refused\n", 1));
}

#[test]
fn strict_refuses_what_is_odd_and_leaves_the_archives_refusals() {
    let input = format!("{INITIAL}\n{EMPTY}\n8/8/8/8/8/8/PPPPPPP/8 w - - 0 1\n w - -\n8/8 w -\n8/8/8/8/8/8/8/8 w kK - 0 1\n");
    let owed = format!("{INITIAL}\n{EMPTY}\n! strict 19 short-rank\n! strict 0 empty-field\n! 18 7\n! strict 19 castling-order\n");
    expect(STRICT, input, (owed, "menkhodur: 6 lines, 2 accepted, 4 refused\n", 1));
    expect(STRICT, format!("{INITIAL}\n"), (format!("{INITIAL}\n"), "menkhodur: 1 line, 1 accepted, 0 refused\n", 0));
    let owed = "-:1: 8/8/8/8/8/8/PPPPPPP/8 w - - 0 1 ! strict 19 short-rank: rank 2 has 7 of 8 files; the others stay empty\n";
    let told = "menkhodur: 1 line, 0 keys, 0 second names, 1 refused\n";
    expect(&["keys", "--check", "--strict"], "8/8/8/8/8/8/PPPPPPP/8 w - - 0 1\n", (owed, told, 1));
    // Counters other than 0 and 1 are the standard's too: a second name, and nothing odd.
    let owed = format!("-:1: 8/8/8/8/8/8/8/8 w - - 7 9 -> {EMPTY}\n");
    let told = "menkhodur: 1 line, 0 keys, 1 second name, 0 refused\n";
    expect(&["keys", "--check", "--strict"], "8/8/8/8/8/8/8/8 w - - 7 9\n", (owed, told, 1));
    let owed = "{\"file\":\"-\",\"line\":1,\"text\":\"8/8/8/8/8/8/8/8 W - - 0 1\",\"strict\":\"side\",\"offset\":16,\
                \"reason\":\"the side to move is a capital; it should be w or b\"}\n";
    expect(&["keys", "--strict", "--json"], "8/8/8/8/8/8/8/8 W - - 0 1", (owed, "menkhodur: 1 line, 0 accepted, 1 refused\n", 1));
}

#[test]
fn a_key_is_odd_in_nothing() {
    let keys = run(&["keys", &repository("examples/positions.fen")], b"");
    assert_eq!((keys.status, keys.text().lines().count()), (0, 2_048));
    expect(STRICT, &keys.out, (&keys.out, "menkhodur: 2048 lines, 2048 accepted, 0 refused\n", 0));
}

#[test]
fn many_pages_are_cut_as_one() {
    let input: String = (0..20_000).map(|i| if i % 3 == 0 { "x\n".to_string() } else { format!(" w - e{}\n", i % 8 + 1) }).collect();
    let owed: String = (0..20_000).map(|i| if i % 3 == 0 { "! 18 1\n" } else { "8/8/8/8/8/8/8/8 w - e6 0 1\n" }).collect();
    expect(KEYS, &input, (owed, "menkhodur: 20000 lines, 13333 accepted, 6667 refused\n", 1));
    // Empty lines: as many answers as a page can have.
    expect(KEYS, "\n".repeat(300_000), ("! 18 0\n".repeat(300_000), "menkhodur: 300000 lines, 0 accepted, 300000 refused\n", 1));
}

// README's second command.
#[test]
fn the_few_examples_are_found_to_have_second_names() {
    let file = repository("examples/few.fen");
    let ran = run(&["keys", "--check", &file], b"");
    let lines: Vec<&str> = ran.text().lines().collect();
    assert!(lines[0].starts_with(&format!("{file}:3: ")) && lines[0].contains(" -> "), "{lines:?}");
    assert!(lines[1].starts_with(&format!("{file}:4: ")) && lines[1].contains(" -> "), "{lines:?}");
    assert!(lines[2].starts_with(&format!("{file}:5: 8/8 w - ! 18 7 ")), "{lines:?}");
    assert_eq!((lines.len(), ran.err.as_str(), ran.status), (3, "menkhodur: 5 lines, 2 keys, 2 second names, 1 refused\n", 1));
}
