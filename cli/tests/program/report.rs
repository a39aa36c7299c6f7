//! `menkhodur report`, by the words of document 02, order 14, and of the command's issue; figures.rs has what is owed.

use crate::common::{EMPTY, Folder, INITIAL, Ran, expect, program, repository, run};
use crate::figures::Says::{Position, Refused};
use crate::figures::{COLORS, File, Kind, Line, MEN, PIECES, keys, last, line, owed, text};
use crate::pipes::{lines_of, next_line, seen_by, terminal};
use std::fmt::Write as _;
use std::fs;
use std::io::Write as _;
use std::process::{Command, Stdio};
use std::thread;
use std::time::Duration;

const REPORT: &[&str] = &["report"];
const JSON: &[&str] = &["report", "--json"];

/// Lines on standard input, the last of them with its newline and, if it has a byte, without.
#[track_caller]
fn is_reported(lines: &[Line]) {
    let (err, status) = last(lines);
    let (text, owed) = (text(lines), owed(&[File("-", lines, true)]));
    expect(JSON, &text, (&owed, &err, status));
    if lines.last().is_some_and(|(last, _)| !last.is_empty()) {
        expect(JSON, text.trim_end_matches('\n'), (&owed, &err, status));
    }
}

/// A position of each number under 2 ^ 24, with men of all kinds, in a spelling that is another for each `nth`.
fn numbered(number: usize, nth: usize) -> Line {
    let square = |bit: usize| if number >> bit & 1 == 0 { "1" } else { &MEN[bit % 12..][..1] };
    let rank = |from: usize| (from..from + 8).map(square).collect::<String>();
    let (side, counters) = (["w", "W"][nth % 2], ["".to_string(), format!(" {} {}", nth % 100, nth + 1)]);
    line(format!("{}/{}/{} {side} - -{}", rank(0), rank(8), rank(16), counters[nth / 2 % 2]), Position(number.to_string()))
}

#[test]
fn figures_at_smallest() {
    let queen = |text: &str| line(text, Position("queen".to_string()));
    let empty = |text: &str| line(text, Position("empty".to_string()));
    let other = |text: &str| line(text, Position(text.to_string()));
    let refused = line("x", Refused(Kind::TooFew, 1));
    is_reported(&[]);
    is_reported(&[line("", Refused(Kind::TooFew, 0))]);
    is_reported(&[other("PNBRQK2/pnbrqk2 w - -")]);
    is_reported(&[queen("q w - -"), queen("q w - - 5 9"), queen("q W - -\r"), other("q b - -"), other("q w K -"), other("q w - e6")]);
    // The empty board has the numbers that stand in the place of a refused line.
    for lines in [&[&refused, &empty(" w - -")][..], &[&empty(" w - -"), &refused], &[&refused, &empty(EMPTY), &refused, &empty(" w - -")]]
    {
        is_reported(&lines.iter().map(|&line| line.clone()).collect::<Vec<_>>());
    }
    is_reported(&[refused.clone(), refused]);
}

#[test]
fn pages_end_after_4096_lines_and_the_sums_are_over_all() {
    for count in [4_095, 4_096, 4_097, 8_191, 8_192, 8_193] {
        // Positions that come again after so many lines: often in a page, at its very end, just behind it, never.
        for period in [1, 100, 4_094, 4_095, 4_096, 4_097, 5_000, 10_000] {
            let lines: Vec<Line> = (0..count).map(|at| numbered(at % period, at)).collect();
            is_reported(&lines);
        }
        let refused = [
            line("9 w - -", Refused(Kind::BadPlacement, 0)),
            line("", Refused(Kind::TooFew, 0)),
            line("8/8 x - -", Refused(Kind::BadSide, 4)),
        ];
        let mixed = |at: usize| if at % 7 == 3 { refused[at % 3].clone() } else { numbered(at % 3_000, at) };
        is_reported(&(0..count).map(mixed).collect::<Vec<_>>());
    }
}

#[test]
fn a_repeat_across_pages_is_one_over_all_and_not_in_pages() {
    let with = |at: usize, other: usize| -> Vec<Line> { (0..8_200).map(|i| numbered(if i == at { other } else { i }, i)).collect() };
    for (at, other, within) in [(4_095, 0, 1), (4_096, 4_095, 0), (4_097, 4_096, 1), (8_192, 8_191, 0), (8_199, 0, 0)] {
        let lines = with(at, other);
        let owed = format!("\"repeated_within_pages\":{within},\"repeated\":1,");
        assert!(run(JSON, text(&lines).as_bytes()).text().contains(&owed), "{at} {other}");
        is_reported(&lines);
    }
}

// A page is one file's: a repeat in the next file is one over all alone.
#[test]
fn files_have_their_own_pages_and_rows() {
    let folder = Folder::new();
    let lines: Vec<Line> = (0..5_000).map(|at| numbered(at % 3_000, at)).collect();
    let (first, rest, few) = (&lines[..10], &lines[10..], [&lines[3..5], &lines[4_000..4_001]].concat());
    let (a, b, c) = (folder.file("a", text(first)), folder.file("b", text(rest).trim_end()), folder.file("c", text(&few)));
    let all = [first, rest, &few, first, &[]].concat();
    let (told, _) = last(&all);
    let owed = owed(&[File(&a, first, true), File(&b, rest, true), File("-", &few, true), File(&a, first, true), File("-", &[], true)]);
    expect(&["report", "--json", &a, &b, "-", &a, "-"], text(&few), (&owed, &told, 0));
    expect(&["report", "--json", "--", &a, &b, "-", &a, "-"], text(&few), (&owed, &told, 0));
    // The first page of b has the lines 10 to 4,105 of all, and 3,010 to 4,105 repeat there; over all 3,000 to 4,999 do, and then every line.
    assert!(
        owed.starts_with("{\"lines\":5013,\"accepted\":5013,\"refused\":0,\"repeated_within_pages\":1096,\"repeated\":2013,"),
        "{owed}"
    );
    expect(&["report", "--json", &c], "", (self::owed(&[File(&c, &few, true)]), "menkhodur: 3 lines, 3 accepted, 0 refused\n", 0));
}

#[test]
fn positions_of_games_by_the_letters_of_their_texts() {
    let [positions, en_passant] = ["examples/positions.fen", "examples/en-passant.fen"].map(repository);
    let [first, second] = [&positions, &en_passant].map(|path| keys(&fs::read_to_string(path).unwrap()));
    assert_eq!((first.len(), second.len()), (2_048, 2_048));
    expect(&["report", "--json", &positions], "", (owed(&[File(&positions, &first, true)]), &last(&first).0, 0));
    let both = [File(&positions, &first, true), File(&en_passant, &second, true), File(&positions, &first, true)];
    let told = last(&[&first[..], &second, &first].concat()).0;
    expect(&["report", "--json", &positions, &en_passant, &positions], "", (owed(&both), &told, 0));
    // Three files as one: the third page begins with the last of its lines.
    is_reported(&[&first[..], &second, &first].concat());
}

/// What `menkhodur keys` says of a line.
fn as_key(told: &str) -> Line {
    let refused = |kind, offset: &str| line("", Refused(kind, offset.parse().unwrap()));
    match told.split(' ').collect::<Vec<_>>()[..] {
        ["!", "18", offset] => refused(Kind::TooFew, offset),
        ["!", "19", offset] => refused(Kind::BadPlacement, offset),
        ["!", "20", offset] => refused(Kind::BadSide, offset),
        _ => keys(told).remove(0),
    }
}

// A key has its men on 64 squares, however its text went round the board.
#[test]
fn any_texts_are_counted_as_their_keys_are() {
    const FIELDS: [&[&str]; 6] = [
        &["", "8", "K", "k1/Qq", "PPPPPPPPN", "pppppppp/pppp4p/", "rnbqkbnr/8/8/8/8/8/8/RNBQKBNR/N", "K9", "x", "K\r"],
        &["w", "b", "W", "B", "w", "b", "", "wb", "x"],
        &["-", "K", "KQ", "QK", "kqKQ", "zz", ""],
        &["-", "e3", "e6", "e", "a9", "h4xx", "", "\r"],
        &["0", "7", "x"],
        &["1", "9"],
    ];
    let mut state = 20_261_120_u64;
    let mut below = |bound: usize| {
        state = state.wrapping_mul(6_364_136_223_846_793_005).wrapping_add(1_442_695_040_888_963_407);
        (state >> 33) as usize % bound
    };
    let mut any = || {
        let count = 3 + below(4);
        FIELDS[..count].iter().map(|field| field[below(field.len())]).collect::<Vec<_>>().join(" ")
    };
    let text: String = (0..10_000).map(|_| any() + "\n").collect();
    let lines: Vec<Line> = run(&["keys"], text.as_bytes()).text().lines().map(as_key).collect();
    let (err, status) = last(&lines);
    assert_eq!((lines.len(), status), (10_000, 1));
    expect(JSON, text, (owed(&[File("-", &lines, true)]), &err, status));
}

/// Lines of every kind of refusal, and the longest that is none, of the position 0, which is the empty board.
fn refused_lines() -> Vec<Line> {
    let long = |bytes: usize| " ".repeat(bytes);
    vec![
        line(format!(" w - - {}", long(131_064)), Position("0".to_string())),
        line(format!(" w - - {}", long(131_065)), Refused(Kind::Long, 0)),
        line("8/8 x - -", Refused(Kind::BadSide, 4)),
        line(long(400_000), Refused(Kind::Long, 0)),
        line("  - -", Refused(Kind::BadSide, 1)),
        line("K9 w - -", Refused(Kind::BadPlacement, 1)),
        line("x x - -", Refused(Kind::BadPlacement, 0)),
        line("8/8 w -", Refused(Kind::TooFew, 7)),
        line(INITIAL, Position("initial".to_string())),
        line("", Refused(Kind::TooFew, 0)),
        line(long(131_072), Refused(Kind::Long, 0)),
    ]
}

#[test]
fn refused_lines_by_kind_with_the_first_of_each() {
    let refused = refused_lines();
    is_reported(&refused);
    is_reported(&refused[1..2]);
    // The first of a kind may be in any file, on any page, and a long line counts in its page.
    let folder = Folder::new();
    let well: Vec<Line> = (0..4_094).map(|at| numbered(at, at)).collect();
    let one = [&well[..], &refused[1..2], &refused[1..2], &well[..2], &refused[5..7]].concat();
    let two = [&refused[..], &well].concat();
    let (a, b) = (folder.file("a", text(&one)), folder.file("b", text(&two)));
    let (told, status) = last(&[&one[..], &two].concat());
    expect(&["report", "--json", &a, &b], "", (owed(&[File(&a, &one, true), File(&b, &two, true)]), &told, status));
    let ran = run(&["report", &b, &a], b"");
    let kinds: Vec<&str> = ran.text().rsplit("\n\n").next().unwrap().lines().collect();
    let placement = Kind::BadPlacement.told().1;
    let owed = [
        "refused         number  first at".to_string(),
        format!("! 18                 2  {b}:8, byte 7: the FEN text ends before its fourth token"),
        format!("! 19                 4  {b}:6, byte 1: {placement}"),
        format!("! 20                 2  {b}:3, byte 4: the side to move of the FEN text is not w, W, b or B"),
        format!("! long               5  {b}:2: the line has more than 131071 bytes"),
    ];
    assert_eq!((kinds, ran.status), (owed.iter().map(String::as_str).collect(), 1));
}

// 24 of 104 men are 23.08 in a hundred, 8 are 7.69, 6 are 5.77, 4 are 3.85 and 3 are 2.88.
const FEW: &str = "\
lines                5
accepted             4
refused              1
repeated             1  in pages of 4096 lines, each of one file
repeated             1  over all lines, by their keys

men             number   share
white pawn          24   23.1%
white knight         8    7.7%
white bishop         8    7.7%
white rook           8    7.7%
white queen          4    3.8%
white king           4    3.8%
black pawn          24   23.1%
black knight         6    5.8%
black bishop         6    5.8%
black rook           6    5.8%
black queen          3    2.9%
black king           3    2.9%

refused         number  first at
! 18                 1  FILE:5, byte 7: the FEN text ends before its fourth token
";

#[test]
fn the_few_examples_as_a_table() {
    let file = repository("examples/few.fen");
    let told = "menkhodur: 5 lines, 4 accepted, 1 refused\n";
    expect(&["report", &file], "", (FEW.replace("FILE", &file), told, 1));
    expect(REPORT, fs::read(&file).unwrap(), (FEW.replace("FILE", "-"), told, 1));
    expect(&["report", "-"], fs::read(&file).unwrap(), (FEW.replace("FILE", "-"), told, 1));
}

const NOTHING: &str = "\
lines                0
accepted             0
refused              0
repeated             0  in pages of 4096 lines, each of one file
repeated             0  over all lines, by their keys
";

/// The table of men without any.
fn no_men() -> String {
    let names = COLORS.iter().flat_map(|color| PIECES.map(|piece| format!("{color} {piece}")));
    names.fold("\nmen             number   share\n".to_string(), |made, name| made + &format!("{name:12}         0    0.0%\n"))
}

#[test]
fn files_that_are_empty_missing_or_no_files_have_a_row_too() {
    let folder = Folder::new();
    let (empty, none, directory) = (folder.file("empty", ""), folder.path("none"), folder.path(""));
    let nothing = NOTHING.to_string() + &no_men();
    expect(REPORT, "", (&nothing, "menkhodur: 0 lines, 0 accepted, 0 refused\n", 0));
    expect(&["report", &empty], "", (&nothing, "menkhodur: 0 lines, 0 accepted, 0 refused\n", 0));
    let black = folder.file("black", " b - -\n b - -\n");
    let sums = NOTHING.replacen(" 0\n", " 2\n", 2).replace(" 0  ", " 1  ");
    let rows = format!(
        "\n   lines  accepted   refused  in pages  over all  file\n{:8}  {:8}  {:8}  {:8}  {:8}  {none} (incomplete)\n\
         {:8}  {:8}  {:8}  {:8}  {:8}  {black}\n{:8}  {:8}  {:8}  {:8}  {:8}  {directory} (incomplete)\n\
         {:8}  {:8}  {:8}  {:8}  {:8}  {empty}\n",
        0, 0, 0, 0, 0, 2, 2, 0, 1, 1, 0, 0, 0, 0, 0, 0, 0, 0, 0, 0
    );
    let told = format!(
        "menkhodur: {none}: No such file or directory\nmenkhodur: {directory}: Is a directory\n\
         menkhodur: {directory}: stopped after 0 lines\nmenkhodur: 2 lines, 2 accepted, 0 refused; input incomplete\n"
    );
    expect(&["report", &none, &black, &directory, &empty], "", (sums + &rows + &no_men(), &told, 2));
    let black_lines = [line(" b - -", Position("black".to_string())), line(" b - -", Position("black".to_string()))];
    let files = [File(&none, &[], false), File(&black, &black_lines, true), File(&directory, &[], false), File(&empty, &[], true)];
    expect(&["report", "--json", &none, &black, &directory, &empty], "", (owed(&files), &told, 2));
    // Of one file alone the sums say all, unless it was not read.
    let rows =
        format!("\n   lines  accepted   refused  in pages  over all  file\n{0:8}  {0:8}  {0:8}  {0:8}  {0:8}  {none} (incomplete)\n", 0);
    let told = format!("menkhodur: {none}: No such file or directory\nmenkhodur: 0 lines, 0 accepted, 0 refused; input incomplete\n");
    expect(&["report", &none], "", (NOTHING.to_string() + &rows + &no_men(), &told, 2));
}

#[test]
fn a_name_that_is_not_utf_8_has_its_bytes_in_json() {
    let folder = Folder::new();
    let name = [folder.path("").as_bytes(), b"a\xff"].concat();
    let path = std::os::unix::ffi::OsStrExt::from_bytes(&name[..]);
    fs::write::<&std::ffi::OsStr, _>(path, "x\n").unwrap();
    let ran = Ran::of(program().args(JSON).arg(path).output().unwrap());
    let hex: String = name.iter().fold(String::new(), |mut hex, byte| {
        write!(hex, "{byte:02x}").unwrap();
        hex
    });
    assert_eq!(ran.text().matches(&format!("a\u{fffd}\",\"file_hex\":\"{hex}\",\"line")).count(), 2, "{}", ran.text());
    let ran = Ran::of(program().args(REPORT).arg(path).output().unwrap());
    assert!(ran.out.windows(name.len() + 3).any(|part| part == [&name[..], b":1,"].concat()));
}

#[test]
fn a_slow_pipe_is_put_together_and_answered_at_its_end() {
    let mut child = program().args(JSON).stdin(Stdio::piped()).stdout(Stdio::piped()).stderr(Stdio::null()).spawn().unwrap();
    let (mut to, from) = (child.stdin.take().unwrap(), lines_of(child.stdout.take().unwrap()));
    for piece in ["q", "/8/8/8", " w - -", "\n\nq", " w - - ", "7 9\n9", " w - -"] {
        to.write_all(piece.as_bytes()).unwrap();
        thread::sleep(Duration::from_millis(20));
    }
    drop(to);
    let queen = Position("queen".to_string());
    let lines = [
        line("q/8/8/8 w - -", queen.clone()),
        line("", Refused(Kind::TooFew, 0)),
        line("q w - - 7 9", queen),
        line("9 w - -", Refused(Kind::BadPlacement, 0)),
    ];
    assert_eq!(next_line(&from) + "\n", owed(&[File("-", &lines, true)]));
    assert_eq!(child.wait().unwrap().code(), Some(1));
}

#[test]
fn a_closed_pipe_ends_the_program_quietly_with_what_was_found() {
    for (words, input, status) in [
        (&["report"][..], "q w - -\n", 0),
        (&["report", "--json"], "q w - -\n", 0),
        (&["report"], "q w - -\nx\n", 1),
        (&["report", "/none", "-"], "x\n", 2),
    ] {
        let mut child = program().args(words).stdin(Stdio::piped()).stdout(Stdio::piped()).stderr(Stdio::piped()).spawn().unwrap();
        drop(child.stdout.take());
        child.stdin.take().unwrap().write_all(input.as_bytes()).unwrap();
        let ran = Ran::of(child.wait_with_output().unwrap());
        let told = if status == 2 { "menkhodur: /none: No such file or directory\n" } else { "" };
        assert_eq!((ran.err.as_str(), ran.status), (told, status), "{words:?}");
    }
}

/// The program in a locale.
fn in_locale(variables: &[(&str, &str)]) -> Command {
    let mut command = program();
    command.env_remove("LC_ALL").env_remove("LC_CTYPE").env_remove("LANG").envs(variables.iter().copied());
    command
}

// The longest bar has 40 columns and is of 24 men: 8 have 13.3, 6 have 10, 4 have 6.7 and 3 have 5. What is begun is seen.
#[test]
fn a_terminal_shows_bars_in_the_characters_of_its_locale() {
    let file = repository("examples/few.fen");
    let bars = |parts: [String; 5]| -> Vec<String> {
        let men = [24, 8, 8, 8, 4, 4, 24, 6, 6, 6, 3, 3];
        let bar = |men: i32| &parts[[24, 8, 6, 4, 3].iter().position(|&other| other == men).unwrap()];
        let mut bars = men.iter().map(|&men| format!("  {}", bar(men)));
        let line = |line: &str| line.to_string() + &if line.ends_with('%') { bars.next().unwrap() } else { String::new() };
        FEW.replace("FILE", &file).lines().map(line).collect()
    };
    let ascii = bars([40, 14, 10, 7, 5].map(|length| "#".repeat(length)));
    let blocks = bars([(40, ""), (13, "▍"), (10, ""), (6, "▊"), (5, "")].map(|(length, rest)| "█".repeat(length) + rest));
    for (variables, owed) in [
        (&[][..], &ascii),
        (&[("LANG", "C")], &ascii),
        (&[("LANG", "en_GB.UTF-8")], &blocks),
        (&[("LANG", "en_GB.UTF-8"), ("LC_CTYPE", "de_DE.ISO-8859-15@euro")], &ascii),
        (&[("LANG", "C"), ("LC_CTYPE", "C.utf8")], &blocks),
        (&[("LANG", "C.UTF-8"), ("LC_CTYPE", "C.UTF-8"), ("LC_ALL", "POSIX")], &ascii),
        (&[("LANG", "C.UTF-8"), ("LC_ALL", "")], &blocks),
    ] {
        assert_eq!(&seen_by(in_locale(variables).args(["report", &file])), owed, "{variables:?}");
    }
    // README's example.
    let example = blocks.join("\n").replace(&file, "examples/few.fen");
    assert!(fs::read_to_string(repository("README.md")).unwrap().contains(&example), "{example}");
    // Elsewhere there are none, whatever the locale.
    let ran = Ran::of(in_locale(&[("LC_ALL", "C.UTF-8")]).args(["report", &file]).output().unwrap());
    assert_eq!(ran.text(), FEW.replace("FILE", &file));
}

#[test]
fn a_terminal_gets_no_control_characters_of_names() {
    let folder = Folder::new();
    let (odd, other) = (folder.file("\x1b[2J", "x\n"), folder.file("b", ""));
    let (shown, seen) = (odd.replace('\x1b', "\\x1b"), seen_by(program().args(["report", &odd, &other])));
    assert!(seen.iter().all(|line| !line.contains('\x1b')));
    assert_eq!(seen.iter().filter(|line| line.ends_with(&format!("  {shown}")) || line.contains(&format!("  {shown}:1, "))).count(), 2);
    assert_eq!(run(&["report", &odd, &other], b"").text().matches(&odd).count(), 2);
}

#[test]
fn progress_is_told_on_a_terminal() {
    let (own, given) = terminal();
    let mut child = program().args(REPORT).stdin(Stdio::piped()).stdout(Stdio::null()).stderr(given).spawn().unwrap();
    let (mut to, from) = (child.stdin.take().unwrap(), lines_of(own));
    to.write_all(b" w - -\n").unwrap();
    thread::sleep(Duration::from_millis(1_500));
    to.write_all(b"x\n").unwrap();
    assert_eq!(next_line(&from).trim_end(), "menkhodur: 2 lines so far");
    drop(to);
    assert_eq!(next_line(&from).trim_end(), "menkhodur: 2 lines, 1 accepted, 1 refused");
    assert_eq!(child.wait().unwrap().code(), Some(1));
}

/// Runs a report with so many kilobytes of memory.
fn in_memory(kilobytes: usize, words: &[&str]) -> Ran {
    let script = format!("ulimit -v {kilobytes}; exec \"$0\" \"$@\"");
    Ran::of(Command::new("sh").args(["-c", &script]).arg(program().get_program()).args(words).output().unwrap())
}

// 600,000 positions take some 40 MB.
#[test]
fn without_memory_for_all_positions_the_other_figures_are_told() {
    let folder = Folder::new();
    let many: Vec<Line> = (0..600_000).map(|at| numbered(at, at)).collect();
    let few = [many[0].clone(), many[0].clone()];
    let (first, second) = (folder.file("many", text(&many)), folder.file("few", text(&few)));
    let told = "menkhodur: there is no memory for the keys of all lines: what is repeated over all is not counted\n\
                menkhodur: 600002 lines, 600002 accepted, 0 refused\n";
    let ran = in_memory(30_000, &["report", "--json", &first, &second]);
    let owed = owed(&[File(&first, &many, true), File(&second, &few, true)]);
    let unknown = |part: &str| format!("null{}", part.trim_start_matches(|digit: char| digit.is_ascii_digit()));
    let owed: Vec<String> =
        owed.split("\"repeated\":").enumerate().map(|(at, part)| if at == 0 { part.into() } else { unknown(part) }).collect();
    assert_eq!((ran.text(), ran.err.as_str(), ran.status), (owed.join("\"repeated\":").as_str(), told, 2));
    let ran = in_memory(30_000, &["report", &first, &second]);
    let owed = "\nrepeated             1  in pages of 4096 lines, each of one file\n\
                repeated             -  over all lines: there was no memory for their keys\n";
    assert!(
        ran.text().contains(owed) && ran.text().contains(&format!("  600000         0         0         -  {first}\n")),
        "{}",
        ran.text()
    );
    assert_eq!((ran.err.as_str(), ran.status), (told, 2));
}

#[test]
fn without_memory_for_a_page_there_is_no_report() {
    let folder = Folder::new();
    let file = folder.file("long", format!("{}\n", " ".repeat(131_000)).repeat(300));
    let told = format!("menkhodur: {file}: there is no memory for 4096 lines as long as these\n");
    assert_eq!(in_memory(30_000, &["report", &file]), Ran { out: vec![], err: told, status: 2 });
    assert_eq!(in_memory(100_000, &["report", &file]).err, "menkhodur: 300 lines, 0 accepted, 300 refused\n");
}
