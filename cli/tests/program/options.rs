//! Options, help, man page and completion.

use crate::common::{Folder, expect, run, skipped};
use menkhodur::lent::{ACTION_BYTES, POSITION_BYTES};
use std::process::Command;

const COMMANDS: [&str; 15] = [
    "keys",
    "explain",
    "report",
    "pgn",
    "import",
    "export",
    "games",
    "ruling",
    "show",
    "diff",
    "roll",
    "roll upgrade",
    "completion",
    "man",
    "help",
];

/// Words behind those of a command.
fn words<'a>(command: &'a str, more: &[&'a str]) -> Vec<&'a str> {
    command.split(' ').chain(more.iter().copied()).collect()
}

#[test]
fn what_is_not_known_is_trouble_and_named() {
    for (words, told) in [
        (
            vec![],
            "a command is needed: keys, explain, report, pgn, import, export, games, ruling, show, diff, roll, completion, man, help; see menkhodur --help",
        ),
        (vec!["nope"], "unknown command nope; see menkhodur --help"),
        (vec!["--nope"], "unknown option --nope; see menkhodur --help"),
        (vec!["keys", "--nope"], "unknown option --nope; see menkhodur keys --help"),
        (vec!["keys", "-x"], "unknown option -x; see menkhodur keys --help"),
        (vec!["keys", "--check=1"], "no value is allowed for --check; see menkhodur keys --help"),
        (vec!["keys", "--at", "1"], "unknown option --at; see menkhodur keys --help"),
        (vec!["report", "--check"], "unknown option --check; see menkhodur report --help"),
        (vec!["explain"], "missing FEN; see menkhodur explain --help"),
        (vec!["ruling"], "missing ACTIONS; see menkhodur ruling --help"),
        (vec!["ruling", "a"], "missing POSITIONS; see menkhodur ruling --help"),
        (vec!["show"], "missing ROLL; see menkhodur show --help"),
        (vec!["show", "--old", "a", "b"], "--old is for a ROLL, and a log was named"),
        (vec!["show", "a", "b", "c"], "one word too many: c; see menkhodur show --help"),
        (vec!["ruling", "a", "b", "--at"], "a value (N) is needed for --at; see menkhodur ruling --help"),
        (vec!["completion", "csh"], "completion: csh is not bash, zsh or fish"),
        (vec!["roll"], "missing ACTIONS; see menkhodur roll --help"),
        (vec!["roll", "downgrade"], "missing POSITIONS; see menkhodur roll --help"),
        (vec!["roll", "a", "upgrade", "b"], "one word too many: b; see menkhodur roll --help"),
        (vec!["roll", "a", "b", "-o"], "a value (FILE) is needed for -o; see menkhodur roll --help"),
        (vec!["roll", "upgrade"], "missing OLD; see menkhodur roll upgrade --help"),
        (vec!["roll", "upgrade", "a"], "missing NEW; see menkhodur roll upgrade --help"),
        (vec!["roll", "--force", "upgrade", "a"], "missing NEW; see menkhodur roll upgrade --help"),
        (vec!["roll", "upgrade", "a", "b", "c"], "one word too many: c; see menkhodur roll upgrade --help"),
        (vec!["roll", "upgrade", "-o", "a", "b", "c"], "unknown option -o; see menkhodur roll upgrade --help"),
        (vec!["pgn", "--limit", "0"], "--limit 0: a number of MB from 1 up is needed"),
        (vec!["pgn", "--limit=x"], "--limit x: a number of MB from 1 up is needed"),
        (vec!["pgn", "--limit", "18446744073709551615"], "--limit 18446744073709551615: a number of MB from 1 up is needed"),
        (vec!["help", "nope"], "unknown command nope; see menkhodur --help"),
        (vec!["help", "roll", "nope"], "unknown command roll nope; see menkhodur --help"),
        (vec!["help", "a", "b", "c"], "one word too many: c; see menkhodur help --help"),
    ] {
        expect(&words, "", ("", &format!("menkhodur: {told}\n"), 2));
    }
}

#[test]
fn help_has_an_example_of_each_command() {
    let whole = run(&["--help"], b"");
    assert_eq!((whole.status, whole.err.as_str()), (0, ""));
    assert_eq!((run(&["-h"], b""), run(&["help"], b"")), (run(&["--help"], b""), run(&["--help"], b"")));
    for command in COMMANDS {
        assert!(whole.text().contains(&format!("\n  {command} ")), "{command}");
        let help = run(&words(command, &["--help"]), b"");
        assert!(help.text().starts_with(&format!("menkhodur {command}")), "{}", help.text());
        assert!(help.text().contains("\nExample") && help.text().contains("\nExit status:\n  0 "), "{}", help.text());
        assert_eq!((help.status, help.err.as_str()), (0, ""));
        assert_eq!(run(&words(command, &["-h", "--nope"]), b""), help);
        assert_eq!(run(&words("help", &words(command, &[])), b""), help);
    }
}

/// A text with single spaces.
fn joined(text: &str) -> String {
    text.split_whitespace().collect::<Vec<_>>().join(" ")
}

#[test]
fn help_says_what_trouble_is() {
    let always =
        "an option, a file that could not be read to its end, standard input or output that is needed and not open, or a write that failed";
    for (command, here) in [
        ("keys", ""),
        ("report", "no memory for all positions, or for a page; "),
        ("export", "not one of --sqlite and --postgres; a store that cannot be read; "),
        ("games", "no FEN, or one that is refused; not one of --sqlite and --postgres; "),
        ("import", "not one of --sqlite, --postgres and --dry-run; a store that cannot be used, "),
        ("ruling", "a log that is not good (with --at: up to N), or that has fewer actions than N; "),
        ("show", "a log that is not good; a roll that is refused, 5, 13 or 17 "),
        ("diff", "a roll that is refused; "),
        ("roll", "a log that is not good; "),
        ("roll upgrade", "a roll that is refused; a NEW that exists, without --force; "),
    ] {
        let help = joined(run(&words(command, &["--help"]), b"").text());
        let status = help.split(" Exit status: ").nth(1).unwrap_or_default();
        assert!(status.contains(&format!(" 2 trouble: {here}")) && status.contains(always), "{status}");
    }
    assert!(joined(run(&["--help"], b"").text()).contains(&format!(" 2 trouble: a log or roll that is refused; {always}")));
}

#[test]
fn help_has_the_archives_sizes() {
    for command in ["ruling", "show", "roll"] {
        let help = run(&[command, "--help"], b"");
        assert!(help.text().contains(&format!("actions, {ACTION_BYTES} for each\n")), "{}", help.text());
        assert!(help.text().contains(&format!("positions, {POSITION_BYTES} for the start and for each move\n")), "{}", help.text());
    }
}

#[test]
fn the_version_is_the_archives() {
    let header = std::fs::read_to_string(crate::common::repository("host/menkhodur.h")).unwrap();
    let number = header.lines().find_map(|line| line.strip_prefix("#define MENKHODUR_VERSION ")).unwrap();
    let owed = format!("menkhodur (Menkhodur) {number}\n");
    expect(&["--version"], "", (&owed, "", 0));
    expect(&["keys", "--version"], "", (&owed, "", 0));
}

/// The options that the help of a command names.
fn options(command: &str) -> Vec<String> {
    let help = run(&words(command, &["--help"]), b"");
    let rest = help.text().lines().filter_map(|line| line.strip_prefix("  --"));
    let named = rest.filter(|rest| rest.starts_with(|letter: char| letter.is_ascii_lowercase()));
    named.filter_map(|rest| rest.split_whitespace().next().map(str::to_string)).collect()
}

#[test]
fn man_page_and_completion_name_every_command_and_option() {
    let man = run(&["man"], b"");
    let scripts = ["bash", "zsh", "fish"].map(|shell| run(&["completion", shell], b""));
    assert!([&man].into_iter().chain(&scripts).all(|ran| ran.status == 0 && ran.err.is_empty()));
    for command in COMMANDS {
        assert!(command.split(' ').all(|word| scripts.iter().all(|script| script.text().contains(word))), "{command}");
        assert!(man.text().contains(&format!(".SS menkhodur {command}")), "{command}");
        assert!(options(command).len() >= 2, "{command}");
        for option in options(command) {
            assert!(man.text().contains(&format!("--{option}").replace('-', "\\-")), "{command} {option}");
            assert!(scripts[..2].iter().all(|script| script.text().contains(&format!("--{option}"))), "{command} {option}");
            assert!(scripts[2].text().contains(&format!("-l {option}")), "{command} {option}");
        }
    }
}

/// Asks the script for bash what may stand at the end of some words, in a folder.
fn completed(script: &str, words: &[&str], folder: &Folder) -> Option<Vec<String>> {
    let ask = format!(
        "source {script}; COMP_WORDS=({}); COMP_CWORD={}; _menkhodur; printf '%s\\n' \"${{COMPREPLY[@]}}\"",
        words.join(" "),
        words.len() - 1
    );
    let ran = Command::new("bash").args(["-c", &ask]).current_dir(&folder.0).output().ok()?;
    assert!(ran.status.success() && ran.stderr.is_empty(), "{}", String::from_utf8_lossy(&ran.stderr));
    Some(String::from_utf8_lossy(&ran.stdout).lines().map(str::to_string).collect())
}

#[test]
fn bash_completes_commands_options_and_words() {
    let folder = Folder::new();
    let script = folder.file("completion", &run(&["completion", "bash"], b"").out);
    for name in ["up.actions", "game.roll"] {
        folder.file(name, "");
    }
    for (words, owed) in [
        (&["menkhodur", "k"][..], &["keys"][..]),
        (&["menkhodur", "keys", "--c"], &["--check", "--crlf"]),
        (&["menkhodur", "rep"], &["report"]),
        (&["menkhodur", "report", "--j"], &["--json"]),
        (&["menkhodur", "report", "g"], &["game.roll"]),
        (&["menkhodur", "import", "--d"], &["--dry-run", "--duplicates"]),
        (&["menkhodur", "import", "g"], &["game.roll"]),
        (&["menkhodur", "ruling", "--a"], &["--at"]),
        (&["menkhodur", "completion", "z"], &["zsh"]),
        (&["menkhodur", "explain", "--j"], &["--json"]),
        (&["menkhodur", "explain", "--fu"], &["--full"]),
        (&["menkhodur", "explain", "--s"], &["--svg"]),
        (&["menkhodur", "ruling", "--h"], &["--html", "--help"]),
        (&["menkhodur", "diff", "--old-s"], &["--old-second"]),
        (&["menkhodur", "roll", "u"], &["up.actions", "upgrade"]),
        (&["menkhodur", "roll", "upg"], &["upgrade"]),
        (&["menkhodur", "roll", "upgrade", "--f"], &["--force"]),
        (&["menkhodur", "roll", "--o"], &["--output"]),
        (&["menkhodur", "roll", "upgrade", "u"], &["up.actions"]),
        (&["menkhodur", "show", "g"], &["game.roll"]),
        (&["menkhodur", "help", "ru"], &["ruling"]),
    ] {
        assert_eq!(completed(&script, words, &folder).unwrap_or(owed.iter().map(|word| word.to_string()).collect()), owed);
    }
}

#[test]
fn the_scripts_of_other_shells_are_read_without_a_complaint() {
    let folder = Folder::new();
    for (shell, options) in [("zsh", &["-n"][..]), ("fish", &["--no-execute"]), ("bash", &["-n"])] {
        let script = folder.file(shell, &run(&["completion", shell], b"").out);
        match Command::new(shell).args(options).arg(&script).output() {
            Ok(ran) => assert_eq!((String::from_utf8_lossy(&ran.stderr).as_ref(), ran.status.code()), ("", Some(0)), "{shell}"),
            Err(_) => skipped(&format!("{shell} is missing, of the Debian package {shell}")),
        }
    }
}

#[test]
fn the_man_page_is_read_without_a_warning() {
    let folder = Folder::new();
    let page = folder.file("menkhodur.1", &run(&["man"], b"").out);
    match Command::new("groff").args(["-man", "-Tascii", "-ww", "-z", &page]).output() {
        Ok(ran) => assert_eq!((String::from_utf8_lossy(&ran.stderr).as_ref(), ran.status.code()), ("", Some(0))),
        Err(_) => skipped("groff is missing, of the Debian package groff-base"),
    }
}
