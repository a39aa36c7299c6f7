//! Inputs that fail, outputs that fail, pipes that are slow or closed, and a terminal that looks on.

use crate::common::{EMPTY, Folder, Ran, empty_position, program};
use crate::figures;
use std::ffi::{CStr, c_char, c_int};
use std::fs::{self, File};
use std::io::{BufRead, BufReader, Read, Write};
use std::os::fd::{FromRawFd, OwnedFd};
use std::os::unix::net::UnixStream;
use std::process::{Child, Command, Stdio};
use std::sync::mpsc;
use std::thread;
use std::time::Duration;

const PATIENCE: Duration = Duration::from_secs(20);

/// Runs a command on an input that gives a text and then an error, never an end.
pub fn cut(command: &mut Command, text: &str) -> Ran {
    let (mut to, from) = UnixStream::pair().unwrap();
    from.set_nonblocking(true).unwrap();
    to.write_all(text.as_bytes()).unwrap();
    let ran = Ran::of(command.stdin(OwnedFd::from(from)).output().unwrap());
    drop(to);
    ran
}

const FAILED: &str = "menkhodur: standard input: Resource temporarily unavailable\nmenkhodur: standard input: stopped after 1 line";

#[test]
fn a_line_that_a_failed_read_cut_is_dropped_and_the_next_file_is_read() {
    let folder = Folder::new();
    let file = folder.file("b", " w - e3");
    let other = "8/8/8/8/8/8/8/8 w - e6 0 1";
    for (text, dropped) in [(" w - -\n8/8/8/8/8/8/8/8 b - ", "; a line was cut and is dropped"), (" w - -\n", "")] {
        let ran = cut(program().args(["keys", "-", &file]), text);
        let told = format!("{FAILED}{dropped}\nmenkhodur: 2 lines, 2 accepted, 0 refused; input incomplete\n");
        assert_eq!((ran.text(), ran.err.as_str(), ran.status), (format!("{EMPTY}\n{other}\n").as_str(), told.as_str(), 2));
        let ran = cut(program().args(["keys", "--check", "-"]), text);
        assert_eq!((ran.text(), ran.status), (format!("-:1:  w - - -> {EMPTY}\n").as_str(), 2));
        let ran = cut(program().args(["report", "--json", "-", &file]), text);
        let (standard, other) = (figures::keys(&text[..7]), figures::keys(" w - e3"));
        let owed = figures::owed(&[figures::File("-", &standard, false), figures::File(&file, &other, true)]);
        assert_eq!((ran.text(), ran.err.as_str(), ran.status), (owed.as_str(), told.as_str(), 2));
        let ran = cut(program().args(["explain", "-"]), text);
        assert_eq!((ran.text().matches("line ").count(), ran.err, ran.status), (1, format!("{FAILED}{dropped}\n"), 2));
    }
    let ran = cut(program().args(["show", "-", &file]), "1234");
    assert_eq!((ran.text(), ran.err.as_str(), ran.status), ("", "menkhodur: standard input: Resource temporarily unavailable\n", 2));
}

pub fn full(words: &[&str], input: &str) -> Ran {
    let mut command = program();
    command.args(words).stdin(Stdio::piped()).stdout(File::create("/dev/full").unwrap()).stderr(Stdio::piped());
    let mut child = command.spawn().unwrap();
    child.stdin.take().unwrap().write_all(input.as_bytes()).unwrap();
    Ran::of(child.wait_with_output().unwrap())
}

#[test]
fn a_full_device_is_trouble_and_nothing_is_counted() {
    let full_device = "menkhodur: standard output: No space left on device\n";
    let incomplete = "; output incomplete: these lines were written whole\n";
    let ran = full(&["keys"], " w - -\nx\n");
    let told = format!("{full_device}menkhodur: 0 lines, 0 accepted, 0 refused{incomplete}");
    assert_eq!((ran.err, ran.status), (told, 2));
    let ran = full(&["keys", "--check"], " w - -\n");
    assert_eq!((ran.err, ran.status), (format!("{full_device}menkhodur: 0 lines, 0 keys, 0 second names, 0 refused{incomplete}"), 2));
    let ran = full(&["keys", "/none", "-"], " w - -\n");
    let told = format!(
        "menkhodur: /none: No such file or directory\n{full_device}menkhodur: 0 lines, 0 accepted, 0 refused; input incomplete{incomplete}"
    );
    assert_eq!((ran.err, ran.status), (told, 2));
    for words in [
        &["explain", " w - -"][..],
        &["report"],
        &["report", "--json", "/dev/null"],
        &["--help"],
        &["keys", "--help"],
        &["--version"],
        &["man"],
        &["completion", "fish"],
    ] {
        assert_eq!(full(words, ""), Ran { out: vec![], err: full_device.to_string(), status: 2 }, "{words:?}");
    }
    let folder = Folder::new();
    let (a, p) = (folder.file("a", ""), folder.file("p", empty_position()));
    for command in ["ruling", "show"] {
        assert_eq!(full(&[command, &a, &p], ""), Ran { out: vec![], err: full_device.to_string(), status: 2 });
    }
}

#[test]
fn a_game_that_was_not_read_or_written_whole_is_not_counted() {
    let ran = cut(program().args(["pgn"]), "1. e4 *\n1. d4 d5\n");
    let told = "menkhodur: standard input: Resource temporarily unavailable\nmenkhodur: standard input: stopped after 2 lines\n\
                menkhodur: 1 game, 1 accepted, 0 refused; input incomplete\n";
    assert_eq!((ran.text(), ran.err.as_str(), ran.status), ("1 1 1 0 *\n", told, 2));
    let ran = full(&["pgn"], "1. e4 *\n");
    let told = "menkhodur: standard output: No space left on device\n\
                menkhodur: 0 games, 0 accepted, 0 refused; output incomplete: these games were written whole\n";
    assert_eq!((ran.err.as_str(), ran.status), (told, 2));
}

// 5,000 lines, every third refused, and room for some of them.
#[test]
fn of_a_file_that_may_not_grow_only_whole_lines_are_counted() {
    let folder = Folder::new();
    let lines: String = (0..5_000).map(|i| if i % 3 == 0 { "x\n" } else { " w - -\n" }).collect();
    let (input, out) = (folder.file("in", lines), folder.path("out"));
    let script = format!("trap '' XFSZ; ulimit -f 8; exec {} keys {input} >{out}", env!("CARGO_BIN_EXE_menkhodur"));
    let ran = Ran::of(Command::new("sh").args(["-c", &script]).output().unwrap());
    let written = fs::read_to_string(&out).unwrap();
    let whole: Vec<&str> = written.split_inclusive('\n').filter(|line| line.ends_with('\n')).collect();
    let refused = whole.iter().filter(|line| line.starts_with('!')).count();
    let counted = format!("{} lines, {} accepted, {refused} refused", whole.len(), whole.len() - refused);
    let told =
        format!("menkhodur: standard output: File too large\nmenkhodur: {counted}; output incomplete: these lines were written whole\n");
    assert_eq!((ran.err, ran.status), (told, 2));
    assert!(whole.len() > 50 && whole.len() < 5_000);
}

/// Reads one line of output, or fails when it takes too long.
pub fn next_line(from: &mpsc::Receiver<String>) -> String {
    from.recv_timeout(PATIENCE).expect("an answer before the next line is sent")
}

pub fn lines_of(from: impl Read + Send + 'static) -> mpsc::Receiver<String> {
    let (to, lines) = mpsc::channel();
    thread::spawn(move || {
        for line in BufReader::new(from).lines() {
            if line.is_err() || to.send(line.unwrap_or_default()).is_err() {
                return;
            }
        }
    });
    lines
}

fn piped(words: &[&str]) -> Child {
    program().args(words).stdin(Stdio::piped()).stdout(Stdio::piped()).stderr(Stdio::piped()).spawn().unwrap()
}

#[test]
fn a_slow_pipe_gets_each_answer_before_the_next_line_is_sent() {
    let black = "8/8/8/8/8/8/8/8 b - e3 0 1";
    let keys = [(" w - -", EMPTY), ("x", "! 18 1"), (" b - e3", black)];
    let check = [(" w - -", "-:1:  w - - -> 8/8/8/8/8/8/8/8 w - - 0 1"), ("x", "-:2: x ! 18 1 the FEN text ends before its fourth token")];
    let explain = [("x", "line 1: refused: the FEN text ends before its fourth token, at byte 1 (answer 18)")];
    for (words, answers) in [(&["keys"][..], &keys[..]), (&["keys", "--check"], &check), (&["explain", "-"], &explain)] {
        let mut child = piped(words);
        let (mut to, from) = (child.stdin.take().unwrap(), lines_of(child.stdout.take().unwrap()));
        for (text, owed) in answers {
            to.write_all(format!("{text}\n").as_bytes()).unwrap();
            assert_eq!(next_line(&from), *owed);
        }
        drop(to);
        assert_eq!(child.wait().unwrap().code(), Some(1));
    }
}

#[test]
fn lines_cut_by_the_end_of_a_read_are_put_together() {
    let mut child = piped(&["keys"]);
    let (mut to, from) = (child.stdin.take().unwrap(), lines_of(child.stdout.take().unwrap()));
    for piece in ["8/8/8", "/8/8/8/8/", "8 w - -\n w ", "- e3", "\n"] {
        to.write_all(piece.as_bytes()).unwrap();
        thread::sleep(Duration::from_millis(20));
    }
    assert_eq!((next_line(&from), next_line(&from)), (EMPTY.to_string(), "8/8/8/8/8/8/8/8 w - e6 0 1".to_string()));
    drop(to);
    assert_eq!(child.wait().unwrap().code(), Some(0));
}

/// Feeds lines without end to a command whose reader goes after one line.
pub fn gone(words: &[&str], line: &str) -> (String, Option<i32>) {
    let mut child = piped(words);
    let (mut to, line) = (child.stdin.take().unwrap(), format!("{line}\n").repeat(1_000));
    let feeder = thread::spawn(move || while to.write_all(line.as_bytes()).is_ok() {});
    let mut from = BufReader::new(child.stdout.take().unwrap());
    from.read_line(&mut String::new()).unwrap();
    drop(from);
    let status = child.wait().unwrap().code();
    feeder.join().unwrap();
    let mut err = String::new();
    child.stderr.take().unwrap().read_to_string(&mut err).unwrap();
    (err, status)
}

#[test]
fn a_closed_pipe_ends_the_program_quietly_with_what_was_found_until_then() {
    assert_eq!(gone(&["keys"], " w - -"), (String::new(), Some(0)));
    assert_eq!(gone(&["keys"], "x"), (String::new(), Some(1)));
    assert_eq!(gone(&["keys", "--check"], " w - -"), (String::new(), Some(1)));
    assert_eq!(gone(&["explain", "-"], EMPTY), (String::new(), Some(0)));
    assert_eq!(gone(&["explain", "--json", "-"], "x"), (String::new(), Some(1)));
}

unsafe extern "C" {
    safe fn posix_openpt(flags: c_int) -> c_int;
    safe fn grantpt(fd: c_int) -> c_int;
    safe fn unlockpt(fd: c_int) -> c_int;
    fn ptsname_r(fd: c_int, name: *mut c_char, length: usize) -> c_int;
}

/// A terminal: its own side, and the one that a program is given.
pub fn terminal() -> (File, File) {
    const READ_WRITE: c_int = 2;
    let fd = posix_openpt(READ_WRITE);
    assert!(fd >= 0 && grantpt(fd) == 0 && unlockpt(fd) == 0);
    let mut name: [c_char; 64] = [0; 64];
    // SAFETY: the name's room is lent with its length.
    assert_eq!(unsafe { ptsname_r(fd, name.as_mut_ptr(), name.len()) }, 0);
    // SAFETY: the function above has ended the name with a 0.
    let path = unsafe { CStr::from_ptr(name.as_ptr()) }.to_str().unwrap().to_string();
    // SAFETY: the number was just given by the system, and nothing else has it.
    let own = unsafe { File::from_raw_fd(fd) };
    (own, File::options().read(true).write(true).open(path).unwrap())
}

#[test]
fn progress_is_told_on_a_terminal_and_only_there() {
    let (own, given) = terminal();
    let mut child = program().arg("keys").stdin(Stdio::piped()).stdout(Stdio::null()).stderr(given).spawn().unwrap();
    let (mut to, from) = (child.stdin.take().unwrap(), lines_of(own));
    to.write_all(b" w - -\n").unwrap();
    thread::sleep(Duration::from_millis(1_500));
    to.write_all(b" w - -\n").unwrap();
    assert_eq!(next_line(&from).trim_end(), "menkhodur: 2 lines so far");
    drop(to);
    assert_eq!(next_line(&from).trim_end(), "menkhodur: 2 lines, 2 accepted, 0 refused");
    assert_eq!(child.wait().unwrap().code(), Some(0));
    // The other tests read standard error through pipes, and see no such line; here one that takes as long.
    let mut child = piped(&["keys"]);
    let mut to = child.stdin.take().unwrap();
    to.write_all(b" w - -\n").unwrap();
    thread::sleep(Duration::from_millis(1_500));
    to.write_all(b" w - -\n").unwrap();
    drop(to);
    assert_eq!(Ran::of(child.wait_with_output().unwrap()).err, "menkhodur: 2 lines, 2 accepted, 0 refused\n");
}

/// What a command writes to a terminal, line by line.
pub fn seen_by(command: &mut Command) -> Vec<String> {
    let (own, given) = terminal();
    let mut child = command.stdin(Stdio::null()).stdout(given).stderr(Stdio::null()).spawn().unwrap();
    // The terminal gives an error, no end, once nobody has it any more, and a command keeps what it was given.
    command.stdout(Stdio::null());
    let from = lines_of(own);
    child.wait().unwrap();
    from.iter().map(|line| line.trim_end_matches('\r').to_string()).collect()
}

fn seen(words: &[&str]) -> Vec<String> {
    seen_by(program().args(words))
}

#[test]
fn a_terminal_gets_no_control_characters() {
    let folder = Folder::new();
    let fens = folder.file("fens", b" w - - \x1b[2J\x07\xc2\x9b\xff\n w - - \xc3\xa9\n");
    assert_eq!(
        seen(&["keys", "--check", &fens]),
        [format!("{fens}:1:  w - - \\x1b[2J\\x07\\xc2\\x9b\\xff -> {EMPTY}"), format!("{fens}:2:  w - - é -> {EMPTY}")]
    );
    let ran = Ran::of(program().args(["keys", "--check", &fens]).output().unwrap());
    let plain = [format!("{fens}:1: ").as_bytes(), b" w - - \x1b[2J\x07\xc2\x9b\xff -> ", EMPTY.as_bytes(), b"\n"].concat();
    assert!(ran.out.starts_with(&plain));
    let pgn = folder.file("pgn", b"[White \"a\x1b]0;b\x07 \xc3\xa9\xe9\"]\n\ne4 *\n");
    assert_eq!(seen(&["pgn", "--tags", &pgn]), ["1 1 1 0 *", "  [White \"a\\x1b]0;b\\x07 é\\xe9\"]"]);
}
