//! The example `keys`: what it answers, when, and how it ends.

#[allow(dead_code)]
#[path = "../../examples/keys.rs"]
mod example;

use example::{Failure, answer};
use std::collections::VecDeque;
use std::fs::File;
use std::io::{self, BufRead, BufReader, ErrorKind, Read, Write};
use std::process::{Child, Command, Stdio};
use std::sync::mpsc;
use std::thread;
use std::time::Duration;

const EMPTY: &str = "8/8/8/8/8/8/8/8 w - -\n";
const KEY: &str = "8/8/8/8/8/8/8/8 w - - 0 1\n";

/// Gives one text after the other, and fails when there is none left.
struct Texts(VecDeque<&'static str>);

impl Read for Texts {
    fn read(&mut self, room: &mut [u8]) -> io::Result<usize> {
        let text = self.0.pop_front().ok_or(ErrorKind::ConnectionReset)?;
        room[..text.len()].copy_from_slice(text.as_bytes());
        Ok(text.len())
    }
}

/// Takes nothing.
struct Gone;

impl Write for Gone {
    fn write(&mut self, _: &[u8]) -> io::Result<usize> {
        Err(ErrorKind::StorageFull.into())
    }

    fn flush(&mut self) -> io::Result<()> {
        Ok(())
    }
}

fn start(input: impl Into<Stdio>, output: impl Into<Stdio>) -> Child {
    let tests = std::env::current_exe().unwrap();
    let program = tests.ancestors().nth(2).unwrap().join("examples/keys");
    assert!(program.is_file(), "`cargo test` builds the examples, but not with --test alone: run `cargo build --examples` before that");
    Command::new(program).stdin(input).stdout(output).stderr(Stdio::piped()).spawn().unwrap()
}

#[test]
fn each_line_is_answered_in_order() {
    let mut answers = Vec::new();
    let lines = format!("{EMPTY}\n8/8 w -\n w - e4\r\n8x w - -\n8 x - -\nx");
    assert!(answer(lines.as_bytes(), &mut answers).is_ok());
    let want = format!("{KEY}! 18 0\n! 18 7\n8/8/8/8/8/8/8/8 w - e6 0 1\n! 19 1\n! 20 2\n! 18 1\n");
    assert_eq!(String::from_utf8(answers).unwrap(), want);
    assert!(answer(&b""[..], &mut Gone).is_ok());
}

#[test]
fn half_a_line_before_a_failed_read_is_not_answered() {
    let mut answers = Vec::new();
    let input = Texts([EMPTY, " w - -\n8/8/8/8/8/8/8/8 w ", "- -"].into());
    let Err(Failure::Read(error)) = answer(input, &mut answers) else { panic!("the read has failed") };
    assert_eq!(error.kind(), ErrorKind::ConnectionReset);
    assert_eq!(String::from_utf8(answers).unwrap(), KEY.repeat(2));
}

#[test]
fn a_failed_write_ends_it() {
    let Err(Failure::Write(error)) = answer(EMPTY.as_bytes(), Gone) else { panic!("the write has failed") };
    assert_eq!(error.kind(), ErrorKind::StorageFull);
}

#[test]
fn it_ends_well_when_its_answers_are_no_longer_read() {
    let mut keys = start(Stdio::piped(), Stdio::piped());
    drop(keys.stdout.take());
    // More than a pipe holds: it ends before it has read everything, and then this cannot be written either.
    let _ = keys.stdin.take().unwrap().write_all(EMPTY.repeat(10_000).as_bytes());
    let ended = keys.wait_with_output().unwrap();
    assert!(ended.status.success() && ended.stderr.is_empty(), "{ended:?}");
}

#[test]
fn it_tells_what_it_could_not_write() {
    let mut keys = start(Stdio::piped(), File::options().write(true).open("/dev/full").unwrap());
    keys.stdin.take().unwrap().write_all(EMPTY.as_bytes()).unwrap();
    let ended = keys.wait_with_output().unwrap();
    assert_eq!(ended.status.code(), Some(1));
    assert!(ended.stderr.starts_with(b"keys: standard output: "), "{ended:?}");
}

#[test]
fn it_tells_what_it_could_not_read() {
    let directory = File::open(env!("CARGO_MANIFEST_DIR")).unwrap();
    let ended = start(directory, Stdio::piped()).wait_with_output().unwrap();
    assert_eq!(ended.status.code(), Some(1));
    assert!(ended.stderr.starts_with(b"keys: standard input: ") && ended.stdout.is_empty(), "{ended:?}");
}

#[test]
fn an_answer_does_not_wait_for_the_next_line() {
    let mut keys = start(Stdio::piped(), Stdio::piped());
    let mut input = keys.stdin.take().unwrap();
    let output = BufReader::new(keys.stdout.take().unwrap());
    // Read elsewhere, so that an answer that never comes fails here instead of being waited for.
    let (sender, answers) = mpsc::channel();
    thread::spawn(move || output.lines().try_for_each(|answer| sender.send(answer.unwrap())));
    // The third has the beginning of a line behind it, which must not hold its answer back either.
    for text in [EMPTY, "x\n", "x\n8/8/8/8/8/8/8/8 ", "w - -\n"] {
        input.write_all(text.as_bytes()).unwrap();
        let want = if text.starts_with('x') { "! 18 1" } else { KEY.trim_end() };
        assert_eq!(answers.recv_timeout(Duration::from_secs(20)).as_deref(), Ok(want));
    }
    drop(input);
    assert!(answers.recv().is_err());
    assert!(keys.wait().unwrap().success());
}
