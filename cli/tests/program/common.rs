//! Runs the program, and a folder to run it in.

use menkhodur::lent::POSITION_BYTES;
use std::ffi::OsStr;
use std::io::Write;
use std::path::{Path, PathBuf};
use std::process::{Command, Output, Stdio};
use std::sync::atomic::{AtomicUsize, Ordering};

pub const EMPTY: &str = "8/8/8/8/8/8/8/8 w - - 0 1";
pub const INITIAL: &str = "rnbqkbnr/pppppppp/8/8/8/8/PPPPPPPP/RNBQKBNR w KQkq - 0 1";

// Where a position has its counters, its in-check byte, the length of its list and the list, as host/menkhodur.h has it.
pub const HALF_MOVES: usize = 68;
pub const FULL_MOVES: usize = 70;
pub const IN_CHECK: usize = 72;
pub const ENTRIES: usize = 73;
pub const MOVES: usize = 74;

/// The bytes of a position: the empty board at move 1, and no move.
pub fn empty_position() -> [u8; POSITION_BYTES] {
    let mut position = [0; POSITION_BYTES];
    position[FULL_MOVES] = 1;
    position
}

/// Says that the test that runs was skipped, by its name: tools/cargo-test shows it, and the gate tells it again.
pub fn skipped(why: &str) {
    println!("skipped: cli/run-tests: {}: {why}", std::thread::current().name().unwrap_or("a test"));
}

pub fn program() -> Command {
    Command::new(env!("CARGO_BIN_EXE_menkhodur"))
}

/// What a run wrote, and its status.
#[derive(Debug, PartialEq, Eq)]
pub struct Ran {
    pub out: Vec<u8>,
    pub err: String,
    pub status: i32,
}

impl Ran {
    pub fn of(output: Output) -> Ran {
        let err = String::from_utf8_lossy(&output.stderr).into_owned();
        Ran { out: output.stdout, err, status: output.status.code().expect("an exit status, not a signal") }
    }

    pub fn text(&self) -> &str {
        std::str::from_utf8(&self.out).expect("ASCII")
    }
}

/// Runs the program with words on an input.
pub fn run<S: AsRef<OsStr>>(words: &[S], input: &[u8]) -> Ran {
    let mut command = program();
    command.args(words).stdin(Stdio::piped()).stdout(Stdio::piped()).stderr(Stdio::piped());
    let mut child = command.spawn().expect("the program starts");
    let mut to = child.stdin.take().expect("a pipe");
    let input = input.to_vec();
    let feeder = std::thread::spawn(move || {
        // A program that does not read its input ends before all is written.
        let _ = to.write_all(&input);
    });
    let ran = Ran::of(child.wait_with_output().expect("the program ends"));
    feeder.join().expect("the feeder ends");
    ran
}

/// The same, with what it must write on both outputs, and its status.
#[track_caller]
pub fn expect<S: AsRef<OsStr>>(words: &[S], input: impl AsRef<[u8]>, (out, err, status): (impl AsRef<[u8]>, &str, i32)) {
    let ran = run(words, input.as_ref());
    assert_eq!(String::from_utf8_lossy(&ran.out), String::from_utf8_lossy(out.as_ref()));
    assert_eq!((ran.out == out.as_ref(), ran.err.as_str(), ran.status), (true, err, status));
}

/// A folder of its own, gone at the end.
pub struct Folder(pub PathBuf);

impl Folder {
    pub fn new() -> Folder {
        static COUNT: AtomicUsize = AtomicUsize::new(0);
        let name = format!("{}-{}", std::process::id(), COUNT.fetch_add(1, Ordering::Relaxed));
        let path = Path::new(env!("CARGO_TARGET_TMPDIR")).join(name);
        std::fs::create_dir_all(&path).expect("a folder");
        Folder(path)
    }

    /// Writes a file and gives its path.
    pub fn file(&self, name: &str, bytes: impl AsRef<[u8]>) -> String {
        let path = self.0.join(name);
        std::fs::write(&path, bytes).expect("a file");
        path.to_str().expect("UTF-8").to_string()
    }

    pub fn path(&self, name: &str) -> String {
        self.0.join(name).to_str().expect("UTF-8").to_string()
    }
}

impl Drop for Folder {
    fn drop(&mut self) {
        let _ = std::fs::remove_dir_all(&self.0);
    }
}

/// A file of the repository.
pub fn repository(path: &str) -> String {
    format!("{}/../{path}", env!("CARGO_MANIFEST_DIR"))
}
