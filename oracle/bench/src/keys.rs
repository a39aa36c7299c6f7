//! The proved program `keys`, the program `menkhodur keys` over the archive, and `crate_keys`, which does the same by the crate's reader
//! and writer, on one large file.

use compare::rules::en_passant_rank;
use std::path::{Path, PathBuf};
use std::process::{Command, Stdio};
use std::time::Instant;

const LINES: usize = 1_000_000;
const ROUNDS: usize = 5;

/// A program, and the words before the file.
type Run<'a> = (&'a Path, &'a [&'a str]);

fn run((program, words): Run, file: &Path, out: Stdio) -> Result<Vec<u8>, String> {
    let told = |why: String| format!("{}: {}", program.display(), why);
    let done = Command::new(program).args(words).arg(file).stdout(out).stderr(Stdio::null()).output();
    let done = done.map_err(|e| told(e.to_string()))?;
    match done.status.success() {
        true => Ok(done.stdout),
        false => Err(told(done.status.to_string())),
    }
}

/// Both must write the same, but for the rank of the en passant square.
fn compare(theirs: &[u8], ours: &[u8]) -> Result<(), String> {
    let lines = |bytes: &[u8]| String::from_utf8_lossy(bytes).lines().map(str::to_string).collect::<Vec<_>>();
    let owed: Vec<String> = lines(theirs).iter().map(|line| en_passant_rank(line).0).collect();
    match owed == lines(ours) {
        true => Ok(()),
        false => Err("the two programs write different keys".to_string()),
    }
}

/// Nanoseconds a line of each, the best of the rounds, in which they take turns; what is written goes nowhere.
fn time(both: [Run; 2], file: &Path) -> Result<[f64; 2], String> {
    let mut best = [f64::MAX; 2];
    for _ in 0..ROUNDS {
        for (best, program) in best.iter_mut().zip(both) {
            let start = Instant::now();
            run(program, file, Stdio::null())?;
            *best = best.min(start.elapsed().as_nanos() as f64);
        }
    }
    Ok(best.map(|best| best / LINES as f64))
}

fn folder() -> Result<PathBuf, String> {
    Ok(std::env::current_exe().ok().and_then(|p| Some(p.parent()?.to_path_buf())).ok_or("no folder")?)
}

fn write(path: &Path, lines: &[&str], count: usize) -> Result<(), String> {
    let lines: String = lines.iter().cycle().take(count).map(|line| format!("{}\n", line)).collect();
    std::fs::write(path, lines).map_err(|e| format!("{}: {}", path.display(), e))
}

fn timed(both: [Run; 2], lines: &[&str]) -> Result<(usize, f64, f64), String> {
    let file = folder()?.join("keys.fen");
    write(&file, lines, LINES)?;
    let [theirs, ours] = time(both, &file)?;
    std::fs::remove_file(&file).map_err(|e| e.to_string())?;
    Ok((LINES, theirs, ours))
}

/// How many lines, and the nanoseconds for one by the crate and by us.
fn against(ours: Run, texts: &[&str]) -> Result<(usize, f64, f64), String> {
    let (theirs, few) = (folder()?.join("crate_keys"), folder()?.join("few_keys.fen"));
    write(&few, texts, texts.len())?;
    compare(&run((&theirs, &[]), &few, Stdio::piped())?, &run(ours, &few, Stdio::piped())?)?;
    timed([(&theirs, &[]), ours], texts)
}

/// The proved program.
pub fn times(texts: &[&str]) -> Result<(usize, f64, f64), String> {
    against((&folder()?.join("../../../crates/keys/out/keys"), &[]), texts)
}

/// The program over the archive, as `cli/build` leaves it.
pub fn menkhodur_times(texts: &[&str]) -> Result<(usize, f64, f64), String> {
    against((&folder()?.join("../../cli/release/menkhodur"), &["keys"]), texts)
}

/// The same on a store, each line of which is its own key. A square in passing has another rank in the crate's text, so there is none.
pub fn check_times(texts: &[&str]) -> Result<(usize, f64, f64), String> {
    let (theirs, ours) = (folder()?.join("crate_keys"), folder()?.join("../../cli/release/menkhodur"));
    let own: Vec<&str> = texts.iter().copied().filter(|text| !en_passant_rank(text).1).collect();
    timed([(&theirs, &["--check"]), (&ours, &["keys", "--check"])], &own)
}
