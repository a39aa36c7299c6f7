//! Finds the archive that the package links, or has `host/archive` make it in the repository that the package stands in, and refuses one
//! of another version than the package was written for.

use std::env;
use std::fs;
use std::io::{BufRead, BufReader};
use std::path::{Path, PathBuf};
use std::process::{Command, Stdio};
use version::VERSION;

#[path = "src/version.rs"]
mod version;

const ARCHIVE: &str = "libmenkhodur.a";
const MAKER: &str = "host/archive";
const DIRECTORY_VARIABLE: &str = "MENKHODUR_ARCHIVE_DIR";
const VERSION_FUNCTION: &str = "menkhodur_version";
const PROBE: &str = r#"unsafe extern "C" { safe fn menkhodur_version() -> u64; } fn main() { println!("{}", menkhodur_version()); }"#;

fn main() {
    println!("cargo::rerun-if-env-changed={DIRECTORY_VARIABLE}");
    if let Err(reason) = link_archive() {
        // Such a line ends the build and is all that cargo then shows; a bad exit status would have it repeat every line of this program.
        for line in reason.lines() {
            println!("cargo::error={line}");
        }
    }
}

fn link_archive() -> Result<(), String> {
    let directory = match env::var_os(DIRECTORY_VARIABLE) {
        Some(named) => named_directory(Path::new(&named))?,
        None => repository_directory()?,
    };
    println!("cargo::rerun-if-changed={}", directory.join(ARCHIVE).display());
    judge_version(&directory)?;
    println!("cargo::rustc-link-search=native={}", directory.display());
    println!("cargo::rustc-link-lib=static=menkhodur");
    Ok(())
}

/// A directory that someone names is taken at its word: building another archive instead would link one they did not choose.
fn named_directory(named: &Path) -> Result<PathBuf, String> {
    // A relative one would be another for the compiler, which cargo need not start in the directory that it starts this program in.
    let directory = fs::canonicalize(named).map_err(|error| format!("{DIRECTORY_VARIABLE} is '{}': {error}", named.display()))?;
    if directory.join(ARCHIVE).is_file() {
        Ok(directory)
    } else {
        Err(format!("{DIRECTORY_VARIABLE} is '{}', and there is no {ARCHIVE} in it", directory.display()))
    }
}

/// The repository's own, which `host/archive` has made, or makes now: it alone says what the archive is made from and whether it is older.
fn repository_directory() -> Result<PathBuf, String> {
    let apart = |_| format!("the package does not stand in its repository: set {DIRECTORY_VARIABLE} to a directory with {ARCHIVE}");
    let repository = fs::canonicalize(Path::new(&told("CARGO_MANIFEST_DIR")?).join("../..")).map_err(apart)?;
    for owed in ["crates/menkhodur_c", "crates.txt", MAKER] {
        fs::metadata(repository.join(owed)).map_err(apart)?;
    }
    for source in written(Command::new(repository.join(MAKER)).arg("--sources"))?.lines() {
        println!("cargo::rerun-if-changed={}", repository.join(source).display());
    }
    make_archive(&repository)?;
    Ok(repository.join("target/staticlib"))
}

fn make_archive(repository: &Path) -> Result<(), String> {
    // Standard output is cargo's, and `--if-older` leaves it alone.
    let begun = Command::new(repository.join(MAKER)).arg("--if-older").stderr(Stdio::piped()).spawn();
    let mut maker = begun.map_err(|error| format!("`{MAKER}` could not be started: {error}"))?;
    let mut told = Vec::new();
    for line in BufReader::new(maker.stderr.take().expect("a pipe")).split(b'\n').map_while(Result::ok) {
        let line = String::from_utf8_lossy(&line).into_owned();
        eprintln!("{line}");
        told.extend(line.starts_with(MAKER).then_some(line));
    }
    let status = maker.wait().map_err(|error| format!("`{MAKER}` could not be waited for: {error}"))?;
    if !status.success() {
        told.push(format!("`{MAKER}` failed ({status}): run it in {} to see why", repository.display()));
        return Err(told.join("\n"));
    }
    told.iter().for_each(|line| println!("cargo::warning={line}"));
    Ok(())
}

fn judge_version(directory: &Path) -> Result<(), String> {
    let archive = directory.join(ARCHIVE);
    let shown = archive.display();
    let needed = format!(
        "this package was written for version {VERSION}: link an archive of that version ({DIRECTORY_VARIABLE} names its directory), \
         or take the package from the repository that this archive comes from, where CHANGELOG.md tells what a host must change"
    );
    let bytes = fs::read(&archive).map_err(|error| format!("{shown}: {error}"))?;
    if !bytes.windows(VERSION_FUNCTION.len()).any(|name| name == VERSION_FUNCTION.as_bytes()) {
        return Err(format!("{shown} has no {VERSION_FUNCTION}, so it is from before version 1 or not Menkhodur's, and {needed}"));
    }
    let (host, target) = (told("HOST")?, told("TARGET")?);
    if host != target {
        println!("cargo::warning=the version of {shown} is not known: a program for {target} cannot be run on {host} to ask for it");
        return Ok(());
    }
    match ask_version(directory).map_err(|reason| format!("{shown} could not be asked for its version: {reason}"))? {
        VERSION => Ok(()),
        other => Err(format!("{shown} has version {other}, and {needed}")),
    }
}

/// Links the archive into a program that writes its version, as cargo will link it into the package's own, and runs that program.
fn ask_version(directory: &Path) -> Result<u64, String> {
    let room = PathBuf::from(told("OUT_DIR")?);
    let (source, program) = (room.join("probe.rs"), room.join("probe"));
    fs::write(&source, PROBE).map_err(|error| format!("{}: {error}", source.display()))?;
    let flags = env::var("CARGO_ENCODED_RUSTFLAGS").unwrap_or_default();
    let mut rustc = Command::new(told("RUSTC")?);
    rustc.args(["--edition=2024", "-lstatic=menkhodur"]).arg(format!("-Lnative={}", directory.display()));
    rustc.args(flags.split('\x1f').filter(|flag| !flag.is_empty()));
    rustc.args(env::var("RUSTC_LINKER").ok().map(|linker| format!("-Clinker={linker}")));
    written(rustc.arg("-o").arg(&program).arg(&source))?;
    let version = written(Command::new(&program).current_dir(&room))?;
    version.trim().parse().map_err(|_| format!("{} wrote '{version}'", program.display()))
}

/// What a program writes to its standard output, if it ends well; else what it says on standard error.
fn written(command: &mut Command) -> Result<String, String> {
    let program = Path::new(command.get_program()).to_path_buf();
    let ended = command.output().map_err(|error| format!("{}: {error}", program.display()))?;
    if ended.status.success() {
        Ok(String::from_utf8_lossy(&ended.stdout).into_owned())
    } else {
        Err(format!("{} failed ({})\n{}", program.display(), ended.status, String::from_utf8_lossy(&ended.stderr)))
    }
}

fn told(variable: &str) -> Result<String, String> {
    env::var(variable).map_err(|error| format!("cargo has not told {variable}: {error}"))
}
