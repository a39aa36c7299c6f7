//! A file that is written whole or not at all.

use crate::input;
use crate::options::{Status, Stop};
use crate::output::Output;
use std::ffi::OsStr;
use std::fs::{self, File, Metadata};
use std::io::{self, ErrorKind, Write};
use std::path::{Path, PathBuf};

/// Writes the file that a word names, which must not exist unless it is to be replaced. Whoever opens it sees what was there before or all of
/// the bytes, and a failure leaves everything as it was.
pub fn put(word: &OsStr, bytes: &[u8], replace: bool) -> Result<(), Stop> {
    let mut making = Making::begin(word, replace)?;
    making.file.write_all(bytes).map_err(|error| failed(word, &error))?;
    making.place()
}

/// The same, where `-` is standard output, for what is the whole work of a command, with the status that it has come to. Part of it is
/// nothing, should the reader go.
pub fn put_or_say(word: &OsStr, bytes: &[u8], replace: bool, status: Status) -> Result<Status, Stop> {
    if word != "-" {
        return put(word, bytes, replace).map(|()| status);
    }
    let mut output: Output = Output::new()?;
    output.status = Status::Trouble;
    output.put(bytes)?;
    output.flush()?;
    Ok(status)
}

/// A file in the making, beside the one that it is to be.
pub struct Making<'a> {
    word: &'a OsStr,
    path: PathBuf,
    replace: bool,
    /// What it takes the place of.
    held: Option<Metadata>,
    beside: Beside,
    pub file: File,
}

impl Making<'_> {
    pub fn begin(word: &OsStr, replace: bool) -> Result<Making<'_>, Stop> {
        begun(word, replace).map_err(|error| failed(word, &error))
    }

    /// All is written: it takes its place.
    pub fn place(mut self) -> Result<(), Stop> {
        self.placed().map_err(|error| failed(self.word, &error))
    }

    fn placed(&mut self) -> io::Result<()> {
        if let Some(held) = &self.held {
            self.file.set_permissions(held.permissions())?;
        }
        // Some systems tell only here that there is no room left.
        self.file.sync_all()?;
        if self.replace { self.beside.rename(&self.path) } else { self.beside.link(&self.path) }
    }
}

fn failed(word: &OsStr, error: &io::Error) -> Stop {
    match error.kind() {
        ErrorKind::AlreadyExists => Stop::Trouble([input::shown(word), b": it exists; --force replaces it"].concat()),
        _ => Stop::Trouble(input::failed(word, error)),
    }
}

fn begun(word: &OsStr, replace: bool) -> io::Result<Making<'_>> {
    // Where a link leads to a file, that file is replaced, not the link.
    let path = fs::canonicalize(word).unwrap_or(PathBuf::from(word));
    let held = fs::metadata(&path).ok();
    match &held {
        // A device or a pipe would be gone.
        Some(held) if !held.is_file() => return Err(io::Error::other("it is not a regular file")),
        Some(_) if !replace => return Err(ErrorKind::AlreadyExists.into()),
        _ => {}
    }
    let (beside, file) = Beside::create(&path)?;
    Ok(Making { word, path, replace, held, beside, file })
}

/// A file in the folder of another, removed at the end unless it took that one's place.
struct Beside {
    path: PathBuf,
    placed: bool,
}

impl Beside {
    fn create(other: &Path) -> io::Result<(Beside, File)> {
        let folder = other.parent().unwrap_or(Path::new(""));
        let mut nth = 0;
        loop {
            // Processes on two machines, with one disk, may have one number.
            let path = folder.join(format!(".menkhodur-{}-{nth}", std::process::id()));
            match File::create_new(&path) {
                Err(error) if error.kind() == ErrorKind::AlreadyExists => nth += 1,
                made => return made.map(|file| (Beside { path, placed: false }, file)),
            }
        }
    }

    fn rename(&mut self, path: &Path) -> io::Result<()> {
        fs::rename(&self.path, path)?;
        self.placed = true;
        Ok(())
    }

    /// A link, unlike a rename, replaces nothing, even if another process makes the file at this moment. Not every file system has them.
    fn link(&mut self, path: &Path) -> io::Result<()> {
        match fs::hard_link(&self.path, path) {
            Err(error) if error.kind() != ErrorKind::AlreadyExists && fs::symlink_metadata(path).is_err() => self.rename(path),
            linked => linked,
        }
    }
}

impl Drop for Beside {
    fn drop(&mut self) {
        if !self.placed {
            // Nothing more can be done about a file that cannot be removed.
            let _ = fs::remove_file(&self.path);
        }
    }
}
