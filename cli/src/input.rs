//! Files and standard input, read page by page and cut into whole lines. A line that a failed read cut is never handed on.

use crate::options::Stop;
use crate::streams;
use crate::told;
use std::ffi::{OsStr, OsString};
use std::fs::File;
use std::io::{self, ErrorKind, Read};
use std::os::unix::ffi::OsStrExt;

/// A line of this length does not fit any more, as in the proved program `keys`.
const ROOM: usize = 131_072;

/// The most bytes that a line has.
const LONGEST: usize = ROOM - 1;

/// What is wrong with a line that has more.
pub fn too_long() -> String {
    format!("the line has more than {LONGEST} bytes")
}

/// Where lines stand: the input's name, as it was given, and the number of the first of them, from 1.
#[derive(Clone, Copy)]
pub struct Place<'a> {
    pub name: &'a [u8],
    pub line: u64,
}

/// What is done with lines.
pub trait Lines {
    /// Some lines, each ended by a newline, but perhaps not the last one of an input, which has a byte then. Answers how many.
    fn lines(&mut self, place: Place<'_>, text: &[u8]) -> Result<u64, Stop>;
    /// The most bytes that a line may have.
    fn longest(&self) -> usize {
        LONGEST
    }
    /// A line that has more, or more than there is memory for.
    fn long(&mut self, place: Place<'_>) -> Result<(), Stop>;
    /// The input has ended: it was read to its end, or a read failed and what was cut is dropped.
    fn ended(&mut self, _whole: bool) -> Result<(), Stop> {
        Ok(())
    }
    /// The next bytes may take long: what waits goes out.
    fn flush(&mut self) -> Result<(), Stop>;
}

/// Hands on the lines of the inputs named, or of standard input if none is. `whole` is false from the first input on that was not read to
/// its end.
pub fn read(words: &[OsString], lines: &mut impl Lines, whole: &mut bool) -> Result<(), Stop> {
    let mut room = room();
    for word in named(words) {
        *whole &= read_input(&word, &mut room, lines)?;
    }
    Ok(())
}

/// Room to read into.
pub fn room() -> Vec<u8> {
    vec![0; ROOM]
}

/// The inputs that words name: standard input if there is no word.
pub fn named(words: &[OsString]) -> Vec<OsString> {
    if words.is_empty() { vec!["-".into()] } else { words.to_vec() }
}

/// The file that a word names; `-` is standard input.
pub fn open(word: &OsStr) -> io::Result<File> {
    match word.as_bytes() {
        b"-" => streams::input(),
        _ => File::open(word),
    }
}

/// An input in a message.
pub fn shown(word: &OsStr) -> &[u8] {
    match word.as_bytes() {
        b"-" => b"standard input",
        name => name,
    }
}

pub fn failed(word: &OsStr, error: &io::Error) -> Vec<u8> {
    [shown(word), b": ", told::system(error).as_bytes()].concat()
}

/// Answers whether the input was read to its end.
fn read_input(word: &OsStr, room: &mut Vec<u8>, lines: &mut impl Lines) -> Result<bool, Stop> {
    match open(word) {
        Ok(mut file) => read_from(word, &mut file, room, lines),
        Err(error) => {
            told::tell(&[&failed(word, &error)]);
            Ok(false)
        }
    }
}

/// The same for an input that is open.
pub fn read_from(word: &OsStr, file: &mut impl Read, room: &mut Vec<u8>, lines: &mut impl Lines) -> Result<bool, Stop> {
    let mut cutter = Cutter { place: Place { name: word.as_bytes(), line: 1 }, room, held: 0, long: false };
    loop {
        match file.read(cutter.space()) {
            Ok(0) => break,
            Ok(more) => cutter.take(more, lines)?,
            Err(error) if error.kind() == ErrorKind::Interrupted => {}
            Err(error) => {
                told::tell(&[&failed(word, &error)]);
                cutter.tell_stopped(shown(word));
                lines.ended(false)?;
                lines.flush()?;
                return Ok(false);
            }
        }
    }
    cutter.end(lines)?;
    lines.ended(true)?;
    lines.flush()?;
    Ok(true)
}

/// Cuts what is read into lines.
struct Cutter<'a> {
    place: Place<'a>,
    room: &'a mut Vec<u8>,
    /// Bytes of an unended line at the front of the room.
    held: usize,
    /// The line that goes on did not fit the room; nothing of it is held.
    long: bool,
}

impl Cutter<'_> {
    fn space(&mut self) -> &mut [u8] {
        &mut self.room[self.held..]
    }

    /// So many bytes came in behind those held. Whoever feeds a slow pipe gets each answer at once: a read that does not fill its space
    /// may be the last for long.
    fn take(&mut self, more: usize, lines: &mut impl Lines) -> Result<(), Stop> {
        let end = self.held + more;
        let from = self.after_long(end, lines)?;
        let fresh = from.max(self.held);
        let to = self.room[fresh..end].iter().rposition(|byte| *byte == b'\n').map_or(from, |at| fresh + at + 1);
        if from < to {
            self.place.line += lines.lines(self.place, &self.room[from..to])?;
        }
        let filled = end == self.room.len();
        self.room.copy_within(to..end, 0);
        self.held = end - to;
        if self.held == self.room.len() && !self.grow(lines.longest()) || self.long {
            (self.held, self.long) = (0, true);
        }
        if self.held < ROOM {
            self.room.truncate(ROOM);
        }
        if filled { Ok(()) } else { lines.flush() }
    }

    /// Makes the room twice as long, but no longer than a line of `longest` bytes needs. Answers whether there is more room.
    fn grow(&mut self, longest: usize) -> bool {
        let length = self.room.len();
        let more = length.min((longest + 1).saturating_sub(length));
        let fits = more > 0 && self.room.try_reserve_exact(more).is_ok();
        if fits {
            self.room.resize(length + more, 0);
        }
        fits
    }

    /// Where the line after a long one begins, or the end if the long one has not ended; 0 if there is none.
    fn after_long(&mut self, end: usize, lines: &mut impl Lines) -> Result<usize, Stop> {
        if !self.long {
            return Ok(0);
        }
        let Some(at) = self.room[..end].iter().position(|byte| *byte == b'\n') else { return Ok(end) };
        lines.long(self.place)?;
        self.place.line += 1;
        self.long = false;
        Ok(at + 1)
    }

    /// The input has ended: a last line without a newline counts if it has a byte.
    fn end(&mut self, lines: &mut impl Lines) -> Result<(), Stop> {
        if self.long {
            return lines.long(self.place);
        }
        if self.held > 0 {
            lines.lines(self.place, &self.room[..self.held])?;
        }
        Ok(())
    }

    /// What is held could be a text of another meaning without its end.
    fn tell_stopped(&self, name: &[u8]) {
        let after = told::counted(self.place.line - 1, "line");
        let cut: &[u8] = if self.long || self.held > 0 { b"; a line was cut and is dropped" } else { b"" };
        told::tell(&[name, b": stopped after ", after.as_bytes(), cut]);
    }
}
