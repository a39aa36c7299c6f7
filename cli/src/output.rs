//! Standard output: what waits goes out when there is no room for more, or when someone may wait for it.

use crate::options::{Status, Stop};
use crate::streams;
use crate::told;
use std::fs::File;
use std::io::{self, ErrorKind, Write};

const ROOM: usize = 65_536;

/// What was done when a piece of output, a line or an object, was put whole.
struct Mark<T> {
    end: usize,
    done: T,
}

/// `T` is what is counted; after a failed write it is that of the last piece that got out whole.
pub struct Output<T = ()> {
    file: File,
    /// What it is called in a message.
    name: Vec<u8>,
    room: Box<[u8]>,
    ready: usize,
    marks: Vec<Mark<T>>,
    settled: T,
    /// What the run has come to: its status if the reader goes.
    pub status: Status,
}

impl<T: Copy + Default> Output<T> {
    pub fn new() -> Result<Output<T>, Stop> {
        streams::output().map(Output::over).map_err(|error| failure(STANDARD, &error))
    }

    /// The same into a file that is open.
    pub fn over(file: File) -> Output<T> {
        Output::named(file, STANDARD)
    }

    /// The same with a name.
    pub fn named(file: File, name: &[u8]) -> Output<T> {
        let (name, room) = (name.to_vec(), vec![0; ROOM].into_boxed_slice());
        Output { file, name, room, ready: 0, marks: vec![], settled: T::default(), status: Status::Well }
    }

    /// Room for at least so many bytes, at most the whole room.
    pub fn space(&mut self, least: usize) -> Result<&mut [u8], Stop> {
        if self.room.len() - self.ready < least {
            self.flush()?;
        }
        Ok(&mut self.room[self.ready..])
    }

    /// So many bytes of the space were written.
    pub fn advance(&mut self, bytes: usize) {
        self.ready += bytes;
    }

    pub fn put(&mut self, mut bytes: &[u8]) -> Result<(), Stop> {
        while !bytes.is_empty() {
            let space = self.space(1)?;
            let (now, later) = bytes.split_at(bytes.len().min(space.len()));
            space[..now.len()].copy_from_slice(now);
            self.advance(now.len());
            bytes = later;
        }
        Ok(())
    }

    /// A piece was put whole, and this is what was done with it.
    pub fn mark(&mut self, done: T) {
        self.marks.push(Mark { end: self.ready, done });
    }

    /// What was done with the last piece that got out whole.
    pub fn settled(&self) -> T {
        self.settled
    }

    /// The end of a run that counts: the last line of standard error shows what was written whole. `shown` makes words and a status of a tally.
    pub fn end(
        mut self,
        read: Result<(), Stop>,
        whole: bool,
        tally: T,
        what: &str,
        shown: impl Fn(T) -> (String, Status),
    ) -> Result<Status, Stop> {
        let (tally, failed) = match read.and_then(|()| self.flush()) {
            Ok(()) => (tally, false),
            Err(Stop::Trouble(message)) => {
                told::tell(&[&message]);
                (self.settled, true)
            }
            Err(Stop::Closed(status)) => return Ok(if whole { status } else { Status::Trouble }),
        };
        let (words, status) = shown(tally);
        let cut = if failed { format!("; output incomplete: these {what} were written whole") } else { String::new() };
        told::tell(&[words.as_bytes(), told::incomplete(whole).as_bytes(), cut.as_bytes()]);
        Ok(if whole && !failed { status } else { Status::Trouble })
    }

    pub fn flush(&mut self) -> Result<(), Stop> {
        let mut done = 0;
        let mut ended = Ok(());
        while done < self.ready && ended.is_ok() {
            match self.file.write(&self.room[done..self.ready]) {
                Ok(0) => ended = Err(io::Error::from(ErrorKind::WriteZero)),
                Ok(taken) => done += taken,
                Err(error) if error.kind() == ErrorKind::Interrupted => {}
                Err(error) => ended = Err(error),
            }
        }
        let whole = self.marks.iter().rev().find(|mark| mark.end <= done);
        self.settled = whole.map_or(self.settled, |mark| mark.done);
        self.marks.clear();
        self.ready = 0;
        ended.map_err(|error| self.fail(&error))
    }

    fn fail(&self, error: &io::Error) -> Stop {
        match error.kind() {
            ErrorKind::BrokenPipe => Stop::Closed(self.status),
            _ => failure(&self.name, error),
        }
    }
}

const STANDARD: &[u8] = b"standard output";

fn failure(name: &[u8], error: &io::Error) -> Stop {
    Stop::Trouble([name, b": ", told::system(error).as_bytes()].concat())
}

/// A text that is all that a command writes.
pub fn say(text: &str) -> Result<Status, Stop> {
    let mut output: Output = Output::new()?;
    output.put(text.as_bytes())?;
    output.flush()?;
    Ok(Status::Well)
}
