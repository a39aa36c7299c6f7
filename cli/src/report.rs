//! `menkhodur report`: what is counted over the lines of files, page by page, and over all of them.

use crate::figures::{Figures, Read};
use crate::input::{self, Lines, Place};
use crate::judged;
use crate::options::{Asked, Flag, Status, Stop};
use crate::output::Output;
use crate::positions::Positions;
use crate::sheet::{self, Form};
use crate::told::{self, Progress};
use menkhodur::lent::{MAX_FEN, REPORT_LINES};
use menkhodur::{Page, PageReader, Report};
use std::ffi::{OsStr, OsString};
use std::os::unix::ffi::OsStrExt;
use std::{mem, slice};

pub const SETTLE: Flag = Flag {
    name: "settle",
    value: None,
    about: "clear an en passant file that no pawn can use before positions are compared, in pages and over all",
};
pub const JSON: Flag = Flag { name: "json", value: None, about: "print one JSON object" };

pub fn run(asked: &Asked) -> Result<Status, Stop> {
    let mut output: Output = Output::new()?;
    let mut reporter = Reporter {
        reader: PageReader::for_lines(REPORT_LINES),
        settler: asked.has(&SETTLE).then(Settler::default),
        held: Held::default(),
        file: Read::default(),
        positions: Positions::new(),
        figures: Figures::new(asked.has(&SETTLE)),
        read: 0,
        progress: Progress::new(),
    };
    for word in &input::named(&asked.words) {
        reporter.read(word)?;
    }
    let figures = reporter.figures;
    let told = if asked.has(&JSON) { (figures.object() + "\n").into_bytes() } else { sheet::of(&figures, Form::here()) };
    output.status = figures.status();
    output.put(&told)?;
    output.flush()?;
    let all = figures.all();
    told::tell(&[told::tallied(all.accepted, all.refused, "line").as_bytes(), told::incomplete(figures.whole()).as_bytes()]);
    Ok(figures.status())
}

/// The lines of a page that is not full yet.
#[derive(Default)]
struct Held {
    text: Vec<u8>,
    lines: usize,
    /// Which of them, from 0, are too long to be held. An empty line stands for each, which is refused too.
    long: Vec<usize>,
}

/// Has settled keys reported on in the place of lines, for the archive's call compares records as they are.
#[derive(Default)]
struct Settler {
    reader: PageReader,
    keys: Vec<u8>,
}

impl Settler {
    /// A page of the settled key of each line, with its report. An empty line stands for one that is refused, and is refused too.
    fn report(&mut self, page: &Page<'_>) -> (Page<'_>, Report) {
        self.keys.clear();
        for (numbers, [number, _]) in page.records().iter().zip(page.numbers()) {
            if *number == 0 {
                let mut room = [0; MAX_FEN];
                let length = judged::key_of(&judged::settled(numbers), &mut room);
                self.keys.extend(&room[..length]);
            }
            self.keys.push(b'\n');
        }
        reported(&mut self.reader, &self.keys)
    }
}

fn reported<'a>(reader: &'a mut PageReader, text: &'a [u8]) -> (Page<'a>, Report) {
    reader.report(text).expect("a page has no more lines than a report takes")
}

struct Reporter {
    reader: PageReader,
    settler: Option<Settler>,
    held: Held,
    /// What is being read.
    file: Read,
    positions: Positions,
    figures: Figures,
    /// How many lines were read, of all files.
    read: u64,
    progress: Progress,
}

impl Lines for Reporter {
    fn lines(&mut self, _place: Place<'_>, text: &[u8]) -> Result<u64, Stop> {
        let before = self.read;
        for line in text.split_inclusive(|byte| *byte == b'\n') {
            self.hold(line)?;
        }
        self.progress.lines(self.read);
        Ok(self.read - before)
    }

    fn long(&mut self, _place: Place<'_>) -> Result<(), Stop> {
        self.held.long.push(self.held.lines);
        self.hold(b"\n")
    }

    /// A page ends with its file. What is held after a failed read are whole lines.
    fn ended(&mut self, _whole: bool) -> Result<(), Stop> {
        self.turn();
        Ok(())
    }

    /// Nothing is said before all is read.
    fn flush(&mut self) -> Result<(), Stop> {
        Ok(())
    }
}

impl Reporter {
    fn read(&mut self, word: &OsString) -> Result<(), Stop> {
        self.file = Read { name: word.as_bytes().to_vec(), ..Read::default() };
        let mut whole = true;
        input::read(slice::from_ref(word), self, &mut whole)?;
        self.figures.files.push(Read { whole, ..mem::take(&mut self.file) });
        Ok(())
    }

    fn hold(&mut self, line: &[u8]) -> Result<(), Stop> {
        if self.held.text.try_reserve(line.len()).is_err() {
            let told = format!(": there is no memory for {REPORT_LINES} lines as long as these");
            return Err(Stop::Trouble([input::shown(OsStr::from_bytes(&self.file.name)), told.as_bytes()].concat()));
        }
        self.held.text.extend(line);
        self.held.lines += 1;
        self.read += 1;
        if self.held.lines == REPORT_LINES {
            self.turn();
        }
        Ok(())
    }

    /// Reports on the lines that are held, as a page.
    fn turn(&mut self) {
        let (Held { text, long, .. }, counts) = (&self.held, &mut self.file.counts);
        let (page, report) = reported(&mut self.reader, text);
        let line = counts.lines() + 1;
        for (index, _) in page.numbers().iter().enumerate().filter(|(_, [number, _])| *number != 0) {
            let refused = if long.contains(&index) { None } else { page.get(index).and_then(Result::err) };
            self.figures.refuse(refused, &self.file.name, line + index as u64);
        }
        let settled = self.settler.as_mut().map(|settler| settler.report(&page));
        let (page, report) = settled.unwrap_or((page, report));
        counts.accepted += report.accepted as u64;
        counts.refused += report.refused as u64;
        counts.within += report.repeated as u64;
        self.figures.add_men(&report);
        match self.positions.repeated(&page) {
            Some(over) => counts.over += over,
            None => self.figures.give_up(),
        }
        self.held.text.clear();
        (self.held.lines, self.held.long) = (0, vec![]);
    }
}
