//! The figures of a report, and the object of `--json` that has them.

use crate::diff;
use crate::input;
use crate::json::{self, Object};
use crate::options::Status;
use crate::told;
use menkhodur::lent::KINDS;
use menkhodur::{ALL_COLORS, ALL_PIECES, Color, Error, Piece, Report};
use std::collections::BTreeMap;
use std::mem;

/// What is counted over lines.
#[derive(Clone, Copy, Default)]
pub struct Counts {
    pub accepted: u64,
    pub refused: u64,
    /// The accepted lines with the position of an earlier one of their page.
    pub within: u64,
    /// Those with the position of an earlier one of any page.
    pub over: u64,
}

impl Counts {
    pub fn lines(&self) -> u64 {
        self.accepted + self.refused
    }
}

/// An input and its counts.
#[derive(Default)]
pub struct Read {
    pub name: Vec<u8>,
    pub counts: Counts,
    /// It was read to its end.
    pub whole: bool,
}

/// What is wrong with a line: the archive's number, or that it is too long to be handed to the archive.
#[derive(Clone, Copy, PartialEq, Eq, PartialOrd, Ord)]
pub enum Kind {
    Number(u64),
    Long,
}

/// Refused lines of a kind, and where the first of them stands.
pub struct Refusal {
    pub count: u64,
    pub name: Vec<u8>,
    pub line: u64,
    /// None of a line that is too long.
    pub refused: Option<Error>,
}

impl Refusal {
    fn reason(&self) -> String {
        self.refused.map_or_else(input::too_long, |refused| refused.meaning().to_string())
    }

    /// `LINE, byte OFFSET: reason`
    pub fn first(&self) -> String {
        let byte = self.refused.map_or(String::new(), |refused| format!(", byte {}", refused.offset().unwrap_or_default()));
        format!("{}{byte}: {}", self.line, self.reason())
    }

    fn object(&self) -> String {
        let placed = |object: Object| object.raw("count", self.count).bytes("file", &self.name).raw("line", self.line);
        match self.refused {
            Some(refused) => placed(Object::new().raw("number", refused.number())).raw("offset", refused.offset().unwrap_or_default()),
            None => placed(Object::new().raw("long", true)),
        }
        .text("reason", &self.reason())
        .end()
    }
}

pub struct Figures {
    pub files: Vec<Read>,
    pub men: [u64; KINDS],
    pub refusals: BTreeMap<Kind, Refusal>,
    /// There was memory for all positions, so that repeats over all were counted.
    pub compared: bool,
    /// Positions were compared by their settled records.
    pub settled: bool,
}

/// The kinds of men in the order of their numbers.
pub fn kinds() -> impl Iterator<Item = (Piece, Color)> {
    ALL_COLORS.into_iter().flat_map(|color| ALL_PIECES.map(|piece| (piece, color)))
}

impl Figures {
    pub fn new(settled: bool) -> Figures {
        Figures { files: vec![], men: [0; KINDS], refusals: BTreeMap::new(), compared: true, settled }
    }

    pub fn add_men(&mut self, report: &Report) {
        for (men, (piece, color)) in self.men.iter_mut().zip(kinds()) {
            *men += report.men(piece, color) as u64;
        }
    }

    /// A refused line, the first of its kind or not. What is wrong is told by an error, or it is too long.
    pub fn refuse(&mut self, refused: Option<Error>, name: &[u8], line: u64) {
        let kind = refused.map_or(Kind::Long, |refused| Kind::Number(refused.number()));
        let first = || Refusal { count: 0, name: name.to_vec(), line, refused };
        self.refusals.entry(kind).or_insert_with(first).count += 1;
    }

    /// There is no memory for all positions: repeats over all are not counted.
    pub fn give_up(&mut self) {
        if mem::replace(&mut self.compared, false) {
            told::tell(&[b"there is no memory for the keys of all lines: what is repeated over all is not counted"]);
        }
    }

    pub fn all(&self) -> Counts {
        let sum = |of: fn(&Counts) -> u64| self.files.iter().map(|file| of(&file.counts)).sum();
        Counts {
            accepted: sum(|counts| counts.accepted),
            refused: sum(|counts| counts.refused),
            within: sum(|counts| counts.within),
            over: sum(|counts| counts.over),
        }
    }

    /// All inputs were read to their ends.
    pub fn whole(&self) -> bool {
        self.files.iter().all(|file| file.whole)
    }

    pub fn status(&self) -> Status {
        match self.all().refused {
            _ if !self.whole() || !self.compared => Status::Trouble,
            0 => Status::Well,
            _ => Status::Found,
        }
    }

    pub fn object(&self) -> String {
        let name = |(piece, color)| diff::man_name(piece, color).replace(' ', "_");
        let men = kinds().zip(self.men).fold(Object::new(), |object, (kind, men)| object.raw(&name(kind), men)).end();
        let file = |file: &Read| {
            let object = self.counted(Object::new().bytes("file", &file.name), &file.counts);
            object.raw("complete", file.whole).end()
        };
        let object = self.counted(Object::new(), &self.all()).raw("men", men);
        let object = object.raw("refusals", json::array(self.refusals.values().map(Refusal::object)));
        let object = object.raw("files", json::array(self.files.iter().map(file))).raw("complete", self.whole());
        if self.settled { object.raw("settled", true) } else { object }.end()
    }

    fn counted(&self, object: Object, counts: &Counts) -> Object {
        let object = object.raw("lines", counts.lines()).raw("accepted", counts.accepted).raw("refused", counts.refused);
        object.raw("repeated_within_pages", counts.within).raw_or_null("repeated", self.over(counts))
    }

    /// How many lines repeat any earlier one; none if that was not counted.
    pub fn over(&self, counts: &Counts) -> Option<u64> {
        self.compared.then_some(counts.over)
    }
}
