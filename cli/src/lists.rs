//! `--judge`: the lists and the in-check bytes that a log was lent, judged by the Laws.

use crate::entry::{self, Entry};
use crate::json::{self, Object};
use crate::options::{Asked, Flag, Status};
use crate::told;
use menkhodur::lent::MAX_LIST;
use menkhodur::{Log, Move, Position, Wrong};

pub const JUDGE: Flag = Flag { name: "judge", value: None, about: "judge each stored list of moves and in-check byte by the Laws" };

/// The positions of a log, judged.
pub struct Lists {
    positions: usize,
    wrong: Vec<Finding>,
}

/// What is wrong with a position of a log: the first thing that is.
struct Finding {
    /// Its number: how many moves led to it.
    moves: usize,
    /// None: the position has more legal moves than a list may have.
    found: Option<Found>,
}

struct Found {
    wrong: Wrong,
    /// By the position's own list, else by the legal one, else there is none.
    name: Option<String>,
    /// What is owed.
    in_check: bool,
    list: usize,
}

impl Lists {
    /// The lists of a log, if they are to be judged.
    pub fn of(asked: &Asked, log: &Log) -> Option<Lists> {
        asked.has(&JUDGE).then(|| {
            let finding = |(moves, position): (usize, Position<'_>)| Finding::of(moves, &position);
            Lists { positions: log.positions().count(), wrong: log.positions().enumerate().filter_map(finding).collect() }
        })
    }

    pub fn status(&self) -> Status {
        if self.wrong.is_empty() { Status::Well } else { Status::Found }
    }

    /// What came of it, in words.
    pub fn told(&self) -> String {
        match (self.wrong.len(), told::counted(self.positions as u64, "position")) {
            (0, positions) => format!("{positions}: each list has the legal moves, and who is in check is said rightly"),
            (wrong, positions) => format!("{positions}, {wrong} of them wrong by the Laws"),
        }
    }

    /// Each position that is wrong, in words.
    pub fn each<'a>(&'a self, entries: &'a [Entry]) -> impl Iterator<Item = String> + 'a {
        let which = |moves: usize| match moves {
            0 => "position 0, the start".to_string(),
            moves => {
                let (before, after) = (entry::after(entries, moves - 1), entry::after(entries, moves));
                format!("position {moves}, after {} {}", entry::number(&before.board), after.written())
            }
        };
        self.wrong.iter().map(move |finding| format!("{}: {}", which(finding.moves), finding.told()))
    }

    /// The rows of a text.
    pub fn written(&self, entries: &[Entry]) -> String {
        let each: String = self.each(entries).map(|told| format!("{:13}{told}\n", "")).collect();
        format!("\n{:13}{}\n{each}", "judged", self.told())
    }

    /// What is wrong with the position that so many moves led to.
    pub fn at(&self, moves: usize) -> Option<String> {
        self.wrong.iter().find(|finding| finding.moves == moves).map(Finding::object)
    }

    pub fn object(&self) -> String {
        Object::new().raw("positions", self.positions).raw("wrong", json::array(self.wrong.iter().map(Finding::object))).end()
    }
}

impl Finding {
    /// None if nothing is wrong.
    fn of(moves: usize, position: &Position<'_>) -> Option<Finding> {
        let Ok(judged) = position.judged() else { return Some(Finding { moves, found: None }) };
        let wrong = judged.wrong?;
        let name = told_of(wrong).and_then(|told| name(position, told));
        Some(Finding { moves, found: Some(Found { wrong, name, in_check: judged.in_check, list: judged.entries }) })
    }

    fn told(&self) -> String {
        let Some(found) = &self.found else { return format!("it has more than {MAX_LIST} legal moves, which no list holds") };
        let named = |told: Move| found.name.as_ref().map_or(told.to_string(), |name| format!("{name} ({told})"));
        match found.wrong {
            Wrong::NotLegal(told) => format!("{} is listed and is not legal", named(told)),
            Wrong::Twice(told) => format!("{} is listed twice", named(told)),
            Wrong::Missing(told) => format!("{} is legal and is not listed", named(told)),
            Wrong::InCheck if found.in_check => "the side to move is in check, and is said not to be".to_string(),
            Wrong::InCheck => "the side to move is not in check, and is said to be".to_string(),
        }
    }

    fn object(&self) -> String {
        let found = self.found.as_ref();
        let object = Object::new().raw("position", self.moves).raw_or_null("wrong", found.map(|found| number(found.wrong)));
        let object = object.text("reason", &self.told()).text_or_null("name", found.and_then(|found| found.name.as_deref()));
        let coordinates = found.and_then(|found| told_of(found.wrong)).map(|told| told.to_string());
        let object = object.text_or_null("coordinates", coordinates.as_deref());
        object.raw_or_null("in_check", found.map(|found| found.in_check)).raw_or_null("list", found.map(|found| found.list)).end()
    }
}

/// As the archive numbers what is wrong.
fn number(wrong: Wrong) -> u8 {
    match wrong {
        Wrong::NotLegal(_) => 1,
        Wrong::Twice(_) => 2,
        Wrong::Missing(_) => 3,
        Wrong::InCheck => 4,
    }
}

/// The move that is told with it.
fn told_of(wrong: Wrong) -> Option<Move> {
    match wrong {
        Wrong::NotLegal(told) | Wrong::Twice(told) | Wrong::Missing(told) => Some(told),
        Wrong::InCheck => None,
    }
}

fn name(position: &Position<'_>, told: Move) -> Option<String> {
    let own = position.board.name(position.list, told).ok();
    own.or_else(|| position.board.name(position.board.legal_moves().ok()?.moves(), told).ok())
}
