//! Articles 9.6.1 and 9.6.2 of the Laws: a game that is drawn without a claim. Where that may first have happened is looked for here; that it has
//! happened, and by what, is read off the archive's own numbers for the game up to there.

use crate::entry::{Entry, What};
use crate::ruling;
use crate::stored::Stored;
use menkhodur::{GameResult, Log, Position, Ruling};
use std::collections::HashMap;

/// Equal positions before the last, and moves of both sides, at which no claim is needed any more.
const EARLIER: usize = 4;
pub const MOVES: usize = 150;

/// The game is drawn, by one of the two articles or by both.
pub struct Drawn {
    /// After so many moves, for the first time.
    pub moves: usize,
    pub action: usize,
    pub five_times: bool,
    pub by_count: bool,
    /// The earlier positions that equal the one after that move, by the moves that led to them.
    pub equal: Vec<usize>,
}

impl Drawn {
    /// What the archive's numbers say of a game up to a position, unless its last move mated: that comes first.
    fn by(log: &Log, ruling: &Ruling, action: usize) -> Option<Drawn> {
        let mated = matches!(ruling.result, Some(GameResult::WhiteCheckmates | GameResult::BlackCheckmates));
        let (five_times, by_count) = (ruling.equals >= EARLIER, ruling.laws_count >= MOVES);
        let holds = !mated && (five_times || by_count);
        holds.then(|| Drawn { moves: ruling.moves, action, five_times, by_count, equal: ruling::equal(log, ruling) })
    }

    /// Of the game of a log, which is the beginning of what is stored.
    pub fn of(stored: &Stored, log: &Log, entries: &[Entry], ruling: &Ruling) -> Option<Drawn> {
        let last = entries.last()?.action;
        let first = first(log, entries).filter(|action| *action < last);
        let earlier = first.and_then(|action| {
            let log = stored.log(action)?;
            Drawn::by(&log, &log.ruling(), action)
        });
        earlier.or_else(|| Drawn::by(log, ruling, last))
    }

    pub fn articles(&self) -> Vec<&'static str> {
        [(self.five_times, "9.6.1"), (self.by_count, "9.6.2")].iter().filter(|(holds, _)| *holds).map(|(_, article)| *article).collect()
    }

    /// `article 9.6.1`, or both.
    pub fn named(&self) -> String {
        named(&self.articles())
    }

    pub fn reasons(&self) -> Vec<&'static str> {
        let reasons = [
            (self.five_times, "the same position has appeared five times"),
            (self.by_count, "75 moves have been made by each player without a pawn move and without a capture"),
        ];
        reasons.iter().filter(|(holds, _)| *holds).map(|(_, reason)| *reason).collect()
    }
}

/// Articles of the Laws, as they are named in a ruling.
pub fn named(articles: &[&str]) -> String {
    format!("article{} {}", if articles.len() == 1 { "" } else { "s" }, articles.join(" and "))
}

/// The first move after which a position has come five times, or 150 moves were made without a pawn move or a capture: its action.
fn first(log: &Log, entries: &[Entry]) -> Option<usize> {
    let mut seen: HashMap<Vec<u8>, usize> = HashMap::new();
    let mut count = 0;
    let mut moved = entries.iter().enumerate().filter(|(_, entry)| matches!(entry.what, What::Start | What::Move(..)));
    for position in log.positions() {
        let (at, entry) = moved.next()?;
        let begins = at == 0 || ruling::causes_at(entries, at).iter().any(|cause| *cause != ruling::RIGHTS);
        count = if begins { 0 } else { count + 1 };
        let times = seen.entry(compared(&position)).or_default();
        *times += 1;
        if *times > EARLIER || count >= MOVES {
            return Some(entry.action);
        }
    }
    None
}

/// What must be equal in equal positions: the record but for its counters, and the list.
fn compared(position: &Position<'_>) -> Vec<u8> {
    let list = position.list.iter().flat_map(|made| made.number().to_le_bytes());
    position.board.numbers().iter().copied().chain(list).collect()
}
