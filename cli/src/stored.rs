//! A log in two files, the used bytes of its parts, and what is wrong with one that is not good.

use crate::input;
use crate::options::Stop;
use menkhodur::lent::{self, ACTION_BYTES, ACTIONS_PART, MAX_COUNT, POSITION_BYTES, POSITIONS_PART, Record};
use menkhodur::{Board, Counts, Error, Log, Move};
use std::ffi::{OsStr, OsString};
use std::fmt;
use std::io::Read;

/// Before version 12 a position had no counters, which take two bytes each.
const OLD_POSITION_BYTES: usize = POSITION_BYTES - 4;

/// The two parts as a call is lent them, zeros behind what the files hold.
pub struct Stored {
    /// What the two were named.
    words: [OsString; 2],
    actions: Vec<u8>,
    positions: Vec<u8>,
    /// How many of each the files hold.
    pub action_count: usize,
    position_count: usize,
}

/// The first action that does not stand, and what is wrong with it.
pub enum Fault {
    /// The start is no position, for these counters if they are out of range.
    Start(Vec<Counter>),
    Action {
        number: usize,
        why: Why,
    },
    /// Every action stands, and there are positions that no move leads to.
    Positions {
        owed: usize,
        held: usize,
    },
}

pub enum Why {
    Refused(Error),
    /// The position that the file has after a move is refused: that one and the one that the move leads to, if it is for another board, and
    /// the counters that differ.
    Position {
        refused: Error,
        boards: Option<(Board, Board)>,
        counters: Vec<Counter>,
    },
    Kind(u8),
    NoPosition,
    /// The call that the action stands for is accepted, but it leaves other bytes than the file has: of the action, or of the position.
    ActionBytes,
    PositionBytes,
}

/// A counter that is not what it must be.
pub struct Counter {
    name: &'static str,
    held: u16,
    owed: String,
}

/// The kind of an action that is a move.
const MAKE_MOVE: u8 = 1;

const CLOCK: &str = "half-move clock";
const NUMBER: &str = "move number";

impl Stored {
    /// Reads the files that two words name.
    pub fn load(words: &[OsString]) -> Result<Stored, Stop> {
        if words.iter().all(|word| word == "-") {
            return Err(Stop::trouble("standard input can be only one of ACTIONS and POSITIONS"));
        }
        let (actions, action_count) = part(&words[0], "action", ACTION_BYTES, ACTIONS_PART)?;
        let (positions, position_count) = part(&words[1], "position", POSITION_BYTES, POSITIONS_PART)?;
        if position_count == 0 {
            return Err(Stop::Trouble([input::shown(&words[1]), b": it is empty, but a log has a start"].concat()));
        }
        let words = [words[0].clone(), words[1].clone()];
        Ok(Stored { words, actions, positions, action_count, position_count })
    }

    /// The log, if it is good.
    pub fn good(&self) -> Result<Log, Stop> {
        match (self.fault(), self.log(self.action_count)) {
            (None, Some(log)) => Ok(log),
            (fault, _) => Err(Stop::Trouble(fault.map_or(vec![], |fault| self.told(&fault)))),
        }
    }

    /// What stands before a fault.
    pub fn standing(&self, fault: &Fault) -> Option<Log> {
        match fault {
            Fault::Start(_) => None,
            Fault::Action { number, .. } => self.log(number - 1),
            Fault::Positions { .. } => self.log(self.action_count),
        }
    }

    /// The move of an action, if it is one.
    pub fn move_of(&self, number: usize) -> Option<Move> {
        let action = &self.actions[ACTION_BYTES * (number - 1)..][..ACTION_BYTES];
        let made = u64::from(u16::from_le_bytes([action[2], action[3]]));
        (action[0] == MAKE_MOVE).then(|| Move::from_number(made).ok()).flatten()
    }

    /// What is said of a fault, with the file that is at fault.
    pub fn told(&self, fault: &Fault) -> Vec<u8> {
        let word = &self.words[usize::from(fault.is_of_positions())];
        [input::shown(word), b": ", fault.to_string().as_bytes()].concat()
    }

    /// The counts of the first `actions` actions.
    fn counts(&self, actions: usize) -> Counts {
        Counts { actions: actions as u64, moves: lent::moves_among(&self.actions, actions) }
    }

    /// The log of the first `actions` actions.
    pub fn log(&self, actions: usize) -> Option<Log> {
        self.stands(actions).then(|| Log::from_parts(&self.actions, &self.positions, self.counts(actions)).ok()).flatten()
    }

    fn stands(&self, actions: usize) -> bool {
        let counts = self.counts(actions);
        // Past the positions that are there the part has zeros: nothing should be said of a position that is missing.
        (counts.moves as usize) < self.position_count && lent::game_result(&self.actions, &self.positions, counts).is_ok()
    }

    /// The first fault, or none if the log is good. What stands in a good log stands in each beginning of it, so the first action that
    /// does not stand is found by halving.
    pub fn fault(&self) -> Option<Fault> {
        if self.stands(self.action_count) {
            let owed = self.counts(self.action_count).moves as usize + 1;
            return (owed < self.position_count).then_some(Fault::Positions { owed, held: self.position_count });
        }
        if !self.stands(0) {
            return Some(Fault::Start(self.start_counters()));
        }
        let (mut good, mut bad) = (0, self.action_count);
        while bad - good > 1 {
            let middle = (good + bad) / 2;
            if self.stands(middle) { good = middle } else { bad = middle }
        }
        Some(Fault::Action { number: bad, why: self.why(bad) })
    }

    /// The counters of the start that are out of range.
    fn start_counters(&self) -> Vec<Counter> {
        let Some(start) = lent::stored_position(&self.positions, 0) else { return vec![] };
        let Record { half_moves, full_moves, .. } = start.record;
        let empty = Board::new();
        let out = [
            (CLOCK, half_moves, 0, empty.half_moves(half_moves.into()).is_err()),
            (NUMBER, full_moves, 1, empty.full_moves(full_moves.into()).is_err()),
        ];
        let counter = |(name, held, least, _)| Counter { name, held, owed: format!("from {least} to {MAX_COUNT}") };
        out.into_iter().filter(|(.., is_out)| *is_out).map(counter).collect()
    }

    /// Makes the call that the action stands for, of a log that is good up to it, and sees what the archive answers.
    fn why(&self, number: usize) -> Why {
        let (mut actions, counts) = (self.actions.clone(), self.counts(number - 1));
        let action = &self.actions[ACTION_BYTES * (number - 1)..][..ACTION_BYTES];
        let (kind, colour, made) = (action[0], action[1], u64::from(u16::from_le_bytes([action[2], action[3]])));
        // The kinds of action as host/menkhodur.h numbers them.
        let call = match kind {
            MAKE_MOVE => return self.why_move(counts, made),
            2 => lent::game_offer_draw(&mut actions, &self.positions, counts, colour),
            3 => lent::game_accept_draw(&mut actions, &self.positions, counts),
            4 => lent::game_declare_draw(&mut actions, &self.positions, counts),
            5 => lent::game_resign(&mut actions, &self.positions, counts, colour),
            kind => return Why::Kind(kind),
        };
        call.map_or_else(Why::Refused, |_| Why::ActionBytes)
    }

    fn why_move(&self, counts: Counts, made: u64) -> Why {
        let moves = counts.moves as usize + 1;
        let after = if moves < self.position_count { lent::stored_position(&self.positions, moves) } else { None };
        let Some(after) = after else { return Why::NoPosition };
        let (mut actions, mut positions) = (self.actions.clone(), self.positions.clone());
        match lent::game_make_move(&mut actions, &mut positions, counts, made, after.given()) {
            Ok(_) if actions != self.actions => Why::ActionBytes,
            Ok(_) => Why::PositionBytes,
            Err(refused @ (Error::GameOver | Error::MoveNotListed | Error::LogFull)) => Why::Refused(refused),
            Err(refused) => self.why_position(counts, made, &after.record, refused),
        }
    }

    /// Compares the position after a move that came with the wrong one with the one that the move leads to.
    fn why_position(&self, counts: Counts, made: u64, held: &Record, refused: Error) -> Why {
        let before = lent::stored_position(&self.positions, counts.moves as usize);
        let Some(owed) = before.and_then(|before| lent::board_after(&before.record, made).ok()) else {
            return Why::Position { refused, boards: None, counters: vec![] };
        };
        let both = [(CLOCK, held.half_moves, owed.half_moves), (NUMBER, held.full_moves, owed.full_moves)];
        let counter = |(name, held, owed): (_, _, u16)| Counter { name, held, owed: owed.to_string() };
        let counters = both.into_iter().filter(|(_, held, owed)| held != owed).map(counter).collect();
        // Out of range may be something beside the record, and then the boards could be equal.
        let boards = if refused == Error::WrongRecord { Board::from_record(held).ok().zip(Board::from_record(&owed).ok()) } else { None };
        Why::Position { refused, boards, counters }
    }
}

/// A part, and how many entries the file has. More bytes than a part has are not read.
fn part(word: &OsStr, what: &str, size: usize, length: usize) -> Result<(Vec<u8>, usize), Stop> {
    let wrong = |why: String| Stop::Trouble([input::shown(word), b": ", why.as_bytes()].concat());
    let mut bytes = Vec::with_capacity(length + 1);
    let read = input::open(word).and_then(|file| file.take(length as u64 + 1).read_to_end(&mut bytes));
    let held = read.map_err(|error| Stop::Trouble(input::failed(word, &error)))?;
    if held > length {
        return Err(wrong(format!("more than {length} bytes, the most that the {what}s of a log may have")));
    }
    if held % size != 0 {
        let (whole, over) = (held / size, held % size);
        let old = match size == POSITION_BYTES && held % OLD_POSITION_BYTES == 0 {
            true => format!("; without counters, as before version 12, a position had {OLD_POSITION_BYTES}"),
            false => String::new(),
        };
        return Err(wrong(format!("{held} bytes are not a whole number of {what}s of {size} bytes: {whole}, and {over} over{old}")));
    }
    bytes.resize(length, 0);
    Ok((bytes, held / size))
}

impl Fault {
    /// Whether it is the file of the positions that is at fault, and not that of the actions.
    fn is_of_positions(&self) -> bool {
        match self {
            Fault::Start(_) | Fault::Positions { .. } => true,
            Fault::Action { why, .. } => matches!(why, Why::Position { .. } | Why::NoPosition | Why::PositionBytes),
        }
    }
}

impl fmt::Display for Fault {
    fn fmt(&self, f: &mut fmt::Formatter<'_>) -> fmt::Result {
        f.write_str("the log is not good: ")?;
        match self {
            Fault::Start(counters) if counters.is_empty() => f.write_str("the start is not a position"),
            Fault::Start(counters) => write!(f, "the start is not a position: {}", joined(counters)),
            Fault::Positions { owed, held } => write!(f, "its moves lead to {owed} positions, counting the start, but there are {held}"),
            Fault::Action { number, why } => write!(f, "action {number} does not stand: {why}"),
        }
    }
}

impl fmt::Display for Why {
    fn fmt(&self, f: &mut fmt::Formatter<'_>) -> fmt::Result {
        match self {
            Why::Refused(refused) => write!(f, "{refused}"),
            Why::Position { refused, boards, counters } => {
                write!(f, "{refused}")?;
                if let Some((held, owed)) = boards {
                    write!(f, ": it is {}, and the move leads to {}", held.to_fen_full(), owed.to_fen_full())?;
                }
                if counters.is_empty() { Ok(()) } else { write!(f, "; {}", joined(counters)) }
            }
            Why::Kind(kind) => write!(f, "there is no action of kind {kind}"),
            Why::NoPosition => f.write_str("the position after it is missing"),
            Why::ActionBytes => f.write_str("a byte of it is not 0 where it must be"),
            Why::PositionBytes => f.write_str("a byte of the position after it is not 0 where it must be"),
        }
    }
}

impl fmt::Display for Counter {
    fn fmt(&self, f: &mut fmt::Formatter<'_>) -> fmt::Result {
        write!(f, "its {} is {}, and must be {}", self.name, self.held, self.owed)
    }
}

fn joined(counters: &[Counter]) -> String {
    counters.iter().map(Counter::to_string).collect::<Vec<_>>().join("; ")
}
