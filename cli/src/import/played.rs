//! A game's text played from its start: the archive's walk finds each move, a host lends the list, and the archive reads the move over it, plays
//! it and writes the key of what it leads to.

use super::loose::{self, Counts};
use super::named::Unnamed;
use super::piped::Piped;
use super::refused::{At, Ended, Refusal};
use super::sequences::Sequences;
use super::store::Keys;
use super::why;
use super::written::{self, Met};
use crate::options::Stop;
use menkhodur::lent::{self, ACTIONS_PART, DEEPEST_LEVEL, MAX_FEN, MAX_MOVES, MAX_ROLL, MovePart, Record};
use menkhodur::{Error, Lends, Lent};
use menkhodur_moves::Legal;

/// A host whose errors are told apart.
pub trait Host: Lends {
    /// The words of trouble that ends the import. None: this position alone has no list that could be lent.
    fn trouble(error: Self::Error) -> Option<String>;

    /// No list is asked for any more. An error is trouble, in words.
    fn end(&mut self) -> Result<(), String> {
        Ok(())
    }
}

impl Host for Legal {
    fn trouble(_: Error) -> Option<String> {
        None
    }
}

impl Host for Piped {
    fn trouble(error: String) -> Option<String> {
        Some(error)
    }

    fn end(&mut self) -> Result<(), String> {
        Piped::end(self)
    }
}

/// The most moves that the variations of a game may have, so that its keys find room.
pub const MOST_VARIATIONS: u64 = 1 << 20;

/// What is played, and how.
#[derive(Clone, Copy, Debug)]
pub struct Form {
    pub variations: bool,
    pub loose: bool,
    /// Whether keys and rolls are kept.
    pub kept: bool,
}

/// Plays games, one after the other, in rooms that are made once.
pub struct Player<H> {
    host: H,
    form: Form,
    list: Lent,
    lines: Sequences,
    /// The moves as the walk has met them, if variations are kept.
    met: Vec<Met>,
    key: [u8; MAX_FEN],
    actions: Vec<u8>,
    roll: Vec<u8>,
    repaired: Vec<u8>,
    played: Played,
}

/// What came of a game.
#[derive(Default)]
pub struct Played {
    /// Half-moves of the main line, and those of variations that were played.
    pub moves: u64,
    pub variations: u64,
    /// If they are kept: the keys of the start and of the main line, those of variations, and the roll.
    pub keys: Keys,
    pub branches: Keys,
    pub roll: Vec<u8>,
    /// The moves with the variations, if they are kept and it has some.
    pub text: Option<String>,
    /// What was repaired.
    pub loose: Counts,
    /// The side to move at the end of the main line, 0 white or 1 black, and how the game is over there, if it is.
    pub side: u8,
    pub over: Option<Over>,
}

/// How a position without moves is over.
#[derive(Clone, Copy, Debug, PartialEq, Eq)]
pub enum Over {
    Mate,
    Stalemate,
}

/// A move that was played: its number, the record after it, and the length of that record's key in the room.
struct Step {
    number: u16,
    record: Record,
    key: usize,
}

/// Reads one move text over a list, plays it, and writes the key of the record after it.
fn step(text: &[u8], record: &Record, list: &[u16], out: &mut [u8]) -> Result<Step, Error> {
    lent::play(text, record, list, out).map(|made| Step { number: made.played, record: made.record, key: made.key })
}

/// The same for a move that was read otherwise.
fn step_by(number: u16, record: &Record, out: &mut [u8]) -> Result<Step, Error> {
    let record = lent::board_after(record, number.into())?;
    let key = lent::fen_write(&record, out)?;
    Ok(Step { number, record, key })
}

/// A move text without the `!` and `?` behind it, which no form of SAN has.
fn bare(text: &[u8]) -> &[u8] {
    let end = text.iter().rposition(|byte| *byte != b'!' && *byte != b'?').map_or(0, |last| last + 1);
    &text[..end]
}

/// What the archive never answers to what it is asked here.
fn unforeseen(error: Error) -> Stop {
    Stop::trouble(format!("the archive refuses what it has given itself: {error}"))
}

/// A refusal of the walk. The place from which a walk began is no place of the text's own: the check tells that.
fn not_walked(text: &[u8], error: Error) -> Refusal {
    let error = lent::pgn_check(text).err().unwrap_or(error);
    let offset = error.offset().unwrap_or_default().min(text.len());
    let left = &text[offset..];
    let shown = left.iter().position(u8::is_ascii_whitespace).unwrap_or(left.len()).min(SHOWN);
    Refusal {
        kind: "text",
        answer: error.number(),
        at: At::Text(offset),
        reason: error.meaning().to_string(),
        text: left[..shown].to_vec(),
    }
}

/// How much is shown of a text that is no token.
const SHOWN: usize = 32;

impl<H: Host> Player<H> {
    pub fn new(host: H, form: Form) -> Player<H> {
        let empty = Record::from([0; 68]);
        Player {
            host,
            form,
            list: Lent::new(),
            lines: Sequences::new(&empty),
            met: vec![],
            key: [0; MAX_FEN],
            actions: vec![0; ACTIONS_PART],
            roll: vec![0; MAX_ROLL],
            repaired: vec![],
            played: Played::default(),
        }
    }

    /// Plays a text from a settled start. One that is refused as it stands is played once more as repaired, if that is wanted: so a repair
    /// never changes what can be read without it.
    pub fn play(&mut self, text: &[u8], start: &Record) -> Result<Played, Ended> {
        match self.play_as(text, start, None) {
            Err(Ended::Refused(_)) if self.form.loose => {
                let mut repaired = std::mem::take(&mut self.repaired);
                let counts = loose::repair(text, &mut repaired);
                let ended = self.play_as(&repaired, start, Some(counts));
                self.repaired = repaired;
                ended
            }
            ended => ended,
        }
    }

    /// No game is played any more.
    pub fn end(&mut self) -> Result<(), Stop> {
        self.host.end().map_err(Stop::trouble)
    }

    /// Plays a text as it stands, or as it was repaired.
    fn play_as(&mut self, text: &[u8], start: &Record, repaired: Option<Counts>) -> Result<Played, Ended> {
        self.played = Played { loose: repaired.unwrap_or_default(), ..Played::default() };
        self.lines.begin(start);
        self.met.clear();
        let key = lent::fen_write(start, &mut self.key).map_err(unforeseen)?;
        self.keep_key(0, key);
        self.walk(text, repaired.is_some())?;
        self.finish(start)?;
        Ok(std::mem::take(&mut self.played))
    }

    fn walk(&mut self, text: &[u8], loose: bool) -> Result<(), Ended> {
        let (mut offset, mut level) = (0, 0);
        loop {
            let next = lent::pgn_next(text, offset as u64, level).map_err(|error| not_walked(text, error))?;
            let Some(part) = next else { return Ok(()) };
            if self.form.variations {
                self.lines.cross(level as usize, part.closed, part.opened);
            }
            if self.form.variations || part.level == 0 {
                self.make(text, &part, loose)?;
            }
            (offset, level) = (part.start + part.length, part.level);
        }
    }

    /// Makes the move that the walk has met.
    fn make(&mut self, text: &[u8], part: &MovePart, loose: bool) -> Result<(), Ended> {
        let level = (part.level as usize).min(DEEPEST_LEVEL);
        let said = bare(&text[part.start..part.start + part.length]);
        self.count(level, part.start, said)?;
        let record = self.lines.now(level);
        let is_lent = self.lend(&record, said)?;
        let step = match step(said, &record, self.list.as_slice(), &mut self.key) {
            Ok(step) if is_lent => step,
            Err(Error::InvalidSanMove) | Ok(_) => self.make_otherwise(said, &record, part, loose)?,
            Err(error) => return Err(unforeseen(error).into()),
        };
        self.keep(level, &step);
        if self.form.variations && self.form.kept {
            self.met.push(Met { closed: part.closed as u8, opened: part.opened as u8, number: step.number });
        }
        self.lines.played(level, &step.record);
        Ok(())
    }

    /// A move text that is not read as it stands.
    fn make_otherwise(&mut self, said: &[u8], record: &Record, part: &MovePart, loose: bool) -> Result<Step, Ended> {
        let refused = |error: Error, reason: String| {
            Ended::from(Refusal { kind: "move", answer: error.number(), at: At::Text(part.start), reason, text: said.to_vec() })
        };
        if !self.lend(record, b"")? {
            return Err(refused(Error::ListOutOfRange, Error::ListOutOfRange.meaning().to_string()));
        }
        let list = self.list.as_slice();
        let Some(read) = loose.then(|| loose::read(record, list, said)).flatten() else {
            return Err(refused(Error::InvalidSanMove, why::not_read(record, list, said)));
        };
        self.played.loose.add(read.kinds);
        Ok(step_by(read.number, record, &mut self.key).map_err(unforeseen)?)
    }

    /// Counts a move, if there may be one more.
    fn count(&mut self, level: usize, start: usize, said: &[u8]) -> Result<(), Refusal> {
        let (count, most, answer) = match level {
            0 => (&mut self.played.moves, MAX_MOVES as u64, Error::LogFull.number()),
            _ => (&mut self.played.variations, MOST_VARIATIONS, 0),
        };
        if *count == most {
            let of = if level == 0 { "" } else { " in variations" };
            let reason = format!("the game has more than {most} moves{of}");
            return Err(Refusal { kind: "limit", answer, at: At::Text(start), reason, text: said.to_vec() });
        }
        *count += 1;
        Ok(())
    }

    /// Has a list lent. Answers whether there is one.
    fn lend(&mut self, record: &Record, text: &[u8]) -> Result<bool, Stop> {
        match self.host.lend(record, text, &mut self.list).map_err(H::trouble) {
            Ok(()) => Ok(true),
            Err(None) => Ok(false),
            Err(Some(words)) => Err(Stop::trouble(words)),
        }
    }

    fn keep(&mut self, level: usize, step: &Step) {
        if level == 0 {
            let [low, high] = step.number.to_le_bytes();
            let at = lent::ACTION_BYTES * (self.played.moves as usize - 1);
            self.actions[at..at + lent::ACTION_BYTES].copy_from_slice(&[1, 0, low, high]);
        }
        self.keep_key(level, step.key);
    }

    fn keep_key(&mut self, level: usize, length: usize) {
        if self.form.kept {
            let keys = if level == 0 { &mut self.played.keys } else { &mut self.played.branches };
            keys.push(&self.key[..length]);
        }
    }

    /// The moves with the variations. A game without any has its roll, which says as much.
    fn text(&mut self, start: &Record) -> Result<Option<String>, Stop> {
        if self.played.variations == 0 {
            return Ok(None);
        }
        let text = written::text(&mut self.host, &mut self.list, start, &self.met);
        text.map(Some).map_err(|unnamed| match unnamed {
            Unnamed::Refused(error) => unforeseen(error),
            Unnamed::Trouble(words) => Stop::trouble(words),
        })
    }

    /// The end of the text: the roll, and whether the game is over on the board.
    fn finish(&mut self, start: &Record) -> Result<(), Stop> {
        let length = lent::roll_write(start, &self.actions, self.played.moves, &mut self.roll).map_err(unforeseen)?;
        if self.form.kept {
            self.played.roll = self.roll[..length].to_vec();
            self.played.text = self.text(start)?;
        }
        let last = self.lines.now(0);
        self.played.side = last.numbers[64];
        if self.lend(&last, b"")? && self.list.is_empty() {
            self.played.over = Some(if menkhodur_moves::in_check(&last) { Over::Mate } else { Over::Stalemate });
        }
        Ok(())
    }
}
