//! `rolls`: games go through both the crate's `Game` and our log, the log's roll, our reader and back into a `Game`. The roll
//! owed and what is owed for any other bytes come from `roll`, which was written from the paper. All bytes are given to the reader of old rolls too
//! (document 02, order 12), and what it makes of them is held against the reader of new ones.

use crate::clock::Counters;
use crate::damage;
use crate::lent::{check_bytes, Lent};
use crate::pair::{action_bytes, Pair};
use crate::part::{Part, Tally};
use crate::records;
use crate::roll::{self, action_of, Form};
use crate::rollwork;
use crate::script::{self, Script};
use crate::texts;
use both::abi::{self, Record, Roll, ACTIONS_LENGTH};
use both::games::board_of;
use both::numbers::{builder_of, record_of, result_number};
use both::random::Random;
use chess::{Action, Board, BoardBuilder, Game};
use std::cell::RefCell;
use std::convert::TryFrom;

#[derive(Clone)]
pub enum Input {
    Game(Script),
    /// A roll, and how many bytes the part lent for its actions has.
    Read(Vec<u8>, usize),
    Write(Written),
}

/// What is given to the writer.
#[derive(Clone)]
pub struct Written {
    pub start: Record,
    pub part: Vec<u8>,
    pub count: u64,
    /// How many bytes the lent room is longer than the roll.
    pub off: i64,
}

pub struct Rolls {
    pair: RefCell<Pair>,
    lent: RefCell<Lent>,
    /// Damaged rolls of the last game that was chosen for it.
    damaged: Box<dyn Iterator<Item = Vec<u8>>>,
}

/// The longest part that is lent to the reader.
const LONGEST_PART: usize = ACTIONS_LENGTH + 800;

impl Rolls {
    pub fn new() -> Rolls {
        let lent = RefCell::new(Lent::new(LONGEST_PART));
        Rolls { pair: RefCell::new(Pair::new()), lent, damaged: Box::new(std::iter::empty()) }
    }

    /// One of our readers on a roll: its answer and each byte of the part, its guards and the text. Gives the actions' bytes.
    fn read(&self, form: Form, roll: &[u8], room: usize) -> Result<(Roll, Vec<u8>), String> {
        let owed = roll::owed_read(form, roll, room);
        let text = roll.to_vec();
        let mut lent = self.lent.borrow_mut();
        let ours = match form {
            Form::New => abi::roll_read(&text, lent.part(room)),
            Form::Old => abi::roll_read_old(&text, lent.part(room)),
        };
        let (answer, bytes) = match owed {
            Ok((board, bytes)) => (Roll { number: 0, actions: bytes.len() as u64 / 4, board }, bytes),
            Err(number) => (Roll { number, actions: 0, board: records::ZEROS }, vec![]),
        };
        let untouched = lent.holds(&bytes);
        if ours != answer {
            let shown = |r: &Roll| format!("{} with {} actions, {}", r.number, r.actions, records::show(&r.board));
            return Err(format!("{:?} form, part of {}: owed {}, ours {}", form, room, shown(&answer), shown(&ours)));
        }
        if !untouched || text != roll {
            return Err(format!("{:?} form, part of {}: owed {}, and a lent byte is not as owed", form, room, answer.number));
        }
        Ok((answer, bytes))
    }

    /// A roll that may be anything, by both readers. One that the first accepts must be written back as it came.
    fn compare_read(&self, roll: &[u8], room: usize, tally: &mut Tally) -> Result<(), String> {
        let (answer, bytes) = self.read(Form::New, roll, room)?;
        tally.count("rolls: read", answer.number == 0);
        if answer.number == 0 {
            written(&answer, &bytes, roll)?;
            tally.count("rolls: written back", true);
        }
        self.compare_old(roll, room, tally)
    }

    /// An old roll is accepted exactly if the one with 0 and 1 put in behind its 68th byte is accepted as a new one, with the same start and actions,
    /// and that is how it is written. A roll that is too short for it is refused.
    fn compare_old(&self, roll: &[u8], room: usize, tally: &mut Tally) -> Result<(), String> {
        let old = self.read(Form::Old, roll, room)?;
        let accepted = old.0.number == 0;
        tally.count("rolls: read old", accepted);
        let Some(made) = roll::made_new(roll) else {
            return if accepted { Err("an old roll without a whole record is accepted".to_string()) } else { Ok(()) };
        };
        let new = self.read(Form::New, &made, room)?;
        if accepted != (new.0.number == 0) || accepted && old != new {
            return Err(format!("the old reader gives {:?}, the new one with 0 and 1 put in {:?}", old, new));
        }
        tally.count("rolls: old as new", accepted);
        if accepted {
            written(&old.0, &old.1, &made)?;
            tally.count("rolls: written anew", true);
        }
        Ok(())
    }

    fn compare_write(&self, given: &Written, tally: &mut Tally) -> Result<(), String> {
        let owed = roll::owed_write(&given.start, &given.part, given.count);
        let lent = given.part.clone();
        let owed = owed.as_deref().map_err(|number| *number);
        // Without a roll the room is measured from 0, so it is lent some bytes that must stay.
        let off = if owed.is_ok() { given.off } else { given.off + 200 };
        let yes = check_bytes(owed, off, |out| abi::roll_write(given.start, &lent, given.count, out), show_bytes)?;
        if lent != given.part {
            return Err("the lent actions were changed".to_string());
        }
        tally.count("rolls: write", yes);
        Ok(())
    }

    fn compare_game(&self, script: &Script, tally: &mut Tally) -> Result<(), String> {
        let mut pair = self.pair.borrow_mut();
        pair.begin(&script.start)?;
        for act in &script.acts {
            pair.give(*act)?;
        }
        let record = start_of(script);
        let owed = roll::write(&record, pair.game().actions());
        for off in [0, 9, -1, -(owed.len() as i64)] {
            let write = |out: &mut [u8]| abi::roll_write(record, &pair.log.actions, pair.log.action_count, out);
            tally.count("rolls: write", check_bytes(Ok(&owed), off, write, show_bytes)?);
        }
        let (answer, bytes) = self.read(Form::New, &owed, ACTIONS_LENGTH)?;
        let used: Vec<u8> = pair.game().actions().iter().flat_map(action_bytes).collect();
        let same = answer == Roll { number: 0, actions: pair.log.action_count, board: record };
        if !same || bytes != used || !pair.log.actions.starts_with(&bytes) {
            return Err(format!("the reader gives other actions than the log has: {:?} {:?}", answer, bytes));
        }
        tally.count("rolls: read", true);
        self.compare_old(&roll::write_as(Form::Old, &record, pair.game().actions()), ACTIONS_LENGTH, tally)?;
        compare_ends(&mut pair, &answer.board, &bytes, tally)
    }
}

/// What was read is written as these bytes.
fn written(read: &Roll, bytes: &[u8], owed: &[u8]) -> Result<(), String> {
    let mut part = vec![0xA5; ACTIONS_LENGTH];
    part[..bytes.len()].copy_from_slice(bytes);
    check_bytes(Ok(owed), 0, |out| abi::roll_write(read.board, &part, read.actions, out), show_bytes).map(|_| ())
}

/// Result, claim, and whether an offer could be accepted.
fn end_of(game: &Game) -> (u64, bool, bool) {
    (result_number(game.result()), game.can_declare_draw(), game.clone().accept_draw())
}

/// The game of a start and actions that were read. It is the crate that says whether each may be done.
fn replayed(start: &Record, bytes: &[u8]) -> Result<Game, String> {
    let board = Board::try_from(&builder_of(start)).map_err(|e| format!("the start that was read: {}", e))?;
    let mut game = Game::new_with_board(board);
    for action in bytes.chunks_exact(4).map(action_of) {
        let yes = match action {
            Some(Action::MakeMove(m)) => game.make_move(m),
            Some(Action::OfferDraw(color)) => game.offer_draw(color),
            Some(Action::AcceptDraw) => game.accept_draw(),
            Some(Action::DeclareDraw) => game.declare_draw(),
            Some(Action::Resign(color)) => game.resign(color),
            None => false,
        };
        if !yes {
            return Err(format!("the crate refuses {:?} of the actions that were read", action));
        }
    }
    Ok(game)
}

/// The first game, the one replayed from what was read, and the log: all three must stand alike.
fn compare_ends(pair: &mut Pair, start: &Record, bytes: &[u8], tally: &mut Tally) -> Result<(), String> {
    let again = replayed(start, bytes)?;
    if again.actions() != pair.game().actions() || again.current_position() != pair.board() {
        return Err("the game replayed from the roll is another".to_string());
    }
    let (result, claim) = (pair.log.result().value, pair.log.can_declare_draw().value == 1);
    // 13 comes after 14: an offer stands, and a full log has no place for its acceptance.
    let log = (result, claim, matches!(pair.log.accept_draw().number, 0 | 13));
    let (first, second) = (end_of(pair.game()), end_of(&again));
    if first != second || first != log {
        return Err(format!("result, claim and offer: crate {:?}, from the roll {:?}, log {:?}", first, second, log));
    }
    tally.count("rolls: result", first.0 != 0);
    tally.count("rolls: claim", first.1);
    tally.count("rolls: offer", first.2);
    Ok(())
}

/// The crate's record of a script's start, with the counters that its text says.
pub fn start_of(script: &Script) -> Record {
    Counters::said_by(&script.start).on(record_of(&BoardBuilder::from(board_of(&script.start))))
}

/// The start and the actions of what the crate accepts of a script.
pub fn game_of(script: &Script) -> (Record, Vec<Action>) {
    let mut game = Game::new_with_board(board_of(&script.start));
    for act in &script.acts {
        act.play(&mut game);
    }
    (start_of(script), game.actions().clone())
}

/// Its roll.
pub fn roll_of(script: &Script) -> Vec<u8> {
    rolled(Form::New, script)
}

fn rolled(form: Form, script: &Script) -> Vec<u8> {
    let (start, actions) = game_of(script);
    roll::write_as(form, &start, &actions)
}

/// Every damage of the rolls, new and old, of all told scripts.
fn told_damaged() -> impl Iterator<Item = Vec<u8>> {
    let told = script::told().into_iter().chain(script::counted());
    let rolls = told.flat_map(|s| [Form::New, Form::Old].map(|form| rolled(form, &s)));
    rolls.flat_map(|roll| damage::all(roll, 0, Random::new(1, "damage")))
}

/// Every damage of a roll, and as many rolls with two.
fn damaged(roll: &[u8], random: &mut Random) -> Box<dyn Iterator<Item = Vec<u8>>> {
    let twice: Vec<Vec<u8>> = (0..roll.len()).map(|_| damage::twice(roll, random)).collect();
    Box::new(damage::all(roll.to_vec(), 0, random.clone()).chain(twice))
}

/// Good and bad rolls with parts of other lengths.
fn short_parts() -> impl Iterator<Item = Input> {
    let told = [Form::New, Form::Old].map(|form| rolled(form, &script::told()[1]));
    let rolls = [vec![], vec![128], vec![13; 69], vec![0; 69]].into_iter().chain(told);
    let lengths = [0, 1, 4, 8, ACTIONS_LENGTH - 4, ACTIONS_LENGTH - 1, ACTIONS_LENGTH + 1, LONGEST_PART];
    rolls.flat_map(move |roll| lengths.map(|length| Input::Read(roll.clone(), length)))
}

/// Bytes in decimal, equal ones next to each other told once.
pub fn show_bytes(bytes: &[u8]) -> String {
    let runs = bytes.chunk_by(|a, b| a == b);
    let shown = runs.map(|run| match run.len() {
        1 => run[0].to_string(),
        n => format!("{}x{}", n, run[0]),
    });
    format!("[{}]", shown.collect::<Vec<_>>().join(" "))
}

impl Part for Rolls {
    type Input = Input;
    const NAME: &'static str = "rolls";

    fn fixed(&self) -> Box<dyn Iterator<Item = Input>> {
        let games = script::fixed().into_iter().chain([script::full()]).chain(script::left_open()).map(Input::Game);
        let reads = rollwork::numbers().chain(rollwork::limits()).chain(told_damaged());
        let reads = reads.map(|roll| Input::Read(roll, ACTIONS_LENGTH));
        Box::new(games.chain(reads).chain(short_parts()).chain(rollwork::writes().into_iter().map(Input::Write)))
    }

    fn random(&mut self, random: &mut Random) -> Option<Input> {
        if let Some(roll) = self.damaged.next() {
            let odd = [0, ACTIONS_LENGTH - 1, ACTIONS_LENGTH + 1, LONGEST_PART];
            let room = if random.once_in(64) { *random.pick(&odd) } else { ACTIONS_LENGTH };
            return Some(Input::Read(roll, room));
        }
        Some(match random.below(16) {
            0 => {
                let form = if random.once_in(3) { Form::Old } else { Form::New };
                let roll = rolled(form, &script::random(random));
                self.damaged = damaged(&roll, random);
                Input::Read(roll, ACTIONS_LENGTH)
            }
            1..=3 => Input::Write(rollwork::random(random)),
            _ => Input::Game(script::random(random)),
        })
    }

    fn compare(&self, input: &Input, tally: &mut Tally) -> Result<(), String> {
        match input {
            Input::Game(script) => self.compare_game(script, tally),
            Input::Read(roll, room) => self.compare_read(roll, *room, tally),
            Input::Write(given) => self.compare_write(given, tally),
        }
    }

    fn smaller(&self, input: &Input) -> Vec<Input> {
        match input {
            Input::Game(script) => {
                let start = |acts| Script { start: script.start.clone(), acts, claim: None, laws: None };
                texts::cut_lists(&script.acts).into_iter().map(start).map(Input::Game).collect()
            }
            Input::Read(roll, room) => rollwork::smaller_rolls(roll).into_iter().map(|r| Input::Read(r, *room)).collect(),
            Input::Write(given) => given.smaller().into_iter().map(Input::Write).collect(),
        }
    }

    fn show(&self, input: &Input) -> String {
        match input {
            Input::Game(script) => {
                let acts: Vec<String> = script.acts.iter().map(|a| a.show()).collect();
                format!("{:?} then {} actions: {}", script.start, acts.len(), acts.join(" "))
            }
            Input::Read(roll, room) => format!("read {} into {} bytes", show_bytes(roll), room),
            Input::Write(given) => given.show(),
        }
    }
}
