//! `log-longer`: games of 1,025 to 4,096 moves and 2,049 to 8,192 actions (document 02, order 11) on the crate's `Game` and our log, up to each limit and
//! past it by one. The crate replays a game for each question, so all is asked at some places only: around the limits, old and new, and now and then between.

use crate::pair::Pair;
use crate::part::{Part, Tally};
use crate::roll;
use crate::rolls;
use crate::script::{self, Act, Script};
use both::abi::{self, ACTIONS_LENGTH, LONGEST_ROLL, MOST_ACTIONS, MOST_MOVES};
use both::games::moves_of;
use both::numbers::number_of;
use both::random::Random;
use std::cell::RefCell;

/// The limits of document 01.
const OLD_ACTIONS: usize = 2_048;
const OLD_MOVES: usize = 1_024;
/// All is asked after every so many actions.
const STRIDE: usize = 509;

pub struct Longer(RefCell<Pair>);

impl Longer {
    pub fn new() -> Longer {
        Longer(RefCell::new(Pair::new()))
    }
}

fn near(count: usize, limit: usize) -> bool {
    count.abs_diff(limit) <= 1
}

/// Whether all is asked after so many actions and moves, the last of them a move or not.
fn asked(n: usize, m: usize, moved: bool) -> bool {
    let actions = [OLD_ACTIONS, MOST_ACTIONS].iter().any(|limit| near(n, *limit));
    let moves = moved && [OLD_MOVES, MOST_MOVES].iter().any(|limit| near(m, *limit));
    n % STRIDE == 0 || actions || moves
}

/// Every call that reaches a limit, given to our log alone: 13, and nothing changes. One that the crate refuses is refused before that.
fn past(pair: &mut Pair, tally: &mut Tally) -> Result<(), String> {
    let (n, m) = (pair.log.action_count as usize, pair.log.move_count as usize);
    if pair.result() != 0 {
        return Ok(());
    }
    let full = n == MOST_ACTIONS;
    if let Some(legal) = moves_of(&pair.board()).first().filter(|_| full || m == MOST_MOVES) {
        pair.past(Act::Move(number_of(*legal)), tally)?;
    }
    if !full {
        return Ok(());
    }
    for act in [Act::Offer(0), Act::Offer(1), Act::Accept, Act::Declare, Act::Resign(0), Act::Resign(1)] {
        if act.play(&mut pair.game().clone()) == 0 {
            pair.past(act, tally)?;
        }
    }
    Ok(())
}

/// The game's roll by our writer, which is the paper's, and by our reader back to its start and actions.
fn rolled(pair: &Pair, script: &Script, tally: &mut Tally) -> Result<(), String> {
    let (record, count) = (rolls::start_of(script), pair.log.action_count);
    let owed = roll::write(&record, pair.game().actions());
    let mut room = vec![0; LONGEST_ROLL];
    let answer = abi::roll_write(record, &pair.log.actions, count, &mut room);
    if answer.number != 0 || room[..answer.value as usize] != owed {
        return Err(format!("the roll of {} actions: {:?}, or other bytes than the {} owed", count, answer, owed.len()));
    }
    tally.count("rolls: write", true);
    let mut part = vec![0xA5; ACTIONS_LENGTH];
    let read = abi::roll_read(&owed, &mut part);
    let used = 4 * count as usize;
    let same = part[..used] == pair.log.actions[..used] && part[used..].iter().all(|byte| *byte == 0xA5);
    if (read.number, read.actions, read.board) != (0, count, record) || !same {
        return Err(format!("the roll of {} actions is read as {} with {}", count, read.number, read.actions));
    }
    tally.count("rolls: read", true);
    Ok(())
}

/// A round of knights, so many moves, and offers up to so many actions.
fn round(moves: usize, actions: usize) -> Script {
    let acts = script::knights(moves).into_iter().chain((moves..actions).map(|n| Act::Offer((n % 2) as u8))).collect();
    Script { start: both::games::STARTS[0].to_string(), acts, claim: None, laws: None }
}

impl Part for Longer {
    type Input = Script;
    const NAME: &'static str = "log-longer";

    /// Each limit, old and new, reached exactly, one less and one more of the old, and both at once; the game that is full in both ways.
    fn fixed(&self) -> Box<dyn Iterator<Item = Script>> {
        let moves = [OLD_MOVES, OLD_MOVES + 1, MOST_MOVES - 1, MOST_MOVES].map(|moves| round(moves, moves + 1));
        let actions = [OLD_ACTIONS, OLD_ACTIONS + 1, MOST_ACTIONS - 1, MOST_ACTIONS].map(|actions| round(9, actions));
        Box::new(moves.into_iter().chain(actions).chain([round(OLD_MOVES + 1, OLD_ACTIONS + 1), script::full()]))
    }

    fn random(&mut self, random: &mut Random) -> Option<Script> {
        let moves = match random.once_in(6) {
            true => MOST_MOVES,
            false => OLD_MOVES + 1 + random.below(MOST_MOVES - OLD_MOVES),
        };
        let least = moves.max(OLD_ACTIONS + 1);
        let actions = match random.once_in(6) {
            true => MOST_ACTIONS,
            false => least + random.below(MOST_ACTIONS - least + 1),
        };
        Some(script::long(moves, actions, random))
    }

    fn compare(&self, script: &Script, tally: &mut Tally) -> Result<(), String> {
        let mut pair = self.0.borrow_mut();
        pair.begin(&script.start)?;
        for act in &script.acts {
            let yes = pair.give(*act)?;
            tally.count(act.label(), yes);
            let (n, m) = (pair.log.action_count as usize, pair.log.move_count as usize);
            if asked(n, m, matches!(act, Act::Move(_))) {
                pair.ask(tally)?;
            }
        }
        pair.ask(tally)?;
        pair.end()?;
        rolled(&pair, script, tally)?;
        past(&mut pair, tally)
    }

    /// None: a game differs by its length, and trying all shorter ones would take hours. What is shown is its end.
    fn smaller(&self, _: &Script) -> Vec<Script> {
        vec![]
    }

    fn show(&self, script: &Script) -> String {
        let last: Vec<String> = script.acts.iter().rev().take(8).map(|a| a.show()).collect();
        format!("{:?} then {} actions, the last of them, newest first: {}", script.start, script.acts.len(), last.join(" "))
    }
}
