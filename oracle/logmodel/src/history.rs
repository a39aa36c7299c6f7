//! A game as the calls that were accepted, with what documents 01 and 02 say of the next one, of results and of claims.

use crate::after::{counters_after, record_after};
use crate::limits::{ACTION, MOST_ACTIONS, MOST_MOVES, POSITION};
use crate::position::{Position, BLACK_RIGHTS, SIDE, WHITE_RIGHTS};

const MOVE: u8 = 1;
const OFFER: u8 = 2;
const ACCEPT: u8 = 3;
const DECLARE: u8 = 4;
const RESIGN: u8 = 5;

const WHITE_PAWN: u8 = 1;
const BLACK_PAWN: u8 = 7;

/// Fifty moves of each side.
const FIFTY_MOVES_OF_EACH: u64 = 100;

#[derive(Clone)]
pub enum Call {
    Move(u64, Position),
    Offer(u8),
    Accept,
    Declare,
    Resign(u8),
}

impl Call {
    /// The 4 bytes of an accepted call: kind, colour, the move's low byte and its high byte, unused fields 0.
    pub fn bytes(&self) -> [u8; ACTION] {
        match self {
            Call::Move(m, _) => [MOVE, 0, (m % 256) as u8, (m / 256) as u8],
            Call::Offer(colour) => [OFFER, *colour, 0, 0],
            Call::Accept => [ACCEPT, 0, 0, 0],
            Call::Declare => [DECLARE, 0, 0, 0],
            Call::Resign(colour) => [RESIGN, *colour, 0, 0],
        }
    }
}

/// The start and one position after each move; the calls. An empty list of positions is no game.
pub struct History {
    positions: Vec<Position>,
    calls: Vec<Call>,
}

/// The eight numbers of a ruling, behind its answer number: both counts, how many earlier positions of the run equal the last and which are the two
/// earliest, the claim by each count (1 by the count, 2 by equal positions, 3 by both).
pub type Ruling = [u64; 7];

impl History {
    /// The history that leaves these bytes and counts, if there is one: the log is good. The parts are long enough for the counts.
    pub fn of(actions: &[u8], positions: &[u8], n: usize, m: usize) -> Option<History> {
        let mut stored = positions[..POSITION * (m + 1)].chunks_exact(POSITION);
        let start = Position::stored(stored.next()?)?;
        if start.answer() != 0 {
            return None;
        }
        let mut history = History { positions: vec![start], calls: Vec::new() };
        for action in actions[..ACTION * n].chunks_exact(ACTION) {
            let call = match action[0] {
                MOVE => Call::Move(u64::from(action[2]) + 256 * u64::from(action[3]), Position::stored(stored.next()?)?),
                OFFER => Call::Offer(action[1]),
                ACCEPT => Call::Accept,
                DECLARE => Call::Declare,
                RESIGN => Call::Resign(action[1]),
                _ => return None,
            };
            if history.answer(&call) != 0 || call.bytes() != action {
                return None;
            }
            history.add(call);
        }
        stored.next().is_none().then_some(history)
    }

    fn add(&mut self, call: Call) {
        if let Call::Move(_, next) = &call {
            self.positions.push(next.clone());
        }
        self.calls.push(call);
    }

    fn last(&self) -> &Position {
        self.positions.last().expect("a start")
    }

    fn side(&self) -> u8 {
        self.last().record[SIDE]
    }

    /// 10, then each call's own checks, in the order of document 01, with 24 by document 02; else 0.
    pub fn answer(&self, call: &Call) -> u64 {
        if self.result() != 0 {
            return 10;
        }
        let own = match call {
            Call::Move(m, next) => self.answer_to_move(*m, next),
            Call::Offer(colour) | Call::Resign(colour) if *colour > 1 => 5,
            Call::Accept if !self.offer_stands() => 14,
            Call::Declare if !self.claim_stands() => 15,
            _ => 0,
        };
        let no_room = match call {
            Call::Move(..) => self.positions.len() > MOST_MOVES,
            _ => false,
        };
        if own == 0 && (no_room || self.calls.len() >= MOST_ACTIONS) {
            return 13;
        }
        own
    }

    /// 11, 5, 6, 12, 24.
    fn answer_to_move(&self, m: u64, next: &Position) -> u64 {
        if !self.last().list.iter().any(|listed| u64::from(*listed) == m) {
            return 11;
        }
        if next.answer() != 0 {
            return next.answer();
        }
        if next.record[SIDE] == self.side() {
            return 12;
        }
        let last = self.last();
        if next.record != record_after(&last.record, m) || next.counters != counters_after(&last.record, last.counters, m) {
            return 24;
        }
        0
    }

    /// 1 to 7 in the order of `GameResult`: white checkmates, white resigns, black checkmates, black resigns, stalemate, a draw accepted, a draw
    /// declared; 0 for none.
    pub fn result(&self) -> u64 {
        if self.last().list.is_empty() {
            return match (self.last().check, self.side()) {
                (0, _) => 5,
                (_, 0) => 3,
                _ => 1,
            };
        }
        match self.calls.last() {
            Some(Call::Resign(0)) => 2,
            Some(Call::Resign(_)) => 4,
            Some(Call::Accept) => 6,
            Some(Call::Declare) => 7,
            _ => 0,
        }
    }

    /// The last action, by either colour, or the last but one, by the side not to move.
    fn offer_stands(&self) -> bool {
        match self.calls.as_slice() {
            [.., Call::Offer(_)] => true,
            [.., Call::Offer(colour), _] => *colour != self.side(),
            _ => false,
        }
    }

    /// The reversible count of document 01, the count of article 9.3, which a change of rights leaves running, and the run as numbers of positions.
    fn counts_and_run(&self) -> (u64, u64, Vec<usize>) {
        let moves = self.calls.iter().filter_map(|call| if let Call::Move(m, _) = call { Some(*m as usize) } else { None });
        let (mut count, mut laws_count, mut run) = (0, 0, vec![0]);
        for (k, m) in moves.enumerate() {
            let (before, after) = (&self.positions[k].record, &self.positions[k + 1].record);
            if matches!(before[m % 64], WHITE_PAWN | BLACK_PAWN) || before[m / 64 % 64] != 0 {
                (count, laws_count) = (0, 0);
                run.clear();
            } else {
                (count, laws_count) = (count + 1, laws_count + 1);
            }
            if before[WHITE_RIGHTS..=BLACK_RIGHTS] != after[WHITE_RIGHTS..=BLACK_RIGHTS] {
                count = 0;
                run.clear();
            }
            run.push(k + 1);
        }
        (count, laws_count, run)
    }

    pub fn ruling(&self) -> Ruling {
        let (count, laws_count, run) = self.counts_and_run();
        // "Equality of positions for repetition ignores both" counters.
        let key = |k: usize| (&self.positions[k].record, &self.positions[k].list);
        let (last, earlier) = run.split_last().expect("the last position is in the run");
        let equal: Vec<usize> = earlier.iter().copied().filter(|k| key(*k) == key(*last)).collect();
        let place = |nth: usize| equal.get(nth).map_or(0, |k| *k as u64);
        let claim = |count: u64| match self.result() {
            0 => u64::from(count >= FIFTY_MOVES_OF_EACH) + 2 * u64::from(equal.len() >= 2),
            _ => 0,
        };
        [count, laws_count, equal.len() as u64, place(0), place(1), claim(count), claim(laws_count)]
    }

    pub fn claim_stands(&self) -> bool {
        self.ruling()[5] != 0
    }

    pub fn claim_stands_by_laws(&self) -> bool {
        self.ruling()[6] != 0
    }
}
