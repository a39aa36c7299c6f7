//! The two lent parts, the counts, and what a line of the script makes of them.

use crate::after::counters_after;
use crate::history::{Call, History};
use crate::limits::{ACTION, ACTIONS_PART, LARGEST_MOVE, MOST_ACTIONS, MOST_MOVES, POSITION, POSITIONS_PART, SPARE};
use crate::position::{Counters, Position};

pub struct Log {
    pub actions: Vec<u8>,
    pub positions: Vec<u8>,
    /// How many bytes of each part the calls are lent.
    pub lent: (u64, u64),
    /// The counts of actions and moves that the next call is given.
    pub counts: (u64, u64),
}

impl Log {
    pub fn new() -> Log {
        Log {
            actions: vec![0; ACTIONS_PART + SPARE],
            positions: vec![0; POSITIONS_PART + SPARE],
            lent: (ACTIONS_PART as u64, POSITIONS_PART as u64),
            counts: (0, 0),
        }
    }

    fn is_short(&self) -> bool {
        self.lent.0 < ACTIONS_PART as u64 || self.lent.1 < POSITIONS_PART as u64
    }

    /// 16, then 9, else the game.
    fn history(&self) -> Result<History, u64> {
        if self.is_short() {
            return Err(16);
        }
        if self.counts.0 > MOST_ACTIONS as u64 || self.counts.1 > MOST_MOVES as u64 {
            return Err(9);
        }
        History::of(&self.actions, &self.positions, self.counts.0 as usize, self.counts.1 as usize).ok_or(9)
    }

    fn counted(&self, number: u64) -> String {
        format!("{number} {} {}", self.counts.0, self.counts.1)
    }

    pub fn start(&mut self, position: &Position) -> String {
        self.counts = (0, 0);
        let number = if self.is_short() { 16 } else { position.answer() };
        if number == 0 {
            self.positions[..POSITION].copy_from_slice(&position.bytes());
        }
        self.counted(number)
    }

    pub fn call(&mut self, call: &Call) -> String {
        let number = match self.history() {
            Ok(history) => history.answer(call),
            Err(number) => number,
        };
        if number == 0 {
            self.write(call);
        }
        self.counted(number)
    }

    /// The counters that a move gives from the position that the counts say is the last. Where that is none, or it is no move, the call is refused
    /// whatever the counters are.
    pub fn counters_after(&self, m: u64) -> Counters {
        let at = POSITION * self.counts.1.min(MOST_MOVES as u64) as usize;
        match Position::stored(&self.positions[at..at + POSITION]) {
            Some(last) if last.answer() == 0 && m <= LARGEST_MOVE => counters_after(&last.record, last.counters, m),
            _ => Counters::FIRST,
        }
    }

    /// A new action writes its 4 bytes, a new position its 584.
    fn write(&mut self, call: &Call) {
        let (n, m) = (self.counts.0 as usize, self.counts.1 as usize);
        self.actions[ACTION * n..ACTION * (n + 1)].copy_from_slice(&call.bytes());
        self.counts.0 += 1;
        if let Call::Move(_, next) = call {
            self.positions[POSITION * (m + 1)..POSITION * (m + 2)].copy_from_slice(&next.bytes());
            self.counts.1 += 1;
        }
    }

    /// The result, and whether a draw may be declared.
    pub fn queries(&self) -> String {
        match self.history() {
            Ok(history) => format!("0 {} 0 {}", history.result(), u64::from(history.claim_stands())),
            Err(number) => format!("{number} 0 {number} 0"),
        }
    }

    /// Whether a claim stands by the Laws, and the ruling.
    pub fn laws(&self) -> String {
        let (number, claim, ruling) = match self.history() {
            Ok(history) => (0, u64::from(history.claim_stands_by_laws()), history.ruling()),
            Err(number) => (number, 0, Default::default()),
        };
        let numbers = ruling.map(|n| n.to_string()).join(" ");
        format!("{number} {claim} {number} {numbers}")
    }

    pub fn checksums(&self) -> String {
        format!("{} {}", adler32(&self.actions), adler32(&self.positions))
    }

    /// Fills both parts past what the counts say is used.
    pub fn fill(&mut self, value: u8) {
        let n = self.counts.0.min(MOST_ACTIONS as u64) as usize;
        let m = self.counts.1.min(MOST_MOVES as u64) as usize;
        self.actions[ACTION * n..].fill(value);
        self.positions[POSITION * (m + 1)..].fill(value);
    }
}

/// RFC 1950.
fn adler32(part: &[u8]) -> u64 {
    let (mut low, mut high) = (1, 0);
    for b in part {
        low = (low + u64::from(*b)) % 65_521;
        high = (high + low) % 65_521;
    }
    65_536 * high + low
}
