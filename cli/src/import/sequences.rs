//! The sequences of moves in a game's text that have not ended: the main line, and the variations that the walk stands in.

use menkhodur::lent::{DEEPEST_LEVEL, Record};

/// The record before a sequence's last move, from which a variation behind that move begins, and the one after it. Before its first move both are where it
/// begins.
#[derive(Clone, Copy)]
struct Line {
    before: Record,
    now: Record,
}

pub struct Sequences([Line; DEEPEST_LEVEL + 1]);

impl Sequences {
    pub fn new(start: &Record) -> Sequences {
        Sequences([Line { before: *start, now: *start }; DEEPEST_LEVEL + 1])
    }

    /// A main line without moves.
    pub fn begin(&mut self, start: &Record) {
        self.0[0] = Line { before: *start, now: *start };
    }

    /// Leaves the sequences whose brackets are closed, and begins those whose brackets are opened.
    pub fn cross(&mut self, level: usize, closed: usize, opened: usize) {
        let level = level.saturating_sub(closed);
        let begin = self.0[level.min(DEEPEST_LEVEL)].before;
        for line in self.0.iter_mut().skip(level + 1).take(opened) {
            *line = Line { before: begin, now: begin };
        }
    }

    /// The record that the next move of a level is played from.
    pub fn now(&self, level: usize) -> Record {
        self.0[level.min(DEEPEST_LEVEL)].now
    }

    /// A move was played, and led to a record.
    pub fn played(&mut self, level: usize, after: &Record) {
        let line = &mut self.0[level.min(DEEPEST_LEVEL)];
        *line = Line { before: line.now, now: *after };
    }
}
