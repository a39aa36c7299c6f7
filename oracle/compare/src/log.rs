//! `log`: the crate's `Game` (game.rs) and our log on the same scripts. `log-sorted`: the same with a host that sorts every list of a game
//! (document 02, order 13), which changes no answer.

use crate::pair::Pair;
use crate::part::{Part, Tally};
use crate::script::{self, Script};
use crate::texts;
use both::random::Random;
use std::cell::RefCell;

pub struct LogPart(RefCell<Pair>);

impl LogPart {
    pub fn new() -> LogPart {
        LogPart(RefCell::new(Pair::new()))
    }
}

impl Part for LogPart {
    type Input = Script;
    const NAME: &'static str = "log";

    fn fixed(&self) -> Box<dyn Iterator<Item = Script>> {
        Box::new(script::fixed().into_iter())
    }

    fn random(&mut self, random: &mut Random) -> Option<Script> {
        Some(script::random(random))
    }

    fn compare(&self, script: &Script, tally: &mut Tally) -> Result<(), String> {
        let mut pair = self.0.borrow_mut();
        pair.start(&script.start, tally)?;
        for act in &script.acts {
            pair.act(*act, tally)?;
        }
        pair.end()?;
        let meant = [(script.claim, pair.claim(), "claim"), (script.laws, pair.laws_claim(), "claim by the Laws")];
        match meant.iter().find(|(meant, is, _)| meant.is_some_and(|meant| meant != *is)) {
            Some((_, is, what)) => Err(format!("both give the {} {}, which was not meant", what, is)),
            None => Ok(()),
        }
    }

    /// Without some of the actions; a move that is then illegal is refused by both. What was meant of the whole is let go.
    fn smaller(&self, script: &Script) -> Vec<Script> {
        let start = |acts| Script { start: script.start.clone(), acts, claim: None, laws: None };
        texts::cut_lists(&script.acts).into_iter().map(start).collect()
    }

    fn show(&self, script: &Script) -> String {
        let acts: Vec<String> = script.acts.iter().map(|a| a.show()).collect();
        format!("{:?} then {} actions: {}", script.start, acts.len(), acts.join(" "))
    }
}

pub struct SortedLog(LogPart);

impl SortedLog {
    pub fn new() -> SortedLog {
        SortedLog(LogPart(RefCell::new(Pair::of_host(true))))
    }
}

impl Part for SortedLog {
    type Input = Script;
    const NAME: &'static str = "log-sorted";

    fn fixed(&self) -> Box<dyn Iterator<Item = Script>> {
        Box::new(script::told().into_iter())
    }

    fn random(&mut self, random: &mut Random) -> Option<Script> {
        self.0.random(random)
    }

    fn compare(&self, script: &Script, tally: &mut Tally) -> Result<(), String> {
        self.0.compare(script, tally)
    }

    fn smaller(&self, script: &Script) -> Vec<Script> {
        self.0.smaller(script)
    }

    fn show(&self, script: &Script) -> String {
        self.0.show(script)
    }
}
