//! What a kind of comparison is, and how one is run: its fixed inputs, then random ones until its budget is used.

use crate::rules::RULES;
use both::random::Random;
use std::time::{Duration, Instant};

/// One kind of comparison: where its inputs come from, how one is compared, and how one is made smaller.
pub trait Part {
    type Input: Clone;
    const NAME: &'static str;

    /// The inputs of every run: the paper's rows, the boundaries, and all short texts.
    fn fixed(&self) -> Box<dyn Iterator<Item = Self::Input>>;
    /// One more input; none if the part has only fixed ones.
    fn random(&mut self, random: &mut Random) -> Option<Self::Input>;
    /// Asks both sides and compares everything they give. Counts what agreed; says what did not.
    fn compare(&self, input: &Self::Input, tally: &mut Tally) -> Result<(), String>;
    /// Inputs with something left out, the largest cuts first.
    fn smaller(&self, input: &Self::Input) -> Vec<Self::Input>;
    fn show(&self, input: &Self::Input) -> String;
}

/// How many comparisons agreed, by what was compared, and how often each rule rewrote the crate's answer.
#[derive(Default)]
pub struct Tally {
    pub rows: Vec<Row>,
    pub fired: [u64; RULES.len()],
}

pub struct Row {
    pub label: &'static str,
    pub accepted: u64,
    pub refused: u64,
}

impl Tally {
    pub fn count(&mut self, label: &'static str, accepted: bool) {
        // Labels are constants, so the few rows are told apart by text and found quickly.
        let at = match self.rows.iter().position(|r| r.label == label) {
            Some(at) => at,
            None => {
                self.rows.push(Row { label, accepted: 0, refused: 0 });
                self.rows.len() - 1
            }
        };
        let row = &mut self.rows[at];
        *(if accepted { &mut row.accepted } else { &mut row.refused }) += 1;
    }

    pub fn agreed(&self) -> u64 {
        self.rows.iter().map(|r| r.accepted + r.refused).sum()
    }
}

/// How long the random inputs of a part go on.
#[derive(Clone, Copy)]
pub enum Budget {
    Comparisons(u64),
    Time(Duration),
}

/// What a part's run came to.
pub struct Outcome {
    pub name: &'static str,
    pub tally: Tally,
    pub differ: u64,
    /// The smallest differing inputs found, with what each side gave.
    pub shown: Vec<String>,
}

/// So many differing inputs are made smaller and shown; further ones are only counted.
const MOST_SHOWN: usize = 8;
/// The clock is looked at after so many inputs.
const STRIDE: u64 = 64;
const PROGRESS: Duration = Duration::from_secs(5);

pub fn run<P: Part>(mut part: P, seed: u64, budget: Budget) -> Outcome {
    let mut outcome = Outcome { name: P::NAME, tally: Tally::default(), differ: 0, shown: vec![] };
    let mut progress = Progress::new(P::NAME);
    for input in part.fixed() {
        check(&part, &input, &mut outcome);
        progress.tick(&outcome);
    }
    let fixed = outcome.tally.agreed() + outcome.differ;
    let mut random = Random::new(seed, P::NAME);
    let mut inputs = 0u64;
    loop {
        let used = match budget {
            Budget::Comparisons(n) => outcome.tally.agreed() + outcome.differ >= fixed + n,
            Budget::Time(t) => inputs % STRIDE == 0 && progress.start.elapsed() >= t,
        };
        if used {
            return outcome;
        }
        match part.random(&mut random) {
            Some(input) => check(&part, &input, &mut outcome),
            None => return outcome,
        }
        inputs += 1;
        progress.tick(&outcome);
    }
}

fn check<P: Part>(part: &P, input: &P::Input, outcome: &mut Outcome) {
    if let Err(why) = part.compare(input, &mut outcome.tally) {
        outcome.differ += 1;
        if outcome.shown.len() < MOST_SHOWN {
            let (input, why) = shrink(part, input.clone(), why);
            let text = format!("{}: {}\n    {}", P::NAME, part.show(&input), why);
            if !outcome.shown.contains(&text) {
                eprintln!("differs: {}", text);
                outcome.shown.push(text);
            }
        }
    }
}

/// Goes on to a smaller input as long as one still differs.
fn shrink<P: Part>(part: &P, mut input: P::Input, mut why: String) -> (P::Input, String) {
    let differs = |i: &P::Input| part.compare(i, &mut Tally::default()).err();
    while let Some((next, w)) = part.smaller(&input).into_iter().find_map(|i| differs(&i).map(|w| (i, w))) {
        input = next;
        why = w;
    }
    (input, why)
}

/// Says on standard error how far a long run has come.
struct Progress {
    name: &'static str,
    start: Instant,
    told: Instant,
    ticks: u64,
}

impl Progress {
    fn new(name: &'static str) -> Progress {
        let now = Instant::now();
        Progress { name, start: now, told: now, ticks: 0 }
    }

    fn tick(&mut self, outcome: &Outcome) {
        self.ticks += 1;
        if self.ticks % STRIDE == 0 && self.told.elapsed() >= PROGRESS {
            self.told = Instant::now();
            let compared = outcome.tally.agreed() + outcome.differ;
            let seconds = self.start.elapsed().as_secs();
            eprintln!("{}: {} compared in {} s, {} differ", self.name, compared, seconds, outcome.differ);
        }
    }
}

#[cfg(test)]
mod tests {
    use super::*;
    use crate::texts;

    /// A part whose sides differ on every text with an `x` behind a `y`.
    struct Planted;

    impl Part for Planted {
        type Input = String;
        const NAME: &'static str = "planted";

        fn fixed(&self) -> Box<dyn Iterator<Item = String>> {
            Box::new(["abc", "abxcydexf", "yx"].iter().map(|t| t.to_string()))
        }
        fn random(&mut self, _: &mut Random) -> Option<String> {
            None
        }
        fn compare(&self, input: &String, tally: &mut Tally) -> Result<(), String> {
            match (input.find('y'), input.rfind('x')) {
                (Some(y), Some(x)) if y < x => Err("planted".to_string()),
                _ => Ok(tally.count("planted", true)),
            }
        }
        fn smaller(&self, input: &String) -> Vec<String> {
            texts::cuts(input)
        }
        fn show(&self, input: &String) -> String {
            input.clone()
        }
    }

    #[test]
    fn finds_and_shrinks() {
        let outcome = run(Planted, 1, Budget::Comparisons(0));
        assert_eq!((outcome.tally.agreed(), outcome.differ), (1, 2));
        assert_eq!(outcome.shown, ["planted: yx\n    planted"]);
    }
}
