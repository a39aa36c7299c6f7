//! The command line.

use compare::part::Budget;
use std::time::Duration;

pub const HELP: &str = "\
compare: asks the crate chess 3.2.0 and libmenkhodur.a the same and compares every result, count and lent byte.

    compare [--seed N] [--part NAME].. [--seconds N | --inputs N]

--seed N      of the random inputs; the same seed gives the same run (default 1)
--part NAME   only this part; may be given again. Parts: fen-read, fen-write, full-read, full-write, page, report, moves,
              san-legal, san-any, san-standard, names, lists, log, log-sorted, log-longer, rolls, differences, pgn, played,
              after, settled, legal, counters, steps, tests
--inputs N    after its fixed inputs (the paper's rows, boundaries, all short texts), each part goes on with random ones
              until N more comparisons are made (default 100000)
--seconds N   the same, until N seconds have passed since the part began

A difference is made as small as it can be and shown; further ones are counted. Known differences are rules that rewrite
the crate's answer before all of it is compared; each must fire. Status: 0 all agreed, 1 something differed or a rule of a
chosen part never fired, 2 the command line is wrong.";

pub struct Options {
    pub seed: u64,
    /// Empty for all.
    pub parts: Vec<String>,
    pub budget: Budget,
}

pub enum Request {
    Help,
    Run(Options),
}

fn number(name: &str, value: Option<&String>) -> Result<u64, String> {
    let value = value.ok_or(format!("{} wants a number", name))?;
    value.parse().map_err(|_| format!("{} wants a number, not {:?}", name, value))
}

pub fn parse(words: &[String], known: &[&str]) -> Result<Request, String> {
    let mut options = Options { seed: 1, parts: vec![], budget: Budget::Comparisons(100_000) };
    let mut budgets = 0;
    let mut rest = words.iter();
    while let Some(word) = rest.next() {
        match word.as_str() {
            "--help" | "-h" => return Ok(Request::Help),
            "--seed" => options.seed = number(word, rest.next())?,
            "--seconds" => options.budget = Budget::Time(Duration::from_secs(number(word, rest.next())?)),
            "--inputs" => options.budget = Budget::Comparisons(number(word, rest.next())?),
            "--part" => {
                let name = rest.next().ok_or("--part wants a name")?;
                if !known.contains(&name.as_str()) {
                    return Err(format!("there is no part {:?}; there are {}", name, known.join(", ")));
                }
                options.parts.push(name.clone());
            }
            _ => return Err(format!("what is {:?}?", word)),
        }
        budgets += matches!(word.as_str(), "--seconds" | "--inputs") as u32;
    }
    if budgets > 1 {
        return Err("only one of --seconds and --inputs, and once".to_string());
    }
    Ok(Request::Run(options))
}
