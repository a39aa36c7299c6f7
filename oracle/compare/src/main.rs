//! Asks the crate chess 3.2.0 and libmenkhodur.a the same and compares every result, count and lent byte.

mod args;

use args::{Options, Request};
use compare::part::{self, run, Outcome, Part};
use compare::rules::RULES;
use compare::{after, counters, differences, fen, full_fen, legal, lists, log, longer, moves, names, page, pgn, played, report, rolls, san, san_standard, settled};
use compare::{steps, tests};
use std::process::exit;

/// Runs the part that has this name.
type Runner = fn(&Options) -> Outcome;

const PARTS: [(&str, Runner); 25] = [
    (fen::FenRead::NAME, |o| run(fen::FenRead::default(), o.seed, o.budget)),
    (fen::FenWrite::NAME, |o| run(fen::FenWrite::default(), o.seed, o.budget)),
    (full_fen::FullRead::NAME, |o| run(full_fen::FullRead::default(), o.seed, o.budget)),
    (full_fen::FullWrite::NAME, |o| run(full_fen::FullWrite::default(), o.seed, o.budget)),
    (page::FenPage::NAME, |o| run(page::FenPage::default(), o.seed, o.budget)),
    (report::FenReport::NAME, |o| run(report::FenReport::default(), o.seed, o.budget)),
    (moves::Moves::NAME, |o| run(moves::Moves, o.seed, o.budget)),
    (san::SanLegal::NAME, |o| run(san::SanLegal::new(), o.seed, o.budget)),
    (san::SanAny::NAME, |o| run(san::SanAny::new(), o.seed, o.budget)),
    (san_standard::SanStandard::NAME, |o| run(san_standard::SanStandard::new(), o.seed, o.budget)),
    (names::Names::NAME, |o| run(names::Names::new(), o.seed, o.budget)),
    (lists::Lists::NAME, |o| run(lists::Lists::new(), o.seed, o.budget)),
    (log::LogPart::NAME, |o| run(log::LogPart::new(), o.seed, o.budget)),
    (log::SortedLog::NAME, |o| run(log::SortedLog::new(), o.seed, o.budget)),
    (longer::Longer::NAME, |o| run(longer::Longer::new(), o.seed, o.budget)),
    (rolls::Rolls::NAME, |o| run(rolls::Rolls::new(), o.seed, o.budget)),
    (differences::Differences::NAME, |o| run(differences::Differences::new(), o.seed, o.budget)),
    (pgn::Pgn::NAME, |o| run(pgn::Pgn, o.seed, o.budget)),
    (played::Played::NAME, |o| run(played::Played::new(), o.seed, o.budget)),
    (after::After::NAME, |o| run(after::After::default(), o.seed, o.budget)),
    (settled::Settled::NAME, |o| run(settled::Settled::default(), o.seed, o.budget)),
    (legal::Legal::NAME, |o| run(legal::Legal::default(), o.seed, o.budget)),
    (counters::CountersPart::NAME, |o| run(counters::CountersPart::new(), o.seed, o.budget)),
    (steps::Steps::NAME, |o| run(steps::Steps, o.seed, o.budget)),
    (tests::Tests::NAME, |o| run(tests::Tests::new(), o.seed, o.budget)),
];

fn table(outcomes: &[Outcome]) {
    println!("{:<20} {:>12} {:>12} {:>12} {:>8}", "compared", "in all", "accepted", "refused", "differ");
    for outcome in outcomes {
        for row in &outcome.tally.rows {
            println!("{:<20} {:>12} {:>12} {:>12}", row.label, row.accepted + row.refused, row.accepted, row.refused);
        }
        let sum = |pick: fn(&part::Row) -> u64| outcome.tally.rows.iter().map(pick).sum::<u64>();
        let (yes, no, differ) = (sum(|r| r.accepted), sum(|r| r.refused), outcome.differ);
        println!("{:<20} {:>12} {:>12} {:>12} {:>8}", format!("= {}", outcome.name), yes + no + differ, yes, no, differ);
    }
    println!("(a result or a claim counts as accepted if there is one)");
}

/// Says how often each rule fired. False if one had its part run and never did.
fn rules_fired(outcomes: &[Outcome]) -> bool {
    let mut all = true;
    for (i, rule) in RULES.iter().enumerate() {
        let Some(outcome) = outcomes.iter().find(|o| o.name == rule.part) else { continue };
        let fired = outcome.tally.fired[i];
        println!("rule {} fired {} times: {}", rule.name, fired, rule.why);
        if fired == 0 {
            eprintln!("compare: the rule {} never fired", rule.name);
            all = false;
        }
    }
    all
}

fn report(outcomes: &[Outcome]) -> bool {
    for text in outcomes.iter().flat_map(|o| &o.shown) {
        println!("differs: {}", text);
    }
    table(outcomes);
    let fired = rules_fired(outcomes);
    let differ: u64 = outcomes.iter().map(|o| o.differ).sum();
    let compared: u64 = outcomes.iter().map(|o| o.tally.agreed()).sum::<u64>() + differ;
    println!("compare: {} comparisons, {} differ", compared, differ);
    fired && differ == 0
}

fn main() {
    let words: Vec<String> = std::env::args().skip(1).collect();
    let options = match args::parse(&words, &PARTS.map(|p| p.0)) {
        Ok(Request::Help) => return println!("{}", args::HELP),
        Ok(Request::Run(options)) => options,
        Err(why) => {
            eprintln!("compare: {}\n{}", why, args::HELP);
            exit(2);
        }
    };
    let chosen = |name: &str| options.parts.is_empty() || options.parts.iter().any(|p| p == name);
    let outcomes: Vec<Outcome> = PARTS.iter().filter(|p| chosen(p.0)).map(|p| (p.1)(&options)).collect();
    if !report(&outcomes) {
        exit(1);
    }
}
