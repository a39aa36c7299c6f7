//! The page of two games that differ: both starts, and both score sheets from the first action on that differs.

use super::figure::{self, figure};
use super::sheet::{Marks, sheet};
use super::{heading, page, paragraph};
use crate::entry::{self, Entry};
use crate::markup::{Markup, element};
use crate::svg;
use menkhodur::{Difference, Roll};
use std::ffi::OsString;

const NAMES: [&str; 2] = ["The first game", "The second game"];
/// What begins the ids of each game.
const PREFIXES: [&str; 2] = ["a", "b"];

/// `lines` are the differences, and what each says in words.
pub fn of(rolls: &[Roll; 2], lines: &[(Difference, String)], words: &[OsString]) -> Markup {
    let title = match lines.len() {
        0 => "The two games are equal.".to_string(),
        1 => "The two games differ in one thing.".to_string(),
        more => format!("The two games differ in {more} things."),
    };
    let list = lines.iter().map(|(_, line)| element("li", &[], Markup::text(line)).line()).collect();
    let about = heading("What differs: in the first game, in the second");
    let list = if lines.is_empty() { Markup::NONE } else { about.then(element("ul", &[("class", "list")], list)).line() };
    let index = lines.iter().find_map(|(line, _)| if let Difference::Action { index, .. } = line { Some(*index) } else { None });
    let title_line = element("h1", &[], Markup::text(&title)).line();
    page(&title, title_line.then(starts(rolls)).then(list).then(index.map_or(Markup::NONE, |index| sheets(rolls, index))), words)
}

fn starts(rolls: &[Roll; 2]) -> Markup {
    let squares = svg::differing(&rolls[0].start, &rolls[1].start);
    let one = |(roll, name): (&Roll, &str)| figure(None, &roll.start, &squares, Markup::text(name).then(figure::fen(&roll.start)));
    let boards = rolls.iter().zip(NAMES).map(one).collect();
    heading("Both starts").then(element("div", &[("class", "boards large")], boards)).line()
}

/// Both score sheets from an action on, and the diagrams from the position before it on.
fn sheets(rolls: &[Roll; 2], index: usize) -> Markup {
    let games = rolls.each_ref().map(entry::of_roll);
    let told = paragraph(format!("Actions are counted from 0: before action {index} both did the same. Each move leads to its diagram."));
    let each = |(at, game): (usize, &Vec<Entry>)| {
        let name = element("h3", &[], Markup::text(NAMES[at])).line();
        let rows = match game.len() > index + 1 {
            true => sheet(game, index + 1, &Marks::new(), PREFIXES[at]),
            false => paragraph("It has no more actions."),
        };
        element("div", &[], name.then(rows)).line()
    };
    let both = element("div", &[("class", "sheets")], games.iter().enumerate().map(each).collect()).line();
    let diagrams = games.iter().enumerate().map(|(at, game)| positions(game, index, at)).collect();
    heading("Both score sheets from the first action on that differs").then(told).then(both).then(diagrams)
}

fn positions(game: &[Entry], index: usize, at: usize) -> Markup {
    let from = figure::all(game, index + 1, PREFIXES[at]);
    heading(&format!("{}: its positions", NAMES[at])).then(from)
}
