//! The page of a log that is not good: the action that does not stand, and the boards.

use super::figure::{self, figure};
use super::sheet::{Marks, sheet};
use super::{heading, page, paragraph};
use crate::diff;
use crate::entry::{self, Entry};
use crate::markup::{Markup, element};
use crate::stored::{Fault, Stored, Why};
use crate::svg;
use menkhodur::{Board, Square};
use std::ffi::OsString;

/// What does not stand, at the top of a page.
pub fn of(stored: &Stored, fault: &Fault, words: &[OsString]) -> Markup {
    let entries: Vec<Entry> = stored.standing(fault).iter().flat_map(entry::of_log).collect();
    let title = match fault {
        Fault::Action { number, .. } => format!("There is no ruling: the log is not good, and action {number} does not stand."),
        _ => "There is no ruling: the log is not good.".to_string(),
    };
    let body = [
        element("h1", &[], Markup::text(&title)).line(),
        element("p", &[("class", "fault")], Markup::text(stored.told(fault))).line(),
        evidence(stored, fault, entries.last()),
        game(&entries, "screen"),
    ];
    page(&title, body.into_iter().collect(), words)
}

/// What stands, with its score sheet and its diagrams.
pub fn game(entries: &[Entry], class: &'static str) -> Markup {
    if entries.is_empty() {
        return Markup::NONE;
    }
    let all = heading("All positions").then(figure::all(entries, 0, ""));
    let sheet = heading("The score sheet").then(paragraph("Each move leads to its diagram.")).then(sheet(entries, 0, &Marks::new(), ""));
    sheet.then(element("section", &[("class", class)], all)).line()
}

/// The board before the action, and where a move came with another position than it leads to, both.
pub fn evidence(stored: &Stored, fault: &Fault, before: Option<&Entry>) -> Markup {
    let (Fault::Action { number, why }, Some(before)) = (fault, before) else { return Markup::NONE };
    let made = stored.move_of(*number);
    let marked = made.map_or(vec![], |made| vec![made.get_source(), made.get_dest()]);
    let told = made.map_or("which is no move".to_string(), |made| format!("the move {made}"));
    let caption = Markup::text(format!("Before action {number}, {told}")).then(figure::fen(&before.board));
    let first = figure(None, &before.board, &marked, caption);
    let both = match why {
        Why::Position { boards: Some((held, owed)), .. } => boards(held, owed),
        _ => Markup::NONE,
    };
    heading("The action that does not stand").then(element("div", &[("class", "boards large")], first.then(both))).line()
}

fn boards(held: &Board, owed: &Board) -> Markup {
    let squares = svg::differing(held, owed);
    let one = |board: &Board, told: &str| figure(None, board, &squares, Markup::text(told).then(figure::fen(board)));
    let list = element("ul", &[], squares.iter().map(|square| differs(*square, held, owed)).collect());
    let told = if squares.is_empty() { paragraph("No square differs; the FENs do.") } else { list.line() };
    one(held, "What the file has after it").then(one(owed, "What the move leads to")).then(element("div", &[], told)).line()
}

fn differs(square: Square, held: &Board, owed: &Board) -> Markup {
    let man = |board: &Board| diff::man(board.piece_on(square).zip(board.color_on(square)));
    element("li", &[], Markup::text(format!("{square}: the file has {}, the move leaves {}", man(held), man(owed)))).line()
}
