//! A score sheet: each move leads to its diagram, and the evidence is marked.

use crate::entry::{self, Entry, What};
use crate::markup::{Markup, element};
use crate::told;
use menkhodur::{Board, Color};
use std::collections::BTreeMap;

/// What stands behind marked moves, by the number of moves made then.
pub type Marks = BTreeMap<usize, Vec<String>>;

/// The most rows that are printed: a game of this length takes less than a page of small print.
const PRINTED: usize = 320;

/// Of a longer one, the rows at the front that are printed; the others are the last ones.
const FRONT: usize = 20;

/// A row, and whether it is printed however long the game is.
#[derive(Default)]
struct Row {
    cells: Markup,
    kept: bool,
}

/// A score sheet from some entry on. `prefix` begins the ids of the game.
pub fn sheet(entries: &[Entry], from: usize, marks: &Marks, prefix: &str) -> Markup {
    let rows = rows(entries, from, marks, prefix);
    let middle = FRONT..(rows.len() + FRONT).saturating_sub(PRINTED).max(FRONT);
    let is_left_out = |at: usize, row: &Row| middle.contains(&at) && !row.kept;
    let left_out = rows.iter().enumerate().filter(|(at, row)| is_left_out(*at, row)).count();
    let row = |(at, row): (usize, Row)| {
        let class: &[(&str, &str)] = if is_left_out(at, &row) { &[("class", "screen")] } else { &[] };
        let before = if left_out > 0 && at == middle.end { cut(left_out) } else { Markup::NONE };
        before.then(element("li", class, row.cells)).line()
    };
    element("ul", &[("class", "sheet")], rows.into_iter().enumerate().map(row).collect()).line()
}

fn cut(rows: usize) -> Markup {
    element("li", &[("class", "printed")], Markup::text(format!("({} not printed)", told::counted(rows as u64, "row")))).line()
}

/// A row has white's move and black's, and what was done beside them.
fn rows(entries: &[Entry], from: usize, marks: &Marks, prefix: &str) -> Vec<Row> {
    let mut rows = vec![Row { cells: linked(0, "start", marks, prefix), kept: true }];
    rows.truncate(usize::from(from == 0));
    let mut at = from.max(1);
    while at < entries.len() {
        let (before, entry) = (&entries[at - 1].board, &entries[at]);
        let (same, next) = same_from(entries, at);
        let is_move = matches!(entry.what, What::Move(..));
        let cell = if is_move { move_cell(entry, marks, prefix) } else { other_cell(entry, same) };
        if rows.len() <= usize::from(from == 0) || is_move && before.get_side_to_move() == Color::White {
            rows.push(Row { cells: numbered(before, is_move), kept: false });
        }
        let row = rows.last_mut().expect("a row was begun");
        row.cells = std::mem::take(&mut row.cells).then(Markup::text(" ")).then(cell);
        row.kept |= is_move && marks.get(&entry.moves).is_some_and(|signs| signs.iter().any(|sign| is_kept(sign)));
        at = next;
    }
    rows
}

/// Of the equal positions, of which there may be hundreds, the first are enough on paper.
fn is_kept(sign: &str) -> bool {
    sign.parse::<usize>().map_or(true, |nth| nth <= 5)
}

/// What begins a row. White's move has a row of its own, whatever was done before it.
fn numbered(before: &Board, is_move: bool) -> Markup {
    let has_number = is_move || before.get_side_to_move() == Color::Black;
    Markup::text(if has_number { entry::number(before) } else { String::new() })
}

/// A move without a name stands in coordinates, as in a roll: its diagram says the rest.
fn move_cell(entry: &Entry, marks: &Marks, prefix: &str) -> Markup {
    let name = if let What::Move(made, None) = entry.what { made.to_string() } else { entry.written() };
    linked(entry.moves, &name, marks, prefix)
}

fn linked(moves: usize, name: &str, marks: &Marks, prefix: &str) -> Markup {
    let (id, href) = (format!("{prefix}m{moves}"), format!("#{prefix}p{moves}"));
    let link = element("a", &[("id", &id), ("href", &href)], Markup::text(name));
    match marks.get(&moves) {
        Some(marked) => element("mark", &[], link.then(element("sup", &[], Markup::text(marked.join(" "))))),
        None => link,
    }
}

/// How many entries from one on are offers like it, and where the next is: a game may have thousands.
fn same_from(entries: &[Entry], at: usize) -> (usize, usize) {
    let offers = entries[at..].iter().take_while(|entry| matches!(entry.what, What::Offer)).count();
    (offers.max(1), at + offers.max(1))
}

/// An offer has the sign that the Laws ask for on a score sheet (8.1.5).
fn other_cell(entry: &Entry, same: usize) -> Markup {
    match (&entry.what, same) {
        (What::Offer, 1) => element("span", &[("title", &format!("{} offers a draw", entry.side()))], Markup::text("(=)")),
        (What::Offer, same) => element("span", &[("title", "offers of a draw")], Markup::text(format!("(=) {same} times"))),
        _ => Markup::text(entry.written()),
    }
}
