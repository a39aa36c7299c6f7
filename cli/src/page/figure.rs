//! Board diagrams with what is said under them.

use crate::entry::{self, Entry, What};
use crate::markup::{Markup, element};
use crate::svg;
use menkhodur::{Board, Square};

/// A diagram, with an id if something leads to it.
pub fn figure(id: Option<&str>, board: &Board, marked: &[Square], caption: Markup) -> Markup {
    let picture = svg::on_page(board, &board.to_fen_full(), marked);
    let names: Vec<(&str, &str)> = id.iter().map(|id| ("id", *id)).collect();
    element("figure", &names, picture.then(element("figcaption", &[], caption))).line()
}

/// A FEN under a diagram.
pub fn fen(board: &Board) -> Markup {
    Markup::text(" ").then(element("code", &[], Markup::text(board.to_fen_full())))
}

/// The squares of an entry's move.
pub fn squares(entry: &Entry) -> Vec<Square> {
    match entry.what {
        What::Move(made, _) => vec![made.get_source(), made.get_dest()],
        _ => vec![],
    }
}

/// The start and the moves of a game from some entry on, each with its name on a score sheet.
fn moves(entries: &[Entry], from: usize) -> impl Iterator<Item = (&Entry, String)> {
    let name = |at: usize| match (&entries[at].what, at) {
        (What::Start, _) => Some("the start".to_string()),
        (What::Move(..), at) => Some(format!("{} {}", entry::number(&entries[at - 1].board), entries[at].written())),
        _ => None,
    };
    entries.iter().enumerate().skip(from).filter_map(move |(at, entry)| Some((entry, name(at)?)))
}

/// The diagram of each position from some entry on, each leading back to its move on the score sheet.
pub fn all(entries: &[Entry], from: usize, prefix: &str) -> Markup {
    let one = |(entry, name): (&Entry, String)| {
        let (id, back) = (format!("{prefix}p{}", entry.moves), format!("#{prefix}m{}", entry.moves));
        let link = element("a", &[("href", &back)], Markup::text(name));
        figure(Some(&id), &entry.board, &squares(entry), link.then(fen(&entry.board)))
    };
    element("div", &[("class", "all")], moves(entries, from).map(one).collect()).line()
}
