//! The page of a ruling: one sentence, and what it rests on.

use super::figure::{self, figure};
use super::sheet::{Marks, sheet};
use super::{heading, judged, page, paragraph, sentence, strip};
use crate::drawn::Drawn;
use crate::markup::{Markup, element};
use crate::ruling::Case;
use std::ffi::OsString;

/// The most equal positions that are drawn: as many as an article asks for, and one that shows how it goes on.
const DRAWN: usize = 6;

/// `notice` is what whoever rules must know beside the ruling.
pub fn of(case: &Case, notice: Option<&[u8]>, words: &[OsString]) -> Markup {
    let said = sentence::of(case);
    let notice = notice.map_or(Markup::NONE, |notice| element("p", &[("class", "fault")], Markup::text(notice)).line());
    let counts = ["The log's count: ", "The Laws' count: "].iter().zip(case.counts());
    let body = [
        element("h1", &[], Markup::text(&said)).line(),
        notice,
        paragraph(format!("Result of the log: {}.", case.result())),
        judged(case.lists.as_ref(), &case.entries),
        five_times(case),
        heading("The position on the board, and where it stood before"),
        paragraph(stood(case.equal.len())),
        boards(case, &case.equal, case.ruling.moves),
        heading("The count"),
        strip::of(case),
        counts.map(|(name, count)| paragraph(format!("{name}{count}."))).collect(),
        heading("The score sheet"),
        legend(case),
        sheet(&case.entries, 0, &marks(case), ""),
        element("section", &[("class", "screen")], heading("All positions").then(figure::all(&case.entries, 0, ""))).line(),
    ];
    page(&said, body.into_iter().collect(), words)
}

fn stood(earlier: usize) -> String {
    match earlier {
        0 => "It did not stand before.".to_string(),
        1 => "It stood once before.".to_string(),
        2 => "It stood twice before.".to_string(),
        more => format!("It stood {more} times before."),
    }
}

/// The position that came five times, if the game went on behind it.
fn five_times(case: &Case) -> Markup {
    drawn_before(case)
        .map_or(Markup::NONE, |drawn| heading("The position that came five times").then(boards(case, &drawn.equal, drawn.moves)))
}

fn drawn_before(case: &Case) -> Option<&Drawn> {
    case.drawn.as_ref().filter(|drawn| drawn.five_times && drawn.moves < case.ruling.moves)
}

/// Equal positions side by side: the earliest of them, and the last.
fn boards(case: &Case, earlier: &[usize], last: usize) -> Markup {
    let left_out = (earlier.len() + 1).saturating_sub(DRAWN);
    let one = |(at, moves): (usize, usize)| {
        let entry = case.after(moves);
        let which = if moves == case.ruling.moves { ", on the board" } else { "" };
        let caption = Markup::text(format!("{}. {}{which}", at + 1, case.place(moves)));
        figure(None, &entry.board, &figure::squares(entry), caption.then(figure::fen(&entry.board)))
    };
    let shown = earlier.iter().copied().enumerate().take(DRAWN - 1).chain([(earlier.len(), last)]);
    let boards = element("div", &[("class", "boards")], shown.map(one).collect()).line();
    match left_out {
        0 => boards,
        1 => boards.then(paragraph("1 more is not drawn here; all are marked on the score sheet.")),
        more => boards.then(paragraph(format!("{more} more are not drawn here; all are marked on the score sheet."))),
    }
}

/// What is marked on the score sheet: the equal positions by their numbers, where the counts began, and since when the game is drawn.
fn marks(case: &Case) -> Marks {
    let mut marks = Marks::new();
    let mut mark = |moves: usize, sign: String| marks.entry(moves).or_default().push(sign);
    case.equal.iter().chain([&case.ruling.moves]).enumerate().for_each(|(at, moves)| mark(*moves, (at + 1).to_string()));
    match (drawn_before(case), &case.drawn) {
        (Some(drawn), _) => {
            drawn.equal.iter().chain([&drawn.moves]).enumerate().for_each(|(at, moves)| mark(*moves, format!("D{}", at + 1)))
        }
        (None, drawn) => drawn.iter().for_each(|drawn| mark(drawn.moves, "D".to_string())),
    }
    mark(case.laws_since.moves, "L".to_string());
    if case.since.moves != case.laws_since.moves {
        mark(case.since.moves, "C".to_string());
    }
    marks
}

fn legend(case: &Case) -> Markup {
    let equal = match case.equal.len() {
        0 => "1, the position on the board".to_string(),
        earlier => format!("1 to {}, the position on the board each time it stood", earlier + 1),
    };
    let counts = match case.since.moves == case.laws_since.moves {
        true => "L, where both counts begin",
        false => "L, where the count of the Laws begins; C, where the log's begins",
    };
    let drawn = match (drawn_before(case), &case.drawn) {
        (Some(drawn), _) => format!("; D1 to D{}, the position that came five times", drawn.equal.len() + 1),
        (None, Some(_)) => "; D, since when the game is drawn".to_string(),
        (None, None) => String::new(),
    };
    paragraph(format!("Marked: {equal}; {counts}{drawn}. On the screen each move leads to its diagram."))
}
