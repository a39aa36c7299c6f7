//! A board as a picture: SVG with its FEN as the text that stands for it. Each man has its square and its letter as `data-square` and `data-man`, and
//! each marked square is told as `data-marked`, so that a picture can be read again.

use crate::markup::{Markup, element, empty};
use crate::men::{self, SIDE};
use menkhodur::{ALL_COLORS, ALL_FILES, ALL_PIECES, ALL_RANKS, Board, Color, Piece, Square};

/// What stands left of the board and under it, for the letters, and around it, for its frame.
const MARGIN: usize = 22;
const FRAME: usize = 2;
const SIZE: usize = FRAME + 8 * SIDE + MARGIN;

pub const LIGHT: &str = "#fffaf0";
pub const DARK: &str = "#c8b38c";
pub const MARK: &str = "#ffd24d";
pub const MARK_FRAME: &str = "#8a3a00";

/// All squares, from a1.
pub fn squares() -> impl Iterator<Item = Square> {
    ALL_RANKS.into_iter().flat_map(|rank| ALL_FILES.into_iter().map(move |file| Square::make_square(rank, file)))
}

/// The squares on which two boards differ.
pub fn differing(first: &Board, second: &Board) -> Vec<Square> {
    squares().filter(|square| first.numbers()[square.to_index()] != second.numbers()[square.to_index()]).collect()
}

fn place(square: Square) -> (String, String) {
    let (file, rank) = (square.get_file().to_index(), square.get_rank().to_index());
    ((MARGIN + SIDE * file).to_string(), (FRAME + SIDE * (7 - rank)).to_string())
}

fn man_on(board: &Board, square: Square) -> Option<(Piece, Color)> {
    board.piece_on(square).zip(board.color_on(square))
}

/// A picture that stands alone: nothing of it is elsewhere.
pub fn alone(board: &Board, text: &str) -> Markup {
    let man = |square: Square| {
        let (piece, color) = man_on(board, square)?;
        let (x, y) = place(square);
        let (transform, letter) = (format!("translate({x} {y})"), piece.to_string(color));
        let names = [("transform", transform.as_str()), ("data-square", &square.to_string()), ("data-man", &letter)];
        Some(element("g", &names, men::drawn(piece, color)).line())
    };
    let men: Markup = squares().filter_map(man).collect();
    let size = SIZE.to_string();
    let inside = title(text).then(empty_board()).then(men);
    let names = [("xmlns", "http://www.w3.org/2000/svg"), ("width", size.as_str()), ("height", &size)];
    element("svg", &[&names[..], &[("viewBox", &view()), ("role", "img")]].concat(), inside).line()
}

/// A picture on a page, which has `shared` too.
pub fn on_page(board: &Board, text: &str, marked: &[Square]) -> Markup {
    let mark = |square: &Square| {
        let (x, y) = place(*square);
        empty("use", &[("href", "#mark"), ("x", &x), ("y", &y), ("data-marked", &square.to_string())])
    };
    let man = |square: Square| {
        let (piece, color) = man_on(board, square)?;
        let ((x, y), letter) = (place(square), piece.to_string(color));
        let link = format!("#man-{letter}");
        Some(empty("use", &[("href", link.as_str()), ("x", &x), ("y", &y), ("data-square", &square.to_string()), ("data-man", &letter)]))
    };
    let marks: Markup = marked.iter().map(mark).collect();
    let inside = title(text).then(empty("use", &[("href", "#board")])).then(marks).then(squares().filter_map(man).collect());
    element("svg", &[("viewBox", &view()), ("role", "img"), ("class", "board")], inside).line()
}

/// What the pictures of a page have in common: the men, the empty board and the mark of a square.
pub fn shared() -> Markup {
    let kinds = ALL_COLORS.into_iter().flat_map(|color| ALL_PIECES.into_iter().map(move |piece| (piece, color)));
    let man = |(piece, color): (Piece, Color)| {
        element("g", &[("id", &format!("man-{}", piece.to_string(color)))], men::drawn(piece, color)).line()
    };
    let board = element("g", &[("id", "board")], empty_board()).line();
    let side = (SIDE - 3).to_string();
    let size = [("x", "1.5"), ("y", "1.5"), ("width", side.as_str()), ("height", &side)];
    let frame = empty("rect", &[&size[..], &[("fill", MARK), ("stroke", MARK_FRAME), ("stroke-width", "3")]].concat());
    let defined = kinds.map(man).collect::<Markup>().then(board).then(element("g", &[("id", "mark")], frame).line());
    let names = [("width", "0"), ("height", "0"), ("class", "shared"), ("aria-hidden", "true")];
    element("svg", &names, element("defs", &[], defined)).line()
}

fn view() -> String {
    format!("0 0 {SIZE} {SIZE}")
}

fn title(text: &str) -> Markup {
    element("title", &[], Markup::text(text))
}

/// The squares, the letters of the files and the numbers of the ranks.
fn empty_board() -> Markup {
    let is_dark = |square: &Square| square.get_file().to_index() % 2 == square.get_rank().to_index() % 2;
    let dark = |square: Square| {
        let (x, y) = place(square);
        format!("M{x} {y}h{SIDE}v{SIDE}h-{SIDE}z")
    };
    let (x, y, side) = (MARGIN.to_string(), FRAME.to_string(), (8 * SIDE).to_string());
    let all = [("x", x.as_str()), ("y", &y), ("width", &side), ("height", &side)];
    let ground = empty("rect", &[&all[..], &[("fill", LIGHT), ("stroke", "#000"), ("stroke-width", "2")]].concat());
    let darks: String = squares().filter(is_dark).map(dark).collect();
    let files = (0..8).map(|file| letter(MARGIN + SIDE * file + SIDE / 2, SIZE - 4, b'a' + file as u8));
    let ranks = (0..8).map(|rank| letter(MARGIN / 2 - 1, FRAME + SIDE * (7 - rank) + SIDE / 2 + 6, b'1' + rank as u8));
    let letters =
        element("g", &[("font-family", "sans-serif"), ("font-size", "16"), ("text-anchor", "middle")], files.chain(ranks).collect());
    ground.then(empty("path", &[("d", &darks), ("fill", DARK)])).then(letters).line()
}

fn letter(x: usize, y: usize, letter: u8) -> Markup {
    element("text", &[("x", &x.to_string()), ("y", &y.to_string())], Markup::text([letter]))
}
