//! How the men of a board are drawn, in a field of 45 by 45. White men are white with a black outline, black ones black with white lines, so that they
//! can be told apart without any colour.

use crate::markup::{Markup, empty};
use menkhodur::{Color, Piece};

/// The side of a square.
pub const SIDE: usize = 45;

/// The outline of a man, and the lines on it.
struct Drawn {
    body: &'static str,
    lines: &'static str,
}

const PAWN: Drawn = Drawn {
    body: "M16.5 14a6 6 0 1 1 12 0a6 6 0 1 1-12 0zM19.5 19.5h6C25.5 27 31 30 31.5 36.5h-18C14 30 19.5 27 19.5 19.5zM11.5 36.5h22v4h-22z",
    lines: "M14 36.5h17M18 20h9",
};
const KNIGHT: Drawn = Drawn {
    body: "M13.5 36.5C13 30 22 27 22.5 21C20 24 17 24 14.5 26.5C13 28 11.5 30.5 9 29C6.5 27.5 8 24.5 9.5 22.5C11 20 11 15 16 11.5L16.5 6L20.5 9.5\
           C30 10.5 34 20 33 36.5zM11.5 36.5h23v4h-23z",
    lines: "M13.5 36.5h19.5M16 15.5a1 1 0 1 1 2 0a1 1 0 1 1-2 0zM10.5 26l1-1M23 12.5C28.5 15.5 30.5 23 30 33",
};
const BISHOP: Drawn = Drawn {
    body: "M20 7a2.5 2.5 0 1 1 5 0a2.5 2.5 0 1 1-5 0zM22.5 9.5C14 15 11.5 22 15.5 29.5h14C33.5 22 31 15 22.5 9.5zM15.5 29.5h14l2.5 7h-19z\
           M11 36.5h23v4h-23z",
    lines: "M22.5 15.5v9M18.5 19.5h8M15.5 29.5h14M13 36.5h19",
};
const ROOK: Drawn = Drawn {
    body: "M11.5 8h5v3.5h3.5v-3.5h5v3.5h3.5v-3.5h5v9h-22zM14.5 17h16v14h-16zM14.5 31h16l2 5.5h-20zM10.5 36.5h24v4h-24z",
    lines: "M11.5 17h22M14.5 31h16M12.5 36.5h20",
};
const QUEEN: Drawn = Drawn {
    body: "M5.5 13a2.5 2.5 0 1 1 5 0a2.5 2.5 0 1 1-5 0zM12.5 9a2.5 2.5 0 1 1 5 0a2.5 2.5 0 1 1-5 0zM20 7.5a2.5 2.5 0 1 1 5 0a2.5 2.5 0 1 1-5 0z\
           M27.5 9a2.5 2.5 0 1 1 5 0a2.5 2.5 0 1 1-5 0zM34.5 13a2.5 2.5 0 1 1 5 0a2.5 2.5 0 1 1-5 0z\
           M8.5 15.5L13 31.5h19L36.5 15.5L30.5 24L29.8 11.5L25.5 23L22.5 10L19.5 23L15.200 11.5L14.5 24zM13 31.5h19l1 5h-21zM11 36.5h23v4h-23z",
    lines: "M13 31.5h19M12 36.5h21",
};
const KING: Drawn = Drawn {
    body: "M21 4h3v3.5h3.5v3h-3.5v5.5h-3v-5.5h-3.5v-3h3.5z\
           M13 31.5C4.5 25 7.5 15.5 15 15.5C19 15.5 22 18.5 22.5 22.5C23 18.5 26 15.5 30 15.5C37.5 15.5 40.5 25 32 31.5z\
           M13 31.5h19l1 5h-21zM11 36.5h23v4h-23z",
    lines: "M22.5 22.5v9M13 31.5h19M12 36.5h21",
};

/// A man in its field.
pub fn drawn(piece: Piece, color: Color) -> Markup {
    let Drawn { body, lines } = match piece {
        Piece::Pawn => PAWN,
        Piece::Knight => KNIGHT,
        Piece::Bishop => BISHOP,
        Piece::Rook => ROOK,
        Piece::Queen => QUEEN,
        Piece::King => KING,
    };
    let (fill, line) = if color == Color::White { ("#fff", "#000") } else { ("#000", "#fff") };
    let outline = empty("path", &[("d", body), ("fill", fill), ("stroke", "#000"), ("stroke-width", "1.6"), ("stroke-linejoin", "round")]);
    outline.then(empty("path", &[("d", lines), ("fill", "none"), ("stroke", line), ("stroke-width", "1.4"), ("stroke-linecap", "round")]))
}
