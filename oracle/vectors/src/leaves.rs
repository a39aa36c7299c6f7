//! What the proved program `leaves` must print: the crate's answers in the order in which that program asks.

use both::numbers::{color_of, man_of, record_of};
use chess::{BoardBuilder, CastleRights, Color, Error, File, Square, ALL_FILES, ALL_SQUARES};
use compare::rules;
use std::fmt::Write as _;
use std::str::FromStr;

fn line(out: &mut String, what: &str, argument: usize, answers: &str) {
    writeln!(out, "{} {} ={}", what, argument, answers).expect("a String takes all");
}

fn accepted(value: usize) -> String {
    format!(" 0 {}", value)
}

fn written(text: &str) -> String {
    format!(" 0 {} [{}]", text.len(), text)
}

fn read(text: &str) -> String {
    match Square::from_str(text) {
        Ok(square) => accepted(square.to_index()),
        Err(Error::InvalidSquare) => " 2 0".to_string(),
        Err(error) => panic!("the crate gives {:?} for {:?}", error, text),
    }
}

/// Texts of one byte and of two.
fn texts(out: &mut String, n: usize) {
    let first = char::from(n as u8);
    line(out, "square::from_str", n, &read(&first.to_string()));
    let all: String = (0..128u8).map(|b| read(&format!("{}{}", first, char::from(b)))).collect();
    line(out, "square::from_str, every second byte", n, &all);
}

fn square(out: &mut String, n: usize) {
    let square = ALL_SQUARES[n];
    line(out, "square::get_rank", n, &accepted(square.get_rank().to_index()));
    line(out, "square::get_file", n, &accepted(square.get_file().to_index()));
    line(out, "square::to_string", n, &written(&square.to_string()));
    line(out, "square::from_str, a tail behind", n, &read(&format!("{} 1", square)));
    if [File::A, File::H].contains(&square.get_file()) {
        let rights = CastleRights::rook_square_to_castle_rights(square);
        line(out, "castle_rights::rook_square_to_castle_rights", n, &accepted(rights.to_index()));
    }
}

/// The crate's en passant square by the rule of the rank, which is one of FEN tokens; 0 for none.
fn en_passant(builder: &BoardBuilder) -> usize {
    let Some(square) = builder.get_en_passant() else { return 0 };
    let side = ["w", "b"][builder.get_side_to_move().to_index()];
    let (tokens, _) = rules::en_passant_rank(&format!("8 {} - {}", side, square));
    let owed = tokens.split(' ').nth(3).expect("a fourth token");
    Square::from_str(owed).expect("a square").to_index()
}

/// All that the getters tell.
fn board(builder: &BoardBuilder) -> String {
    let mut told = accepted(builder.get_side_to_move().to_index());
    for color in [Color::White, Color::Black] {
        told += &accepted(builder.get_castle_rights(color).to_index());
    }
    told += &accepted(en_passant(builder));
    let men = &record_of(builder).numbers[..64];
    men.iter().fold(told, |told, code| told + &accepted(*code as usize))
}

/// A board of one man, with side, rights and file counted on by the square.
fn one_man(out: &mut String, n: usize) {
    let (piece, color) = man_of((n % 12 + 1) as u8).expect("a man's code");
    let mut builder = BoardBuilder::new();
    builder.piece(ALL_SQUARES[n], piece, color);
    builder.side_to_move(color_of((n % 2) as u8));
    builder.castle_rights(Color::White, CastleRights::from_index(n / 2 % 4));
    builder.castle_rights(Color::Black, CastleRights::from_index(n / 8 % 4));
    builder.en_passant((n % 9).checked_sub(1).map(|file| ALL_FILES[file]));
    line(out, "one man", n, &board(&builder));
}

fn rights(out: &mut String, n: usize) {
    let rights = CastleRights::from_index(n);
    line(out, "castle_rights::has_kingside", n, &accepted(rights.has_kingside() as usize));
    line(out, "castle_rights::has_queenside", n, &accepted(rights.has_queenside() as usize));
    line(out, "castle_rights::from_index", n, &accepted(rights.to_index()));
    for colour in [0, 1] {
        let letters = rights.to_string(color_of(colour));
        line(out, &format!("castle_rights::to_string {}", n), colour as usize, &written(&letters));
    }
}

pub fn printed() -> String {
    let mut out = format!("new ={}\ndefault ={}\n", board(&BoardBuilder::new()), board(&BoardBuilder::default()));
    for n in 0..128 {
        texts(&mut out, n);
        if n < 64 {
            square(&mut out, n);
            one_man(&mut out, n);
        }
        if n < 4 {
            rights(&mut out, n);
        }
        if n < 2 {
            line(&mut out, "square::to_my_backrank", n, &accepted(color_of(n as u8).to_my_backrank().to_index()));
        }
    }
    out
}
