//! `menkhodur explain`: what a FEN text says, why and where it is refused, what the PGN standard would not have, and an en passant file that no
//! pawn can use.

use crate::input::{self, Lines, Place};
use crate::json::{self, Object};
use crate::options::{Asked, Flag, Status, Stop};
use crate::output::Output;
use crate::standard::{self, Warning};
use crate::told::{self, Progress};
use crate::{roll, svg, whole};
use menkhodur::{ALL_COLORS, ALL_FILES, ALL_RANKS, Board, CastleRights, Color, Error, Square};
use std::ffi::OsStr;
use std::os::unix::ffi::OsStrExt;

pub const FULL: Flag = Flag {
    name: "full",
    value: None,
    about: "read the half-move clock and the move number too, refuse a text without them, and print the FEN that has them",
};
pub const SVG: Flag =
    Flag { name: "svg", value: Some("FILE"), about: "write the board as a picture, and nothing else, to FILE; - is standard output" };
pub const JSON: Flag = Flag { name: "json", value: None, about: "print one JSON object for each text" };

pub fn run(asked: &Asked) -> Result<Status, Stop> {
    if let Some(file) = asked.value(&SVG) {
        return picture(asked, file);
    }
    let form = Form { full: asked.has(&FULL), json: asked.has(&JSON) };
    let mut explain = Explain { form, output: Output::new()?, status: Status::Well, explained: 0, progress: Progress::new() };
    if reads_lines(asked) {
        return explain.lines_of(&asked.words[0]);
    }
    explain.put(None, &one(asked))?;
    explain.output.flush()?;
    Ok(explain.status)
}

fn reads_lines(asked: &Asked) -> bool {
    asked.words.len() == 1 && asked.words[0] == "-"
}

/// The text of the words: a FEN that was not quoted comes as one word per field.
fn one(asked: &Asked) -> Vec<u8> {
    let words: Vec<&[u8]> = asked.words.iter().map(|word| word.as_bytes()).collect();
    words.join(&b' ')
}

/// Of a text that is refused there is no picture, and standard error says why.
fn picture(asked: &Asked, file: &OsStr) -> Result<Status, Stop> {
    if reads_lines(asked) || asked.has(&JSON) {
        return Err(Stop::trouble("--svg is for one FEN, without --json; see menkhodur explain --help"));
    }
    let text = one(asked);
    match Said::of(&text, asked.has(&FULL)).read {
        Ok(board) => {
            let fen = if asked.has(&FULL) { board.to_fen_full() } else { board.to_fen() };
            whole::put_or_say(file, svg::alone(&board, &fen).as_str().as_bytes(), asked.has(&roll::FORCE), Status::Well)
        }
        Err(refused) => {
            told::tell(&[format!("refused: {refused}\n{}", pointed(&text, refused.offset().unwrap_or_default())).trim_end().as_bytes()]);
            Ok(Status::Found)
        }
    }
}

#[derive(Clone, Copy)]
struct Form {
    full: bool,
    json: bool,
}

struct Explain {
    form: Form,
    output: Output,
    status: Status,
    explained: u64,
    progress: Progress,
}

impl Lines for Explain {
    fn lines(&mut self, mut place: Place<'_>, text: &[u8]) -> Result<u64, Stop> {
        let first = place.line;
        for line in text.strip_suffix(b"\n").unwrap_or(text).split(|byte| *byte == b'\n') {
            self.put(Some(place), line)?;
            place.line += 1;
        }
        self.progress.lines(self.explained);
        Ok(place.line - first)
    }

    fn long(&mut self, place: Place<'_>) -> Result<(), Stop> {
        self.found();
        let told = match self.form.json {
            true => Object::new().raw("line", place.line).raw("accepted", false).raw("long", true).end(),
            false => format!("line {}: refused: {}", place.line, input::too_long()),
        };
        self.output.put(told.as_bytes())?;
        self.output.put(b"\n")
    }

    fn flush(&mut self) -> Result<(), Stop> {
        self.output.flush()
    }
}

impl Explain {
    fn lines_of(mut self, word: &OsStr) -> Result<Status, Stop> {
        let mut whole = true;
        input::read(&[word.to_owned()], &mut self, &mut whole)?;
        Ok(if whole { self.status } else { Status::Trouble })
    }

    fn found(&mut self) {
        self.status = Status::Found;
        self.output.status = Status::Found;
    }

    fn put(&mut self, place: Option<Place<'_>>, text: &[u8]) -> Result<(), Stop> {
        let said = Said::of(text, self.form.full);
        if said.read.is_err() {
            self.found();
        }
        let told = match self.form.json {
            true => said.object(place) + "\n",
            false => self.between(place) + &said.explained(),
        };
        self.explained += 1;
        self.output.put(told.as_bytes())
    }

    /// What stands before the explanation of one text of many.
    fn between(&self, place: Option<Place<'_>>) -> String {
        let gap = if self.explained == 0 { "" } else { "\n" };
        place.map_or(String::new(), |place| format!("{gap}line {}: ", place.line))
    }
}

/// An en passant file that no pawn can use. No warning: by the standard (16.1.3.4) a text has its square after every double step.
struct Unusable {
    offset: usize,
    side: Color,
    /// The board without it.
    settled: Board,
}

impl Unusable {
    const NAME: &str = "en-passant-unusable";

    /// Of an accepted text, whose fourth field has the file.
    fn of(text: &[u8], board: Board) -> Option<Unusable> {
        let (settled, side) = (board.settled(), board.get_side_to_move());
        let offset = text.split(|byte| *byte == b' ').take(3).map(|field| field.len() + 1).sum();
        (settled != board).then_some(Unusable { offset, side, settled })
    }

    fn reason(&self) -> String {
        let rank = if self.side == Color::White { 5 } else { 4 };
        format!("no {} pawn stands beside this file on rank {rank}, so none can use it; the settled key has no square", self.side)
    }

    fn object(&self) -> String {
        Object::new().text("name", Unusable::NAME).raw("offset", self.offset).text("reason", &self.reason()).end()
    }
}

/// A text, and what is said about it.
struct Said<'a> {
    text: &'a [u8],
    full: bool,
    /// By the reader that was asked for.
    read: Result<Board, Error>,
    /// By the full reader: the same board with the text's counters, or why it has none.
    counted: Result<Board, Error>,
    warnings: Vec<Warning>,
    unusable: Option<Unusable>,
}

impl Said<'_> {
    fn of(text: &[u8], full: bool) -> Said<'_> {
        let counted = Board::from_fen_full(text);
        let read = if full { counted } else { Board::from_fen(text) };
        let mut warnings = vec![];
        if read.is_ok() {
            standard::find(text, &mut warnings);
        }
        let unusable = read.ok().and_then(|board| Unusable::of(text, board));
        Said { text, full, read, counted, warnings, unusable }
    }

    fn explained(&self) -> String {
        match self.read {
            Ok(board) => self.accepted(&board),
            Err(refused) => format!("refused: {refused}\n{}", pointed(self.text, refused.offset().unwrap_or_default())),
        }
    }

    fn accepted(&self, board: &Board) -> String {
        let mut told = match self.warnings.len() as u64 {
            0 => "accepted\n".to_string(),
            count => format!("accepted, with {}: the PGN standard (16.1) would not allow this text\n", told::counted(count, "warning")),
        };
        let (shown, _) = excerpt(self.text, 0);
        told += &format!("  {shown}\n\n{}\n", diagram(board));
        told += &self.rows(board).iter().map(|(name, about)| format!("  {name:11} {about}\n")).collect::<String>();
        for warning in &self.warnings {
            let (name, offset) = (warning.oddity.name(), warning.offset);
            told += &format!("\nwarning {name}, at byte {offset}: {}\n{}", warning.oddity, pointed(self.text, offset));
        }
        if let Some(unusable) = &self.unusable {
            let (name, offset) = (Unusable::NAME, unusable.offset);
            told += &format!("\nnote {name}, at byte {offset}: {}\n{}", unusable.reason(), pointed(self.text, offset));
        }
        told
    }

    /// What an accepted text says, by name.
    fn rows(&self, board: &Board) -> Vec<(&'static str, String)> {
        let compared = |fen: String| if fen.as_bytes() == self.text { fen + ", the same as the text" } else { fen };
        let rights = ALL_COLORS.map(|color| format!("{color} {}", rights(board.get_castle_rights(color))));
        let mut rows = vec![("key", compared(board.to_fen()))];
        rows.extend(self.unusable.iter().map(|unusable| ("settled key", unusable.settled.to_fen())));
        if self.full {
            rows.push(("full FEN", compared(board.to_fen_full())));
        }
        rows.push(("to move", board.get_side_to_move().to_string()));
        rows.push(("castling", rights.join(", ")));
        rows.push(("en passant", en_passant(board).unwrap_or("none".to_string())));
        match self.counted {
            Ok(counted) => {
                rows.push(("half-moves", counted.get_half_moves().to_string()));
                rows.push(("move number", counted.get_full_moves().to_string()));
            }
            Err(refused) => rows.push(("counters", format!("none: {refused}"))),
        }
        rows
    }

    fn object(&self, place: Option<Place<'_>>) -> String {
        let object = Object::new();
        let object = match place {
            Some(place) => object.raw("line", place.line),
            None => object,
        };
        let object = object.bytes("text", self.text).raw("accepted", self.read.is_ok());
        match self.read {
            Err(refused) => {
                let offset = refused.offset().unwrap_or_default();
                object.raw("number", refused.number()).raw("offset", offset).text("reason", refused.meaning()).end()
            }
            Ok(board) => self.accepted_object(object, &board),
        }
    }

    fn accepted_object(&self, object: Object, board: &Board) -> String {
        let castling = board.to_fen().split(' ').nth(2).unwrap_or_default().to_string();
        let ranks = (0..8).rev().map(|rank| json::quoted(&rank_of(board, rank)));
        let object = object.text("key", &board.to_fen()).text("settled_key", &board.settled().to_fen());
        let object = if self.full { object.text("fen", &board.to_fen_full()) } else { object };
        let object = object.raw("ranks", json::array(ranks)).text("side", &board.get_side_to_move().to_string());
        let object = object.text("castling", &castling).text_or_null("en_passant", en_passant(board).as_deref());
        let counted = self.counted.ok();
        let object = object.raw_or_null("half_moves", counted.map(|board| board.get_half_moves()));
        let object = object.raw_or_null("full_moves", counted.map(|board| board.get_full_moves()));
        let object = object.raw("warnings", json::array(self.warnings.iter().map(warning)));
        object.raw("notes", json::array(self.unusable.iter().map(Unusable::object))).end()
    }
}

fn rights(rights: CastleRights) -> &'static str {
    match rights {
        CastleRights::NoRights => "none",
        CastleRights::KingSide => "king side",
        CastleRights::QueenSide => "queen side",
        CastleRights::Both => "both sides",
    }
}

/// The square as the key has it.
fn en_passant(board: &Board) -> Option<String> {
    board.en_passant_file()?;
    board.to_fen().split(' ').nth(3).map(str::to_string)
}

fn rank_of(board: &Board, rank: usize) -> String {
    let man = |file: usize| {
        let square = Square::make_square(ALL_RANKS[rank], ALL_FILES[file]);
        let man = board.piece_on(square).zip(board.color_on(square));
        man.map_or(".".to_string(), |(piece, color)| piece.to_string(color))
    };
    (0..8).map(man).collect()
}

fn diagram(board: &Board) -> String {
    let spaced = |letters: &str| letters.chars().flat_map(|letter| [' ', letter]).collect::<String>();
    let ranks: String = (0..8).rev().map(|rank| format!("  {} {}\n", rank + 1, spaced(&rank_of(board, rank)))).collect();
    format!("{ranks}    {}\n", spaced("abcdefgh"))
}

/// How much of a long text is shown before and behind a place.
const BEFORE: usize = 90;
const BEHIND: usize = 40;

/// The text around a place, each byte that is not printable ASCII as `\xNN`, and the column of the place.
fn excerpt(text: &[u8], offset: usize) -> (String, usize) {
    let (from, to) = (offset.saturating_sub(BEFORE), text.len().min(offset.max(BEFORE) + BEHIND));
    let byte = |byte: &u8| match byte {
        b'\\' => "\\\\".to_string(),
        b' '..=b'~' => char::from(*byte).to_string(),
        other => format!("\\x{other:02x}"),
    };
    let shown = |bytes: &[u8]| bytes.iter().map(byte).collect::<String>();
    let head = if from > 0 { ".." } else { "" }.to_string() + &shown(&text[from..offset]);
    let tail = shown(&text[offset..to]) + if to < text.len() { ".." } else { "" };
    let column = head.len();
    (head + &tail, column)
}

/// The text with a caret under a place.
pub fn pointed(text: &[u8], offset: usize) -> String {
    let (shown, column) = excerpt(text, offset);
    format!("  {shown}\n  {}^\n", " ".repeat(column))
}

fn warning(warning: &Warning) -> String {
    let object = Object::new().text("name", warning.oddity.name()).raw("offset", warning.offset);
    object.text("reason", &warning.oddity.to_string()).end()
}

#[cfg(test)]
mod tests {
    use super::*;

    #[test]
    fn a_caret_stands_under_its_byte_whatever_stands_before_it() {
        assert_eq!(pointed(b"8/x", 2), "  8/x\n    ^\n");
        assert_eq!(pointed(b"\t\xff\\x", 3), "  \\x09\\xff\\\\x\n            ^\n");
        assert_eq!(pointed(b"ab", 2), "  ab\n    ^\n");
        let long = [b'/'; 1000];
        let (shown, column) = excerpt(&long, 500);
        assert_eq!((shown.len(), column), (2 + BEFORE + BEHIND + 2, 2 + BEFORE));
    }
}
