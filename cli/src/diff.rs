//! `menkhodur diff`: what differs between the games of two rolls.

use crate::input;
use crate::json::Object;
use crate::options::{Asked, Flag, Status, Stop};
use crate::output::Output;
use crate::page;
use crate::roll;
use crate::told;
use menkhodur::{Action, CastleRights, Color, Difference, Differences, Error, File, Piece, Refused, Roll, Which, differences};

pub const NAMES: Flag = Flag { name: "names", value: None, about: "after a tab, name squares, men and actions in words" };
pub const OLD_FIRST: Flag = Flag { name: "old-first", value: None, about: "FIRST is an old roll, without counters" };
pub const OLD_SECOND: Flag = Flag { name: "old-second", value: None, about: "SECOND is an old roll, without counters" };
pub const JSON: Flag = Flag { name: "json", value: None, about: "print one JSON object for each line" };

pub fn run(asked: &Asked) -> Result<Status, Stop> {
    let as_page = page::wanted(asked, &JSON)?;
    if asked.words.iter().all(|word| word == "-") {
        return Err(Stop::trouble("standard input can be only one of FIRST and SECOND"));
    }
    let (first, second) = (roll::read(&asked.words[0])?, roll::read(&asked.words[1])?);
    let mut output: Output = Output::new()?;
    let rolls = [rolled(asked, &first, &OLD_FIRST), rolled(asked, &second, &OLD_SECOND)];
    let lines = match compared(asked, first, second) {
        Ok(lines) => lines,
        Err(refused) => {
            let told = if asked.has(&JSON) { refused_object(&refused) } else { refused.error.number().to_string() };
            output.put((told + "\n").as_bytes())?;
            output.status = Status::Trouble;
            output.flush()?;
            let word = &asked.words[(refused.roll == Which::Second) as usize];
            told::tell(&[input::shown(word), format!(", the {} roll: {}", refused.roll, refused.error).as_bytes()]);
            return Ok(Status::Trouble);
        }
    };
    let status = if lines.len() == 0 { Status::Well } else { Status::Found };
    if let ([Ok(first), Ok(second)], true) = (rolls, as_page) {
        let lines: Vec<(Difference, String)> = lines.map(|difference| (difference, words(&difference))).collect();
        return page::put(asked, &page::differences::of(&[first, second], &lines, &asked.words), status);
    }
    output.status = status;
    for difference in lines {
        let told = if asked.has(&JSON) { object(&difference) } else { line(&difference, asked.has(&NAMES)) };
        output.put((told + "\n").as_bytes())?;
    }
    output.flush()?;
    Ok(status)
}

/// What differs, old rolls being compared as they are written anew. Where both would be refused, it is the first.
fn compared(asked: &Asked, first: Vec<u8>, second: Vec<u8>) -> Result<Differences, Refused> {
    let anew = |roll: Vec<u8>, old: &Flag| if asked.has(old) { roll::upgraded(&roll) } else { Ok(roll) };
    let first = anew(first, &OLD_FIRST).map_err(|error| Refused { roll: Which::First, error })?;
    match anew(second, &OLD_SECOND) {
        Ok(second) => differences(first, second),
        Err(error) => Err(match Roll::from_bytes(first) {
            Ok(_) => Refused { roll: Which::Second, error },
            Err(error) => Refused { roll: Which::First, error },
        }),
    }
}

fn line(difference: &Difference, names: bool) -> String {
    if names { format!("{difference}\t{}", words(difference)) } else { difference.to_string() }
}

fn words(difference: &Difference) -> String {
    let [what, first, second] = named(difference);
    format!("{what}: {first}, {second}")
}

/// The game of a roll, of the kind that it is said to be.
fn rolled(asked: &Asked, roll: &[u8], old: &Flag) -> Result<Roll, Error> {
    if asked.has(old) { Roll::from_old_bytes(roll) } else { Roll::from_bytes(roll) }
}

/// The words of a line are its key, for an action its index, and two numbers.
fn object(difference: &Difference) -> String {
    let line = difference.to_string();
    let [what, first, second] = named(difference);
    let object = match line.split(' ').collect::<Vec<_>>()[..] {
        [key, index, one, two] => Object::new().text("key", key).raw("index", index).raw("first", one).raw("second", two),
        [key, one, two] => Object::new().text("key", key).raw("first", one).raw("second", two),
        _ => Object::new().text("key", &line),
    };
    object.text("name", &what).text("first_name", &first).text("second_name", &second).end()
}

fn refused_object(refused: &Refused) -> String {
    let object = Object::new().text("roll", &refused.roll.to_string()).raw("number", refused.error.number());
    object.text("reason", refused.error.meaning()).end()
}

/// What a line says, in words: what it is of, then the first and the second game.
fn named(difference: &Difference) -> [String; 3] {
    let (what, first, second) = match *difference {
        Difference::Square { square, first, second } => (square.to_string(), man(first), man(second)),
        Difference::Side { first, second } => ("side to move".to_string(), first.to_string(), second.to_string()),
        Difference::White { first, second } => ("white may castle".to_string(), rights(first), rights(second)),
        Difference::Black { first, second } => ("black may castle".to_string(), rights(first), rights(second)),
        Difference::EnPassant { first, second } => ("en passant file".to_string(), file(first), file(second)),
        Difference::HalfMoves { first, second } => ("half-move clock".to_string(), first.to_string(), second.to_string()),
        Difference::FullMoves { first, second } => ("move number".to_string(), first.to_string(), second.to_string()),
        Difference::Action { index, first, second } => (format!("action {index}"), action(first), action(second)),
    };
    [what, first, second]
}

pub fn man(man: Option<(Piece, Color)>) -> String {
    man.map_or("nothing".to_string(), |(piece, color)| man_name(piece, color))
}

pub fn man_name(piece: Piece, color: Color) -> String {
    const NAMES: [&str; 6] = ["pawn", "knight", "bishop", "rook", "queen", "king"];
    format!("{color} {}", NAMES[piece.to_index()])
}

fn rights(rights: CastleRights) -> String {
    let told = match rights {
        CastleRights::NoRights => "no",
        CastleRights::KingSide => "king side",
        CastleRights::QueenSide => "queen side",
        CastleRights::Both => "both sides",
    };
    told.to_string()
}

fn file(file: Option<File>) -> String {
    file.map_or("none".to_string(), |file| char::from(b'a' + file as u8).to_string())
}

fn action(action: Option<Action>) -> String {
    match action {
        None => "nothing".to_string(),
        Some(Action::MakeMove(made)) => made.to_string(),
        Some(Action::OfferDraw(color)) => format!("{color} offers a draw"),
        Some(Action::AcceptDraw) => "draw accepted".to_string(),
        Some(Action::DeclareDraw) => "draw declared".to_string(),
        Some(Action::Resign(color)) => format!("{color} resigns"),
    }
}
