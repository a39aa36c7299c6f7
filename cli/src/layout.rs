//! A game in the export form of the PGN standard (of 1994; sections 3.2, 4.3, 8.1.1 and 8.2).

use crate::import::SEVEN;
use crate::import::store::Held;
use crate::options::Stop;
use crate::replayed::{self, Namer};
use crate::standard;
use crate::told;
use menkhodur::{Board, Color, Roll};

/// The most characters that a line of move text has.
const WIDTH: usize = 79;

/// What stands for each of the seven tags if it is missing.
pub const UNKNOWN: [&str; SEVEN.len()] = ["?", "?", "????.??.??", "?", "?", "?", "*"];

/// What may end a game.
const RESULTS: [&str; 4] = ["1-0", "0-1", "1/2-1/2", "*"];

/// The seven tags, each the first of its name.
pub fn seven(game: &Held) -> [Option<&str>; SEVEN.len()] {
    SEVEN.map(|name| game.tags.iter().find(|tag| tag.0 == name).map(|tag| tag.1.as_str()))
}

/// Puts a game behind what is there. Answers how many moves it has.
pub fn put(game: &Held, namer: &mut Namer, into: &mut Vec<u8>) -> Result<u64, Stop> {
    let roll = replayed::roll(game)?;
    for (name, value) in tags(game, &roll) {
        if !is_name(&name) {
            return Err(replayed::bad(game, &format!("no PGN file can have a tag with the name '{}'", told::visible(name.as_bytes()))));
        }
        into.extend(format!("[{name} \"{}\"]\n", quoted(&value)).bytes());
    }
    into.push(b'\n');
    let moves = put_moves(game, &roll, namer, into)?;
    into.extend(b"\n\n");
    Ok(moves)
}

/// Whether an import reads a name as that of a tag; another program may have filed others.
fn is_name(name: &str) -> bool {
    !name.is_empty() && name.bytes().all(|byte| byte.is_ascii_alphanumeric() || byte == b'_')
}

/// The seven in their order, the others in that of their names.
fn tags(game: &Held, roll: &Roll) -> Vec<(String, String)> {
    let values = seven(game).into_iter().zip(UNKNOWN).map(|(value, unknown)| value.unwrap_or(unknown).to_string());
    let mut tags: Vec<(String, String)> = SEVEN.map(str::to_string).into_iter().zip(values).collect();
    tags.extend(others(game, roll));
    tags[SEVEN.len()..].sort_by(|one, other| one.0.cmp(&other.0));
    tags
}

/// All other tags as they are, but for those that say the start: they must say what the roll does.
fn others(game: &Held, roll: &Roll) -> Vec<(String, String)> {
    let fen = fen(game, &roll.start);
    let is_start = |name: &str| ["FEN", "SetUp"].iter().any(|start| name.eq_ignore_ascii_case(start));
    let mut met = [false; SEVEN.len()];
    let mut is_first = |name: &str| SEVEN.iter().position(|known| *known == name).is_some_and(|at| !std::mem::replace(&mut met[at], true));
    let stays = |tag: &&(String, String)| !is_first(&tag.0) && (!is_start(&tag.0) || fen.is_none() && tag.1 == "0");
    let mut others: Vec<(String, String)> = game.tags.iter().filter(stays).cloned().collect();
    if let Some(fen) = fen {
        others.extend([("SetUp".to_string(), "1".to_string()), ("FEN".to_string(), fen)]);
    }
    others
}

/// The FEN text of a start that is not the initial position. A tag of the game's own stays, if it says that start as the standard has it.
fn fen(game: &Held, start: &Board) -> Option<String> {
    let says = |text: &&str| {
        let mut warnings = vec![];
        standard::find(text.as_bytes(), &mut warnings);
        warnings.is_empty() && Board::from_fen_full(text).is_ok_and(|board| board.settled() == *start)
    };
    let own = game.tags.iter().filter(|tag| tag.0.eq_ignore_ascii_case("FEN")).map(|tag| tag.1.as_str()).find(says);
    own.map(str::to_string).or_else(|| (*start != Board::default()).then(|| start.to_fen_full()))
}

/// A value between its quotes, in which the standard has no control character of ASCII.
fn quoted(value: &str) -> String {
    let blank = |letter: char| if letter.is_ascii_control() { ' ' } else { letter };
    value.chars().map(blank).collect::<String>().replace('\\', "\\\\").replace('"', "\\\"")
}

fn put_moves(game: &Held, roll: &Roll, namer: &mut Namer, into: &mut Vec<u8>) -> Result<u64, Stop> {
    let mut lines = Lines { into, column: 0 };
    let moves = match namer.with_variations(game, roll)? {
        Some(text) => {
            text.split(' ').for_each(|word| lines.put(word));
            replayed::moves(roll).count() as u64
        }
        None => put_main(game, roll, namer, &mut lines)?,
    };
    let told = seven(game)[SEVEN.len() - 1];
    lines.put(RESULTS.iter().find(|result| told == Some(**result)).unwrap_or(&"*"));
    Ok(moves)
}

/// The moves of the main line alone.
fn put_main(game: &Held, roll: &Roll, namer: &mut Namer, lines: &mut Lines<'_>) -> Result<u64, Stop> {
    let mut moves = 0;
    for played in replayed::moves(roll) {
        let number = played.before.get_full_moves();
        match played.before.get_side_to_move() {
            Color::White => lines.put(&format!("{number}.")),
            Color::Black if moves == 0 => lines.put(&format!("{number}...")),
            Color::Black => {}
        }
        lines.put(&namer.name(game, &played)?);
        moves += 1;
    }
    Ok(moves)
}

/// Tokens in lines.
struct Lines<'a> {
    into: &'a mut Vec<u8>,
    column: usize,
}

impl Lines<'_> {
    fn put(&mut self, token: &str) {
        let fits = self.column + 1 + token.len() <= WIDTH;
        self.column = match self.column {
            0 => 0,
            column if fits => {
                self.into.push(b' ');
                column + 1
            }
            _ => {
                self.into.push(b'\n');
                0
            }
        };
        self.into.extend(token.bytes());
        self.column += token.len();
    }
}

#[cfg(test)]
mod tests {
    use super::*;
    use menkhodur::{Action, Move};

    fn held(fen: &str, moves: &str, tags: &[(&str, &str)]) -> Held {
        let actions = moves.split_whitespace().map(|text| Action::MakeMove(Move::from_text(text).unwrap())).collect();
        let roll = Roll { start: Board::from_fen_full(fen).unwrap(), actions }.to_bytes().unwrap();
        let tags = tags.iter().map(|(name, value)| (name.to_string(), value.to_string())).collect();
        Held { source: "a".into(), number: 1, line: 1, tags, roll, variations: None }
    }

    fn text(fen: &str, moves: &str, tags: &[(&str, &str)]) -> String {
        let mut text = vec![];
        put(&held(fen, moves, tags), &mut Namer::default(), &mut text).unwrap();
        String::from_utf8(text).unwrap()
    }

    const START: &str = "rnbqkbnr/pppppppp/8/8/8/8/PPPPPPPP/RNBQKBNR w KQkq - 0 1";
    const BARE: &str = "[Event \"?\"]\n[Site \"?\"]\n[Date \"????.??.??\"]\n[Round \"?\"]\n[White \"?\"]\n[Black \"?\"]\n";

    #[test]
    fn a_game_without_tags_has_the_seven() {
        assert_eq!(text(START, "", &[]), format!("{BARE}[Result \"*\"]\n\n*\n\n"));
        let moves = "e2e4 e7e5 g1f3";
        assert_eq!(text(START, moves, &[("Result", "1-0")]), format!("{BARE}[Result \"1-0\"]\n\n1. e4 e5 2. Nf3 1-0\n\n"));
        // A result that no game ends with is not put behind the moves.
        assert_eq!(text(START, "", &[("Result", "1-0 ff")]), format!("{BARE}[Result \"1-0 ff\"]\n\n*\n\n"));
    }

    #[test]
    fn the_seven_come_first_and_the_others_by_their_names() {
        let tags = [("ECO", "C57"), ("White", "a"), ("eco", "x"), ("Site", "s"), ("Annotator", ""), ("Site", "twice"), ("ECO", "again")];
        let owed = "[Event \"?\"]\n[Site \"s\"]\n[Date \"????.??.??\"]\n[Round \"?\"]\n[White \"a\"]\n[Black \"?\"]\n[Result \"*\"]\n\
                    [Annotator \"\"]\n[ECO \"C57\"]\n[ECO \"again\"]\n[Site \"twice\"]\n[eco \"x\"]\n\n*\n\n";
        assert_eq!(text(START, "", &tags), owed);
    }

    #[test]
    fn a_name_that_no_file_can_have_is_trouble() {
        for name in ["", "a b", "a]", "\u{e9}", "a\"b"] {
            let put = put(&held(START, "", &[(name, "x")]), &mut Namer::default(), &mut vec![]);
            let Err(Stop::Trouble(told)) = put else { panic!("{name}") };
            assert!(told.starts_with(b"game 1 of a: no PGN file can have a tag with the name '"));
        }
        assert!(text(START, "", &[("White_2", "x")]).contains("[White_2 \"x\"]\n"));
    }

    #[test]
    fn quotes_and_backslashes_are_escaped_and_control_characters_are_blanks() {
        let tags = [("Event", "a \"b\" \\c\\"), ("Site", "x\ny\tz\x7f\0é😀\u{9b}")];
        let owed = BARE.replacen("?", "a \\\"b\\\" \\\\c\\\\", 1).replacen("Site \"?\"", "Site \"x y z  é😀\u{9b}\"", 1);
        assert_eq!(text(START, "", &tags), format!("{owed}[Result \"*\"]\n\n*\n\n"));
    }

    #[test]
    fn black_begins_with_three_periods_and_a_start_is_told() {
        let fen = "rnbqkbnr/pppppppp/8/8/4P3/8/PPPP1PPP/RNBQKBNR b KQkq - 3 12";
        let start = format!("{BARE}[Result \"*\"]\n[FEN \"{fen}\"]\n[SetUp \"1\"]\n\n");
        assert_eq!(text(fen, "e7e5 g1f3", &[]), format!("{start}12... e5 13. Nf3 *\n\n"));
        assert_eq!(
            text(fen, "e7e5", &[("SetUp", "0"), ("Zoo", "z"), ("fen", "8/8")]),
            start.replace("1\"]\n\n", "1\"]\n[Zoo \"z\"]\n\n12... e5 *\n\n")
        );
        // The initial position with other counters is another start.
        let late = START.replace("0 1", "0 2");
        assert!(text(&late, "e2e4", &[]).ends_with(&format!("[FEN \"{late}\"]\n[SetUp \"1\"]\n\n2. e4 *\n\n")));
    }

    #[test]
    fn a_fen_tag_that_says_the_start_stays_as_it_is() {
        let settled = "rnbqkbnr/pppppppp/8/8/4P3/8/PPPP1PPP/RNBQKBNR b KQkq - 0 1";
        let told = |tags: &[(&str, &str)]| {
            text(settled, "", tags).lines().filter(|line| line.contains("FEN")).map(str::to_string).collect::<Vec<_>>()
        };
        let passing = settled.replace("KQkq -", "KQkq e3");
        assert_eq!(told(&[("FEN", &passing)]), [format!("[FEN \"{passing}\"]")]);
        for other in [
            "rnbqkbnr/pppppppp/8/8/4P3/8/PPPP1PPP/RNBQKBNR b KQkq -",
            START,
            "x",
            &settled.replace("0 1", "0 2"),
            &settled.replace("b", "B"),
        ] {
            assert_eq!(told(&[("FEN", other)]), [format!("[FEN \"{settled}\"]")]);
        }
        // SetUp without FEN means nothing, and 0 means the initial position.
        assert!(!text(START, "", &[("SetUp", "1")]).contains("SetUp") && text(START, "", &[("SetUp", "0")]).contains("[SetUp \"0\"]"));
        assert!(text(START, "", &[("FEN", START), ("SetUp", "0")]).contains(&format!("[FEN \"{START}\"]\n[SetUp \"1\"]\n")));
    }

    #[test]
    fn variations_stand_in_brackets_behind_the_moves_that_they_replace() {
        let told = |text: &str| {
            let game = Held { variations: Some(text.to_string()), ..held(START, "e2e4 e7e5 g1f3", &[]) };
            let mut into = vec![];
            put(&game, &mut Namer::default(), &mut into).map(|moves| {
                assert_eq!(moves, 3);
                String::from_utf8(into).unwrap().split_once("\n\n").unwrap().1.trim_end().to_string()
            })
        };
        // What was filed is written anew, in the form of the standard, 8.2.5 and 8.2.2.2.
        let text = "1.e4 $1 {c} (d2d4 d5 (Nf6 c4) Nc3)(1.c4) e5 2.Nf3";
        let owed = "1. e4 (1. d4 d5 (1... Nf6 2. c4) 2. Nc3) (1. c4) 1... e5 2. Nf3 *";
        assert_eq!(told(text).unwrap(), owed);
        assert_eq!(told("e4 e5 () Nf3").unwrap(), "1. e4 e5 2. Nf3 *");
        assert_eq!(told("e4 e5 Nf3 (Nc3 (f4))").unwrap(), "1. e4 e5 2. Nf3 (2. Nc3 (2. f4)) *");
        assert_eq!(told("(d4) e4 e5 Nf3").unwrap(), "(1. d4) 1. e4 e5 2. Nf3 *");
        for other in ["e4 (d4) e5 2. Nc3", "e4 (d4) e5", "e4 (d4) e5 2. Nf3 Nc6", "e4 (d5) e5 Nf3", "e4 (d4 e5 Nf3", ""] {
            assert!(told(other).is_err(), "{other}");
        }
        let long = "e4 (d4 d5 c4 e6 Nc3 Nf6 Bg5 Be7 e3 O-O Nf3 Nbd7 Rc1 c6 Bd3 dxc4 Bxc4 Nd5) (((Nf3 d5))) e5 Nf3";
        let whole = told(long).unwrap();
        assert!(whole.lines().count() > 1 && whole.lines().all(|line| line.len() <= WIDTH && line.trim() == line), "{whole}");
    }

    #[test]
    fn lines_have_at_most_79_characters_and_as_many_as_fit() {
        let shuffle = "g1f3 g8f6 f3g1 f6g8 ".repeat(1_024);
        let whole = text(START, &shuffle, &[]);
        let lines: Vec<&str> = whole.split_once("\n\n").unwrap().1.trim_end().lines().collect();
        assert!(lines.len() > 300 && lines.iter().all(|line| line.len() <= WIDTH && line.trim() == *line));
        for pair in lines.windows(2) {
            assert!(pair[0].len() + 1 + pair[1].split(' ').next().unwrap().len() > WIDTH, "{pair:?}");
        }
        assert!(lines.iter().any(|line| line.len() == WIDTH));
        let tokens: Vec<&str> = lines.iter().flat_map(|line| line.split(' ')).collect();
        assert_eq!((tokens.len(), tokens[0], tokens[6_144 - 3], *tokens.last().unwrap()), (6_145, "1.", "2048.", "*"));
    }
}
