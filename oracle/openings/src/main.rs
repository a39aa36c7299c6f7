//! Plays the games of a PGN file on both sides. Every move's text is read, the move named, its name read back and the move
//! logged; the board after each legal move is computed; every position's legal moves are listed and judged, its key is written and read back; each
//! answer, count and lent byte is compared with the crate's.
//! Each game's text is stepped through by the archive's call, and played with its variations, beside the crate's `Board`.
//! The PGN standard's reader must read each text as that move too, and its namer's name is laid beside the file's own text
//! without check marks; where they differ, both are shown.
//!
//!     openings FILE.pgn
//!     openings --fens FILE.pgn    only compares the FENs, clocks and move numbers too, that stand behind each move as pgn-extract writes them
//!     openings --random           only writes random games with castling, promotions and en passant, their moves by squares

mod fens;
mod pgn;

use both::abi;
use both::games::{board_of, STARTS};
use both::numbers::position_of;
use chess::Board;
use compare::after::{self, After};
use compare::clock::Counters;
use compare::fen::{self, FenRead, FenWrite};
use compare::legal::{self, Legal};
use compare::names::{self, Names};
use compare::pair::Pair;
use compare::part::{Part, Tally};
use compare::played::{self, Played};
use compare::rules::en_passant_rank;
use compare::san::{Place, SanLegal};
use compare::san_standard::{Given, Input, SanStandard};
use compare::script::Act;
use compare::standard;
use std::process::exit;
use std::rc::Rc;

const RANDOM_GAMES: usize = 1_000;

struct Player {
    pair: Pair,
    tally: Tally,
    /// Texts that document 01's form refuses, as `O-O+`, `e8=Q` and `exd6` in passing.
    only_standard: u64,
    /// Moves whose name in the standard's form is the file's own text without check marks.
    as_in_file: u64,
    /// The file's text and the name, where they differ.
    otherwise: Vec<String>,
}

impl Player {
    fn key(&mut self, board: &Board) -> Result<(), String> {
        let record = position_of(board).record;
        FenWrite::default().compare(&(record, 0), &mut self.tally)?;
        let (key, _) = en_passant_rank(&board.to_string());
        FenRead::default().compare(&key, &mut self.tally)?;
        match fen::owed_read(&key)?.0.board == record {
            true => Ok(()),
            false => Err(format!("{:?} is not read back", key)),
        }
    }

    /// Both must agree on the text, whatever it is.
    fn reads(&mut self, place: &Rc<Place>, text: &str) -> Result<Option<u16>, String> {
        SanLegal::new().compare(&(place.clone(), text.to_string()), &mut self.tally)?;
        place.crate_reads(text)
    }

    /// The move of the file's text: as the crate reads it, or, where the crate refuses, in the standard's form.
    fn meant(&mut self, place: &Rc<Place>, text: &str) -> Result<u16, String> {
        if let Some(number) = self.reads(place, text)? {
            return Ok(number);
        }
        self.only_standard += 1;
        standard::read(&place.record, &place.list, text.as_bytes()).map_err(|_| format!("{:?} is refused by all", text))
    }

    /// The file's text is read as the move, and the move has a name, in the standard's form.
    fn standard(&mut self, place: &Rc<Place>, text: &str, number: u16) -> Result<(), String> {
        let (given, part) = (Given::of(place), SanStandard::new());
        part.compare(&Input::Read(given.clone(), text.as_bytes().to_vec()), &mut self.tally)?;
        part.compare(&Input::Name(given, number as u64, 0), &mut self.tally)?;
        let read = standard::read(&place.record, &place.list, text.as_bytes());
        if read != Ok(number) {
            return Err(format!("{:?} is not read as {} in the standard's form: {:?}", text, number, read));
        }
        let name = standard::name(&place.record, &place.list, number as u64)
            .map_err(|n| format!("{:?} has no name in the standard's form: {}", text, n))?;
        match name == text.trim_end_matches(['+', '#']) {
            true => self.as_in_file += 1,
            false => self.otherwise.push(format!("{:?} is named {:?}", text, name)),
        }
        Ok(())
    }

    fn play(&mut self, text: &str) -> Result<(), String> {
        let place = Place::legal(self.pair.board());
        let number = self.meant(&place, text)?;
        Names::new().compare(&names::Input::new(place.clone(), number as u64), &mut self.tally)?;
        let name = names::owed(&place, number as u64)?.map_err(|n| format!("{:?} has no name: {}", text, n))?;
        if self.reads(&place, &name)? != Some(number) {
            return Err(format!("the name {:?} is not read back", name));
        }
        self.standard(&place, text, number)?;
        for listed in &place.list {
            After::default().compare(&after::Input::Legal(self.pair.board(), self.pair.counters(), *listed), &mut self.tally)?;
        }
        Legal::default().compare(&legal::Input::of(&self.pair.board()), &mut self.tally)?;
        if !self.pair.act(Act::Move(number), &mut self.tally)? {
            return Err(format!("{:?} is not logged", text));
        }
        self.key(&self.pair.board())
    }

    fn game(&mut self, texts: &[String]) -> Result<(), String> {
        self.pair.start(STARTS[0], &mut self.tally)?;
        self.key(&board_of(STARTS[0]))?;
        for (i, text) in texts.iter().enumerate() {
            self.play(text).map_err(|why| format!("move {} of {:?}: {}", i + 1, texts.join(" "), why))?;
        }
        self.pair.end()
    }
}

/// The moves of a game's text outside brackets, one by one by the archive's own call, and their number by its check.
fn walked(text: &str) -> Result<Vec<String>, String> {
    let (bytes, mut moves) = (text.as_bytes(), vec![]);
    let (mut offset, mut level, mut all) = (0, 0, 0);
    loop {
        let next = abi::pgn_next(bytes, offset, level);
        if next.found == 0 {
            let count = abi::pgn_check(bytes);
            return match (next.number, count.number, count.moves) {
                (0, 0, counted) if counted == all => Ok(moves),
                _ => Err(format!("next ends with {:?}, check with {:?}, {} moves walked", next, count, all)),
            };
        }
        let held = &text[next.start as usize..(next.start + next.length) as usize];
        if next.level == 0 {
            moves.push(held.to_string());
        }
        (offset, level, all) = (next.start + next.length, next.level, all + 1);
    }
}

/// Each game's moves as the archive walks them, which must be those that `pgn`, a reader of words, finds.
fn walked_games(text: &str) -> Vec<(usize, Vec<String>)> {
    let games = pgn::games(text);
    let walked: Vec<Vec<String>> = pgn::sections(text)
        .iter()
        .map(|(line, section)| {
            walked(section).unwrap_or_else(|why| {
                println!("differs: the move text that begins in line {}: {}", line, why);
                exit(1);
            })
        })
        .filter(|moves| !moves.is_empty())
        .collect();
    let words: Vec<&Vec<String>> = games.iter().map(|(_, moves)| moves).collect();
    if walked.iter().ne(words) {
        println!("differs: the walk finds other moves than the reader of words");
        exit(1);
    }
    let moves: usize = walked.iter().map(Vec::len).sum();
    println!("pgn: {} games, {} moves, walked as they are read by words", walked.len(), moves);
    games.into_iter().zip(walked).map(|((line, _), moves)| (line, moves)).collect()
}

/// Each game's text by steps, and with its variations: none may be refused, and the moves of the main line must be those that were walked.
fn stepped_games(text: &str, games: &[(usize, Vec<String>)]) -> bool {
    let (part, mut tally, mut differ) = (Played::new(), Tally::default(), 0);
    for (line, section) in pgn::sections(text) {
        let game = played::Input::Game(board_of(STARTS[0]), Counters::FIRST, section.into_bytes());
        if let Err(why) = part.compare(&game, &mut tally) {
            println!("differs: the move text that begins in line {}: {}", line, why);
            differ += 1;
        }
    }
    let count = |label: &str| tally.rows.iter().find(|row| row.label == label).map_or((0, 0), |row| (row.accepted, row.refused));
    let ((steps, refused), (all, not_played)) = (count("played: main line"), count("played: variation"));
    let owed: usize = games.iter().map(|(_, moves)| moves.len()).sum();
    // Besides its moves each text has a step that finds none.
    let moves = steps as usize - pgn::sections(text).len().min(steps as usize);
    println!("played: {} moves of main lines by steps, {} with variations, {} refused", moves, all, refused + not_played);
    differ == 0 && moves == owed && refused + not_played == 0
}

fn report(player: &Player) {
    for row in &player.tally.rows {
        println!("{:<20} {:>9} accepted {:>9} refused", row.label, row.accepted, row.refused);
    }
    let named = player.as_in_file + player.otherwise.len() as u64;
    let rate = 100.0 * player.as_in_file as f64 / named.max(1) as f64;
    println!("standard's form: of {} moves {} are named as in the file, {:.3} %", named, player.as_in_file, rate);
    println!("standard's form: {} texts are refused in document 01's form", player.only_standard);
}

fn text_of(path: &str) -> String {
    std::fs::read_to_string(path).unwrap_or_else(|why| {
        eprintln!("openings: {}: {}", path, why);
        exit(2);
    })
}

/// The FENs behind the moves of a file. Says whether all are ours.
fn compare_fens(text: &str) -> bool {
    let games = fens::games(text);
    let (mut positions, mut differ) = (0, 0);
    for (i, game) in games.iter().enumerate() {
        match fens::compare(game) {
            Ok(compared) => positions += compared,
            Err(why) => {
                println!("differs: game {}: {}", i + 1, why);
                differ += 1;
            }
        }
    }
    println!("fens: {} games, {} positions with the clock and the move number of the file, {} games differ", games.len(), positions, differ);
    differ == 0 && positions > 0
}

fn main() {
    let words: Vec<String> = std::env::args().skip(1).collect();
    let words: Vec<&str> = words.iter().map(String::as_str).collect();
    let good = match words[..] {
        ["--random"] => return print!("{}", pgn::random_games(RANDOM_GAMES)),
        ["--fens", path] => compare_fens(&text_of(path)),
        [path] => play_all(&text_of(path)),
        _ => {
            eprintln!("usage: openings FILE.pgn | --fens FILE.pgn | --random");
            exit(2);
        }
    };
    if !good {
        exit(1);
    }
}

/// Plays the games of a file. Says whether all agreed.
fn play_all(text: &str) -> bool {
    let games = walked_games(text);
    let mut player = Player { pair: Pair::new(), tally: Tally::default(), only_standard: 0, as_in_file: 0, otherwise: vec![] };
    let mut differ = 0;
    for (line, texts) in &games {
        let before = player.otherwise.len();
        if let Err(why) = player.game(texts) {
            println!("differs: the game that begins in line {}: {}", line, why);
            differ += 1;
        }
        for other in &player.otherwise[before..] {
            println!("named otherwise: the game that begins in line {}: {}", line, other);
        }
    }
    report(&player);
    let stepped = stepped_games(text, &games);
    println!("openings: {} games, {} comparisons, {} games differ", games.len(), player.tally.agreed(), differ);
    differ == 0 && stepped && !games.is_empty()
}
