//! Writes the crate's answers down: a script for the proved program `replay` and what that must print, a sample; and what the
//! proved program `leaves` must print, everything in range; and pages of FENs and settled keys for the tests of the host's side. Every answer
//! is the crate's, by the rules of `compare`; nothing here asks the archive.
//!
//!     vectors SCRIPT PRINTED LEAVES PAGES SETTLED      the five files to write; always the same bytes

mod leaves;
mod pages;
mod settled;

use both::games::{random_move, Positions};
use both::numbers::{builder_of, move_of, number_of, result_number, MOST_MOVE};
use both::random::Random;
use chess::Game;
use compare::clock::{Counters, Walk};
use compare::part::Part;
use compare::san::{random_place, Input as SanInput, Place, SanAny, SanLegal};
use compare::script::{self, Act, Script};
use compare::{fen, full_fen, moves, names, records, rules};
use std::collections::HashSet;
use std::fmt::Write as _;
use std::rc::Rc;

const TEXTS: usize = 5_000;
/// So many FENs with their counters, and boards after a move (document 02, order 12).
const COUNTED: usize = 2_000;
const GAMES: usize = 100;
/// Long texts and games are the comparison's; here they would only make the files large.
const LONGEST_TEXT: usize = 100;
const LONGEST_GAME: usize = 50;
/// So many moves of one list are named.
const MOVES_A_PLACE: usize = 15;

/// Lines of the script, and the lines that they must print.
#[derive(Default)]
struct Vectors {
    script: String,
    printed: String,
}

impl Vectors {
    fn heading(&mut self, text: &str) {
        self.told(&format!("# {}", text), &format!("# {}", text));
    }

    fn told(&mut self, line: &str, owed: &str) {
        self.silent(line);
        writeln!(self.printed, "{}", owed).expect("a String takes all");
    }

    /// A line that prints nothing.
    fn silent(&mut self, line: &str) {
        writeln!(self.script, "{}", line).expect("a String takes all");
    }
}

/// Whether a text can stand in a line of the script.
fn fits(text: &str) -> bool {
    text.len() <= LONGEST_TEXT && !text.contains(['\n', '\r', '\0'])
}

/// So many different texts of a part's random inputs.
fn different(count: usize, mut next: impl FnMut() -> Option<String>) -> Vec<String> {
    let mut known = HashSet::new();
    while known.len() < count {
        known.extend(next().filter(|text| fits(text)));
    }
    let mut all: Vec<String> = known.into_iter().collect();
    all.sort();
    all
}

/// The smallest inputs of docs/DIFFERENCES.md that a text can show. Those of the log are among the games that are told.
const FENS: [&str; 18] = [
    " w - e4", " b - e4", " w - -", " w - - 7 9", "PPPPPPPPN w - -", "P w - -", " W - -", " w kxK -",
    "8/8/8/8/8/8/8/8 b - z9", " w - a1xx", "8/8/8/8/8/8/8/8  w - -", "8/8 w -", "8/8/8/8/8/8/8/9 w - -",
    "rnbqkbnr/ppp1ppp1/7p/3pP3/8/8/PPPP1PPP/RNBQKBNR w KQkq d6 0 3",
    "rnbqkbnr/pppp1ppp/8/4p3/4P3/5N2/PPPP1PPP/RNBQKB1R b KQkq - 1 2",
    "rnbqkbnr/pppp1ppp/8/4p3/4P3/5N2/PPPP1PPP/RNBQKB1R b KQkq e3 0 2",
    "4k3/8/8/8/4P3/8/8/4K3 b - e3", "8/8/8/8/8/8/8/4K3 w - -",
];
const COORDINATES: [&str; 5] = ["e2e4p", "e2e4k", "e2e9", "z9e4", "e2e"];
/// Men, a list, and texts on them.
const SANS: [(&[(usize, u8)], &[u16], &[&str]); 8] = [
    (&[(52, 1)], &[24_372], &["e8=Q", "e8Q"]),
    (&[(36, 1)], &[2_788], &["exd6", "d6", "exd6 e.p."]),
    (&[(4, 4)], &[388], &["O-O", "O-O+"]),
    (&[(4, 6)], &[388], &["Kg1"]),
    (&[(1, 2)], &[1_153], &["Nc3+?!", "Nb1c3", "Nc3x"]),
    (&[(1, 2), (18, 7)], &[1_153], &["Nc3x", "Nc3"]),
    (&[(1, 2)], &[21_633], &["Nc3Q", "Nc3"]),
    (&[(28, 1), (35, 7)], &[2_268], &["exd5", "xd5", "4xd5"]),
];

/// The crate's text of a record, by the rule of the en passant rank.
fn key_of(record: &both::abi::Record) -> String {
    rules::en_passant_rank(&builder_of(record).to_string()).0
}

fn fen_text(out: &mut Vectors, text: &str) -> Result<(), String> {
    let (owed, _) = fen::owed_read(text)?;
    let told = if owed.number == 0 { key_of(&owed.board) } else { owed.offset.to_string() };
    out.told(&format!("F {}", text), &format!("{} {}", owed.number, told));
    Ok(())
}

fn fen_texts(out: &mut Vectors) -> Result<(), String> {
    out.heading(&format!("{} FEN texts: the number, and the key of the board or the place of what is wrong", TEXTS));
    let (mut part, mut random) = (fen::FenRead::default(), Random::new(1, "vectors: FEN"));
    let texts = different(TEXTS, || part.random(&mut random));
    texts.iter().try_for_each(|text| fen_text(out, text))
}

/// A full FEN: of its first four tokens the crate decides, of its counters the words of order 12.
fn full_text(out: &mut Vectors, text: &str) -> Result<(), String> {
    let owed = full_fen::owed_full(text)?;
    let told = if owed.number == 0 { full_fen::owed_full_text(&owed.board)? } else { owed.offset.to_string() };
    out.told(&format!("G {}", text), &format!("{} {}", owed.number, told));
    Ok(())
}

fn full_texts(out: &mut Vectors) -> Result<(), String> {
    out.heading(&format!("{} FEN texts with their counters: the number, and the full FEN of the board or the place of what is wrong", COUNTED));
    let (mut part, mut random) = (full_fen::FullRead::default(), Random::new(1, "vectors: full FEN"));
    let texts = different(COUNTED, || part.random(&mut random));
    texts.iter().try_for_each(|text| full_text(out, text))
}

/// Legal moves of random games, from positions with any counters.
fn boards_after(out: &mut Vectors) -> Result<(), String> {
    out.heading(&format!("the board after {} legal moves: the number and its full FEN", COUNTED));
    let (mut positions, mut random) = (Positions::default(), Random::new(1, "vectors: after"));
    let mut left = COUNTED;
    while left > 0 {
        let board = positions.next(&mut random);
        let mut walk = Walk { board, counters: Counters::of(&records::counted(records::EMPTY, &random)) };
        let Some(m) = random_move(&board, &mut random) else { continue };
        let before = full_fen::owed_full_text(&walk.position().record)?;
        walk.to(board.make_move_new(m));
        let after = full_fen::owed_full_text(&walk.position().record)?;
        out.told(&format!("A {} {}", number_of(m), before), &format!("0 {}", after));
        left -= 1;
    }
    Ok(())
}

fn coordinate_text(out: &mut Vectors, text: &str) -> Result<(), String> {
    let (owed, _) = moves::owed_read(text)?;
    let again = || format!("{} {}", owed.value, move_of(owed.value as u16));
    let told = if owed.number == 0 { again() } else { owed.offset.to_string() };
    out.told(&format!("C {}", text), &format!("{} {}", owed.number, told));
    Ok(())
}

fn coordinate_texts(out: &mut Vectors) -> Result<(), String> {
    out.heading(&format!("{} coordinate texts: the number, and the value and the move written again or the place of what is wrong", TEXTS));
    let mut random = Random::new(1, "vectors: coordinates");
    let mut read = || match moves::Moves.random(&mut random) {
        Some(moves::Input::Read(text)) => Some(text),
        _ => None,
    };
    let texts = different(TEXTS, &mut read);
    texts.iter().try_for_each(|text| coordinate_text(out, text))
}

fn list_text(list: &[u16]) -> String {
    match list {
        [] => "-".to_string(),
        _ => list.iter().map(|n| n.to_string()).collect::<Vec<_>>().join(","),
    }
}

/// The line that gives the place, unless it is the one given last.
fn give(out: &mut Vectors, last: &mut Option<Rc<Place>>, place: &Rc<Place>) {
    if last.as_ref().map_or(true, |l| !Rc::ptr_eq(l, place)) {
        out.silent(&format!("p 0 {} {}", list_text(&place.list), key_of(&place.record)));
        *last = Some(place.clone());
    }
}

fn san_text(out: &mut Vectors, place: &Place, text: &str) -> Result<(), String> {
    let owed = place.crate_reads(text)?.map_or("4 0".to_string(), |number| format!("0 {}", number));
    out.told(&format!("S {}", text), &owed);
    Ok(())
}

fn san_texts(out: &mut Vectors, what: &str, mut next: impl FnMut() -> Option<SanInput>) -> Result<(), String> {
    out.heading(&format!("{} SAN texts on {}: number and value", TEXTS, what));
    let (mut last, mut left) = (None, TEXTS);
    while left > 0 {
        let Some((place, text)) = next().filter(|(_, text)| fits(text)) else { continue };
        give(out, &mut last, &place);
        san_text(out, &place, &text)?;
        left -= 1;
    }
    Ok(())
}

fn differences(out: &mut Vectors) -> Result<(), String> {
    out.heading("the smallest inputs of docs/DIFFERENCES.md; the en passant rank by its rule");
    FENS.iter().try_for_each(|text| fen_text(out, text))?;
    COORDINATES.iter().try_for_each(|text| coordinate_text(out, text))?;
    for (men, list, texts) in SANS {
        let place = Place::any(records::with(men), list.to_vec());
        give(out, &mut None, &place);
        texts.iter().try_for_each(|text| san_text(out, &place, text))?;
    }
    Ok(())
}

/// Some of the place's moves, and one number that need not be among them.
fn some_moves(place: &Place, random: &mut Random) -> Vec<u64> {
    let listed = if place.list.is_empty() { 0 } else { MOVES_A_PLACE };
    let mut numbers: Vec<u64> = (0..listed).map(|_| *random.pick(&place.list) as u64).collect();
    numbers.push(random.below(MOST_MOVE as usize + 1) as u64);
    numbers
}

fn name_some(out: &mut Vectors, place: &Rc<Place>, random: &mut Random) -> Result<usize, String> {
    give(out, &mut None, place);
    let numbers = some_moves(place, random);
    for number in &numbers {
        let owed = match names::owed(place, *number)? {
            Ok(name) => format!("0 {} {}", name.len(), name),
            Err(number) => format!("{} 0", number),
        };
        out.told(&format!("N {}", number), &owed);
    }
    Ok(numbers.len())
}

fn names_of_moves(out: &mut Vectors) -> Result<(), String> {
    out.heading(&format!("{} names or more: number and length, and the text", TEXTS));
    let (mut positions, mut random) = (Positions::default(), Random::new(1, "vectors: names"));
    let mut named = 0;
    while named < TEXTS {
        let legal = Place::legal(positions.next(&mut random));
        named += name_some(out, &legal, &mut random)?;
        let any = random_place(&mut positions, &mut random);
        named += name_some(out, &any, &mut random)?;
    }
    Ok(())
}

/// The position as the log's lines have it, its FEN with its counters.
fn position_words(walk: &Walk) -> String {
    let position = walk.position();
    format!("{} {} {}", position.in_check, list_text(&position.list), walk.counters.behind(&key_of(&position.record)))
}

fn act_line(act: Act, after: &Walk) -> String {
    match act {
        Act::Move(number) => format!("m {} {}", number, position_words(after)),
        Act::Offer(colour) => format!("o {}", colour),
        Act::Accept => "a".to_string(),
        Act::Declare => "d".to_string(),
        Act::Resign(colour) => format!("r {}", colour),
    }
}

fn ask(out: &mut Vectors, game: &Game) {
    let (result, claim) = (result_number(game.result()), game.can_declare_draw() as u64);
    out.told("?", &format!("0 {} 0 {}", result, claim));
}

/// One game, asked after each action. Its counters are counted from the crate's boards.
fn play(out: &mut Vectors, script: &Script) {
    let mut walk = Walk::start(&script.start);
    let mut game = Game::new_with_board(walk.board);
    let (mut actions, mut moves) = (0, 0);
    out.told(&format!("s {}", position_words(&walk)), "0 0 0");
    ask(out, &game);
    for act in &script.acts {
        let mut after = walk;
        after.to(act.after(&walk.board));
        let number = act.play(&mut game);
        if number == 0 {
            actions += 1;
            moves += matches!(act, Act::Move(_)) as u64;
            walk = after;
        }
        out.told(&act_line(*act, &after), &format!("{} {} {}", number, actions, moves));
        ask(out, &game);
    }
}

fn games(out: &mut Vectors) {
    let mut random = Random::new(1, "vectors: games");
    let chance = std::iter::repeat_with(|| script::random(&mut random));
    let short = chance.filter(|s| s.acts.len() <= LONGEST_GAME).take(GAMES);
    let all: Vec<Script> = script::told().into_iter().chain(script::counted()).chain(short).collect();
    out.heading(&format!("{} games, asked after each action", all.len()));
    for script in &all {
        play(out, script);
    }
}

fn make() -> Result<Vectors, String> {
    let mut out = Vectors::default();
    let (mut legal, mut any) = (SanLegal::new(), SanAny::new());
    let mut random = Random::new(1, "vectors: SAN");
    // remake-vectors finds the chapter by this line.
    out.heading("Vectors: a sample of what the crate chess 3.2.0 answers");
    differences(&mut out)?;
    fen_texts(&mut out)?;
    coordinate_texts(&mut out)?;
    san_texts(&mut out, "legal lists", || legal.random(&mut random))?;
    san_texts(&mut out, "any lists", || any.random(&mut random))?;
    names_of_moves(&mut out)?;
    full_texts(&mut out)?;
    boards_after(&mut out)?;
    games(&mut out);
    Ok(out)
}

fn main() {
    let paths: Vec<String> = std::env::args().skip(1).collect();
    let [script, printed, leaves, pages, settled] = &paths[..] else {
        eprintln!("usage: vectors SCRIPT PRINTED LEAVES PAGES SETTLED");
        std::process::exit(2);
    };
    let write = |path: &String, text: String| std::fs::write(path, text).map_err(|e| format!("{}: {}", path, e));
    let done = make().and_then(|v| {
        write(script, v.script)?;
        write(printed, v.printed)?;
        write(leaves, leaves::printed())?;
        write(pages, pages::written()?)?;
        write(settled, settled::written())
    });
    if let Err(why) = done {
        eprintln!("vectors: {}", why);
        std::process::exit(1);
    }
}
