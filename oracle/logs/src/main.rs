//! Writes games of the crate as the used bytes of a log, and what the crate says of them: the judge of `menkhodur show` and
//! `menkhodur ruling`. The archive is not asked.
//!
//!     logs FOLDER
//!
//! For each game N the files N.actions, N.positions and N.told. A line of the last is the start or an action and what holds
//! after it, in words between tabs, by the names of `HEAD`.

use both::numbers::{number_of, result_number};
use both::random::Random;
use chess::{Action, Board, Game};
use compare::clock::{Counters, Walk};
use compare::names::owed;
use compare::pair::{action_bytes, position_bytes};
use compare::rules::en_passant_rank;
use compare::ruling::{captured, pawn_moved, rights_of, Course};
use compare::san::Place;
use compare::script::{self, Act, Script};
use std::path::Path;

const RANDOM_GAMES: usize = 40;

const HEAD: &str = "action\tmoves\tside\tkind\tname\tcoordinates\tkey\tin_check\tlist\tresult\tclaim\tlaws_claim\tcount\tlaws_count\t\
                    equals\tfirst\tsecond\tcauses\thalf\tfull";

/// A game of the crate with what a log of it holds.
struct Told {
    game: Game,
    course: Course,
    walk: Walk,
    moves: usize,
    actions: Vec<u8>,
    positions: Vec<u8>,
    lines: Vec<String>,
    /// What about the last move empties a count.
    causes: String,
}

impl Told {
    fn start(fen: &str) -> Result<Told, String> {
        let (walk, mut course) = (Walk::start(fen), Course::default());
        course.start(walk.board);
        let positions = position_bytes(&walk.position()).to_vec();
        let game = Game::new_with_board(walk.board);
        let (causes, lines) = ("start".to_string(), vec![HEAD.to_string()]);
        let mut told = Told { game, course, walk, moves: 0, actions: vec![], positions, lines, causes };
        told.tell(["-".to_string(), "start".to_string(), "-".to_string(), "-".to_string()])?;
        Ok(told)
    }

    /// Gives the act to the crate; what it refuses is in no log.
    fn act(&mut self, act: Act) -> Result<(), String> {
        let before = self.walk.board;
        let next = act.after(&before);
        if act.play(&mut self.game) != 0 {
            return Ok(());
        }
        let action = *self.game.actions().last().ok_or("an accepted action")?;
        self.actions.extend(action_bytes(&action));
        if let Act::Move(_) = act {
            self.walk.to(next);
            self.course.add(next);
            self.moves += 1;
            self.positions.extend(position_bytes(&self.walk.position()));
            self.causes = causes(&before, &next);
        }
        let words = words(&before, &action)?;
        self.tell(words)
    }

    fn tell(&mut self, words: [String; 4]) -> Result<(), String> {
        let position = self.walk.position();
        let (owed, claim) = (self.course.owed(&self.game), self.game.can_declare_draw());
        if claim != (owed.claim != 0) {
            return Err("the crate and document 01's words differ about a claim".to_string());
        }
        let (number, moves, words) = (self.actions.len() / 4, self.moves, words.join("\t"));
        let (key, _) = en_passant_rank(&self.walk.board.to_string());
        let (in_check, list, result) = (position.in_check, position.list.len(), result_number(self.game.result()));
        let counts = [owed.claim, owed.laws_claim, owed.count, owed.laws_count, owed.equals, owed.first, owed.second];
        let counts = counts.map(|n| n.to_string()).join("\t");
        let (causes, Counters { half, full }) = (&self.causes, self.walk.counters);
        self.lines.push(format!("{number}\t{moves}\t{words}\t{key}\t{in_check}\t{list}\t{result}\t{counts}\t{causes}\t{half}\t{full}"));
        Ok(())
    }
}

/// Side, kind, name and coordinates.
fn words(before: &Board, action: &Action) -> Result<[String; 4], String> {
    let side = |color| if color == chess::Color::White { "white" } else { "black" }.to_string();
    let other = |side: String, kind: &str| Ok([side, kind.to_string(), "-".to_string(), "-".to_string()]);
    match action {
        Action::MakeMove(m) => {
            let name = owed(&Place::legal(*before), number_of(*m) as u64)?.map_err(|n| format!("{m} has no name: {n}"))?;
            Ok([side(before.side_to_move()), "move".to_string(), name, m.to_string()])
        }
        Action::OfferDraw(color) => other(side(*color), "offer"),
        Action::AcceptDraw => other("-".to_string(), "accept"),
        Action::DeclareDraw => other("-".to_string(), "declare"),
        Action::Resign(color) => other(side(*color), "resign"),
    }
}

fn causes(before: &Board, after: &Board) -> String {
    let all = [
        (pawn_moved(before, after), "a pawn move"),
        (captured(before, after), "a capture"),
        (rights_of(before) != rights_of(after), "a change of castling rights"),
    ];
    all.iter().filter(|(holds, _)| *holds).map(|(_, cause)| *cause).collect::<Vec<_>>().join(",")
}

fn write(folder: &Path, number: usize, script: &Script) -> Result<(), String> {
    let mut told = Told::start(&script.start)?;
    for act in &script.acts {
        told.act(*act)?;
    }
    let lines = told.lines.join("\n") + "\n";
    for (kind, bytes) in [("actions", &told.actions[..]), ("positions", &told.positions[..]), ("told", lines.as_bytes())] {
        let path = folder.join(format!("{number:03}.{kind}"));
        std::fs::write(&path, bytes).map_err(|e| format!("{}: {}", path.display(), e))?;
    }
    Ok(())
}

/// A right that is lost a move before a capture, a capture in passing, and a promotion: what a count can begin with.
fn causes_told() -> Vec<Script> {
    let games = [
        ("r3k2r/8/8/8/8/8/8/R3K2R w KQkq - 0 1", "a1a8 e8d7 a8h8 d7c6"),
        ("rnbqkbnr/ppp1pppp/8/8/3p4/5N2/PPPPPPPP/RNBQKB1R w KQkq - 0 1", "e2e4 d4e3 f3g1 g8f6"),
        ("4k3/P7/8/8/8/8/8/4K3 w - - 0 1", "a7a8q e8d7 a8a1"),
        ("rnbqkbnr/pppppppp/8/8/8/8/PPPPPPPP/RNBQKBNR w KQkq - 0 1", "g1f3 g8f6 h1g1 b8c6 f3h4 h8g8"),
    ];
    let number = |text: &str| text.parse().map(number_of).expect("a move");
    let script = |(start, moves): &(&str, &str)| {
        let acts = moves.split(' ').map(|text| Act::Move(number(text))).collect();
        Script { start: start.to_string(), acts, claim: None, laws: None }
    };
    games.iter().map(script).collect()
}

fn main() -> Result<(), String> {
    let folder = std::env::args().nth(1).ok_or("usage: logs FOLDER")?;
    std::fs::create_dir_all(&folder).map_err(|e| format!("{folder}: {e}"))?;
    let mut random = Random::new(1, "logs");
    let mut scripts = script::fixed();
    scripts.push(script::full());
    scripts.extend(causes_told());
    scripts.extend((0..RANDOM_GAMES).map(|_| script::random(&mut random)));
    for (number, script) in scripts.iter().enumerate() {
        write(Path::new(&folder), number, script)?;
    }
    println!("logs: {} games", scripts.len());
    Ok(())
}
