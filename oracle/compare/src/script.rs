//! Scripts of actions for the log: walks of exact lengths, and random games in several manners.

use crate::clock::Counters;
use crate::records;
use both::abi::MOST_MOVES;
use both::games::{board_of, moves_of, random_move, STARTS};
use both::numbers::{color_of, move_of, number_of};
use both::random::Random;
use chess::{Board, ChessMove, Color, Game, Piece};
use std::collections::HashMap;

/// What is done on a log.
#[derive(Clone, Copy, PartialEq, Debug)]
pub enum Act {
    Move(u16),
    Offer(u8),
    Accept,
    Declare,
    Resign(u8),
}

impl Act {
    pub fn label(self) -> &'static str {
        match self {
            Act::Move(_) => "log: make_move",
            Act::Offer(_) => "log: offer_draw",
            Act::Accept => "log: accept_draw",
            Act::Declare => "log: declare_draw",
            Act::Resign(_) => "log: resign",
        }
    }

    /// The answer that stands for the crate's `false` in a game that is not over.
    fn refusal(self) -> u64 {
        match self {
            Act::Move(_) => 11,
            Act::Accept => 14,
            Act::Declare => 15,
            Act::Offer(_) | Act::Resign(_) => 10,
        }
    }

    /// What stands on the board after it: the same as before, if it is no legal move.
    pub fn after(self, board: &Board) -> Board {
        match self {
            Act::Move(number) if board.legal(move_of(number)) => board.make_move_new(move_of(number)),
            _ => *board,
        }
    }

    /// Gives the action to the crate. Document 01's number for what it said: 0, 10 in a game that was over, or the refusal.
    pub fn play(self, game: &mut Game) -> u64 {
        let over = game.result().is_some();
        let yes = match self {
            Act::Move(number) => game.make_move(move_of(number)),
            Act::Offer(colour) => game.offer_draw(color_of(colour)),
            Act::Accept => game.accept_draw(),
            Act::Declare => game.declare_draw(),
            Act::Resign(colour) => game.resign(color_of(colour)),
        };
        match (yes, over) {
            (true, _) => 0,
            (false, true) => 10,
            (false, false) => self.refusal(),
        }
    }

    pub fn show(self) -> String {
        let by = |colour: u8| if colour == 0 { "white" } else { "black" };
        match self {
            Act::Move(number) => move_of(number).to_string(),
            Act::Offer(colour) => format!("offer-{}", by(colour)),
            Act::Accept => "accept".to_string(),
            Act::Declare => "declare".to_string(),
            Act::Resign(colour) => format!("resign-{}", by(colour)),
        }
    }
}

/// A start, what is then done, and what must hold at the end where a script is made for it.
#[derive(Clone)]
pub struct Script {
    pub start: String,
    pub acts: Vec<Act>,
    /// The claim after the last action, if the script was made to bring it about, and the claim by the Laws.
    pub claim: Option<bool>,
    pub laws: Option<bool>,
}

/// Starts beside those of all games: few men, near an end or at one.
const ENDINGS: [&str; 8] = [
    "4k1n1/8/8/8/8/8/8/1N2K3 w - - 0 1",
    "4k1n1/8/8/8/8/8/8/1N2K3 b - - 0 1",
    "k7/8/1K6/8/8/8/7Q/8 w - - 0 1",
    "7k/8/5K2/8/8/8/6R1/8 b - - 0 1",
    "7k/5Q2/6K1/8/8/8/8/8 b - - 0 1",
    "R5k1/5ppp/8/8/8/8/8/6K1 b - - 0 1",
    "8/8/8/8/k2p3R/8/4P3/4K3 w - - 0 1",
    "r3k2r/8/8/8/8/8/8/R3K2R b KQkq - 0 1",
];

fn rights_of(board: &Board) -> [usize; 2] {
    [Color::White, Color::Black].map(|c| board.castle_rights(c).to_index())
}

/// Neither a pawn's move nor a capture.
fn quiet(board: &Board, m: ChessMove) -> bool {
    board.piece_on(m.get_source()) != Some(Piece::Pawn) && board.piece_on(m.get_dest()).is_none()
}

/// Quiet too, and no right is lost.
fn reversible(board: &Board, m: ChessMove) -> bool {
    quiet(board, m) && rights_of(&board.make_move_new(m)) == rights_of(board)
}

/// So many reversible moves, no position of which comes twice.
fn walk(start: &str, length: usize, random: &mut Random) -> (Vec<Act>, Board) {
    walk_losing(start, length, &[], random)
}

/// The same with moves, by their numbers from 1, that are quiet and lose a right.
fn walk_losing(start: &str, length: usize, losing: &[usize], random: &mut Random) -> (Vec<Act>, Board) {
    'again: loop {
        let mut board = board_of(start);
        let (mut seen, mut acts) = (vec![board], vec![]);
        while acts.len() < length {
            let keeps = !losing.contains(&(acts.len() + 1));
            let fresh = |m: &ChessMove| {
                let next = board.make_move_new(*m);
                let as_asked = quiet(&board, *m) && reversible(&board, *m) == keeps;
                as_asked && !seen.contains(&next) && !moves_of(&next).is_empty()
            };
            let moves: Vec<ChessMove> = moves_of(&board).into_iter().filter(fresh).collect();
            if moves.is_empty() {
                continue 'again;
            }
            let m = *random.pick(&moves);
            acts.push(Act::Move(number_of(m)));
            board = board.make_move_new(m);
            seen.push(board);
        }
        return (acts, board);
    }
}

/// Exactly 99, 100 and 101 reversible moves, by either side first: a claim stands from the hundredth on.
fn counts(random: &mut Random) -> Vec<Script> {
    let mut scripts = vec![];
    for start in &ENDINGS[..2] {
        for length in [98, 99, 100, 101, 102] {
            let (acts, _) = walk(start, length, random);
            let claim = Some(length >= 100);
            scripts.push(Script { start: start.to_string(), acts, claim, laws: claim });
        }
    }
    scripts
}

/// 99 reversible moves and a hundredth that loses a right, moves a pawn or takes: no claim, but by the Laws after a lost right.
fn broken_counts(random: &mut Random) -> Vec<Script> {
    let starts = ["4k1n1/8/8/8/8/8/7P/RN2K3 b Q - 0 1", "4k1n1/8/8/3p4/4P3/8/8/1N2K3 b - - 0 1"];
    let mut scripts = vec![];
    for start in starts {
        let (mut acts, board) = walk(start, 99, random);
        for m in moves_of(&board).into_iter().filter(|m| !reversible(&board, *m)) {
            acts.push(Act::Move(number_of(m)));
            let (claim, laws) = (Some(false), Some(quiet(&board, m)));
            scripts.push(Script { start: start.to_string(), acts: acts.clone(), claim, laws });
            acts.pop();
        }
    }
    scripts
}

/// 98 to 102 moves without a pawn move, a capture or a repetition, in which a king or a rook loses a right at the first, the
/// fiftieth, the ninety-eighth or the last move, or at three of them: a claim by the Laws stands from the hundredth on, and by
/// the crate a hundred moves after the last loss.
fn lost_rights(random: &mut Random) -> Vec<Script> {
    let starts = ["rn2k1nr/8/8/8/8/8/8/RN2K1NR w KQkq - 0 1", "rn2k1nr/8/8/8/8/8/8/RN2K1NR b KQkq - 0 1"];
    let mut scripts = vec![];
    for start in starts {
        for length in [98, 99, 100, 101, 102] {
            for losing in [&[1][..], &[50], &[98], &[length], &[1, 50, 97]] {
                let (acts, _) = walk_losing(start, length, losing, random);
                let last = losing[losing.len() - 1];
                let (claim, laws) = (Some(length - last >= 100), Some(length >= 100));
                scripts.push(Script { start: start.to_string(), acts, claim, laws });
            }
        }
    }
    scripts
}

fn acts_of(text: &str) -> Vec<Act> {
    let number = |t: &str| t.parse::<ChessMove>().map(number_of).expect("a move");
    let act = |t: &str| match t {
        "ow" => Act::Offer(0),
        "ob" => Act::Offer(1),
        "a" => Act::Accept,
        "d" => Act::Declare,
        "rw" => Act::Resign(0),
        "rb" => Act::Resign(1),
        _ => Act::Move(number(t)),
    };
    text.split_whitespace().map(act).collect()
}

/// One and two earlier equal positions, offers in every place, and what comes after an end.
pub fn told() -> Vec<Script> {
    let round = "b1c3 g8f6 c3b1 f6g8 ";
    let initial = [
        ("", Some(false)), (round, Some(false)), (&round.repeat(2), Some(true)), (&round.repeat(3), Some(true)),
        (&(round.repeat(4) + "b1c3"), Some(true)),
        (&(round.repeat(2) + "e2e4"), Some(false)), (&(round.to_string() + "e2e4 e7e5 " + round), Some(false)),
        (&(round.repeat(2) + "d ow a rb b1c3 d"), Some(false)), ("d b1c3 d", None),
        ("ow a", None), ("ob a", None), ("ow e2e4 a", None), ("ob e2e4 a", None), ("ow e2e4 e7e5 a", None),
        ("ow ob e2e4 a", None), ("ob ow e2e4 a", None), ("a", None), ("e2e4 a", None), ("ow e2e5 a", None),
        ("e2e4 ob e7e5 a", None), ("e2e4 ow e7e5 a", None), ("rw", None), ("rb", None), ("ow rw a", None),
        ("f2f3 e7e5 g2g4 d8h4 a d ow rw e2e4", None), ("e2e4 e7e5 d1h5 a7a6 f1c4 a6a5 h5f7 ob a d rb", None),
    ];
    let ep = "e2e4 a4b4 e1e2 b4a4 e2e1 a4b4 e1e2 b4a4 e2e1 a4b4 e1e2 b4a4 e2e1";
    let castles = "e1g1 e8c8 f1e1 d8e8 e1f1 e8d8 f1e1 d8e8 e1f1 e8d8 d";
    let rights = "a1b1 a8b8 b1a1 b8a8 a1b1 a8b8 b1a1 b8a8 a1b1 a8b8 b1a1 b8a8";
    let ended = [(ENDINGS[4], "h8g8 a d ow rb"), (ENDINGS[5], "d rb")];
    let bare_kings = ("8/8/4k3/8/8/4K3/8/8 w - - 0 1", "e3d3 e6d6 d3e3");
    let others = [(ENDINGS[6], ep), (STARTS[5], castles), (STARTS[5], rights), ended[0], ended[1], bare_kings];
    let from = |start: &str, text: &str, claim| Script { start: start.to_string(), acts: acts_of(text), claim, laws: None };
    let first = initial.iter().map(|(text, claim)| from(STARTS[0], text, *claim));
    first.chain(others.iter().map(|(start, text)| from(start, text, None))).collect()
}

/// Games that stop where an offer stands, or has just gone.
pub fn left_open() -> Vec<Script> {
    let texts = [
        "ow", "ob", "ow ob", "e2e4 ob", "e2e4 ow", "ow e2e4", "ob e2e4", "ow e2e4 e7e5", "e2e4 ob e7e5", "e2e4 ow e7e5",
        "ow ob e2e4", "ob ow e2e4", "f2f3 e7e5 g2g4 ob d8h4", "f2f3 e7e5 ow g2g4 d8h4",
    ];
    let from = |text: &&str| Script { start: STARTS[0].to_string(), acts: acts_of(text), claim: None, laws: None };
    texts.iter().map(from).collect()
}

/// So many moves of knights there and back, from the initial position.
pub fn knights(moves: usize) -> Vec<Act> {
    acts_of("b1c3 g8f6 c3b1 f6g8").into_iter().cycle().take(moves).collect()
}

/// As many moves and actions as a log holds, an offer after each move, with every offer left standing.
pub fn full() -> Script {
    let offered = |(n, act): (usize, Act)| [act, Act::Offer((n % 2) as u8)];
    let acts = knights(MOST_MOVES).into_iter().enumerate().flat_map(offered).collect();
    Script { start: STARTS[0].to_string(), acts, claim: Some(true), laws: Some(true) }
}

/// Games that come to the last count of either counter, to it and past it, by quiet moves of either side first; that leave it by a capture, a pawn's
/// move and a promotion; and that repeat positions below it and at it.
pub fn counted() -> Vec<Script> {
    let round = "b1c3 g8f6 c3b1 f6g8 ";
    let games = [
        (STARTS[0], [9_990, 9_995], &round.repeat(6)[..]), (STARTS[0], [9_999, 9_999], &round.repeat(3)),
        (STARTS[0], [9_998, 9_998], "b1c3 e7e5 c3b1 f8c5"), (STARTS[0], [255, 255], "b1c3 b8c6 c3b1 c6b8"),
        (ENDINGS[1], [9_997, 9_998], "g8f6 b1c3 f6g8 c3b1 g8f6"),
        (STARTS[5], [9_999, 1], "e1g1 e8c8 a1a7 d8d2 a7a8"), (STARTS[5], [99, 9_999], "a1a8 e8e7 a8h8 e7d6"),
        (STARTS[12], [9_999, 9_999], "e4d3 e1d2 c5d4"), (ENDINGS[7], [127, 127], "e8g8 e1c1 f8f1 d1f1"),
        ("4k3/P7/8/8/8/8/8/4K3 w - - 0 1", [50, 16], "e1e2 e8e7 a7a8q e7d6 a8a1"),
    ];
    let script = |(start, [half, full], text): &(&str, [u16; 2], &str)| {
        let start = Counters { half: *half, full: *full }.behind(start);
        Script { start, acts: acts_of(text), claim: None, laws: None }
    };
    games.iter().map(script).collect()
}

/// The start with other counters every other time; the choice takes nothing from the stream.
fn with_counters(start: &str, random: &Random) -> String {
    match Counters::of(&records::counted(records::EMPTY, random)) {
        Counters::FIRST => start.to_string(),
        other => other.behind(start),
    }
}

pub fn fixed() -> Vec<Script> {
    let mut random = Random::new(1, "walks");
    let mut scripts = told();
    scripts.extend(counted());
    scripts.extend(counts(&mut random));
    scripts.extend(broken_counts(&mut random));
    scripts.extend(lost_rights(&mut random));
    scripts
}

/// How a random game chooses its moves.
#[derive(Clone, Copy)]
enum Manner {
    Wild,
    /// Mostly reversible moves: long runs.
    Quiet,
    /// Mostly the way back: repetitions.
    Back,
}

/// A random game in the making. It only guesses when a game is over; both sides judge that for themselves.
struct Player<'a> {
    board: Board,
    acts: Vec<Act>,
    /// The last move of each side.
    last: [Option<ChessMove>; 2],
    seen: HashMap<Board, u32>,
    run: u32,
    manner: Manner,
    random: &'a mut Random,
}

impl Player<'_> {
    fn choose(&mut self) -> Option<ChessMove> {
        let moves = moves_of(&self.board);
        let back = self.last[self.board.side_to_move().to_index()]
            .map(|m| ChessMove::new(m.get_dest(), m.get_source(), None))
            .filter(|m| moves.contains(m));
        let calm: Vec<ChessMove> = moves.iter().copied().filter(|m| quiet(&self.board, *m)).collect();
        match self.manner {
            Manner::Back if back.is_some() && !self.random.once_in(5) => back,
            Manner::Back | Manner::Quiet if !calm.is_empty() && !self.random.once_in(40) => Some(*self.random.pick(&calm)),
            _ => random_move(&self.board, self.random),
        }
    }

    /// A move after which the game goes on.
    fn goes_on(&mut self) -> Option<ChessMove> {
        let board = self.board;
        let lasts = |m: &ChessMove| !moves_of(&board.make_move_new(*m)).is_empty();
        let chosen = self.choose().filter(lasts);
        chosen.or_else(|| moves_of(&board).into_iter().find(lasts))
    }

    fn play(&mut self, m: ChessMove) {
        self.last[self.board.side_to_move().to_index()] = Some(m);
        self.run = if reversible(&self.board, m) { self.run + 1 } else { 0 };
        self.board = self.board.make_move_new(m);
        *self.seen.entry(self.board).or_insert(0) += 1;
        self.acts.push(Act::Move(number_of(m)));
    }

    /// Something beside a move now and then. Says whether the game is likely to be over by it.
    fn beside(&mut self) -> bool {
        let colour = self.random.below(2) as u8;
        let offered = matches!(self.acts.last(), Some(Act::Offer(_)));
        let claims = self.run >= 100 || self.seen.get(&self.board).map_or(false, |n| *n >= 3);
        match self.random.below(60) {
            0..=3 => self.acts.push(Act::Offer(colour)),
            4 | 5 if !offered || self.random.once_in(6) => self.acts.push(Act::Accept),
            6 if self.random.once_in(8) => self.acts.push(Act::Resign(colour)),
            7 | 8 if !claims || self.random.once_in(12) => self.acts.push(Act::Declare),
            9 => self.acts.push(Act::Move(self.random.below(28_672) as u16)),
            _ => return false,
        }
        match self.acts.last() {
            Some(Act::Accept) => offered,
            Some(Act::Declare) => claims,
            Some(Act::Resign(_)) => true,
            _ => false,
        }
    }
}

pub fn random(random: &mut Random) -> Script {
    let start = if random.once_in(3) { random.pick(&ENDINGS) } else { random.pick(&STARTS) };
    let start = with_counters(start, random);
    let manner = *random.pick(&[Manner::Wild, Manner::Quiet, Manner::Back]);
    let most = *random.pick(&[6, 12, 24, 24, 40, 40, 80, 80, 140, 300]);
    let board = board_of(&start);
    let (seen, last) = (HashMap::from([(board, 1)]), [None, None]);
    let mut player = Player { board, acts: vec![], last, seen, run: 0, manner, random };
    while player.acts.len() < most {
        if player.beside() {
            break;
        }
        match player.choose() {
            Some(m) => player.play(m),
            None => break,
        }
    }
    // After the end each call must be refused in its own way; a game that goes on takes some of these.
    for _ in 0..player.random.below(5) {
        let colour = player.random.below(2) as u8;
        let legal = random_move(&player.board, player.random).map_or(Act::Accept, |m| Act::Move(number_of(m)));
        let act = *player.random.pick(&[legal, Act::Offer(colour), Act::Accept, Act::Declare, Act::Resign(colour)]);
        player.acts.push(act);
    }
    Script { start, acts: player.acts, claim: None, laws: None }
}

/// A random game of exactly so many moves and actions, which has not ended: the others are offers, spread over it.
pub fn long(moves: usize, actions: usize, random: &mut Random) -> Script {
    loop {
        let start = *random.pick(&STARTS);
        let start = with_counters(start, random);
        let manner = *random.pick(&[Manner::Wild, Manner::Quiet, Manner::Back]);
        let board = board_of(&start);
        let mut player = Player { board, acts: vec![], last: [None, None], seen: HashMap::new(), run: 0, manner, random };
        let (mut moves, mut others) = (moves, actions - moves);
        while moves + others > 0 {
            if player.random.below(moves + others) < others {
                let colour = player.random.below(2) as u8;
                player.acts.push(Act::Offer(colour));
                others -= 1;
                continue;
            }
            match player.goes_on() {
                Some(m) => player.play(m),
                None => break,
            }
            moves -= 1;
        }
        if moves + others == 0 {
            return Script { start, acts: player.acts, claim: None, laws: None };
        }
    }
}

#[test]
fn starts_are_sane() {
    for start in ENDINGS.iter().chain(&STARTS) {
        board_of(start);
    }
}

#[test]
fn counted_games_are_legal() {
    for script in counted() {
        let mut game = Game::new_with_board(board_of(&script.start));
        assert!(script.acts.iter().all(|act| act.play(&mut game) == 0), "{}", script.start);
    }
}
