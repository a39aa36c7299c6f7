//! The crate's `Game` and our log side by side: each action is given to both, and every answer, count and byte compared.

use crate::clock::{Counters, Walk};
use crate::part::Tally;
use crate::rules::LAWS_COUNT;
use crate::ruling::Course;
use crate::script::Act;
use both::abi::{Answer, Counts, Log, Position, Record, COUNTERS_LENGTH, LAST_COUNT, NUMBERS, POSITION_LENGTH};
use both::games::STARTS;
use both::numbers::{colour_of, number_of, result_number};
use both::random::Random;
use chess::{Action, Board, Game};

pub fn action_bytes(action: &Action) -> [u8; 4] {
    match action {
        Action::MakeMove(m) => {
            let [low, high] = number_of(*m).to_le_bytes();
            [1, 0, low, high]
        }
        Action::OfferDraw(color) => [2, colour_of(*color), 0, 0],
        Action::AcceptDraw => [3, 0, 0, 0],
        Action::DeclareDraw => [4, 0, 0, 0],
        Action::Resign(color) => [5, colour_of(*color), 0, 0],
    }
}

/// Where a position's in-check byte lies, behind the record with its counters.
const IN_CHECK: usize = NUMBERS + COUNTERS_LENGTH;

/// "each as two bytes, low first, after the 68 old record bytes" (order 12); then the in-check byte, the list's length and its moves.
pub fn position_bytes(position: &Position) -> [u8; POSITION_LENGTH] {
    let record = &position.record;
    let mut bytes = [0; POSITION_LENGTH];
    bytes[..NUMBERS].copy_from_slice(&record.numbers);
    bytes[NUMBERS..NUMBERS + 2].copy_from_slice(&record.half_moves.to_le_bytes());
    bytes[NUMBERS + 2..IN_CHECK].copy_from_slice(&record.full_moves.to_le_bytes());
    bytes[IN_CHECK] = position.in_check;
    bytes[IN_CHECK + 1] = position.list.len() as u8;
    for (place, number) in bytes[IN_CHECK + 2..].chunks_exact_mut(2).zip(&position.list) {
        place.copy_from_slice(&number.to_le_bytes());
    }
    bytes
}

/// Puts another number in range at a place of a record, any but the side to move, of which 12 is told; the places 68 and 69 are the counters. Gives
/// the place.
fn put_another(record: &mut Record, noise: usize) -> usize {
    let (kind, noise) = (noise % 8, noise / 8);
    let other = |number: u16, least: u16, most: u16| {
        let size = most - least + 1;
        least + (number - least + 1 + (noise / 64) as u16 % (size - 1)) % size
    };
    match kind {
        0 => record.half_moves = other(record.half_moves, 0, LAST_COUNT),
        1 => record.full_moves = other(record.full_moves, 1, LAST_COUNT),
        _ => {
            let at = if kind == 2 { 65 + noise % 3 } else { noise % 64 };
            record.numbers[at] = other(record.numbers[at].into(), 0, [12, 1, 3, 3, 8][at.max(63) - 63]) as u8;
            return at;
        }
    }
    NUMBERS + kind
}

pub struct Pair {
    /// Whether the host sorts every list of a game, which the crate leaves in its generator's order (document 02, order 13).
    sorts: bool,
    game: Game,
    /// What stands on the board now; the crate's `Game` would replay all moves to say it, and has no counters.
    walk: Walk,
    course: Course,
    pub log: Log,
    /// What the two parts must hold: the crate's actions and positions, then the noise that was there before.
    actions: Vec<u8>,
    positions: Vec<u8>,
    noise: Vec<u8>,
}

fn differs<T: std::fmt::Debug>(what: &str, owed: T, ours: T) -> String {
    format!("{}: crate {:?}, ours {:?}", what, owed, ours)
}

impl Pair {
    pub fn new() -> Pair {
        Pair::of_host(false)
    }

    /// With a host that sorts every list of a game by the numbers of its moves, the highest first, or leaves all as they are.
    pub fn of_host(sorts: bool) -> Pair {
        let log = Log::new();
        let mut random = Random::new(1, "noise");
        let noise: Vec<u8> = log.positions.iter().map(|_| random.next() as u8).collect();
        let (actions, positions) = (log.actions.clone(), log.positions.clone());
        let (game, walk, course) = (Game::new(), Walk::start(STARTS[0]), Course::default());
        Pair { sorts, game, walk, course, log, actions, positions, noise }
    }

    /// A position as the host lends it: what stands on the board now, or after a legal move from there.
    fn lent(&self, board: &Board) -> Position {
        let mut walk = self.walk;
        walk.to(*board);
        let mut position = walk.position();
        if self.sorts {
            position.list.sort_unstable_by(|a, b| b.cmp(a));
        }
        position
    }

    /// A new game from a FEN with its counters, in parts full of noise, for nothing past their used bytes may be looked at or changed.
    pub fn start(&mut self, fen: &str, tally: &mut Tally) -> Result<(), String> {
        self.begin(fen)?;
        tally.count("log: start", true);
        self.ask(tally)
    }

    /// The same without the questions.
    pub fn begin(&mut self, fen: &str) -> Result<(), String> {
        self.walk = Walk::start(fen);
        let board = self.walk.board;
        self.game = Game::new_with_board(board);
        self.course.start(board);
        for part in [&mut self.actions, &mut self.positions] {
            let length = part.len();
            part.copy_from_slice(&self.noise[..length]);
        }
        self.log.actions.copy_from_slice(&self.actions);
        self.log.positions.copy_from_slice(&self.positions);
        let position = self.lent(&board);
        let counts = self.log.start(&position);
        if counts != (Counts { number: 0, actions: 0, moves: 0 }) {
            return Err(format!("start: ours {:?}", counts));
        }
        self.positions[..POSITION_LENGTH].copy_from_slice(&position_bytes(&position));
        Ok(())
    }

    /// Gives the action to both and asks both. Says whether it was accepted.
    pub fn act(&mut self, act: Act, tally: &mut Tally) -> Result<bool, String> {
        if let Act::Move(number) = act {
            if self.lend_wrongly(number)? {
                tally.count("log: wrong record", false);
                tally.count("log: out of range", false);
            }
        }
        let yes = self.give(act)?;
        tally.count(act.label(), yes);
        self.ask(tally)?;
        Ok(yes)
    }

    /// Lends a legal move with a record that has another number, which is refused with 24, and with one that has a counter out of range, which is 5;
    /// neither changes anything. The crate makes its positions itself, so it has no answer of this kind. Says whether the move could be made.
    fn lend_wrongly(&mut self, number: u16) -> Result<bool, String> {
        let act = Act::Move(number);
        let next = act.after(&self.walk.board);
        if self.game.result().is_some() || next == self.walk.board {
            return Ok(false);
        }
        let n = self.log.action_count;
        let right = self.lent(&next);
        let noise = usize::from(self.noise[n as usize]) * 257 + usize::from(self.noise[number as usize]);
        let mut another = right.clone();
        let at = put_another(&mut another.record, noise * 65_537);
        self.refuses(24, act, &another, &format!("with another record at {}", at))?;
        let mut outside = right;
        match noise % 3 {
            0 => outside.record.half_moves = LAST_COUNT + 1 + noise as u16 % 50_000,
            1 => outside.record.full_moves = LAST_COUNT + 1 + noise as u16 % 50_000,
            _ => outside.record.full_moves = 0,
        }
        self.refuses(5, act, &outside, "with a counter out of range")?;
        Ok(true)
    }

    /// Our log refuses the move with this position by this number; every byte is looked at when all is asked.
    fn refuses(&mut self, owed: u64, act: Act, position: &Position, what: &str) -> Result<(), String> {
        let Act::Move(number) = act else { return Ok(()) };
        let (actions, moves) = (self.log.action_count, self.log.move_count);
        let (owed, ours) = (Counts { number: owed, actions, moves }, self.log.make_move(number as u64, position));
        match ours == owed {
            true => Ok(()),
            false => Err(differs(&format!("action {} {} {}", actions, act.show(), what), owed, ours)),
        }
    }

    /// Gives the action to both. Says whether it was accepted.
    pub fn give(&mut self, act: Act) -> Result<bool, String> {
        let (n, m) = (self.log.action_count, self.log.move_count);
        let (number, counts) = self.call(act);
        let yes = number == 0;
        let moved = (yes && matches!(act, Act::Move(_))) as u64;
        let owed = Counts { number, actions: n + yes as u64, moves: m + moved };
        if counts != owed {
            return Err(differs(&format!("action {} {}", n, act.show()), owed, counts));
        }
        if yes {
            self.append(n as usize, owed.moves as usize, moved == 1);
        }
        Ok(yes)
    }

    /// The action given to our log alone, with what stands on the board after it.
    fn ours(&mut self, act: Act, next: &Board) -> Counts {
        let position = self.lent(next);
        match act {
            Act::Move(number) => self.log.make_move(number as u64, &position),
            Act::Offer(colour) => self.log.offer_draw(colour),
            Act::Accept => self.log.accept_draw(),
            Act::Declare => self.log.declare_draw(),
            Act::Resign(colour) => self.log.resign(colour),
        }
    }

    /// A call past the limits, of which the crate has none: ours refuses it with 13, and nothing changes.
    pub fn past(&mut self, act: Act, tally: &mut Tally) -> Result<(), String> {
        let owed = Counts { number: 13, actions: self.log.action_count, moves: self.log.move_count };
        let counts = self.ours(act, &act.after(&self.walk.board));
        if counts != owed {
            return Err(differs(&format!("past the limit, {}", act.show()), owed, counts));
        }
        tally.count("log: past the limit", false);
        self.ask(tally)
    }

    fn call(&mut self, act: Act) -> (u64, Counts) {
        // A move that is not listed is refused before its position is looked at, so any will do.
        let next = act.after(&self.walk.board);
        let counts = self.ours(act, &next);
        let number = act.play(&mut self.game);
        if number == 0 {
            self.walk.to(next);
        }
        (number, counts)
    }

    /// The bytes that an accepted call owes: the crate's last action and, after a move, its position.
    fn append(&mut self, n: usize, moves: usize, moved: bool) {
        let last = self.game.actions().last().expect("an accepted action");
        self.actions[4 * n..4 * n + 4].copy_from_slice(&action_bytes(last));
        if moved {
            let at = POSITION_LENGTH * moves;
            let bytes = position_bytes(&self.lent(&self.walk.board));
            self.positions[at..at + POSITION_LENGTH].copy_from_slice(&bytes);
            self.course.add(self.walk.board);
        }
    }

    /// All questions, then every byte of both parts.
    pub fn ask(&mut self, tally: &mut Tally) -> Result<(), String> {
        let n = self.log.action_count;
        let result = result_number(self.game.result());
        let (owed, ours) = (Answer { number: 0, value: result }, self.log.result());
        if ours != owed {
            return Err(differs(&format!("result after {} actions", n), owed, ours));
        }
        tally.count("log: result", result != 0);
        let claim = self.game.can_declare_draw();
        let (owed, ours) = (Answer { number: 0, value: claim as u64 }, self.log.can_declare_draw());
        if ours != owed {
            return Err(differs(&format!("claim after {} actions", n), owed, ours));
        }
        tally.count("log: claim", claim);
        self.ask_laws(claim, tally)?;
        if self.actions != self.log.actions {
            let at = self.actions.iter().zip(&self.log.actions).position(|(a, b)| a != b);
            return Err(format!("after {} actions the actions part differs at byte {:?}", n, at));
        }
        if self.positions != self.log.positions {
            let at = self.positions.iter().zip(&self.log.positions).position(|(a, b)| a != b);
            return Err(format!("after {} actions the positions part differs at byte {:?}", n, at));
        }
        Ok(())
    }

    /// What both rulings rest on, as it is counted from the crate's moves and boards, and the claim by the Laws: the crate's,
    /// which a rule rewrites where only the Laws' count is full.
    fn ask_laws(&self, claim: bool, tally: &mut Tally) -> Result<(), String> {
        let n = self.log.action_count;
        let owed = self.course.owed(&self.game);
        if claim != (owed.claim != 0) {
            return Err(format!("claim after {} actions: crate {}, by the words of document 01 {}", n, claim, owed.claim));
        }
        let ours = self.log.ruling();
        if ours != owed {
            return Err(differs(&format!("ruling after {} actions", n), owed, ours));
        }
        tally.count("log: ruling", owed.claim != 0);
        let rewritten = !claim && owed.laws_claim == 1;
        let (owed, ours) = (Answer { number: 0, value: (claim || rewritten) as u64 }, self.log.can_claim_by_laws());
        if ours != owed {
            return Err(differs(&format!("claim by the Laws after {} actions", n), owed, ours));
        }
        tally.fired[LAWS_COUNT] += rewritten as u64;
        tally.count("log: laws' claim", owed.value == 1);
        Ok(())
    }

    /// The crate's own replay must come to the position and the bytes that were built up step by step.
    pub fn end(&self) -> Result<(), String> {
        if self.game.current_position() != self.walk.board {
            return Err("the crate's replay comes to another position".to_string());
        }
        let bytes: Vec<u8> = self.game.actions().iter().flat_map(action_bytes).collect();
        match self.log.actions.starts_with(&bytes) && 4 * self.log.action_count as usize == bytes.len() {
            true => Ok(()),
            false => Err("the used actions are not the crate's".to_string()),
        }
    }

    pub fn game(&self) -> &Game {
        &self.game
    }

    pub fn board(&self) -> Board {
        self.walk.board
    }

    pub fn counters(&self) -> Counters {
        self.walk.counters
    }

    pub fn result(&self) -> u64 {
        result_number(self.game.result())
    }

    pub fn claim(&self) -> bool {
        self.game.can_declare_draw()
    }

    /// The claim by the Laws, as it is counted from the crate's moves and boards.
    pub fn laws_claim(&self) -> bool {
        self.course.owed(&self.game).laws_claim != 0
    }
}
