//! The entries of a stored log or of a roll in words: what `show` prints, and what `ruling` quotes.

use crate::json::Object;
use menkhodur::{Action, Board, Color, Log, Move, Position, Roll};

/// What was done.
pub enum What {
    Start,
    /// A move, and its name if it has one and the list by which it is named is known.
    Move(Move, Option<String>),
    Offer,
    Accept,
    Declare,
    Resign,
}

/// An action, or the start as action 0, and what stands on the board after it.
pub struct Entry {
    pub action: usize,
    /// How many moves have been made.
    pub moves: usize,
    /// Who did it; a log does not say who accepts or declares.
    pub side: Option<Color>,
    pub what: What,
    pub board: Board,
    /// Whether the side to move is in check and how many moves the position has, which a roll does not say.
    pub known: Option<Known>,
}

#[derive(Clone, Copy)]
pub struct Known {
    in_check: bool,
    list: usize,
}

/// The start and every action of a log.
pub fn of_log(log: &Log) -> Vec<Entry> {
    let mut positions = log.positions();
    let mut next = || positions.next().expect("a log has a start, and a position after each move");
    let mut stands = next();
    let known = |position: &Position<'_>| Some(Known { in_check: position.in_check, list: position.list.len() });
    let start = (stands.board, known(&stands));
    entries(start, log.actions(), |made| {
        // The only refusal that a move of a good log meets is that it has no name.
        let name = stands.board.name(stands.list, made).ok();
        stands = next();
        (name, stands.board, known(&stands))
    })
}

/// The start and every action of a roll. A position after a move is the one that the archive makes of the move and of the position before it.
pub fn of_roll(roll: &Roll) -> Vec<Entry> {
    let mut board = roll.start;
    entries((board, None), roll.actions.iter().copied(), |made| {
        board = board.after(made);
        (None, board, None)
    })
}

/// The start and every action. `play` makes a move: its name, if it has one, the board after it, and what is known of that.
fn entries(
    (board, known): (Board, Option<Known>),
    actions: impl Iterator<Item = Action>,
    mut play: impl FnMut(Move) -> (Option<String>, Board, Option<Known>),
) -> Vec<Entry> {
    let mut entries = vec![Entry { action: 0, moves: 0, side: None, what: What::Start, board, known }];
    let (mut moves, mut board, mut known) = (0, board, known);
    for (index, action) in actions.enumerate() {
        let (side, what) = match action {
            Action::MakeMove(made) => {
                let (side, (name, after, of_it)) = (board.get_side_to_move(), play(made));
                (moves, board, known) = (moves + 1, after, of_it);
                (Some(side), What::Move(made, name))
            }
            Action::OfferDraw(side) => (Some(side), What::Offer),
            Action::AcceptDraw => (None, What::Accept),
            Action::DeclareDraw => (None, What::Declare),
            Action::Resign(side) => (Some(side), What::Resign),
        };
        entries.push(Entry { action: index + 1, moves, side, what, board, known });
    }
    entries
}

impl Entry {
    pub fn side(&self) -> String {
        self.side.map_or("-".to_string(), |side| side.to_string())
    }

    /// How many moves the position has.
    pub fn list(&self) -> String {
        self.known.map_or("-".to_string(), |known| known.list.to_string())
    }

    /// What was done, beside who did it.
    pub fn done(&self) -> String {
        match &self.what {
            What::Start => "start".to_string(),
            What::Move(_, Some(name)) => name.clone(),
            What::Move(made, None) if self.known.is_none() => made.to_string(),
            What::Move(made, None) => format!("{made} (no text names it)"),
            What::Offer => "offers a draw".to_string(),
            What::Accept => "draw accepted".to_string(),
            What::Declare => "draw declared".to_string(),
            What::Resign => "resigns".to_string(),
        }
    }

    /// The same in a game as people write it.
    pub fn written(&self) -> String {
        match (&self.what, self.side) {
            (What::Move(..), _) => self.done(),
            (_, Some(side)) => format!("({side} {})", self.done()),
            (_, None) => format!("({})", self.done()),
        }
    }

    pub fn object(&self) -> Object {
        let kind = match self.what {
            What::Start => "start",
            What::Move(..) => "move",
            What::Offer => "offer",
            What::Accept => "accept",
            What::Declare => "declare",
            What::Resign => "resign",
        };
        let object = Object::new().raw("action", self.action).raw("moves", self.moves);
        let side = self.side.map(|side| side.to_string());
        let object = object.text_or_null("side", side.as_deref()).text("kind", kind);
        let object = match &self.what {
            What::Move(made, name) => object.text_or_null("name", name.as_deref()).text("coordinates", &made.to_string()),
            _ => object,
        };
        let object = self.placed(object).raw_or_null("in_check", self.known.map(|known| known.in_check));
        object.raw_or_null("list", self.known.map(|known| known.list))
    }

    /// The position: its key, and its FEN with the counters, which are no part of a key.
    pub fn placed(&self, object: Object) -> Object {
        let object = object.text("key", &self.board.to_fen()).text("fen", &self.board.to_fen_full());
        object.raw("half_moves", self.board.get_half_moves()).raw("full_moves", self.board.get_full_moves())
    }
}

/// Where the entry is of the move after which so many were made; the start's for 0.
pub fn place(entries: &[Entry], moves: usize) -> usize {
    entries.partition_point(|entry| entry.moves < moves)
}

pub fn after(entries: &[Entry], moves: usize) -> &Entry {
    &entries[place(entries, moves)]
}

/// The number of a move as people write it, by the position that it is made in: `4.` for white's and `4...` for black's.
pub fn number(before: &Board) -> String {
    let dots = if before.get_side_to_move() == Color::White { "." } else { "..." };
    format!("{}{dots}", before.get_full_moves())
}
