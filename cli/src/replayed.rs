//! A stored game played again from its roll alone: its positions, and its moves by their names in the form of the PGN standard. Which moves a
//! position has is the host's part, and not proved.

use crate::import::named::{self, Unnamed};
use crate::import::played::{Form, Player};
use crate::import::store::Held;
use crate::options::Stop;
use menkhodur::{Action, Board, Error, Lent, Move, Roll};
use menkhodur_moves::Legal;

/// A move, the positions before and after it, and how many moves have been made then.
#[derive(Clone, Copy, Debug, PartialEq, Eq)]
pub struct Played {
    pub ply: u64,
    pub before: Board,
    pub made: Move,
    pub after: Board,
}

/// What a game's roll says.
pub fn roll(game: &Held) -> Result<Roll, Stop> {
    Roll::from_bytes(&game.roll).map_err(|refused| bad(game, &format!("its roll is none: {refused}")))
}

/// The moves of a roll. What else was done changes no position.
pub fn moves(roll: &Roll) -> impl Iterator<Item = Played> {
    let made = roll.actions.iter().filter_map(|action| match action {
        Action::MakeMove(made) => Some(*made),
        _ => None,
    });
    let mut before = roll.start;
    (1..).zip(made).map(move |(ply, made)| {
        let played = Played { ply, before, made, after: before.after(made) };
        before = played.after;
        played
    })
}

/// What is said of a game that cannot be used.
pub fn bad(game: &Held, why: &str) -> Stop {
    Stop::trouble(format!("game {} of {}: {why}", game.number, game.source))
}

/// Names moves, over lists in one room.
#[derive(Default)]
pub struct Namer {
    list: Lent,
    /// Who plays variations again, once there are some.
    player: Option<Player<Legal>>,
}

impl Namer {
    /// The name of a game's move, with + behind it if it gives check and # if it mates.
    pub fn name(&mut self, game: &Held, played: &Played) -> Result<String, Stop> {
        let Played { ply, before, made, .. } = played;
        self.named(played)
            .map_err(|refused| bad(game, &format!("move {ply} of its roll, {made}, from {}: {refused}", before.to_fen_full())))
    }

    fn named(&mut self, played: &Played) -> Result<String, Error> {
        let named = named::name(&mut Legal, &mut self.list, &played.before, played.made, &played.after);
        named.map_err(|unnamed| match unnamed {
            Unnamed::Refused(refused) => refused,
            // The lists are the program's own, which has no other trouble with them than one that is too long.
            Unnamed::Trouble(_) => Error::ListOutOfRange,
        })
    }

    /// A game's moves with its variations, written anew, if it has some. Another program may have filed others than the roll has.
    pub fn with_variations(&mut self, game: &Held, roll: &Roll) -> Result<Option<String>, Stop> {
        let Some(text) = &game.variations else { return Ok(None) };
        let form = Form { variations: true, loose: false, kept: true };
        let player = self.player.get_or_insert_with(|| Player::new(Legal, form));
        let Ok(played) = player.play(text.as_bytes(), roll.start.record()) else {
            return Err(bad(game, "its moves with variations cannot be played"));
        };
        let main = Roll::from_bytes(&played.roll).map_err(|refused| bad(game, &refused.to_string()))?;
        match moves(&main).eq(moves(roll)) {
            true => Ok(played.text),
            false => Err(bad(game, "its moves with variations are not those of its roll")),
        }
    }
}

#[cfg(test)]
mod tests {
    use super::*;
    use menkhodur::Color;

    /// A game that a text says, whose names are its own moves in the standard's form.
    fn names(fen: &str, moves: &str) -> Vec<String> {
        let start = Board::from_fen_full(fen).unwrap();
        let actions = moves.split(' ').map(|text| Action::MakeMove(Move::from_text(text).unwrap())).collect();
        let roll = Roll { start, actions };
        let held = Held { source: "a".into(), number: 1, line: 1, tags: vec![], roll: roll.to_bytes().unwrap(), variations: None };
        assert_eq!(super::roll(&held).unwrap(), roll);
        let mut namer = Namer::default();
        super::moves(&roll).map(|played| namer.name(&held, &played).unwrap()).collect()
    }

    // What each is called is read off the standard, 8.2.3.
    #[test]
    fn moves_have_the_standards_names() {
        for (fen, moves, owed) in [
            ("rnbqkbnr/pppppppp/8/8/8/8/PPPPPPPP/RNBQKBNR w KQkq - 0 1", "f2f3 e7e5 g2g4 d8h4", "f3 e5 g4 Qh4#"),
            ("r3k2r/8/8/8/8/8/8/R3K2R w KQkq - 0 1", "e1g1 e8c8", "O-O O-O-O"),
            ("5k2/8/8/8/8/8/8/4K2R w K - 0 1", "e1g1", "O-O+"),
            ("4k3/8/8/8/8/8/8/R2K3R w - - 0 1", "h1f1 e8e7 a1a7", "Rf1 Ke7 Ra7+"),
            ("4k3/P7/8/8/8/8/8/4K3 w - - 0 1", "a7a8q", "a8=Q+"),
            ("1r2k3/P7/8/8/8/8/8/4K3 w - - 0 1", "a7b8n", "axb8=N"),
            ("4k3/8/8/8/3pP3/8/8/4K3 b - e3 0 9", "d4e3", "dxe3"),
            // By file, by rank, by both, and not at all where one of the two is pinned.
            ("4k3/8/8/8/8/8/8/R2K1R2 w - - 0 1", "a1c1", "Rc1"),
            ("4k3/8/8/8/8/4K3/8/R4R2 w - - 0 1", "a1d1", "Rad1"),
            ("4k3/8/R7/8/8/4K3/8/R7 w - - 0 1", "a1a3", "R1a3"),
            ("7k/8/8/8/4Q2Q/8/K7/7Q w - - 0 1", "h4e1", "Qh4e1+"),
            ("4k3/4r3/8/8/4N3/8/1N6/4K3 w - - 0 1", "b2c4", "Nc4"),
            ("k7/8/1K6/8/8/8/8/7R w - - 0 1", "h1h8", "Rh8#"),
            ("k7/8/1K6/8/8/8/8/5Q2 w - - 0 1", "f1f7", "Qf7"),
        ] {
            assert_eq!(names(fen, moves).join(" "), owed, "{fen}");
        }
    }

    #[test]
    fn a_name_over_the_moves_to_one_square_is_that_over_all() {
        let (mut namer, mut list, mut board) = (Namer::default(), Lent::new(), Board::default());
        for pick in (0..4_000_usize).map(|turn| turn * 7_919 + turn * turn * 31) {
            menkhodur_moves::legal(board.record(), &mut list).unwrap();
            for made in list.moves() {
                let played = Played { ply: 1, before: board, made: *made, after: board.after(*made) };
                let owed = board.name_standard(list.moves(), *made).unwrap();
                assert_eq!(namer.named(&played).unwrap().trim_end_matches(['+', '#']), owed);
            }
            board = if list.is_empty() { Board::default() } else { board.after(list.moves()[pick % list.len()]) };
        }
    }

    #[test]
    fn what_is_no_roll_and_what_is_no_move_is_told_with_its_game() {
        let told = |stop: Stop| match stop {
            Stop::Trouble(message) => String::from_utf8(message).unwrap(),
            Stop::Closed(_) => String::new(),
        };
        let held = |roll: Vec<u8>| Held { source: "a.pgn".into(), number: 7, line: 1, tags: vec![], roll, variations: None };
        let none = told(roll(&held(vec![1])).unwrap_err());
        assert!(none.starts_with("game 7 of a.pgn: its roll is none: ") && none.ends_with("(answer 17)"), "{none}");
        let actions = vec![Action::OfferDraw(Color::White), Action::MakeMove(Move::from_text("e2e5").unwrap())];
        let roll = Roll { start: Board::default(), actions };
        let (game, played) = (held(roll.to_bytes().unwrap()), moves(&roll).next().unwrap());
        let none = told(Namer::default().name(&game, &played).unwrap_err());
        assert!(none.starts_with("game 7 of a.pgn: move 1 of its roll, e2e5, from rnbqkbnr/") && none.ends_with("(answer 11)"), "{none}");
    }
}
