//! What differs between two rolls (document 02, orders 10 and 12): the orders' own rows, each kind of line, and refusals on either side.

use crate::common::counted;
use menkhodur::lent::{self, MAX_ACTIONS, MAX_DIFFERENCES};
use menkhodur::{Action, Board, CastleRights, Color, Difference, Error, File, Move, Piece, Refused, Roll, Square, Which, differences};

fn roll(start: Board, actions: &[Action]) -> Vec<u8> {
    Roll { start, actions: actions.to_vec() }.to_bytes().unwrap()
}

fn moved(text: &str) -> Action {
    Action::MakeMove(Move::from_text(text).unwrap())
}

fn lines(first: &[u8], second: &[u8]) -> Vec<String> {
    let told = differences(first, second).unwrap();
    let text: Vec<String> = told.as_str().lines().map(str::to_string).collect();
    assert_eq!(told.len(), text.len());
    let shown: Vec<String> = told.map(|difference| difference.to_string()).collect();
    assert_eq!(shown, text);
    shown
}

#[test]
fn squares_that_differ_on_e4() {
    let first = roll(Board::new().piece(Square::E4, Piece::Pawn, Color::White), &[]);
    let second = roll(Board::new(), &[]);
    assert_eq!(lines(&first, &second), ["28 1 0"]);
    assert_eq!(lines(&second, &first), ["28 0 1"]);
    let told: Vec<Difference> = differences(&first, &second).unwrap().collect();
    assert_eq!(told, [Difference::Square { square: Square::E4, first: Some((Piece::Pawn, Color::White)), second: None }]);
}

#[test]
fn each_kind_of_line_in_its_order() {
    let first = Board::new().piece(Square::A1, Piece::King, Color::Black).side_to_move(Color::Black);
    let first = first.castle_rights(Color::White, CastleRights::Both).castle_rights(Color::Black, CastleRights::KingSide);
    let first = counted(first, (130, 1));
    let second = Board::new().piece(Square::H8, Piece::Queen, Color::White).en_passant(Some(File::C));
    let second = counted(second, (0, 9_999));
    let acts = [moved("e2e4"), Action::OfferDraw(Color::White)];
    let (one, other) = (roll(first, &acts), roll(second, &[acts[0], Action::OfferDraw(Color::Black)]));
    let start = ["0 12 0", "63 0 5", "side 1 0", "white 3 0", "black 1 0", "ep 0 3", "half 130 0", "full 1 9999"];
    assert_eq!(lines(&one, &other), [&start[..], &["action 1 4 5"]].concat());
    let told: Vec<Difference> = differences(&one, &other).unwrap().collect();
    assert_eq!(told[2], Difference::Side { first: Color::Black, second: Color::White });
    assert_eq!(told[3], Difference::White { first: CastleRights::Both, second: CastleRights::NoRights });
    assert_eq!(told[4], Difference::Black { first: CastleRights::KingSide, second: CastleRights::NoRights });
    assert_eq!(told[5], Difference::EnPassant { first: None, second: Some(File::C) });
    assert_eq!(told[6], Difference::HalfMoves { first: 130, second: 0 });
    assert_eq!(told[7], Difference::FullMoves { first: 1, second: 9_999 });
    assert_eq!(told[8], Difference::Action { index: 1, first: Some(acts[1]), second: Some(Action::OfferDraw(Color::Black)) });
}

#[test]
fn counters_that_differ_alone() {
    let counters = [(0, 1), (1, 1), (127, 127), (128, 127), (127, 128), (128, 128), (9_999, 9_999)];
    for (first, second) in counters.iter().flat_map(|&first| counters.map(|second| (first, second))) {
        let (one, other) = (roll(counted(Board::default(), first), &[]), roll(counted(Board::default(), second), &[]));
        let half = (first.0 != second.0).then(|| format!("half {} {}", first.0, second.0));
        let full = (first.1 != second.1).then(|| format!("full {} {}", first.1, second.1));
        assert_eq!(lines(&one, &other), half.into_iter().chain(full).collect::<Vec<_>>());
    }
}

/// An old roll is read by its own call and written before it is compared; compared as it is, it is refused or says something else.
#[test]
fn a_roll_of_old_beside_a_new_one() {
    let new = roll(Board::default(), &[moved("e2e4")]);
    let old = [&new[..68], &new[70..]].concat();
    assert_eq!(lines(&Roll::from_old_bytes(&old).unwrap().to_bytes().unwrap(), &new), [""; 0]);
    assert_eq!(differences(&old, &new).unwrap_err(), Refused { roll: Which::First, error: Error::BadRoll });
    let both = [&[0; 68][..], &[1, 2, 0]].concat();
    assert_eq!(lines(&both, &roll(Board::new(), &[])), ["half 1 0", "full 2 1"]);
    assert_eq!(lines(&Roll::from_old_bytes(&both).unwrap().to_bytes().unwrap(), &roll(Board::new(), &[])), ["action 0 2 0"]);
}

#[test]
fn actions_that_are_the_front_of_the_others() {
    let acts: Vec<Action> = ["e2e4", "e7e5", "g1f3"].into_iter().map(moved).collect();
    let (long, short) = (roll(Board::default(), &acts), roll(Board::default(), &acts[..2]));
    // g1f3 is 6 + 64 * 21, a move's code is 2.
    let number = 2 + 16 * (6 + 64 * 21);
    assert_eq!(lines(&long, &short), [format!("action 2 {number} 0")]);
    assert_eq!(lines(&short, &long), [format!("action 2 0 {number}")]);
    assert_eq!(lines(&long, &long), [""; 0]);
}

#[test]
fn the_longest_text_has_its_room() {
    // The counters 9,999, which is 15 + 128 * 78, and 9,998.
    let start = |man: u8, rest: [u8; 4], low: u8| [[man; 64].to_vec(), rest.to_vec(), [128 + low, 78].repeat(2)].concat();
    // 1,001 actions: a thousand offers, and the last move or the one before it.
    let acts = |low: u8| [vec![233, 7], vec![4; 1_000], vec![2, low, 223, 1]].concat();
    let (first, second) = ([start(10, [0; 4], 15), acts(255)].concat(), [start(11, [1, 3, 3, 8], 14), acts(254)].concat());
    let mut room = [0; MAX_DIFFERENCES];
    assert_eq!(lent::roll_differences(&first, &second, &mut room), Ok(MAX_DIFFERENCES));
    assert!(room.ends_with(b"\nep 0 8\nhalf 9999 9998\nfull 9999 9998\naction 1000 458738 458722\n"));
    let needed = MAX_DIFFERENCES;
    assert_eq!(lent::roll_differences(&first, &second, &mut room[1..]), Err(Error::OutputTooShort { needed }));
}

#[test]
fn refusals_tell_which_roll() {
    let good = roll(Board::default(), &[]);
    let (mut bad, short) = (good.clone(), &good[..70]);
    bad[0] = 13;
    let refused = |first: &[u8], second: &[u8]| differences(first, second).unwrap_err();
    assert_eq!(refused(&bad, short), Refused { roll: Which::First, error: Error::OutOfRange });
    assert_eq!(refused(short, &bad), Refused { roll: Which::First, error: Error::BadRoll });
    assert_eq!(refused(&good, &bad), Refused { roll: Which::Second, error: Error::OutOfRange });
    let over = MAX_ACTIONS + 1;
    let many = [short, &[128 + (over % 128) as u8, (over / 128) as u8]].concat();
    assert_eq!(refused(&good, &many), Refused { roll: Which::Second, error: Error::LogFull });
    let words = "the second roll: the bytes are not a roll, or not the actions of one (answer 17)";
    assert_eq!(refused(&good, short).to_string(), words);
}
