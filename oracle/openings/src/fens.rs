//! The FENs that pgn-extract writes behind each move of a game, beside those of our board after the move, taken on from one to the next: the clock and
//! the move number of document 02, order 12, by somebody else's count.

use both::abi::{self, Fen, Record, LONGEST_FULL_FEN};
use both::games::{board_of, STARTS};
use both::numbers::{move_of, position_of};
use compare::standard;

/// A move's text and the FEN behind it.
type Told = (String, String);

/// Each game that has a move, as words: a comment is what stands between two words that are braces, and a result ends a game.
pub fn games(text: &str) -> Vec<Vec<Told>> {
    let (mut all, mut game, mut comment): (Vec<Vec<Told>>, Vec<Told>, Option<Vec<&str>>) = (vec![], vec![], None);
    for word in text.lines().filter(|line| !line.starts_with('[')).flat_map(str::split_whitespace) {
        match (word, &mut comment) {
            ("{", _) => comment = Some(vec![]),
            ("}", words) => {
                let fen = words.take().unwrap_or_default().join(" ");
                game.last_mut().into_iter().for_each(|told| told.1 = fen.clone());
            }
            (word, Some(words)) => words.push(word),
            (word, None) if super::pgn::RESULTS.contains(&word) => all.push(std::mem::take(&mut game)),
            (word, None) => game.extend(super::pgn::move_text(word).map(|text| (text.to_string(), String::new()))),
        }
    }
    all.retain(|game| !game.is_empty());
    all
}

fn full_text(record: Record) -> String {
    let mut room = [0; LONGEST_FULL_FEN];
    let answer = abi::fen_write_full(record, &mut room);
    String::from_utf8_lossy(&room[..answer.value as usize]).to_string()
}

/// Every token is the same but for the square passed over: pgn-extract writes one after each double step, and a record keeps it only beside an enemy
/// pawn. Read by our full reader, the text says the record, too.
fn same(record: Record, fen: &str) -> bool {
    let ours = full_text(record);
    let (ours, theirs): (Vec<&str>, Vec<&str>) = (ours.split(' ').collect(), fen.split(' ').collect());
    let token = |at: usize| ours[at] == theirs[at] || at == 3 && ours[at] == "-";
    if ours.len() != theirs.len() || !(0..ours.len()).all(token) {
        return false;
    }
    let Fen { number, mut board, .. } = abi::fen_read_full(fen.as_bytes());
    if record.numbers[67] == 0 {
        board.numbers[67] = 0;
    }
    number == 0 && board == record
}

/// Plays a game from the initial position. Gives how many positions were compared.
pub fn compare(game: &[Told]) -> Result<u64, String> {
    let mut board = board_of(STARTS[0]);
    let mut record = abi::fen_read_full(STARTS[0].as_bytes()).board;
    for (i, (text, fen)) in game.iter().enumerate() {
        let position = position_of(&board);
        let number = standard::read(&position.record, &position.list, text.as_bytes()).map_err(|n| format!("{:?} is refused: {}", text, n))?;
        board = board.make_move_new(move_of(number));
        record = abi::board_after(record, number as u64).board;
        if !same(record, fen) {
            return Err(format!("after move {}, {:?}: the file has {:?}, ours is {:?}", i + 1, text, fen, full_text(record)));
        }
    }
    Ok(game.len() as u64)
}

#[test]
fn words_and_comments() {
    let text = "[Event \"?\"]\n\n1. e4 { a b\nc } 1...\nc5 { d } *\n\n1. d4 {\ne f } 1/2-1/2\n";
    let told = |move_text: &str, fen: &str| (move_text.to_string(), fen.to_string());
    assert_eq!(games(text), [vec![told("e4", "a b c"), told("c5", "d")], vec![told("d4", "e f")]]);
}
