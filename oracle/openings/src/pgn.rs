//! As much of PGN as the file of openings uses: tags and comments are passed over, moves are words, a result ends a game.

use both::games::{board_of, random_move, STARTS};
use both::random::Random;
use chess::Color;

pub const RESULTS: [&str; 4] = ["*", "1-0", "0-1", "1/2-1/2"];

/// The text with comments as spaces, so that lines keep their numbers.
fn without_comments(text: &str) -> String {
    let mut inside = false;
    let keep = |c: char| {
        inside = inside && c != '}' || c == '{';
        if c == '\n' || !inside && c != '}' { c } else { ' ' }
    };
    text.chars().map(keep).collect()
}

/// A word without the move number before it; nothing if it is only that.
pub fn move_text(word: &str) -> Option<&str> {
    let text = word.trim_start_matches(|c: char| c.is_ascii_digit()).trim_start_matches('.');
    if text.len() == word.len() || word.contains('.') { Some(text).filter(|t| !t.is_empty()) } else { None }
}

/// Each game that has a move: the line in which its moves begin, and their texts.
pub fn games(text: &str) -> Vec<(usize, Vec<String>)> {
    let (mut all, mut start, mut moves) = (vec![], 0, vec![]);
    for (i, line) in without_comments(text).lines().enumerate().filter(|(_, l)| !l.starts_with('[')) {
        for word in line.split_whitespace() {
            if RESULTS.contains(&word) {
                all.push((start, std::mem::take(&mut moves)));
            } else if let Some(text) = move_text(word) {
                start = if moves.is_empty() { i + 1 } else { start };
                moves.push(text.to_string());
            }
        }
    }
    all.retain(|(_, moves)| !moves.is_empty());
    all
}

/// The text between the tags, game by game, with the line in which it begins, comments and all. Comments that stand before a file's
/// first tag are text too, without a move.
pub fn sections(text: &str) -> Vec<(usize, String)> {
    let mut all: Vec<(usize, String)> = vec![];
    let mut inside = false;
    for (i, line) in text.lines().enumerate() {
        if line.starts_with('[') {
            inside = false;
            continue;
        }
        if !inside {
            all.push((i + 1, String::new()));
            inside = true;
        }
        let (_, section) = all.last_mut().expect("one was begun");
        *section += line;
        section.push('\n');
    }
    all
}

/// The moves of a random game from the initial position, by their squares, which any program that reads PGN takes.
fn random_game(most: usize, random: &mut Random) -> Vec<String> {
    let (mut board, mut moves) = (board_of(STARTS[0]), vec![]);
    while moves.len() < most {
        let Some(m) = random_move(&board, random) else { break };
        let promotion = m.get_promotion().map_or(String::new(), |piece| format!("={}", piece.to_string(Color::White)));
        moves.push(format!("{}{}{}", m.get_source(), m.get_dest(), promotion));
        board = board.make_move_new(m);
    }
    moves
}

/// A file of so many random games.
pub fn random_games(count: usize) -> String {
    let mut random = Random::new(1, "openings");
    (0..count).map(|_| format!("[Result \"*\"]\n\n{}\n*\n\n", random_game(200, &mut random).join("\n"))).collect()
}

#[test]
fn reads_games() {
    let text = "{ a 1. e4 }\n[ECO \"A00\"]\n\n1. b4 Nh6 *\n\n1.g3 h5 2. Nf3\nO-O 1-0\n*\n";
    let moves = |texts: &[&str]| texts.iter().map(|t| t.to_string()).collect::<Vec<_>>();
    assert_eq!(games(text), [(4, moves(&["b4", "Nh6"])), (6, moves(&["g3", "h5", "Nf3", "O-O"]))]);
}
