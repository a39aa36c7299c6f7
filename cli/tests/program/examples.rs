//! The logs under examples/, as they are made, and their pages. With MENKHODUR_REMAKE set they are written anew.

use crate::common::{INITIAL, program, repository};
use crate::made::Made;
use menkhodur::lent::POSITION_BYTES;
use menkhodur::{Color, Piece, Square};
use std::fs;

/// A game in which white, to move, has the same position for the third time.
fn threefold() -> Made {
    let mut made = Made::start(INITIAL);
    made.play("e2e4 e7e5 g1f3 b8c6 f1b5 g8f6 e1g1 f6e4 f1e1 e4d6 f3e5 f8e7 b5f1 c6e5 e1e5 e8g8 d2d4 e7f6 e5e1 f8e8 c1f4 e8e1 d1e1 d6e8");
    made.play("b1c3 c7c6 a1d1 d7d5 f4e5 e8d6 e5f4 d6e8");
    made.log.offer_draw(Color::Black).unwrap();
    made.play("f4e5 e8d6 e5f4 d6e8");
    made
}

/// A hundred moves without a pawn move or a capture, since a capture, in which white's king moves and loses a castling right.
fn laws_count() -> Made {
    let mut made = Made::start("4k3/8/8/3n4/8/2p5/8/1N2K2R w K - 0 60");
    made.play("b1c3");
    for turn in 1..101 {
        match turn {
            40 => drop(made.play("e1e2")),
            turn if turn % 2 == 0 => made.wander(Piece::Knight, (1, 4)),
            _ => made.wander(Piece::Knight, (5, 8)),
        }
    }
    made
}

/// The first game, with a bishop on e2 after 7. Bf1.
fn not_good() -> (Vec<u8>, Vec<u8>) {
    let made = threefold();
    let (actions, positions) = made.parts();
    let mut positions = positions.to_vec();
    let position = &mut positions[13 * POSITION_BYTES..];
    position.swap(Square::F1.to_index(), Square::E2.to_index());
    (actions.to_vec(), positions)
}

fn logs() -> [(&'static str, Vec<u8>, Vec<u8>); 3] {
    let parts = |made: Made| (made.parts().0.to_vec(), made.parts().1.to_vec());
    let [first, second, third] = [parts(threefold()), parts(laws_count()), not_good()];
    [("threefold", first.0, first.1), ("laws-count", second.0, second.1), ("not-good", third.0, third.1)]
}

/// Compares what a file of the repository has with what is owed, or writes it.
#[track_caller]
fn see(path: &str, owed: &[u8]) {
    let path = repository(path);
    if std::env::var_os("MENKHODUR_REMAKE").is_some() {
        fs::write(&path, owed).unwrap();
    }
    assert!(fs::read(&path).is_ok_and(|held| held == owed), "{path} is another; MENKHODUR_REMAKE=1 writes it anew");
}

#[test]
fn the_logs_and_their_pages_are_made_again() {
    for (name, actions, positions) in logs() {
        let [a, p] = ["actions", "positions"].map(|part| format!("examples/{name}.{part}"));
        see(&a, &actions);
        see(&p, &positions);
        // From the repository's folder, so that the names of the files are those that anyone has there.
        let ran = program().args(["ruling", "--html", "-", &a, &p]).current_dir(repository("")).output().unwrap();
        assert_eq!(ran.status.code(), Some(if name == "not-good" { 2 } else { 0 }));
        see(&format!("examples/{name}.html"), &ran.stdout);
    }
}

#[test]
fn the_examples_show_what_they_are_for() {
    let told = |name: &str| fs::read_to_string(repository(&format!("examples/{name}.html"))).unwrap();
    let sentence = |page: &str| page.split("<h1>").nth(1).unwrap().split("</h1>").next().unwrap().to_string();
    let [first, second, third] = ["threefold", "laws-count", "not-good"].map(told);
    assert_eq!(
        sentence(&first),
        "White, having the move, may claim a draw (article 9.2): the position after move 36 (18... Ne8) has appeared 3 times, with the same \
         player to move and the same possible moves."
    );
    assert_eq!(
        sentence(&second),
        "Black, having the move, may claim a draw (article 9.3): the last 50 moves by each player were made without a pawn move and without a \
         capture, though the log&#39;s own count, which a change of castling rights begins anew, has not come so far."
    );
    assert_eq!(sentence(&third), "There is no ruling: the log is not good, and action 13 does not stand.");
    assert!(third.contains("<li>e2: the file has white bishop, the move leaves nothing</li>"), "{third}");
    assert!(third.contains("<li>f1: the file has nothing, the move leaves white bishop</li>"), "{third}");
}
