//! Articles 9.6.1 and 9.6.2 in `menkhodur ruling`: games that are drawn without a claim.

use crate::common::{Folder, Ran, run};
use crate::made::Made;
use menkhodur::Piece;

fn ruled(made: &Made, words: &[&str]) -> Ran {
    let (folder, (actions, positions)) = (Folder::new(), made.parts());
    let (a, p) = (folder.file("a", actions), folder.file("p", positions));
    run(&[&["ruling"], words, &[a.as_str(), &p]].concat(), b"")
}

fn row(ran: &Ran) -> Option<&str> {
    ran.text().lines().find_map(|line| line.strip_prefix("drawn        "))
}

const FIVE: &str = "the same position has appeared five times";
const COUNT: &str = "75 moves have been made by each player without a pawn move and without a capture";
const KNIGHTS: &str = "1n2k3/8/8/8/8/8/8/1N2K3 w - - 0 1";

#[test]
fn a_fifth_equal_position_draws_and_what_follows_does_not_change_it() {
    let mut made = Made::start(KNIGHTS);
    for _ in 0..3 {
        made.play("b1c3 b8c6 c3b1 c6b8");
    }
    made.play("b1c3 b8c6 c3b1");
    assert_eq!(row(&ruled(&made, &[])), None);
    assert!(ruled(&made, &["--json"]).text().contains("\"drawn\":null,"));
    made.play("c6b8");
    let ran = ruled(&made, &[]);
    let owed = format!("without a claim since move 16 (8... Nb8) (article 9.6.1): {FIVE}");
    assert_eq!((row(&ran), ran.status), (Some(owed.as_str()), 0));
    let object = format!("\"drawn\":{{\"moves\":16,\"action\":16,\"articles\":[\"9.6.1\"],\"reasons\":[\"{FIVE}\"]}},");
    assert!(ruled(&made, &["--json"]).text().contains(&object));
    assert_eq!(row(&ruled(&made, &["--at", "15"])), None);
    made.play("e1e2 e8e7");
    made.log.resign(menkhodur::Color::White).unwrap();
    let ran = ruled(&made, &[]);
    assert_eq!((row(&ran), ran.status), (Some(owed.as_str()), 1));
    assert_eq!(row(&ruled(&made, &["--at", "16"])), Some(owed.as_str()));
}

/// Black's king goes to and fro for some moves, and white's knight where it has been least, so that no position comes five times.
fn wandered(moves: usize) -> Made {
    let mut made = Made::start("6k1/5ppp/8/8/8/8/8/RN2K3 b - - 0 1");
    for turn in 0..moves {
        match turn % 4 {
            0 => drop(made.play("g8h8")),
            2 => drop(made.play("h8g8")),
            _ => made.wander(Piece::Knight, (1, 4)),
        }
    }
    made
}

#[test]
fn seventy_five_moves_by_each_player_draw() {
    let mut made = wandered(149);
    assert_eq!((made.log.ruling().laws_count, row(&ruled(&made, &[]))), (149, None));
    made.play("e1e2");
    let ran = ruled(&made, &[]);
    let owed = format!("without a claim since move 150 (76. Ke2) (article 9.6.2): {COUNT}");
    assert_eq!((row(&ran), ran.status), (Some(owed.as_str()), 0));
    made.play("h7h6");
    assert_eq!(row(&ruled(&made, &[])), Some(owed.as_str()));
}

#[test]
fn a_move_that_mates_comes_first() {
    let mut made = wandered(149);
    made.play("a1a8");
    let ran = ruled(&made, &[]);
    assert_eq!((made.log.ruling().laws_count, row(&ran), ran.status), (150, None, 1));
    assert!(ran.text().contains("\nresult       white checkmates, after 150 actions and 150 moves\n"), "{}", ran.text());
}

#[test]
fn both_articles_at_once() {
    let mut made = wandered(132);
    // A place where white's king has not been: a position that has not been either.
    made.play("g8h8 e1f2");
    for _ in 0..4 {
        made.play("h8g8 f2f1 g8h8 f1f2");
    }
    assert_eq!((made.log.ruling().equals, made.log.ruling().laws_count), (4, 150));
    let owed = format!("without a claim since move 150 (76. Kf2) (articles 9.6.1 and 9.6.2): {FIVE}, and {COUNT}");
    assert_eq!(row(&ruled(&made, &[])), Some(owed.as_str()));
    assert!(ruled(&made, &["--json"]).text().contains("\"articles\":[\"9.6.1\",\"9.6.2\"],"));
    assert!(ruled(&made, &["--html", "-"]).text().contains(" (articles 9.6.1 and 9.6.2): "));
}
