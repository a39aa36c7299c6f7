//! A ruling in one sentence, as an arbiter would write it.

use crate::drawn;
use crate::ruling::Case;
use crate::told;
use menkhodur::lent::CLAIM_COUNT;
use menkhodur::{Color, Reason};

pub fn of(case: &Case) -> String {
    let ruling = &case.ruling;
    match (&case.drawn, ruling.result, ruling.laws_claim.or(ruling.claim)) {
        (Some(drawn), ..) => {
            let (articles, reasons) = (drawn.named(), drawn.reasons().join(", and "));
            format!("The game is drawn without a claim since {} ({articles}): {reasons}.", case.place(drawn.moves))
        }
        (None, Some(result), _) => format!("The game is over ({result}): no draw may be claimed."),
        (None, None, Some(reason)) => claim(case, reason),
        (None, None, None) => refusal(case),
    }
}

/// The Laws give the claim to the player having the move.
fn claim(case: &Case, reason: Reason) -> String {
    let (by_count, by_equal) = (reason != Reason::EqualPositions, reason != Reason::Count);
    let side = if case.entries[case.entries.len() - 1].board.get_side_to_move() == Color::White { "White" } else { "Black" };
    let equal = format!(
        "the position after {} has appeared {}, with the same player to move and the same possible moves",
        case.place(case.ruling.moves),
        told::counted(case.ruling.equals as u64 + 1, "time")
    );
    let count = "the last 50 moves by each player were made without a pawn move and without a capture".to_string();
    let grounds = [(by_equal, "9.2", equal), (by_count, "9.3", count)];
    let named: Vec<&str> = grounds.iter().filter(|(holds, ..)| *holds).map(|(_, article, _)| *article).collect();
    let said: Vec<&str> = grounds.iter().filter(|(holds, ..)| *holds).map(|(.., said)| said.as_str()).collect();
    let only = match case.ruling.claim {
        None => ", though the log's own count, which a change of castling rights begins anew, has not come so far",
        Some(_) => "",
    };
    format!("{side}, having the move, may claim a draw ({}): {}{only}.", drawn::named(&named), said.join(", and "))
}

fn refusal(case: &Case) -> String {
    let (times, moves) = (case.ruling.equals as u64 + 1, case.ruling.laws_count as u64);
    format!(
        "No draw may be claimed: the position on the board has appeared {}, and article 9.2 asks for 3; {} made without a pawn move and without a \
         capture, and article 9.3 asks for {CLAIM_COUNT}, 50 by each player.",
        told::counted(times, "time"),
        if moves == 1 { "1 move was".to_string() } else { format!("{moves} moves were") }
    )
}
