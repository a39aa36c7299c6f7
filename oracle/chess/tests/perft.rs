//! The stand-in move generator and tables, by the known counts of leaves of four positions.

use chess::{Board, MoveGen};
use std::str::FromStr;

fn leaves(board: &Board, depth: usize) -> u64 {
    let moves = MoveGen::new_legal(board);
    if depth == 1 {
        return moves.len() as u64;
    }
    moves.map(|m| leaves(&board.make_move_new(m), depth - 1)).sum()
}

fn check(fen: &str, counts: &[u64]) {
    let board = Board::from_str(fen).expect("a sane position");
    for (i, count) in counts.iter().enumerate() {
        assert_eq!(leaves(&board, i + 1), *count, "depth {} of {}", i + 1, fen);
    }
}

#[test]
fn initial() {
    check("rnbqkbnr/pppppppp/8/8/8/8/PPPPPPPP/RNBQKBNR w KQkq - 0 1", &[20, 400, 8_902, 197_281]);
}

#[test]
fn kiwipete() {
    check("r3k2r/p1ppqpb1/bn2pnp1/3PN3/1p2P3/2N2Q1p/PPPBBPPP/R3K2R w KQkq - 0 1", &[48, 2_039, 97_862]);
}

#[test]
fn rooks_and_pawns() {
    check("8/2p5/3p4/KP5r/1R3p1k/8/4P1P1/8 w - - 0 1", &[14, 191, 2_812, 43_238]);
}

#[test]
fn promotions() {
    check("rnbq1k1r/pp1Pbppp/2p5/8/2B5/8/PPP1NnPP/RNBQK2R w KQ - 0 1", &[44, 1_486, 62_379]);
}
