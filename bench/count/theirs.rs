//! The crate's move, for bench/count-x86.

use chess::{Board, ChessMove};

/// # Safety
/// The pointers are of a board, a move, and room for a board.
#[no_mangle]
pub unsafe extern "C" fn their_move(board: *const Board, m: *const ChessMove, out: *mut Board) {
    core::ptr::write(out, (*board).make_move_new(*m));
}
