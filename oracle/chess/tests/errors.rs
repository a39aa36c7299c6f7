//! The derive stand-in, by the texts that error.rs asks for.

use chess::Error;

#[test]
fn texts() {
    let fen = Error::InvalidFen { fen: "8/8 w".to_string() };
    assert_eq!(fen.to_string(), "Invalid FEN string: 8/8 w");
    let board = "The board specified did not pass sanity checks.  Are you sure the kings exist and the side to move cannot \
                 capture the opposing king?";
    assert_eq!(Error::InvalidBoard.to_string(), board);
    let no = |what: &str| format!("The string specified does not contain a valid {}", what);
    assert_eq!(Error::InvalidSquare.to_string(), no("algebraic notation square"));
    assert_eq!(Error::InvalidSanMove.to_string(), no("SAN notation move"));
    assert_eq!(Error::InvalidUciMove.to_string(), no("UCI notation move"));
    assert_eq!(Error::InvalidRank.to_string(), no("rank"));
    assert_eq!(Error::InvalidFile.to_string(), no("file"));
}
