//! The evening report over a page of FEN texts.

use crate::lent::{self, KINDS};
use crate::piece::{ALL_PIECES, Color, Piece};

/// What is counted over the lines of a page (document 02, order 14), as [`PageReader::report`](crate::PageReader::report) and
/// [`Page::report`](crate::Page::report) give it beside the page. The figures do not depend on the order of the lines.
///
/// ```
/// use menkhodur::{Color, PageReader, Piece};
///
/// let mut reader = PageReader::new();
/// let (_, report) = reader.report(b"qQQ w - -\n w - -\nqQQ w - -\nqQQ b - -\nqQQ\n").unwrap();
/// assert_eq!((report.lines, report.accepted, report.refused), (5, 4, 1));
/// assert_eq!((report.men(Piece::Queen, Color::White), report.men(Piece::Queen, Color::Black)), (6, 3));
/// assert_eq!(report.repeated, 1);
/// ```
#[must_use = "a page is reported on for its figures"]
#[derive(Clone, Copy, Debug, PartialEq, Eq, Hash)]
pub struct Report {
    /// How many lines the page has: those accepted and those refused.
    pub lines: usize,
    /// The lines that were read as a board.
    pub accepted: usize,
    /// The lines that were not.
    pub refused: usize,
    /// The accepted lines with the board of an earlier accepted one, counters aside: three equal lines are two.
    pub repeated: usize,
    men: [usize; KINDS],
}

impl Report {
    // The archive is proved to give no more than the squares of the most lines, so that the casts cut nothing.
    pub(crate) fn of(report: lent::Report) -> Report {
        Report {
            lines: report.lines as usize,
            accepted: report.accepted as usize,
            refused: report.refused as usize,
            repeated: report.repeated as usize,
            men: report.men.map(|men| men as usize),
        }
    }

    /// How many men of a kind stand on the boards of the accepted lines, together.
    ///
    /// ```
    /// use menkhodur::{Color, PageReader, Piece};
    ///
    /// let start = b"rnbqkbnr/pppppppp/8/8/8/8/PPPPPPPP/RNBQKBNR w KQkq - 0 1\n";
    /// let mut reader = PageReader::new();
    /// let (_, report) = reader.report(start).unwrap();
    /// assert_eq!((report.men(Piece::Pawn, Color::White), report.men(Piece::Knight, Color::Black)), (8, 2));
    /// ```
    #[must_use]
    pub fn men(&self, piece: Piece, color: Color) -> usize {
        self.men[ALL_PIECES.len() * color.to_index() + piece.to_index()]
    }
}
