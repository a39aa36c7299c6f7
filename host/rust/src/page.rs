//! Pages: many FEN texts read by one call.

use crate::board::Board;
use crate::error::{Error, certain};
use crate::lent::{self, Numbers, PAGE_NUMBERS, PAGE_RECORD, Record};
use crate::report::Report;
use std::fmt;
use std::io::BufRead;
use std::iter::FusedIterator;

/// A function of [`lent`] over a page's text and its two rooms.
type Call<T> = fn(&[u8], &mut [u8], &mut [u64]) -> Result<T, Error>;

/// Reads pages of FEN texts, and keeps the two rooms for their answers from one page to the next.
///
/// ```
/// use menkhodur::{Board, Error, PageReader};
///
/// let mut reader = PageReader::new();
/// let page = reader.read(b"8/8/8/8/8/8/8/8 w - - 0 1\n8/8 w -\n");
/// let answers: Vec<_> = page.iter().collect();
/// assert_eq!(answers[0], (&b"8/8/8/8/8/8/8/8 w - - 0 1"[..], Ok(Board::new())));
/// assert_eq!(answers[1], (&b"8/8 w -"[..], Err(Error::TooFewTokens { offset: 7 })));
/// ```
#[derive(Clone, Debug, Default)]
pub struct PageReader {
    records: Vec<Numbers>,
    numbers: Vec<[u64; PAGE_NUMBERS]>,
}

impl PageReader {
    /// A reader without rooms: the first page finds out how long they must be.
    ///
    /// ```
    /// assert_eq!(menkhodur::PageReader::new().read(b"\n\n").len(), 2);
    /// ```
    #[must_use]
    pub fn new() -> PageReader {
        PageReader::default()
    }

    /// A reader with rooms for pages of so many lines. Longer ones are read too, after the rooms have grown.
    ///
    /// ```
    /// assert_eq!(menkhodur::PageReader::for_lines(1).read(b"\n\n").len(), 2);
    /// ```
    #[must_use]
    pub fn for_lines(lines: usize) -> PageReader {
        PageReader { records: vec![[0; PAGE_RECORD]; lines], numbers: vec![[0; PAGE_NUMBERS]; lines] }
    }

    /// Reads the lines of a text: one call, or a second one if the rooms had to grow. The text is any bytes; [`Page`] tells what a line is.
    ///
    /// ```
    /// let mut reader = menkhodur::PageReader::new();
    /// assert!(reader.read(b"").is_empty());
    /// assert_eq!(reader.read(b" w - -\n w - -").len(), 2);
    /// ```
    #[must_use = "a page is read for its answers"]
    pub fn read<'a>(&'a mut self, text: &'a [u8]) -> Page<'a> {
        let lines = certain(self.fill(text, lent::fen_page));
        Page { text, records: &self.records[..lines], numbers: &self.numbers[..lines] }
    }

    /// Reads the lines of a text, at most [`REPORT_LINES`](lent::REPORT_LINES) of them, and reports on them: one call, or a second one if the
    /// rooms had to grow. The page is the one that [`PageReader::read`] gives. Refused: [`Error::PageTooLong`], and the rooms are as they were.
    ///
    /// ```
    /// use menkhodur::{Color, Error, Piece, PageReader};
    ///
    /// let mut reader = PageReader::new();
    /// let (page, report) = reader.report(b"K w - - 0 1\nK w - - 5 9\nK x - -\n").unwrap();
    /// assert_eq!((report.lines, report.accepted, report.refused, report.repeated), (3, 2, 1, 1));
    /// assert_eq!(report.men(Piece::King, Color::White), 2);
    /// assert_eq!(page.get(2), Some(Err(Error::BadSide { offset: 2 })));
    /// assert_eq!(reader.report(&[b'\n'; 4_097]).unwrap_err(), Error::PageTooLong);
    /// ```
    pub fn report<'a>(&'a mut self, text: &'a [u8]) -> Result<(Page<'a>, Report), Error> {
        let report = Report::of(self.fill(text, lent::fen_report)?);
        let page = Page { text, records: &self.records[..report.lines], numbers: &self.numbers[..report.lines] };
        Ok((page, report))
    }

    fn fill<T>(&mut self, text: &[u8], call: Call<T>) -> Result<T, Error> {
        match call(text, self.records.as_flattened_mut(), self.numbers.as_flattened_mut()) {
            Err(Error::PageTooShort { lines }) => {
                *self = PageReader::for_lines(lines);
                call(text, self.records.as_flattened_mut(), self.numbers.as_flattened_mut())
            }
            answer => answer,
        }
    }
}

/// What the lines of a text were read as (document 02, order 7), each as [`Board::from_fen`] reads it by itself, so that every board has the
/// counters 0 and 1.
///
/// A newline byte ends a line and belongs to none. An unended last line counts if it has a byte in it, so that an empty text has no line. No
/// other byte ends a line: a carriage return before the newline is the last byte of its line.
///
/// A page borrows the text and the rooms that hold its answers, those of a [`PageReader`] or the caller's own. It is an iterator's source:
/// each item is a line's bytes with its board or the reason why it has none, whose offset is from the line's start.
///
/// ```
/// use menkhodur::{Error, PageReader};
///
/// let mut keys = Vec::new();
/// for (line, board) in PageReader::new().read(b" w - -\n9 w - -\n") {
///     match board {
///         Ok(board) => keys.push(board.to_fen()),
///         Err(refused) => assert_eq!((line, refused), (&b"9 w - -"[..], Error::BadPlacement { offset: 0 })),
///     }
/// }
/// assert_eq!(keys, ["8/8/8/8/8/8/8/8 w - - 0 1"]);
/// ```
#[must_use = "a page is read for its answers"]
#[derive(Clone, Copy)]
pub struct Page<'a> {
    text: &'a [u8],
    records: &'a [Numbers],
    numbers: &'a [[u64; PAGE_NUMBERS]],
}

impl<'a> Page<'a> {
    /// Reads the lines of a text into rooms that the caller keeps, at least one record and one pair of numbers a line; what lies behind the
    /// last line's is left alone. Refused, with nothing written: [`Error::PageTooShort`], which tells the number of lines.
    ///
    /// ```
    /// use menkhodur::{Error, Page};
    ///
    /// let (mut records, mut numbers) = ([[9; 68]; 2], [[9; 2]; 3]);
    /// assert_eq!(Page::lent(b" w - -", &mut records, &mut numbers).unwrap().len(), 1);
    /// assert_eq!((records, numbers), ([[0; 68], [9; 68]], [[0; 2], [9; 2], [9; 2]]));
    /// assert_eq!(Page::lent(b"\n\n\n", &mut records, &mut numbers).unwrap_err(), Error::PageTooShort { lines: 3 });
    /// ```
    pub fn lent(text: &'a [u8], records: &'a mut [Numbers], numbers: &'a mut [[u64; PAGE_NUMBERS]]) -> Result<Page<'a>, Error> {
        let lines = lent::fen_page(text, records.as_flattened_mut(), numbers.as_flattened_mut())?;
        Ok(Page { text, records: &records[..lines], numbers: &numbers[..lines] })
    }

    /// Reads the lines of a text into rooms that the caller keeps, as [`Page::lent`] does, and reports on them. Refused, with nothing written:
    /// [`Error::PageTooLong`] for more than [`REPORT_LINES`](lent::REPORT_LINES) lines, then [`Error::PageTooShort`].
    ///
    /// ```
    /// use menkhodur::{Error, Page};
    ///
    /// let (mut records, mut numbers) = ([[9; 68]; 2], [[9; 2]; 2]);
    /// let (page, report) = Page::report(b" w - -\n w - -", &mut records, &mut numbers).unwrap();
    /// assert_eq!((page.len(), report.accepted, report.repeated), (2, 2, 1));
    /// assert_eq!(Page::report(b"\n\n\n", &mut records, &mut numbers).unwrap_err(), Error::PageTooShort { lines: 3 });
    /// ```
    pub fn report(text: &'a [u8], records: &'a mut [Numbers], numbers: &'a mut [[u64; PAGE_NUMBERS]]) -> Result<(Page<'a>, Report), Error> {
        let report = Report::of(lent::fen_report(text, records.as_flattened_mut(), numbers.as_flattened_mut())?);
        Ok((Page { text, records: &records[..report.lines], numbers: &numbers[..report.lines] }, report))
    }

    /// How many lines there are.
    ///
    /// ```
    /// assert_eq!(menkhodur::PageReader::new().read(b"8\n\n8").len(), 3);
    /// ```
    #[must_use]
    pub fn len(&self) -> usize {
        self.records.len()
    }

    /// Whether there is none: the text is empty.
    #[must_use]
    pub fn is_empty(&self) -> bool {
        self.records.is_empty()
    }

    /// The text that was read.
    #[must_use]
    pub fn text(&self) -> &'a [u8] {
        self.text
    }

    /// The records of all lines, in order, where they lie and without counters; 68 zeros for one that was refused. `as_flattened` makes one row
    /// of bytes of them.
    ///
    /// ```
    /// let mut reader = menkhodur::PageReader::new();
    /// let page = reader.read(b"K w - -\n9 w - -\n b - -");
    /// assert_eq!(page.records().iter().map(|record| (record[56], record[64])).collect::<Vec<_>>(), [(6, 0), (0, 0), (0, 1)]);
    /// ```
    #[must_use]
    pub fn records(&self) -> &'a [Numbers] {
        self.records
    }

    /// The answer number and the offset of all lines, in order, where they lie; 0 and 0 for one that was accepted.
    ///
    /// ```
    /// assert_eq!(menkhodur::PageReader::new().read(b"K w - -\nK9 w - -\n8 x - -\n").numbers(), [[0, 0], [19, 1], [20, 2]]);
    /// ```
    #[must_use]
    pub fn numbers(&self) -> &'a [[u64; PAGE_NUMBERS]] {
        self.numbers
    }

    /// What the line with this index, from 0, was read as; none if there are not so many.
    ///
    /// ```
    /// use menkhodur::{Error, PageReader};
    ///
    /// let mut reader = PageReader::new();
    /// let page = reader.read(b" w - -\n8 x - -");
    /// assert_eq!(page.get(1), Some(Err(Error::BadSide { offset: 2 })));
    /// assert_eq!(page.get(2), None);
    /// ```
    #[must_use]
    pub fn get(&self, index: usize) -> Option<Result<Board, Error>> {
        Some(answer(self.records.get(index)?, self.numbers.get(index)?))
    }

    /// Every line with its answer, in order.
    ///
    /// ```
    /// let mut reader = menkhodur::PageReader::new();
    /// let page = reader.read(b" w - -\r\n w - -");
    /// assert_eq!(page.iter().map(|(line, _)| line).collect::<Vec<_>>(), [&b" w - -\r"[..], b" w - -"]);
    /// ```
    pub fn iter(&self) -> Answers<'a> {
        Answers { rest: self.text, records: self.records, numbers: self.numbers }
    }
}

fn answer(record: &Numbers, &[number, offset]: &[u64; PAGE_NUMBERS]) -> Result<Board, Error> {
    Error::judge(number, offset).map(|()| Board::of_good_log(Record::from(*record)))
}

impl<'a> IntoIterator for Page<'a> {
    type Item = (&'a [u8], Result<Board, Error>);
    type IntoIter = Answers<'a>;

    fn into_iter(self) -> Answers<'a> {
        self.iter()
    }
}

impl<'a> IntoIterator for &Page<'a> {
    type Item = (&'a [u8], Result<Board, Error>);
    type IntoIter = Answers<'a>;

    fn into_iter(self) -> Answers<'a> {
        self.iter()
    }
}

impl fmt::Debug for Page<'_> {
    fn fmt(&self, f: &mut fmt::Formatter<'_>) -> fmt::Result {
        self.iter().fmt(f)
    }
}

/// The lines of a page with their answers, in order, as [`Page::iter`] gives them.
///
/// ```
/// let mut reader = menkhodur::PageReader::new();
/// let mut answers = reader.read(b"8\n w - -").iter();
/// assert_eq!(answers.len(), 2);
/// let (line, board) = answers.next().unwrap();
/// assert_eq!((line, board.unwrap_err().number()), (&b"8"[..], 18));
/// assert_eq!(answers.len(), 1);
/// ```
#[must_use = "iterators are lazy and do nothing unless consumed"]
#[derive(Clone)]
pub struct Answers<'a> {
    rest: &'a [u8],
    records: &'a [Numbers],
    numbers: &'a [[u64; PAGE_NUMBERS]],
}

impl<'a> Answers<'a> {
    /// The next line, without its newline. Only asked for while answers are left, and so while a byte is.
    fn line(&mut self) -> &'a [u8] {
        let start = self.rest;
        // Bytes at hand are read without a failure; and this looks for the newline many bytes at a time, as `position` does not.
        let length = self.rest.skip_until(b'\n').unwrap_or_default();
        let line = &start[..length];
        line.strip_suffix(b"\n").unwrap_or(line)
    }
}

impl<'a> Iterator for Answers<'a> {
    type Item = (&'a [u8], Result<Board, Error>);

    fn next(&mut self) -> Option<Self::Item> {
        let ((record, records), (told, numbers)) = (self.records.split_first()?, self.numbers.split_first()?);
        (self.records, self.numbers) = (records, numbers);
        Some((self.line(), answer(record, told)))
    }

    fn size_hint(&self) -> (usize, Option<usize>) {
        (self.records.len(), Some(self.records.len()))
    }
}

impl ExactSizeIterator for Answers<'_> {}

impl FusedIterator for Answers<'_> {}

impl fmt::Debug for Answers<'_> {
    fn fmt(&self, f: &mut fmt::Formatter<'_>) -> fmt::Result {
        f.debug_list().entries(self.clone()).finish()
    }
}
