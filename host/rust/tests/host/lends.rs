//! The list that a host lends, and the host behind a reference.

use menkhodur::lent::{self, MAX_LIST, Record};
use menkhodur::{Board, Error, Lends, Lent, MAX_MOVE, Move};

#[test]
fn a_list_ends_where_the_archive_ends_it() {
    let (mut list, mut kept) = (Lent::new(), Vec::new());
    let record = Record::from([0; 68]);
    for number in (0..=MAX_MOVE).rev().step_by(100).take(MAX_LIST) {
        assert_eq!(list.push(number), Ok(()));
        kept.push(number);
        assert_eq!((list.as_slice(), list.len(), list.is_empty()), (&kept[..], kept.len(), false));
        assert_eq!(lent::san_read_standard(&record, list.as_slice(), b"-"), Err(Error::InvalidSanMove));
    }
    assert_eq!(list.push(0), Err(Error::ListOutOfRange));
    assert_eq!(list.as_slice(), kept);
    // Who keeps such a list himself is refused by the archive.
    kept.push(0);
    assert_eq!(lent::san_read_standard(&record, &kept, b"-"), Err(Error::ListOutOfRange));
}

#[test]
fn a_number_that_is_no_move_is_not_listed() {
    let mut list = Lent::new();
    assert_eq!(list.push(MAX_MOVE), Ok(()));
    for number in [MAX_MOVE + 1, 32_768, 65_535] {
        assert_eq!(list.push(number), Err(Error::ListOutOfRange));
        assert_eq!(lent::san_read_standard(&[0; 68].into(), &[number], b"-"), Err(Error::ListOutOfRange));
    }
    assert_eq!(list.as_slice(), [MAX_MOVE]);
}

#[test]
fn what_a_list_held_before_is_gone() {
    let (mut list, mut other) = (Lent::new(), Lent::default());
    (0..9).try_for_each(|number| list.push(number)).unwrap();
    list.clear();
    assert_eq!((list.as_slice(), list.len(), list.is_empty()), (&[][..], 0, true));
    assert_eq!(list, other);
    list.push(1_153).unwrap();
    assert_ne!(list, other);
    other.push(1_153).unwrap();
    assert_eq!(list, other);
    assert_eq!(format!("{list:?}"), "[Move(b1c3)]");
}

/// Lends one move, or tells why not.
struct One(Result<u16, &'static str>);

impl Lends for One {
    type Error = &'static str;

    fn lend(&mut self, _: &Record, _: &[u8], into: &mut Lent) -> Result<(), &'static str> {
        into.clear();
        into.push(self.0?).map_err(|_| "no move")
    }
}

/// As whoever reads a game does it.
fn first(mut host: impl Lends<Error = &'static str>, board: &Board, text: &str) -> Result<Move, &'static str> {
    let mut list = Lent::new();
    host.lend(board.record(), text.as_bytes(), &mut list)?;
    board.read_san_standard(list.moves(), text).map_err(|_| "refused")
}

#[test]
fn a_host_is_taken_whole_borrowed_or_boxed() {
    let (board, knight) = (Board::default(), Move::from_text("b1c3").unwrap());
    let mut host = One(Ok(knight.number()));
    assert_eq!(first(&mut host, &board, "Nc3"), Ok(knight));
    let mut boxed: Box<dyn Lends<Error = &'static str>> = Box::new(host);
    assert_eq!(first(&mut *boxed, &board, "Nc3"), Ok(knight));
    assert_eq!(first(&mut *boxed, &board, "Nf3"), Err("refused"));
    assert_eq!(first(One(Err("away")), &board, "Nc3"), Err("away"));
    assert_eq!(first(One(Ok(MAX_MOVE + 1)), &board, "Nc3"), Err("no move"));
}
