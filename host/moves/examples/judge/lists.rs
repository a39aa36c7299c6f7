//! Whose lists are judged.

use menkhodur::lent::{self, Record};
use menkhodur::{Error, Laws, Lends, Lent, Move};

#[derive(Clone, Copy)]
pub enum Lists {
    /// Those of this package.
    Moves,
    /// The proved archive's.
    Archive,
}

impl Lists {
    pub fn in_check(self, record: &Record) -> bool {
        match self {
            Lists::Moves => menkhodur_moves::in_check(record),
            Lists::Archive => lent::in_check(record).is_ok_and(|check| check),
        }
    }

    /// The moves in coordinates, sorted as texts.
    pub fn texts(mut self, record: &Record) -> Result<Vec<String>, Error> {
        let mut list = Lent::new();
        self.lend(record, b"", &mut list)?;
        let mut texts: Vec<String> = list.moves().iter().map(Move::to_string).collect();
        texts.sort();
        Ok(texts)
    }
}

/// The whole list for every text.
impl Lends for Lists {
    type Error = Error;

    fn lend(&mut self, record: &Record, text: &[u8], into: &mut Lent) -> Result<(), Error> {
        match self {
            Lists::Moves => menkhodur_moves::legal(record, into),
            Lists::Archive => Laws.lend(record, text, into),
        }
    }
}
