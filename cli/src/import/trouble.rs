//! What goes wrong with a store: in its database's words, or in others.

use menkhodur_databases::{postgres, sqlite};

/// `E` is the database's error.
pub enum Trouble<E> {
    Database(E),
    Words(String),
}

impl From<sqlite::Error> for Trouble<sqlite::Error> {
    fn from(error: sqlite::Error) -> Self {
        Trouble::Database(error)
    }
}

impl From<postgres::Error> for Trouble<postgres::Error> {
    fn from(error: postgres::Error) -> Self {
        Trouble::Database(error)
    }
}

impl<E> From<String> for Trouble<E> {
    fn from(words: String) -> Self {
        Trouble::Words(words)
    }
}
