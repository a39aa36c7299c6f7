//! The stored games that `export` and `games` read.

use super::store::Shelf;
use super::{postgres, sqlite};
use crate::options::{Asked, Flag, Stop};

pub const SQLITE: Flag = Flag { name: "sqlite", value: Some("FILE"), about: "read the games of this SQLite database" };
pub const POSTGRES: Flag = Flag {
    name: "postgres",
    value: Some("CONNINFO"),
    about: "read those of the PostgreSQL database that libpq finds by this, as 'dbname=chess'",
};

/// Two stores, or none, are trouble.
pub fn open(asked: &Asked) -> Result<Box<dyn Shelf>, Stop> {
    let one = || format!("one of --sqlite and --postgres is needed, and not both; see menkhodur {} --help", asked.command.name);
    let opened = match (asked.value(&SQLITE), asked.value(&POSTGRES)) {
        (Some(path), None) => sqlite::shelf(path),
        (None, Some(conninfo)) => postgres::shelf(conninfo),
        _ => Err(one()),
    };
    opened.map_err(Stop::trouble)
}
