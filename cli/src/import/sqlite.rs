//! A store in a file of SQLite.
//!
//! A batch is one transaction, in WAL mode and synchronous at each commit: what was told as filed is on the disk. Others may read meanwhile; who writes
//! meanwhile waits for its turn, as this does. Each statement is reset as soon as it has done its work, so that nothing holds the log but a reader.

use super::bits;
use super::digest::SEVEN;
use super::known::Known;
use super::patience::{insist, patience};
use super::schema::{self, Base, Column, GAME, HELD, REFUSED, Rule, Table};
use super::sorted::{self, Entry};
use super::store::{Batch, Begun, Duplicates, Filed, Held, Options, Shelf, Source, Store, Twin, Written};
use super::twins::{self, Candidate};
use super::{names, tags, trouble};
use crate::options::Stop;
use menkhodur_databases::sqlite::{Connection, Error, Mode, Row, Statement, Value};
use std::ffi::OsStr;
use std::fs;
use std::path::{Path, PathBuf};
use std::time::Duration;

/// 256 MB of pages, a log that is brought over before a batch and not by SQLite behind one, which would not tell what fails there, and no files for what a
/// statement may have to undo. A place's position may be filed some rows after it, in the same transaction.
const SETTINGS: [&str; 6] = [
    "PRAGMA synchronous = EXTRA",
    "PRAGMA cache_size = -250000",
    "PRAGMA wal_autocheckpoint = 0",
    "PRAGMA journal_size_limit = 65536000",
    "PRAGMA temp_store = MEMORY",
    "PRAGMA foreign_keys = OFF",
];

/// Bytes of a log that is brought over before anything is added, if nobody reads just then; and of one that must be: a batch over a large store makes so long
/// a one, or someone who reads for long.
const LONG: u64 = 1 << 26;
const LOG: u64 = 1 << 30;

/// How long it takes until a store that was locked is opened again.
const PAUSE: Duration = Duration::from_millis(50);

/// What went wrong, with the database or otherwise.
type Trouble = trouble::Trouble<Error>;

impl Trouble {
    /// Whether the same may be accepted when it is offered again: another has locked the store.
    fn may_pass(&self) -> bool {
        matches!(self, Trouble::Database(error) if matches!(error.code(), 5 | 6))
    }

    /// For whoever reads it, with the file's name.
    fn told(self, file: &Path) -> String {
        let file = file.display();
        match self {
            Trouble::Words(words) => format!("{file}: {words}"),
            Trouble::Database(error) => match error.code() {
                5 | 6 => format!("{file}: another program has locked the store for more than {} seconds ({error})", patience().as_secs()),
                8 => format!("{file}: the store cannot be written ({error})"),
                11 | 26 => format!("{file}: this is no store, and no database of SQLite that can be read ({error})"),
                13 => format!("{file}: there is no room left ({error})"),
                _ => format!("{file}: {error}"),
            },
        }
    }
}

/// The store in a file, which is made if it is not there.
pub fn open(file: &OsStr, options: &Options) -> Result<Box<dyn Store>, String> {
    Ok(Box::new(Sqlite::open(Path::new(file), *options)?))
}

pub struct Sqlite {
    db: Connection,
    file: PathBuf,
    options: Options,
    source: Option<Known>,
}

impl Sqlite {
    /// SQLite does not wait by itself where two open a new store at the same moment and each would be the one that turns it to WAL mode.
    pub fn open(file: &Path, options: Options) -> Result<Sqlite, String> {
        let opened = insist(PAUSE, Trouble::may_pass, || Sqlite::begun(file, options));
        opened.map_err(|trouble| trouble.told(file))
    }

    fn begun(file: &Path, options: Options) -> Result<Sqlite, Trouble> {
        let db = Connection::open(file, Mode::Write)?;
        db.set_busy_timeout(patience())?;
        names::create(&db)?;
        // What is no store is left as it is.
        lacking(&db)?;
        // Only a store that has no table yet gets it.
        db.run("PRAGMA page_size = 16384")?;
        db.run("PRAGMA journal_mode = WAL")?;
        SETTINGS.iter().try_for_each(|setting| db.run(setting))?;
        let store = Sqlite { db, file: file.to_path_buf(), options, source: None };
        store.whole(|| {
            // Someone else may have made it since.
            lacking(&store.db)?.iter().try_for_each(|statement| store.db.run(statement))?;
            store.judge_places()
        })?;
        Ok(store)
    }

    /// One transaction, kept if all goes well.
    fn whole<T>(&self, work: impl FnOnce() -> Result<T, Trouble>) -> Result<T, Trouble> {
        self.db.run("BEGIN IMMEDIATE")?;
        let done = work().and_then(|done| Ok(self.db.run("COMMIT").map(|()| done)?));
        if done.is_err() && self.db.in_transaction() {
            // Should this fail too, the transaction ends with the connection; the first error is the one to tell.
            let _ = self.db.run("ROLLBACK");
        }
        done
    }

    /// A search by places must miss no game: all games have places, or none has.
    fn judge_places(&self) -> Result<(), Trouble> {
        match (placed(&self.db)?, self.options.places) {
            (Some(true), false) => Err("its games have places: say --places, or name another store".to_string().into()),
            (Some(false), true) => Err("its games have no places: leave --places out, or name another store".to_string().into()),
            _ => Ok(()),
        }
    }

    fn find(&self, name: &str) -> Result<Option<Known>, Trouble> {
        let read = |row: &Row<'_>| {
            let number = |column| row.integer(column).map(bits::unsigned);
            let begun = Begun { done: number(1).unwrap_or_default(), digest: number(2).unwrap_or_default() };
            Known { id: row.integer(0).unwrap_or_default(), name: name.to_string(), bytes: number(3), digest: number(4), begun }
        };
        let mut ask = self.db.prepare("SELECT id, done, games_digest, bytes, digest FROM source WHERE name = ?1")?;
        Ok(ask.first(&[Value::Text(name.as_bytes())], read)?)
    }

    fn known(&self, source: &Source) -> Result<Known, Trouble> {
        let (name, bytes, digest) = (Value::Text(source.name.as_bytes()), optional(source.bytes), optional(source.digest));
        match self.find(&source.name)? {
            Some(known) => {
                known.judge(source)?;
                let mut change = self.db.prepare("UPDATE source SET bytes = ?2, digest = ?3 WHERE id = ?1")?;
                change.run(&[Value::Integer(known.id), bytes, digest])?;
            }
            None => {
                let columns = "(name, bytes, digest, done, games_digest, ended)";
                self.db.prepare(&format!("INSERT INTO source {columns} VALUES (?1, ?2, ?3, 0, 0, 0)"))?.run(&[name, bytes, digest])?;
            }
        }
        self.find(&source.name)?.ok_or_else(|| Trouble::Words(format!("{} is not there, though it was put in", source.name)))
    }

    fn file(&self, known: &Known, batch: &Batch, entries: &[Entry<'_>]) -> Result<Written, Trouble> {
        known.judge_progress(self.find(&known.name)?.as_ref())?;
        self.judge_places()?;
        let twins = self.twins(known, batch)?;
        let bare = is_as_made(&self.db)?;
        self.db.set_triggers(!bare)?;
        let ids = self.games(known, batch, &twins)?;
        let new = self.positions(batch, entries, &ids, if bare { ALL_BACK } else { "" })?;
        self.refused(known, batch)?;
        let mut progress = self.db.prepare("UPDATE source SET done = ?2, games_digest = ?3, ended = ?4 WHERE id = ?1")?;
        progress.run(&[Value::Integer(known.id), value(batch.done), value(batch.digest), Value::Integer(batch.ended.into())])?;
        Ok(Written { new, twins: twins.into_iter().flatten().collect() })
    }

    /// For each game the first that equals it.
    fn twins(&self, known: &Known, batch: &Batch) -> Result<Vec<Option<Twin>>, Trouble> {
        if self.options.duplicates == Duplicates::Keep {
            return Ok(vec![None; batch.games.len()]);
        }
        let sql = format!("SELECT {HELD} FROM game g JOIN source s ON s.id = g.source WHERE g.mark = ?1 ORDER BY g.id");
        let mut ask = self.db.prepare(&sql)?;
        twins::twins(batch, &known.name, |mark| {
            let mut candidates = vec![];
            let mut rows = ask.rows(&[value(mark)])?;
            while let Some(row) = rows.next()? {
                let roll = row.bytes(11).unwrap_or_default().to_vec();
                candidates.push(Candidate { source: text(&row, 0).unwrap_or_default(), number: number(&row, 1), roll, seven: seven(&row) });
            }
            Ok(candidates)
        })
    }

    /// Files the games that are not skipped; of each its number in the store.
    fn games(&self, known: &Known, batch: &Batch, twins: &[Option<Twin>]) -> Result<Vec<Option<i64>>, Trouble> {
        let mut file = self.db.prepare(&inserting("game", "", &GAME, 1))?;
        let mut next = number_of(&self.db, NEXT)?.unwrap_or_default();
        let mut ids = Vec::with_capacity(batch.games.len());
        for (game, twin) in batch.games.iter().zip(twins) {
            let skipped = twin.is_some() && self.options.duplicates == Duplicates::Skip;
            ids.push((!skipped).then_some(next));
            if !skipped {
                file.run(&values(next, known.id, game, &tags::apart(&game.tags)))?;
                next += 1;
            }
        }
        Ok(ids)
    }

    /// Files positions and places in one pass over the keys. How many positions were new.
    fn positions(&self, batch: &Batch, entries: &[Entry<'_>], ids: &[Option<i64>], or: &'static str) -> Result<u64, Trouble> {
        let mut positions = Many::new(&self.db, ["position", or, " ON CONFLICT DO NOTHING"], &["fen"])?;
        let mut places = Many::new(&self.db, ["game_position", or, ""], &["game", "ply", "fen"])?;
        let mut last = &b""[..];
        for entry in entries {
            let (Some(id), main) = (ids[entry.game as usize], batch.games[entry.game as usize].main) else { continue };
            let key = Value::Text(entry.key);
            if entry.key != last {
                positions.add(&[key])?;
                last = entry.key;
            }
            if self.options.places && (entry.at as usize) < main {
                places.add(&[Value::Integer(id), Value::Integer(entry.at.into()), key])?;
            }
        }
        let new = positions.end()?;
        places.end()?;
        Ok(new)
    }

    fn refused(&self, known: &Known, batch: &Batch) -> Result<(), Trouble> {
        let mut file = self.db.prepare(&inserting("refused", "", &REFUSED, 1))?;
        for game in &batch.refused {
            let place = [game.number, game.line, game.at_line, game.at_column, game.answer].map(value);
            let texts = [game.kind, &game.text].map(|text| Value::Text(text.as_bytes()));
            file.run(&[&[Value::Integer(known.id)], &place[..], &texts].concat())?;
        }
        Ok(())
    }

    /// A log that is long is brought over first. Whoever reads for long keeps it from ending, and it would grow until the disk is full.
    fn bound_log(&self) -> Result<(), Trouble> {
        let mut log = self.file.clone().into_os_string();
        log.push("-wal");
        let bytes = fs::metadata(&log).map_or(0, |log| log.len());
        if bytes > LONG && bytes <= LOG {
            self.db.run("PRAGMA wal_checkpoint(PASSIVE)")?;
        }
        if bytes > LOG && number_of(&self.db, "PRAGMA wal_checkpoint(TRUNCATE)")? != Some(0) {
            let megabytes = bytes / 1_000_000;
            return Err(
                format!("another program reads the store without an end, and its log has grown to {megabytes} MB: end that first").into()
            );
        }
        Ok(())
    }
}

impl Store for Sqlite {
    fn begin(&mut self, source: &Source) -> Result<Begun, String> {
        let known = self.whole(|| self.known(source)).map_err(|trouble| trouble.told(&self.file))?;
        let begun = known.begun;
        self.source = Some(known);
        Ok(begun)
    }

    fn write(&mut self, batch: &Batch) -> Result<Written, String> {
        let entries = sorted::sorted(batch);
        let Some(known) = &self.source else { return Err("no source was begun".to_string()) };
        let done = self.bound_log().and_then(|()| self.whole(|| self.file(known, batch, &entries)));
        let written = done.map_err(|trouble| trouble.told(&self.file))?;
        if let Some(known) = &mut self.source {
            known.begun = Begun { done: batch.done, digest: batch.digest };
        }
        Ok(written)
    }

    fn finish(&mut self) -> Result<(), String> {
        // Whoever still reads keeps the log, and the last who closes the store brings it over.
        let ended = self.db.set_busy_timeout(Duration::ZERO).and_then(|()| self.db.run("PRAGMA wal_checkpoint(TRUNCATE)"));
        ended.map_err(|error| Trouble::from(error).told(&self.file))
    }
}

/// The first number of a store's games that nobody uses, for its own table of games and for places that other programs have filed.
const NEXT: &str = "SELECT 1 + max(coalesce((SELECT max(id) FROM game), 0), coalesce((SELECT max(game) FROM game_position), 0))";

/// Whether the store's games have places; none if it has no games.
fn placed(db: &Connection) -> Result<Option<bool>, Error> {
    let sql =
        "SELECT EXISTS (SELECT 1 FROM game_position WHERE game = last) FROM (SELECT max(id) AS last FROM game) WHERE last IS NOT NULL";
    Ok(number_of(db, sql)?.map(|placed| placed == 1))
}

fn number_of(db: &Connection, sql: &str) -> Result<Option<i64>, Error> {
    db.prepare(sql)?.first(&[], |row| row.integer(0)).map(Option::flatten)
}

/// What is to be made so that a database is a store; a new one has no table at all.
fn lacking(db: &Connection) -> Result<Vec<String>, Trouble> {
    let mut tables = vec![];
    let mut ask =
        db.prepare("SELECT name FROM sqlite_schema WHERE type = 'table' AND name NOT LIKE 'sqlite\\_%' ESCAPE '\\' ORDER BY name")?;
    let mut rows = ask.rows(&[])?;
    while let Some(row) = rows.next()? {
        tables.push(table(db, text(&row, 0).unwrap_or_default())?);
    }
    match tables.first() {
        Some(other) if tables.iter().all(|table| table.name != "position") => {
            Err(format!("this is the database of something else: it has the table {} and no table position", other.name).into())
        }
        _ => Ok(schema::lacking(Base::Sqlite, &tables)?),
    }
}

fn table(db: &Connection, name: String) -> Result<Table, Error> {
    let asked = [Value::Text(name.as_bytes())];
    let mut rules = db.prepare("SELECT group_concat(sql, ';') FROM sqlite_schema WHERE tbl_name = ?1 AND type IN ('table', 'trigger')")?;
    let rule = rules.first(&asked, |row| rule(&text(row, 0).unwrap_or_default()))?.unwrap_or(Rule::None);
    let mut columns = vec![];
    // What is generated is not said by who adds a row.
    let mut ask =
        db.prepare("SELECT name, pk, \"notnull\" AND dflt_value IS NULL AND hidden = 0 FROM pragma_table_xinfo(?1) ORDER BY cid")?;
    let mut rows = ask.rows(&asked)?;
    while let Some(row) = rows.next()? {
        let key = row.integer(1).unwrap_or_default();
        columns.push(Column { name: text(&row, 0).unwrap_or_default(), key, needed: row.integer(2) == Some(1) });
    }
    drop(rows);
    Ok(Table { name, rule, columns })
}

/// What a table's SQL and that of its triggers ask of a name.
fn rule(sql: &str) -> Rule {
    match sql {
        _ if sql.contains("menkhodur_is_settled(") => Rule::Settled,
        _ if sql.contains("menkhodur_is_key(") || sql.contains("menkhodur_key(") => Rule::Plain,
        _ => Rule::None,
    }
}

/// Whether the tables of names are as the script makes them, and the database has its triggers and no other: they say what the checks say, and are there for
/// whoever writes INSERT OR IGNORE. On a connection that does not they can rest.
fn is_as_made(db: &Connection) -> Result<bool, Error> {
    let sql = "SELECT sql FROM sqlite_schema WHERE type = 'trigger' OR type = 'table' AND name IN ('position', 'game_position')";
    let (mut ask, mut found) = (db.prepare(sql)?, vec![]);
    let mut rows = ask.rows(&[])?;
    while let Some(row) = rows.next()? {
        found.extend(text(&row, 0));
    }
    let mut made = schema::made();
    made.sort();
    found.sort();
    Ok(found == made)
}

/// What is refused takes the whole transaction with it, so that SQLite need not keep what a statement changes. Not where triggers run: it would be said to
/// their statements too.
const ALL_BACK: &str = " OR ROLLBACK";

/// A statement that adds rows to a table.
fn inserting(table: &str, or: &str, columns: &[&str], rows: usize) -> String {
    let row = format!("({})", vec!["?"; columns.len()].join(", "));
    format!("INSERT{or} INTO {table} ({}) VALUES {}", columns.join(", "), vec![row; rows].join(", "))
}

/// Rows that are added some at a time. Where triggers run, SQLite keeps a copy of each page that a statement changes until its end: of one that adds
/// neighbours it keeps one for all of them.
struct Many<'c, 'v> {
    db: &'c Connection,
    table: &'static str,
    or: &'static str,
    end: &'static str,
    columns: &'static [&'static str],
    statement: Statement<'c>,
    values: Vec<Value<'v>>,
    changed: u64,
}

/// Rows of one statement.
const AT_ONCE: usize = 64;

impl<'c, 'v> Many<'c, 'v> {
    fn new(db: &'c Connection, [table, or, end]: [&'static str; 3], columns: &'static [&'static str]) -> Result<Many<'c, 'v>, Error> {
        let statement = db.prepare(&(inserting(table, or, columns, AT_ONCE) + end))?;
        Ok(Many { db, table, or, end, columns, statement, values: Vec::with_capacity(AT_ONCE * columns.len()), changed: 0 })
    }

    fn add(&mut self, row: &[Value<'v>]) -> Result<(), Error> {
        self.values.extend(row);
        if self.values.len() == AT_ONCE * self.columns.len() {
            self.changed += self.statement.run(&self.values)?;
            self.values.clear();
        }
        Ok(())
    }

    /// Adds what is left. How many rows there were in all that were not there.
    fn end(self) -> Result<u64, Error> {
        let left = self.values.len() / self.columns.len();
        if left == 0 {
            return Ok(self.changed);
        }
        let sql = inserting(self.table, self.or, self.columns, left) + self.end;
        Ok(self.changed + self.db.prepare(&sql)?.run(&self.values)?)
    }
}

/// A game's row, in the order of `GAME`.
fn values<'a>(id: i64, source: i64, game: &'a Filed, apart: &'a tags::Apart<'_>) -> [Value<'a>; GAME.len()] {
    let [event, site, date, round, white, black, result] =
        apart.seven.map(|tag| tag.map_or(Value::Null, |tag| Value::Text(tag.as_bytes())));
    let (number, line, moves, mark) = (value(game.number), value(game.line), value(game.moves), value(game.mark));
    let (id, source, others, roll) =
        (Value::Integer(id), Value::Integer(source), Value::Text(apart.others.as_bytes()), Value::Blob(&game.roll));
    let variations = game.variations.as_ref().map_or(Value::Null, |text| Value::Text(text.as_bytes()));
    [id, source, number, line, event, site, date, round, white, black, result, others, moves, roll, mark, variations]
}

fn value(number: u64) -> Value<'static> {
    Value::Integer(bits::signed(number))
}

fn optional(number: Option<u64>) -> Value<'static> {
    number.map_or(Value::Null, value)
}

fn text(row: &Row<'_>, column: usize) -> Option<String> {
    row.bytes(column).map(|bytes| String::from_utf8_lossy(bytes).into_owned())
}

fn number(row: &Row<'_>, column: usize) -> u64 {
    bits::unsigned(row.integer(column).unwrap_or_default())
}

fn seven(row: &Row<'_>) -> [Option<String>; SEVEN.len()] {
    std::array::from_fn(|tag| text(row, 3 + tag))
}

/// The games of the store in a file, which is only read.
pub fn shelf(file: &OsStr) -> Result<Box<dyn Shelf>, String> {
    Ok(Box::new(SqliteShelf::open(Path::new(file))?))
}

/// A store whose games are read.
pub struct SqliteShelf {
    db: Connection,
    file: PathBuf,
    /// What is read as a game's variations: in a store of before there are none.
    variations: &'static str,
}

impl SqliteShelf {
    pub fn open(file: &Path) -> Result<SqliteShelf, String> {
        let opened = Connection::open(file, Mode::Read).and_then(|db| {
            db.set_busy_timeout(patience())?;
            let games =
                number_of(&db, "SELECT count(*) FROM sqlite_schema WHERE type = 'table' AND name IN ('source', 'game', 'game_position')")?;
            let variations = number_of(&db, "SELECT count(*) FROM pragma_table_info('game') WHERE name = 'variations'")?;
            Ok((db, games == Some(3), if variations == Some(1) { "g.variations" } else { "NULL" }))
        });
        match opened {
            Ok((db, true, variations)) => Ok(SqliteShelf { db, file: file.to_path_buf(), variations }),
            Ok((_, false, _)) => Err(Trouble::Words("it has no games: none was imported".to_string()).told(file)),
            Err(error) => Err(Trouble::from(error).told(file)),
        }
    }

    /// Hands on each game that a query gives, with the number behind it.
    fn hand_on(&self, sql: &str, values: &[Value<'_>], each: &mut dyn FnMut(Held, u64) -> Result<(), Stop>) -> Result<(), Stop> {
        let stop = |error: Error| Stop::trouble(Trouble::from(error).told(&self.file));
        let mut ask = self.db.prepare(sql).map_err(stop)?;
        let mut rows = ask.rows(values).map_err(stop)?;
        while let Some(row) = rows.next().map_err(stop)? {
            let game = held(&row).map_err(|words| Stop::trouble(Trouble::Words(words).told(&self.file)))?;
            each(game, number(&row, 13))?;
        }
        Ok(())
    }
}

/// A row of `HELD` with the variations behind it.
fn held(row: &Row<'_>) -> Result<Held, String> {
    let (source, number, line) = (text(row, 0).unwrap_or_default(), number(row, 1), number(row, 2));
    let tags = tags::together(seven(row), &text(row, 10).unwrap_or_default());
    let tags = tags.ok_or_else(|| format!("game {number} of {source}: its tags are no JSON of an import"))?;
    Ok(Held { source, number, line, tags, roll: row.bytes(11).unwrap_or_default().to_vec(), variations: text(row, 12) })
}

impl Shelf for SqliteShelf {
    fn each(&mut self, each: &mut dyn FnMut(Held) -> Result<(), Stop>) -> Result<(), Stop> {
        let sql = format!("SELECT {HELD}, {}, 0 FROM source s JOIN game g ON g.source = s.id ORDER BY g.source, g.number", self.variations);
        self.hand_on(&sql, &[], &mut |game, _| each(game))
    }

    fn at(&mut self, key: &[u8], each: &mut dyn FnMut(Held, u64) -> Result<(), Stop>) -> Result<bool, Stop> {
        let placed = placed(&self.db).map_err(|error| Stop::trouble(Trouble::from(error).told(&self.file)))?;
        if placed == Some(false) {
            return Ok(false);
        }
        let from = "game_position p JOIN game g ON g.id = p.game JOIN source s ON s.id = g.source";
        let sql = format!("SELECT {HELD}, {}, p.ply FROM {from} WHERE p.fen = ?1 ORDER BY g.source, g.number, p.ply", self.variations);
        self.hand_on(&sql, &[Value::Text(key)], each)?;
        Ok(true)
    }
}

#[cfg(test)]
#[path = "sqlite_tests.rs"]
mod tests;
