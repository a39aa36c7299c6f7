//! A store on a server of PostgreSQL, or on several whose table `position` has its partitions there.
//!
//! On one server a batch is one transaction. On several its positions come first, each partition in a transaction of its own, for one over two servers can
//! be kept by one and lost by the other; then the games and the source's progress in one. Whoever is killed between them has filed positions that the next
//! run files again. Imports take turns by a lock that ends with the transaction. What a server refuses for the moment is offered again.

use super::bits;
use super::digest::SEVEN;
use super::known::Known;
use super::patience::{insist, patience};
use super::rows::Rows;
use super::schema::{self, Base, Column, GAME, HELD, REFUSED, Rule, Table};
use super::sorted::{self, Entry};
use super::store::{Batch, Begun, Duplicates, Filed, Held, Options, Shelf, Source, Store, Twin, Written};
use super::twins::{self, Candidate};
use super::{tags, trouble};
use crate::options::Stop;
use menkhodur_databases::postgres::{self, Connection, Error};
use std::collections::HashMap;
use std::ffi::OsStr;
use std::thread;
use std::time::{Duration, Instant};

/// The oldest server that this was tried with is 15; 14 has all that is needed.
const OLDEST: i32 = 140_000;

/// How long it takes until what was refused is offered again.
const PAUSE: Duration = Duration::from_millis(500);

/// The lock by which imports take turns: the letters `menkhodu` as a number.
const LOCK: &str = "SELECT pg_advisory_xact_lock(7882815563467318389)";

/// No other session sees these. A commit is on the disk before it is told; nobody waits for a lock without an end.
const SETTINGS: &str = "SET jit = off; SET temp_buffers = '64MB'; SET work_mem = '64MB';
    SELECT set_config('synchronous_commit', 'on', false) WHERE current_setting('synchronous_commit') = 'off';
    SELECT set_config('lock_timeout', '5s', false) WHERE current_setting('lock_timeout') = '0'";

/// What went wrong, with the database or otherwise.
type Trouble = trouble::Trouble<Error>;

impl Trouble {
    /// Whether the same may be accepted when it is offered again: a connection that was lost, a server that starts or ends or has no room for a session, a lock
    /// that was waited for too long, and two who filed one position at the same moment.
    fn may_pass(&self) -> bool {
        let Trouble::Database(error) = self else { return false };
        let passing = ["40001", "40P01", "55P03", "57P01", "57P02", "57P03", "57P05", "53300"];
        error.is_lost() || error.sqlstate().starts_with("08") || passing.contains(&error.sqlstate())
    }

    fn is_lost(&self) -> bool {
        matches!(self, Trouble::Database(error) if error.is_lost())
    }

    fn told(self) -> String {
        match self {
            Trouble::Words(words) => words,
            Trouble::Database(error) => match error.sqlstate() {
                "53100" => format!("PostgreSQL: the server has no room left: {error}"),
                "25006" => format!("PostgreSQL: the server takes nothing now: {error}"),
                _ => format!("PostgreSQL: {error}"),
            },
        }
    }
}

/// Where positions go.
struct Layout {
    base: Base,
    /// Of each partition which keys it holds, as `FOR VALUES ..`.
    partitions: Vec<String>,
}

/// The store that a connection string leads to; its tables are made if they are not there.
pub fn open(conninfo: &OsStr, options: &Options) -> Result<Box<dyn Store>, String> {
    Ok(Box::new(Postgres::open(named(conninfo)?, *options)?))
}

fn named(conninfo: &OsStr) -> Result<&str, String> {
    conninfo.to_str().ok_or_else(|| "PostgreSQL: the connection string is not UTF-8".to_string())
}

pub struct Postgres {
    conninfo: String,
    options: Options,
    db: Connection,
    layout: Layout,
    source: Option<Known>,
}

/// What is known of a batch from one attempt to the next.
#[derive(Default)]
struct Attempts {
    /// Positions of partitions that were new when they were accepted.
    new: u64,
    /// What a commit was to tell that was not heard of.
    unheard: Option<Written>,
}

impl Postgres {
    pub fn open(conninfo: &str, options: Options) -> Result<Postgres, String> {
        // A server that does not answer the first time is told at once; one whose store is locked by another import is waited for.
        let opened = insist(PAUSE, |trouble: &Trouble| trouble.may_pass() && !trouble.is_lost(), || session(conninfo));
        let (db, layout) = opened.map_err(Trouble::told)?;
        let mut store = Postgres { conninfo: conninfo.to_string(), options, db, layout, source: None };
        store.judge_places().map_err(Trouble::told)?;
        Ok(store)
    }

    /// Does something until it is accepted or refused for good, on a new connection if one was lost.
    fn insist<T>(&mut self, mut work: impl FnMut(&mut Postgres) -> Result<T, Trouble>) -> Result<T, String> {
        insist(PAUSE, Trouble::may_pass, || self.connected().and_then(|()| work(self))).map_err(Trouble::told)
    }

    fn connected(&mut self) -> Result<(), Trouble> {
        if !self.db.is_open() {
            (self.db, self.layout) = session(&self.conninfo)?;
        }
        Ok(())
    }

    /// One transaction, kept if all goes well; only one import is in it at a time.
    fn whole<T>(&mut self, work: impl FnOnce(&mut Postgres) -> Result<T, Trouble>) -> Result<T, Trouble> {
        let done = begun(&mut self.db).map_err(Trouble::from).and_then(|()| work(self));
        let kept = done.and_then(|done| Ok(self.db.run("COMMIT").map(|_| done)?));
        if kept.is_err() && self.db.in_transaction() {
            let _ = self.db.run("ROLLBACK");
        }
        kept
    }

    /// A search by places must miss no game: all games have places, or none has.
    fn judge_places(&mut self) -> Result<(), Trouble> {
        match (placed(&mut self.db)?, self.options.places) {
            (Some(true), false) => Err("the store's games have places: say --places, or name another store".to_string().into()),
            (Some(false), true) => Err("the store's games have no places: leave --places out, or name another store".to_string().into()),
            _ => Ok(()),
        }
    }

    fn find(&mut self, name: &str) -> Result<Option<Known>, Trouble> {
        let rows = self.db.ask("SELECT id, done, games_digest, bytes, digest FROM source WHERE name = $1", &[Some(name)])?;
        let number = |column| rows.number(0, column).map(bits::unsigned);
        Ok(rows.number(0, 0).map(|id| {
            let begun = Begun { done: number(1).unwrap_or_default(), digest: number(2).unwrap_or_default() };
            Known { id, name: name.to_string(), bytes: number(3), digest: number(4), begun }
        }))
    }

    fn known(&mut self, source: &Source) -> Result<Known, Trouble> {
        let name = kept(&source.name);
        let [bytes, digest] = [source.bytes, source.digest].map(|number| number.map(|number| bits::signed(number).to_string()));
        let (bytes, digest) = (bytes.as_deref(), digest.as_deref());
        match self.find(&name)? {
            Some(known) => {
                known.judge(source)?;
                let id = known.id.to_string();
                self.db.ask("UPDATE source SET bytes = $2, digest = $3 WHERE id = $1", &[Some(&id), bytes, digest])?;
            }
            None => {
                let next = "SELECT coalesce(max(id), 0) + 1, $1, $2::bigint, $3::bigint, 0, 0, 0 FROM source";
                self.db.ask(&format!("INSERT INTO source {next}"), &[Some(&name), bytes, digest])?;
            }
        }
        self.find(&name)?.ok_or_else(|| Trouble::Words(format!("{name} is not there, though it was put in")))
    }

    /// Files a batch, or finds that it was filed when the connection was lost.
    fn file(&mut self, batch: &Batch, entries: &[Entry<'_>], attempts: &mut Attempts) -> Result<Written, Trouble> {
        let Some(known) = self.source.clone() else { return Err("no source was begun".to_string().into()) };
        let kept = Known { begun: Begun { done: batch.done, digest: batch.digest }, ..known.clone() };
        let found = self.find(&known.name)?;
        if let Some(written) = attempts.unheard.take().filter(|_| found == Some(kept)) {
            return Ok(written);
        }
        if self.layout.base == Base::Partitioned {
            let twins = self.twins(&known, batch)?;
            let skipped = self.skipped(&twins);
            self.partitions(entries, &skipped, attempts)?;
        }
        self.whole(|store| {
            let written = store.file_whole(&known, batch, entries, attempts.new)?;
            attempts.unheard = Some(written.clone());
            Ok(written)
        })
    }

    fn file_whole(&mut self, known: &Known, batch: &Batch, entries: &[Entry<'_>], filed: u64) -> Result<Written, Trouble> {
        known.judge_progress(self.find(&known.name)?.as_ref())?;
        self.judge_places()?;
        let twins = self.twins(known, batch)?;
        let skipped = self.skipped(&twins);
        let new = if self.layout.base == Base::Partitioned { filed } else { self.positions(entries, &skipped)? };
        let ids = self.games(known, batch, &skipped)?;
        if self.options.places {
            self.places(batch, entries, &ids)?;
        }
        self.refused(known, batch)?;
        let numbers =
            [known.id, bits::signed(batch.done), bits::signed(batch.digest), i64::from(batch.ended)].map(|number| number.to_string());
        let values = numbers.each_ref().map(|number| Some(number.as_str()));
        self.db.ask("UPDATE source SET done = $2, games_digest = $3, ended = $4 WHERE id = $1", &values)?;
        Ok(Written { new, twins: twins.into_iter().flatten().collect() })
    }

    /// For each game the first that equals it.
    fn twins(&mut self, known: &Known, batch: &Batch) -> Result<Vec<Option<Twin>>, Trouble> {
        if self.options.duplicates == Duplicates::Keep {
            return Ok(vec![None; batch.games.len()]);
        }
        let marks: Vec<_> = batch.games.iter().map(|game| bits::signed(game.mark).to_string()).collect();
        let sql =
            format!("SELECT {HELD}, g.mark FROM game g JOIN source s ON s.id = g.source WHERE g.mark = ANY ($1::bigint[]) ORDER BY g.id");
        let rows = self.db.ask(&sql, &[Some(&format!("{{{}}}", marks.join(",")))])?;
        let mut candidates: HashMap<i64, Vec<Candidate>> = HashMap::new();
        for row in 0..rows.len() {
            let candidate = Candidate {
                source: text(&rows, row, 0).unwrap_or_default(),
                number: number(&rows, row, 1),
                roll: bytes(&rows, row, 11)?,
                seven: seven(&rows, row),
            };
            candidates.entry(rows.number(row, 12).unwrap_or_default()).or_default().push(candidate);
        }
        twins::twins(batch, &known.name, |mark| Ok(candidates.get(&bits::signed(mark)).cloned().unwrap_or_default()))
    }

    /// Which games are not filed.
    fn skipped(&self, twins: &[Option<Twin>]) -> Vec<bool> {
        twins.iter().map(|twin| twin.is_some() && self.options.duplicates == Duplicates::Skip).collect()
    }

    /// Puts each key once into the table `offered`.
    fn offer(&mut self, entries: &[Entry<'_>], skipped: &[bool]) -> Result<(), Trouble> {
        let mut rows = Rows::new(self.db.copy("COPY offered FROM STDIN")?);
        let mut last = &b""[..];
        for entry in entries {
            if entry.key != last && !skipped[entry.game as usize] {
                rows.key(entry.key).end_row()?;
                last = entry.key;
            }
        }
        rows.end()?;
        Ok(())
    }

    /// Files the positions of a batch. How many were new.
    fn positions(&mut self, entries: &[Entry<'_>], skipped: &[bool]) -> Result<u64, Trouble> {
        self.offer(entries, skipped)?;
        Ok(self.db.run("INSERT INTO position (fen) SELECT fen FROM offered ON CONFLICT DO NOTHING")?)
    }

    /// The same, each partition by itself and in the order of keys, so that it is one server's transaction and no two clients wait for each other in a circle.
    /// A server that is away refuses its partitions, and the others go on.
    fn partitions(&mut self, entries: &[Entry<'_>], skipped: &[bool], attempts: &mut Attempts) -> Result<(), Trouble> {
        self.db.run("TRUNCATE offered")?;
        self.offer(entries, skipped)?;
        let began = Instant::now();
        let mut left: Vec<usize> = (0..self.layout.partitions.len()).collect();
        loop {
            let mut refused = None;
            let mut again = vec![];
            for partition in left {
                let insert = "INSERT INTO position (fen) SELECT fen FROM";
                match self.db.run(&format!("{insert} offered_{partition} ORDER BY fen ON CONFLICT DO NOTHING")).map_err(Trouble::from) {
                    Ok(new) => attempts.new += new,
                    Err(trouble) if trouble.may_pass() && self.db.is_open() => {
                        again.push(partition);
                        refused = Some(trouble);
                    }
                    Err(trouble) => return Err(trouble),
                }
            }
            match refused {
                None => return Ok(()),
                Some(trouble) if began.elapsed() >= patience() => return Err(Trouble::Words(trouble.told())),
                Some(_) => thread::sleep(PAUSE),
            }
            left = again;
        }
    }

    /// Files the games that are not skipped; of each its number in the store.
    fn games(&mut self, known: &Known, batch: &Batch, skipped: &[bool]) -> Result<Vec<Option<i64>>, Trouble> {
        let mut next = self.db.ask(NEXT, &[])?.number(0, 0).unwrap_or_default();
        let mut rows = Rows::new(self.db.copy(&format!("COPY game ({}) FROM STDIN", GAME.join(", ")))?);
        let mut ids = Vec::with_capacity(batch.games.len());
        for (game, skipped) in batch.games.iter().zip(skipped) {
            ids.push((!skipped).then_some(next));
            if !skipped {
                put(&mut rows, next, known.id, game)?;
                next += 1;
            }
        }
        rows.end()?;
        Ok(ids)
    }

    fn places(&mut self, batch: &Batch, entries: &[Entry<'_>], ids: &[Option<i64>]) -> Result<(), Trouble> {
        let mut rows = Rows::new(self.db.copy("COPY game_position (game, ply, fen) FROM STDIN")?);
        for entry in entries {
            let (id, main) = (ids[entry.game as usize], batch.games[entry.game as usize].main);
            if let Some(id) = id.filter(|_| (entry.at as usize) < main) {
                rows.number(id).number(entry.at.into()).key(entry.key).end_row()?;
            }
        }
        rows.end()?;
        Ok(())
    }

    fn refused(&mut self, known: &Known, batch: &Batch) -> Result<(), Trouble> {
        let mut rows = Rows::new(self.db.copy(&format!("COPY refused ({}) FROM STDIN", REFUSED.join(", ")))?);
        for game in &batch.refused {
            rows.number(known.id).bits(game.number).bits(game.line).bits(game.at_line).bits(game.at_column).bits(game.answer);
            rows.text(Some(game.kind)).text(Some(&game.text)).end_row()?;
        }
        rows.end()?;
        Ok(())
    }
}

impl Store for Postgres {
    fn begin(&mut self, source: &Source) -> Result<Begun, String> {
        let known = self.insist(|store| store.whole(|store| store.known(source)))?;
        let begun = known.begun;
        self.source = Some(known);
        Ok(begun)
    }

    fn write(&mut self, batch: &Batch) -> Result<Written, String> {
        let entries = sorted::sorted(batch);
        let mut attempts = Attempts::default();
        let written = self.insist(|store| store.file(batch, &entries, &mut attempts))?;
        if let Some(known) = &mut self.source {
            known.begun = Begun { done: batch.done, digest: batch.digest };
        }
        Ok(written)
    }

    fn finish(&mut self) -> Result<(), String> {
        Ok(())
    }
}

/// The first number of a store's games that nobody uses, for its own table of games and for places that other programs have filed.
const NEXT: &str = "SELECT 1 + greatest((SELECT max(id) FROM game), (SELECT max(game) FROM game_position), 0)";

/// Begins a transaction, when it is this import's turn.
fn begun(db: &mut Connection) -> Result<(), Error> {
    db.run("BEGIN")?;
    db.run(LOCK).map(drop)
}

/// A session with a server, and how the store lies on it. What is missing is made.
fn session(conninfo: &str) -> Result<(Connection, Layout), Trouble> {
    let mut db = Connection::open(conninfo)?;
    let encoding = db.server_encoding();
    if db.server_version() < OLDEST {
        return Err(format!("PostgreSQL: the server has version {}, and 14 or later is needed", db.server_version() / 10_000).into());
    }
    if !["UTF8", "SQL_ASCII"].contains(&encoding.as_str()) {
        return Err(format!("PostgreSQL: the database has the encoding {encoding}, and the names of games need UTF8").into());
    }
    db.run(SETTINGS)?;
    begun(&mut db)?;
    extension(&mut db)?;
    let (base, tables) = tables(&mut db)?;
    schema::lacking(base, &tables)?.iter().try_for_each(|statement| db.run(statement).map(drop))?;
    db.run("COMMIT")?;
    let partitions = if base == Base::Partitioned { partitions(&mut db)? } else { vec![] };
    staging(&mut db, &partitions)?;
    Ok((db, Layout { base, partitions }))
}

fn extension(db: &mut Connection) -> Result<(), Trouble> {
    let made = db.run("CREATE EXTENSION IF NOT EXISTS menkhodur");
    made.map_err(|error| match error.sqlstate() {
        "0A000" | "58P01" => Trouble::Words(format!(
            "PostgreSQL: the server has no extension menkhodur: host/postgres/build makes it, make -C target/postgres install puts it there ({error})"
        )),
        _ => error.into(),
    })?;
    match db.ask("SELECT 1 WHERE to_regtype('fen_position') IS NOT NULL", &[])?.is_empty() {
        true => {
            Err("PostgreSQL: the database has version 1 of the extension menkhodur: ALTER EXTENSION menkhodur UPDATE".to_string().into())
        }
        false => Ok(()),
    }
}

/// The tables of a store that are there, each column a row.
const TABLES: &str = "SELECT c.relname, c.relkind, a.attname, coalesce(array_position(i.indkey::int2[], a.attnum) + 1, 0),
    (a.attnotnull AND NOT a.atthasdef AND a.attidentity = '')::int,
    CASE WHEN a.attname <> 'fen' THEN NULL
        WHEN a.atttypid = to_regtype('fen_position') OR k.checks LIKE '%menkhodur_is_settled(%' THEN 2
        WHEN a.atttypid = to_regtype('fen_key') OR k.checks LIKE '%menkhodur_is_key(%' THEN 1 ELSE 0 END
    FROM pg_class c JOIN pg_attribute a ON a.attrelid = c.oid AND a.attnum > 0 AND NOT a.attisdropped
    LEFT JOIN pg_index i ON i.indrelid = c.oid AND i.indisprimary
    LEFT JOIN (SELECT conrelid, string_agg(pg_get_constraintdef(oid), ';') AS checks FROM pg_constraint WHERE contype = 'c' GROUP BY 1) k
        ON k.conrelid = c.oid
    WHERE c.oid IN (SELECT to_regclass(name) FROM unnest(ARRAY['position', 'game_position', 'source', 'game', 'refused']) name)
    ORDER BY c.relname, a.attnum";

fn tables(db: &mut Connection) -> Result<(Base, Vec<Table>), Trouble> {
    let rows = db.ask(TABLES, &[])?;
    let mut tables: Vec<Table> = vec![];
    let mut base = Base::Postgres;
    for row in 0..rows.len() {
        let name = text(&rows, row, 0).unwrap_or_default();
        match (name.as_str(), text(&rows, row, 1).as_deref()) {
            ("position", Some("p")) => base = Base::Partitioned,
            (_, Some("r" | "p")) => {}
            _ => return Err(format!("PostgreSQL: {name} is there and is no table: another database is needed").into()),
        }
        if tables.last().is_none_or(|table| table.name != name) {
            tables.push(Table { name, rule: Rule::None, columns: vec![] });
        }
        let Some(table) = tables.last_mut() else { continue };
        table.rule = match rows.number(row, 5) {
            Some(2) => Rule::Settled,
            Some(1) => Rule::Plain,
            _ => table.rule,
        };
        let (name, needed) = (text(&rows, row, 2).unwrap_or_default(), rows.number(row, 4) == Some(1));
        table.columns.push(Column { name, key: rows.number(row, 3).unwrap_or_default(), needed });
    }
    Ok((base, tables))
}

/// Which keys each partition of the store holds.
fn partitions(db: &mut Connection) -> Result<Vec<String>, Trouble> {
    let kind = db.ask("SELECT pg_get_partkeydef('position'::regclass)", &[])?;
    if kind.get(0, 0) != Some(b"HASH (fen)") {
        return Err("PostgreSQL: position is not partitioned as host/postgres/layout does it: another store is needed".to_string().into());
    }
    let rows = db.ask(
        "SELECT pg_get_expr(c.relpartbound, c.oid) FROM pg_inherits i JOIN pg_class c ON c.oid = i.inhrelid
            WHERE i.inhparent = 'position'::regclass ORDER BY c.relname",
        &[],
    )?;
    Ok((0..rows.len()).filter_map(|row| text(&rows, row, 0)).collect())
}

/// The table that keys are offered in. One with partitions has those of the store, so that the server itself tells a key's partition.
fn staging(db: &mut Connection, partitions: &[String]) -> Result<(), Error> {
    if partitions.is_empty() {
        return db.run("CREATE TEMP TABLE offered (fen fen_position) ON COMMIT DELETE ROWS").map(drop);
    }
    db.run("CREATE TEMP TABLE offered (fen text COLLATE \"C\") PARTITION BY HASH (fen)")?;
    for (number, bound) in partitions.iter().enumerate() {
        db.run(&format!("CREATE TEMP TABLE offered_{number} PARTITION OF offered {bound}"))?;
    }
    Ok(())
}

/// Whether the store's games have places; none if it has no games.
fn placed(db: &mut Connection) -> Result<Option<bool>, Error> {
    let sql = "SELECT EXISTS (SELECT 1 FROM game_position WHERE game = last)::int FROM (SELECT max(id) AS last FROM game) g WHERE last IS NOT NULL";
    Ok(db.ask(sql, &[])?.number(0, 0).map(|placed| placed == 1))
}

/// A game's row, in the order of `GAME`.
fn put(rows: &mut Rows<'_>, id: i64, source: i64, game: &Filed) -> Result<(), Error> {
    let apart = tags::apart(&game.tags);
    rows.number(id).number(source).bits(game.number).bits(game.line);
    for tag in apart.seven {
        rows.text(tag);
    }
    rows.text(Some(&apart.others)).bits(game.moves).bytes(&game.roll).bits(game.mark).text(game.variations.as_deref()).end_row()
}

/// A text as PostgreSQL keeps it.
fn kept(text: &str) -> String {
    text.replace('\0', "\u{fffd}")
}

fn text(rows: &postgres::Rows, row: usize, column: usize) -> Option<String> {
    rows.get(row, column).map(|bytes| String::from_utf8_lossy(bytes).into_owned())
}

fn number(rows: &postgres::Rows, row: usize, column: usize) -> u64 {
    bits::unsigned(rows.number(row, column).unwrap_or_default())
}

/// A `bytea`, which comes as `\x` and digits.
fn bytes(rows: &postgres::Rows, row: usize, column: usize) -> Result<Vec<u8>, String> {
    let digit = |letter: u8| char::from(letter).to_digit(16).map(|digit| digit as u8);
    let pair = |pair: &[u8]| Some(digit(pair[0])? << 4 | digit(*pair.get(1)?)?);
    let told = rows.get(row, column).and_then(|text| text.strip_prefix(b"\\x"));
    let read: Option<Vec<u8>> = told.and_then(|text| text.chunks(2).map(pair).collect());
    read.ok_or_else(|| "PostgreSQL: a roll is not told in hexadecimal digits: is bytea_output changed?".to_string())
}

fn seven(rows: &postgres::Rows, row: usize) -> [Option<String>; SEVEN.len()] {
    std::array::from_fn(|tag| text(rows, row, 3 + tag))
}

/// The games of the store that a connection string leads to, which is only read.
pub fn shelf(conninfo: &OsStr) -> Result<Box<dyn Shelf>, String> {
    Ok(Box::new(PostgresShelf::open(named(conninfo)?)?))
}

/// A store whose games are read.
pub struct PostgresShelf {
    db: Connection,
    /// What is read as a game's variations: in a store of before there are none.
    variations: &'static str,
}

/// Games that are fetched at once.
const FETCHED: usize = 500;

impl PostgresShelf {
    pub fn open(conninfo: &str) -> Result<PostgresShelf, String> {
        let opened = Connection::open(conninfo).and_then(|mut db| {
            let sql =
                "SELECT to_regclass('source') IS NOT NULL AND to_regclass('game') IS NOT NULL AND to_regclass('game_position') IS NOT NULL";
            let games = db.ask(sql, &[])?.get(0, 0) == Some(b"t");
            let column = "SELECT 1 FROM pg_attribute WHERE attrelid = to_regclass('game') AND attname = 'variations' AND NOT attisdropped";
            let variations = if db.ask(column, &[])?.is_empty() { "NULL" } else { "g.variations" };
            Ok((db, games, variations))
        });
        match opened {
            Ok((db, true, variations)) => Ok(PostgresShelf { db, variations }),
            Ok((_, false, _)) => Err("PostgreSQL: the database has no games: none was imported".to_string()),
            Err(error) => Err(Trouble::from(error).told()),
        }
    }

    /// Hands on each game that a query gives, with the number behind it. They all are of one moment.
    fn hand_on(&mut self, sql: &str, values: &[Option<&str>], each: &mut dyn FnMut(Held, u64) -> Result<(), Stop>) -> Result<(), Stop> {
        let begun = self.db.run("BEGIN READ ONLY").and_then(|_| self.db.ask(&format!("DECLARE games NO SCROLL CURSOR FOR {sql}"), values));
        let done = begun.map_err(stop).and_then(|_| self.fetch(each));
        // Nothing was changed, and however this ends, what was read was read.
        let _ = self.db.run("ROLLBACK");
        done
    }

    fn fetch(&mut self, each: &mut dyn FnMut(Held, u64) -> Result<(), Stop>) -> Result<(), Stop> {
        loop {
            let rows = self.db.ask(&format!("FETCH {FETCHED} FROM games"), &[]).map_err(stop)?;
            for row in 0..rows.len() {
                each(held(&rows, row).map_err(stop)?, number(&rows, row, 13))?;
            }
            if rows.is_empty() {
                return Ok(());
            }
        }
    }
}

fn stop(trouble: impl Into<Trouble>) -> Stop {
    Stop::trouble(trouble.into().told())
}

/// A row of `HELD` with the variations behind it.
fn held(rows: &postgres::Rows, row: usize) -> Result<Held, String> {
    let (source, number, line) = (text(rows, row, 0).unwrap_or_default(), number(rows, row, 1), number(rows, row, 2));
    let tags = tags::together(seven(rows, row), &text(rows, row, 10).unwrap_or_default());
    let tags = tags.ok_or_else(|| format!("PostgreSQL: game {number} of {source}: its tags are no JSON of an import"))?;
    Ok(Held { source, number, line, tags, roll: bytes(rows, row, 11)?, variations: text(rows, row, 12) })
}

impl Shelf for PostgresShelf {
    fn each(&mut self, each: &mut dyn FnMut(Held) -> Result<(), Stop>) -> Result<(), Stop> {
        let sql = format!("SELECT {HELD}, {}, 0 FROM source s JOIN game g ON g.source = s.id ORDER BY g.source, g.number", self.variations);
        self.hand_on(&sql, &[], &mut |game, _| each(game))
    }

    fn at(&mut self, key: &[u8], each: &mut dyn FnMut(Held, u64) -> Result<(), Stop>) -> Result<bool, Stop> {
        if placed(&mut self.db).map_err(stop)? == Some(false) {
            return Ok(false);
        }
        let from = "game_position p JOIN game g ON g.id = p.game JOIN source s ON s.id = g.source";
        let sql = format!("SELECT {HELD}, {}, p.ply FROM {from} WHERE p.fen = $1 ORDER BY g.source, g.number, p.ply", self.variations);
        self.hand_on(&sql, &[Some(&String::from_utf8_lossy(key))], each)?;
        Ok(true)
    }
}

#[cfg(test)]
#[path = "postgres_tests.rs"]
mod tests;
