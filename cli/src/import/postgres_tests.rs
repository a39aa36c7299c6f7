use super::*;
use crate::import::made;
use crate::import::stores::{Own, TELL, skipped};

/// What is told of a database that other SQL has made.
fn told_of(sql: &str) -> Option<String> {
    let own = Own::postgres()?;
    Connection::open(&own.conninfo()).unwrap().run(sql).unwrap();
    Some(Postgres::open(&own.conninfo(), TELL).err().unwrap_or_default())
}

#[test]
fn what_is_no_store_is_told() {
    let extension = "CREATE EXTENSION menkhodur; ";
    let settled = schema::lacking(Base::Postgres, &[]).unwrap()[..3].join("\n");
    for (sql, told) in [
        (settled.clone(), ""),
        (
            settled.replace("fen_position", "fen_key"),
            "the table position keeps plain keys, and an import files settled ones: host/postgres/cure.sql",
        ),
        ("CREATE TABLE position (fen text PRIMARY KEY)".to_string(), "the table position has no rule for its names"),
        ("CREATE TABLE position (fen text PRIMARY KEY CHECK (menkhodur_is_settled(fen)), note text)".to_string(), ""),
        (
            "CREATE TABLE position (id int PRIMARY KEY, fen fen_position UNIQUE)".to_string(),
            "the table position is not as host/postgres/store.sql makes it",
        ),
        ("CREATE VIEW position AS SELECT ''::fen_position AS fen WHERE false".to_string(), "position is there and is no table"),
        (
            "CREATE TABLE position (fen fen_position) PARTITION BY LIST (fen)".to_string(),
            "position is not partitioned as host/postgres/layout does it",
        ),
        ("CREATE TABLE game (id int, title text)".to_string(), "the table game is no import's: it has the columns id, title"),
    ] {
        let Some(found) = told_of(&format!("{extension}{sql}")) else { return };
        assert_eq!(found.is_empty(), told.is_empty(), "{sql}: {found}");
        assert!(found.contains(told), "{sql}: {found}");
    }
}

#[test]
fn a_server_that_is_away_and_what_it_lacks_are_told() {
    if let Some(missing) = Connection::open("").err().map(|error| error.to_string()).filter(|told| told.contains("libpq5")) {
        return skipped(&missing);
    }
    let told = Postgres::open("host=/nonexistent dbname=x user=x", TELL).err().unwrap();
    assert!(told.starts_with("PostgreSQL: ") && told.contains("/nonexistent"), "{told}");
    assert!(PostgresShelf::open("host=/nonexistent dbname=x user=x").is_err());
    let Some(own) = Own::postgres() else { return };
    assert_eq!(PostgresShelf::open(&own.conninfo()).err().unwrap(), "PostgreSQL: the database has no games: none was imported");
    Connection::open(&own.conninfo()).unwrap().run("CREATE EXTENSION menkhodur VERSION '1'").unwrap();
    let told = Postgres::open(&own.conninfo(), TELL).err().unwrap();
    assert_eq!(told, "PostgreSQL: the database has version 1 of the extension menkhodur: ALTER EXTENSION menkhodur UPDATE");
}

/// Ends every session but those of the one who asks.
fn end_sessions(own: &Own) {
    let mut db = Connection::open(&own.conninfo()).unwrap();
    db.run("SELECT pg_terminate_backend(pid) FROM pg_stat_activity WHERE datname = current_database() AND pid <> pg_backend_pid()")
        .unwrap();
}

#[test]
fn a_session_that_was_lost_is_made_anew() {
    let Some(own) = Own::postgres() else { return };
    let mut store = Postgres::open(&own.conninfo(), TELL).unwrap();
    end_sessions(&own);
    store.begin(&made::source("a.pgn")).unwrap();
    for round in 0..3 {
        end_sessions(&own);
        store.write(&made::batch(round * 5)).unwrap();
    }
    assert_eq!(own.count("SELECT count(*) FROM game"), 12);
}

#[test]
fn a_commit_that_was_not_heard_of_is_found() {
    let Some(own) = Own::postgres() else { return };
    let mut store = Postgres::open(&own.conninfo(), TELL).unwrap();
    store.begin(&made::source("a.pgn")).unwrap();
    let batch = made::batch(0);
    let entries = sorted::sorted(&batch);
    let mut attempts = Attempts::default();
    let written = store.file(&batch, &entries, &mut attempts).unwrap_or_else(|trouble| panic!("{}", trouble.told()));
    // The same batch again, as after a commit whose answer was lost: it is told, and filed once.
    assert_eq!(attempts.unheard.as_ref(), Some(&written));
    assert_eq!(store.file(&batch, &entries, &mut attempts).map_err(Trouble::told), Ok(written));
    // Without it, whoever is further is someone else.
    assert!(store.file(&batch, &entries, &mut Attempts::default()).is_err());
    assert_eq!(own.count("SELECT count(*) FROM game"), 4);
}

#[test]
fn partitions_are_filed_one_after_the_other() {
    let Some(own) = Own::postgres() else { return };
    let parts: String = (0..4)
        .map(|part| {
            format!("CREATE TABLE position_{part} PARTITION OF position (PRIMARY KEY (fen)) FOR VALUES WITH (MODULUS 4, REMAINDER {part});")
        })
        .collect();
    let sql = format!("CREATE EXTENSION menkhodur; CREATE TABLE position (fen fen_position NOT NULL) PARTITION BY HASH (fen); {parts}");
    Connection::open(&own.conninfo()).unwrap().run(&sql).unwrap();
    let mut store = Postgres::open(&own.conninfo(), TELL).unwrap();
    store.begin(&made::source("a.pgn")).unwrap();
    let new: u64 = (0..3).map(|round| store.write(&made::batch(round * 5)).unwrap().new).sum();
    assert_eq!(bits::unsigned(own.count("SELECT count(*) FROM position")), new);
    assert_eq!(own.count("SELECT count(*) FROM game_position p JOIN position q ON q.fen = p.fen"), 12 * 7);
    assert_eq!(own.count("SELECT count(DISTINCT tableoid) FROM position"), 4);
}
