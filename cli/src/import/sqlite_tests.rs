use super::*;
use crate::import::made;
use crate::import::stores::{BARE, Own, TELL, skipped};
use std::process::Command;

/// What is told of a database that other SQL has made.
fn told_of(own: &Own, sql: &str) -> String {
    let _ = fs::remove_file(own.file());
    let db = Connection::open(&own.file(), Mode::Write).unwrap();
    names::create(&db).unwrap();
    db.run(sql).unwrap();
    drop(db);
    let before = fs::read(own.file()).unwrap();
    let told = Sqlite::open(&own.file(), TELL).err().unwrap_or_default();
    assert_eq!(told.is_empty(), before != fs::read(own.file()).unwrap(), "what is no store is left as it is");
    told
}

#[test]
fn what_is_no_store_is_told_and_left() {
    let Some(own) = Own::sqlite() else { return };
    let settled = schema::lacking(Base::Sqlite, &[]).unwrap()[..7].join("\n");
    assert_eq!(told_of(&own, &settled), "", "the tables of host/sqlite/store.sql are taken as they are");
    assert_eq!(told_of(&own, ""), "");
    let plain = told_of(&own, &settled.replace("menkhodur_is_settled", "menkhodur_is_key"));
    assert!(
        plain.contains("the table position keeps plain keys, and an import files settled ones: host/sqlite/cure.sql with :settled yes")
    );
    assert!(told_of(&own, "CREATE TABLE position (fen TEXT PRIMARY KEY)").contains("the table position has no rule for its names"));
    let numbered = "CREATE TABLE position (id INTEGER PRIMARY KEY, fen TEXT UNIQUE CHECK (menkhodur_is_settled(fen)))";
    assert!(told_of(&own, numbered).contains("the table position is not as host/sqlite/store.sql makes it"));
    let other = told_of(&own, "CREATE TABLE bookmark (x)");
    assert!(other.contains("this is the database of something else: it has the table bookmark and no table position"), "{other}");
    let other = told_of(&own, &format!("{settled} CREATE TABLE game (id INTEGER PRIMARY KEY, title TEXT)"));
    assert!(other.contains("the table game is no import's: it has the columns id, title"), "{other}");
    fs::write(own.file(), "no database, and longer than the hundred bytes of the header of one".repeat(9)).unwrap();
    let told = Sqlite::open(&own.file(), TELL).err().unwrap();
    assert!(told.contains("this is no store, and no database of SQLite that can be read (file is not a database (SQLite 26)"), "{told}");
    let told = Sqlite::open(&own.file().join("store"), TELL).err().unwrap();
    assert!(told.ends_with("unable to open database file: Not a directory (SQLite 14)"), "{told}");
    assert!(SqliteShelf::open(&own.file()).is_err());
    told_of(&own, &settled);
    assert!(SqliteShelf::open(&own.file().with_extension("missing")).is_err());
}

#[test]
fn a_store_that_was_cured_is_one() {
    let Some(own) = Own::sqlite() else { return };
    // The table keeps its check for plain keys, and the triggers ask for settled ones.
    let statements = schema::lacking(Base::Sqlite, &[]).unwrap();
    let cured: Vec<_> =
        statements[..7].iter().map(|sql| if sql.contains("TRIGGER") { sql.clone() } else { sql.replace("is_settled", "is_key") }).collect();
    assert_eq!(told_of(&own, &cured.join("\n")), "");
    // There the triggers are all that refuses what is not settled.
    let mut store = Sqlite::open(&own.file(), TELL).unwrap();
    assert_eq!(is_as_made(&store.db), Ok(false));
    store.begin(&made::source("a.pgn")).unwrap();
    let mut bad = made::batch(0);
    bad.games[3].keys.push(UNSETTLED.as_bytes());
    let told = store.write(&bad).unwrap_err();
    assert!(told.contains("one_name: not the settled key of its position"), "{told}");
}

const UNSETTLED: &str = "8/8/8/8/4P3/8/8/8 b - e3 0 1";

#[test]
fn triggers_rest_only_where_they_say_what_the_checks_do() {
    let Some(own) = Own::sqlite() else { return };
    let mut store = Sqlite::open(&own.file(), TELL).unwrap();
    assert_eq!(is_as_made(&store.db), Ok(true));
    store.begin(&made::source("a.pgn")).unwrap();
    store.write(&made::batch(0)).unwrap();
    // They rest on this connection now, so that it can drop in silence what another cannot; the checks do not rest.
    let ignoring = format!("INSERT OR IGNORE INTO position VALUES ('{UNSETTLED}')");
    assert_eq!(store.db.run(&ignoring), Ok(()));
    for sql in
        [ignoring.replace(" OR IGNORE", ""), ignoring.replace("IGNORE", "ROLLBACK"), format!("UPDATE position SET fen = '{UNSETTLED}'")]
    {
        let told = store.db.run(&sql).unwrap_err().to_string();
        assert!(told.contains("CHECK constraint failed: one_name"), "{told}");
    }
    let place = format!("INSERT INTO game_position VALUES (99, 0, '{UNSETTLED}')");
    assert!(store.db.run(&place).unwrap_err().to_string().contains("one_name"));
    // A trigger of someone else's runs, from the next batch on, and with it those of the store.
    let other = Connection::open(&own.file(), Mode::Write).unwrap();
    other.run("CREATE TABLE seen (fen); CREATE TRIGGER see AFTER INSERT ON position BEGIN INSERT INTO seen VALUES (NEW.fen); END").unwrap();
    let new = store.write(&made::batch(5)).unwrap().new;
    assert_eq!(own.count("SELECT count(*) FROM seen"), new.try_into().unwrap());
    let told = store.db.run(&ignoring).unwrap_err().to_string();
    assert!(told.contains("one_name: not the settled key"), "{told}");
}

#[test]
fn the_log_is_brought_over() {
    let Some(own) = Own::sqlite() else { return };
    let mut store = Sqlite::open(&own.file(), BARE).unwrap();
    store.begin(&made::source("a.pgn")).unwrap();
    let log = own.file().with_file_name("store-wal");
    let mut most = 0;
    for round in 0..40 {
        let games = (1..=40).map(|number| made::game(round * 40 + number, 500, 500)).collect();
        store.write(&Batch { games, done: round * 40 + 40, ..Batch::default() }).unwrap();
        most = most.max(fs::metadata(&log).unwrap().len());
    }
    assert!(most < 2 * 65_536_000, "{most}");
    store.finish().unwrap();
    assert_eq!(fs::metadata(&log).unwrap().len(), 0);
}

/// Whether it is what the script makes with the shell and the extension, host/import/test asks.
#[test]
fn the_shell_reads_it_meanwhile() {
    let Some(own) = Own::sqlite() else { return };
    if Command::new("sqlite3").arg("-version").output().is_err() {
        return skipped("sqlite3 is missing, of the Debian package sqlite3");
    }
    let mut store = Sqlite::open(&own.file(), TELL).unwrap();
    store.begin(&made::source("a.pgn")).unwrap();
    store.write(&made::batch(0)).unwrap();
    let asked = "SELECT white, tags, hex(roll) FROM game WHERE number = 1";
    let told = Command::new("sqlite3").arg("-readonly").arg(own.file()).arg(asked).output().unwrap();
    assert_eq!(String::from_utf8_lossy(&told.stdout), "Ж|[[\"ECO\",\"C57\"]]|010000000000000000FF090A0D5C2722\n");
}
