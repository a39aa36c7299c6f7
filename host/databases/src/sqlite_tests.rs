use super::*;
use std::path::PathBuf;
use std::sync::Arc;
use std::sync::atomic::{AtomicUsize, Ordering};
use std::{fs, process, thread};

/// None, with a word about it, where SQLite is not installed.
fn memory() -> Option<Connection> {
    Connection::memory().map_err(|error| crate::tests::skipped(&error.to_string())).ok()
}

/// A file of a test's own, which is removed with what SQLite has put beside it.
struct Own(PathBuf);

impl Own {
    fn new(name: &str) -> Own {
        let own = Own(std::env::temp_dir().join(format!("menkhodur-databases-{}-{name}", process::id())));
        own.remove();
        own
    }

    fn beside(&self, end: &str) -> PathBuf {
        let mut name = self.0.clone().into_os_string();
        name.push(end);
        name.into()
    }

    fn remove(&self) {
        for end in ["", "-wal", "-shm", "-journal"] {
            let _ = fs::remove_file(self.beside(end));
        }
    }
}

impl Drop for Own {
    fn drop(&mut self) {
        self.remove();
    }
}

#[test]
fn values_come_out_as_they_went_in_with_0_bytes_and_empty_ones() {
    let Some(store) = memory() else { return };
    store.run("CREATE TABLE t (n INTEGER PRIMARY KEY, v)").unwrap();
    let values = [
        Value::Null,
        Value::Integer(i64::MIN),
        Value::Integer(-1),
        Value::Text(b""),
        Value::Text(b"a\0b\0"),
        Value::Text("Ж\u{10ffff}".as_bytes()),
        Value::Text(b"\xff\xfe"),
        Value::Blob(b""),
        Value::Blob(b"\0\xff"),
    ];
    let mut file = store.prepare("INSERT INTO t VALUES (?1, ?2)").unwrap();
    for (number, value) in (0..).zip(values) {
        assert_eq!(file.run(&[Value::Integer(number), value]), Ok(1));
    }
    let mut ask = store.prepare("SELECT v, typeof(v) FROM t ORDER BY n").unwrap();
    let mut rows = ask.rows(&[]).unwrap();
    for value in values {
        let row = rows.next().unwrap().unwrap();
        let (integer, bytes, kind) = match value {
            Value::Null => (None, None, "null"),
            Value::Integer(number) => (Some(number), None, "integer"),
            Value::Text(text) => (None, Some(text), "text"),
            Value::Blob(blob) => (None, Some(blob), "blob"),
        };
        assert_eq!((row.integer(0), row.bytes(0), row.bytes(1)), (integer, bytes, Some(kind.as_bytes())));
        // Asked again nothing has moved, and a column that is not there is none.
        assert_eq!((row.bytes(0), row.integer(2), row.bytes(usize::MAX)), (bytes, None, None));
    }
    assert!(rows.next().unwrap().is_none() && rows.next().unwrap().is_none());
}

#[test]
fn texts_of_a_wide_database_are_lent_as_utf_8() {
    let Some(store) = memory() else { return };
    store.run("PRAGMA encoding = 'UTF-16'; CREATE TABLE t (v TEXT); INSERT INTO t VALUES ('Жa')").unwrap();
    let mut ask = store.prepare("SELECT v FROM t").unwrap();
    let mut rows = ask.rows(&[]).unwrap();
    let row = rows.next().unwrap().unwrap();
    let (first, again) = (row.bytes(0), row.bytes(0));
    assert_eq!((first, again), (Some("Жa".as_bytes()), Some("Жa".as_bytes())));
}

#[test]
fn an_error_has_sqlites_number_and_words_and_the_statement() {
    let Some(store) = memory() else { return };
    let told = |ended: Result<(), Error>| ended.unwrap_err().to_string();
    assert_eq!(told(store.run("SELECT 1;\n  SELEC 2")), "near \"SELEC\": syntax error (SQLite 1), at SELEC 2");
    store.run("CREATE TABLE t (v CHECK (v > 0))").unwrap();
    let mut file = store.prepare("INSERT INTO t VALUES (?1)").unwrap();
    let error = file.run(&[Value::Integer(0)]).unwrap_err();
    assert_eq!((error.code(), error.words()), (19, "CHECK constraint failed: v > 0"));
    assert_eq!(error.to_string(), "CHECK constraint failed: v > 0 (SQLite 275), at INSERT INTO t VALUES (?1)");
    // The statement is as good as before.
    assert_eq!(file.run(&[Value::Integer(1)]), Ok(1));
    assert_eq!(file.run(&[Value::Integer(1), Value::Null]).unwrap_err().code(), 25);
    assert_eq!(file.run(&[]), Ok(1), "a value that is not given is NULL, not that of the last time");
    drop(file);
    assert_eq!(store.prepare("SELECT count(v) FROM t").unwrap().first(&[], |row| row.integer(0)), Ok(Some(Some(1))));
}

#[test]
fn one_statement_is_one_and_a_script_is_run_to_its_end() {
    let Some(store) = memory() else { return };
    assert!(store.prepare("SELECT 1; SELECT 2").is_err() && store.prepare(" -- none").is_err() && store.prepare("").is_err());
    assert!(store.prepare("SELECT 1\0").is_err() && store.run("SELECT 1;\0 SELECT 2").is_err());
    assert!(store.prepare("SELECT 1; ").is_ok());
    store.run("CREATE TABLE t (v); -- a comment; with a semicolon\n INSERT INTO t VALUES ('Ж;'), (2); SELECT * FROM t; /* end */").unwrap();
    assert_eq!(store.prepare("SELECT count(*) FROM t").unwrap().first(&[], |row| row.integer(0)), Ok(Some(Some(2))));
    store.run("").unwrap();
}

#[test]
fn whoever_reads_a_first_row_holds_no_lock_then() {
    let Some(_) = memory() else { return };
    let own = Own::new("lock");
    let (writer, reader) = (Connection::open(&own.0, Mode::Write).unwrap(), Connection::open(&own.0, Mode::Write).unwrap());
    writer.run("PRAGMA journal_mode = WAL; PRAGMA wal_autocheckpoint = 0; CREATE TABLE t (v); INSERT INTO t VALUES (1), (2)").unwrap();
    let mut checkpoint = writer.prepare("PRAGMA wal_checkpoint(TRUNCATE)").unwrap();
    let mut busy = || checkpoint.first(&[], |row| row.integer(0)).unwrap();
    let mut ask = reader.prepare("SELECT v FROM t").unwrap();
    let mut rows = ask.rows(&[]).unwrap();
    assert!(rows.next().unwrap().is_some());
    writer.run("INSERT INTO t VALUES (3)").unwrap();
    assert_eq!(busy(), Some(Some(1)), "rows that are read hold the log");
    drop(rows);
    assert_eq!(busy(), Some(Some(0)));
    assert_eq!(ask.first(&[], |row| row.integer(0)), Ok(Some(Some(1))));
    assert_eq!(busy(), Some(Some(0)));
    assert_eq!(fs::metadata(own.beside("-wal")).unwrap().len(), 0);
}

#[test]
fn a_statement_is_kept_for_the_next_and_two_of_one_text_do_not_meet() {
    let Some(store) = memory() else { return };
    let numbers = "SELECT 1 UNION SELECT 2 UNION SELECT 3";
    let (mut one, mut two) = (store.prepare(numbers).unwrap(), store.prepare(numbers).unwrap());
    assert_ne!(one.prepared, two.prepared);
    let (mut first, mut second) = (one.rows(&[]).unwrap(), two.rows(&[]).unwrap());
    for number in 1..=3 {
        assert_eq!(first.next().unwrap().unwrap().integer(0), Some(number));
        assert_eq!(second.next().unwrap().unwrap().integer(0), Some(number));
    }
    drop((first, second));
    let kept = one.prepared;
    drop((one, two));
    assert_eq!(store.kept.borrow().len(), 2);
    assert_eq!(store.prepare(numbers).unwrap().prepared, kept);
    for number in 0..2 * KEPT {
        drop(store.prepare(&format!("SELECT {number}")).unwrap());
    }
    assert_eq!(store.kept.borrow().len(), KEPT);
}

#[test]
fn a_function_is_given_each_kind_and_answers_each_kind() {
    let Some(store) = memory() else { return };
    let told = |argument: Argument<'_>| match argument {
        Argument::Null => Answer::Null,
        Argument::Text(b"no") => Answer::Refused("not this: 'Ж'".to_string()),
        Argument::Text(text) => Answer::Text([b"text ", text].concat()),
        Argument::Blob(blob) => Answer::Integer(blob.len() as i64),
        Argument::Number(text) => Answer::Text([b"number ", text].concat()),
    };
    store.create_function("told", told).unwrap();
    store.create_constant("seven", 7).unwrap();
    let ask = |value: &str| {
        store.prepare(&format!("SELECT cast(told({value}) AS TEXT)")).unwrap().first(&[], |row| row.bytes(0).map(<[u8]>::to_vec))
    };
    let text = |text: &[u8]| Ok(Some(Some(text.to_vec())));
    assert_eq!(ask("NULL"), Ok(Some(None)));
    assert_eq!((ask("'a' || char(0) || 'b'"), ask("''"), ask("'Ж'")), (text(b"text a\0b"), text(b"text "), text("text Ж".as_bytes())));
    assert_eq!((ask("x''"), ask("x'00ff'"), ask("zeroblob(3)")), (text(b"0"), text(b"2"), text(b"3")));
    assert_eq!((ask("-12"), ask("0.5"), ask("seven()")), (text(b"number -12"), text(b"number 0.5"), text(b"number 7")));
    assert_eq!(ask("'no'").unwrap_err().to_string(), "not this: 'Ж' (SQLite 1), at SELECT cast(told('no') AS TEXT)");
    assert!(
        store.prepare("SELECT told()").is_err() && store.prepare("SELECT told(1, 2)").is_err() && store.prepare("SELECT seven(1)").is_err()
    );
}

#[test]
fn a_function_serves_a_schema_that_trusts_nobody_and_is_freed_once() {
    let Some(store) = memory() else { return };
    let counter = Arc::new(AtomicUsize::new(0));
    let counted = |counter: Arc<AtomicUsize>| {
        move |argument: Argument<'_>| {
            counter.fetch_add(1, Ordering::Relaxed);
            Answer::Integer(i64::from(matches!(argument, Argument::Text(_))))
        }
    };
    store.create_function("is_text", counted(counter.clone())).unwrap();
    store.create_function("is_text", counted(counter.clone())).unwrap();
    assert_eq!(Arc::strong_count(&counter), 2, "the first was freed when it was made anew");
    store.run("PRAGMA trusted_schema = OFF; CREATE TABLE t (v, CHECK (is_text(v))); CREATE INDEX i ON t (is_text(v))").unwrap();
    let mut file = store.prepare("INSERT INTO t VALUES (?1)").unwrap();
    assert_eq!(file.run(&[Value::Text(b"a")]), Ok(1));
    assert_eq!(file.run(&[Value::Blob(b"a")]).unwrap_err().code(), 19);
    drop(file);
    assert!(store.create_function("na\0me", counted(counter.clone())).is_err());
    assert!(store.create_function(&"long".repeat(1000), counted(counter.clone())).is_err());
    assert!(counter.load(Ordering::Relaxed) > 1);
    drop(store);
    assert_eq!(Arc::strong_count(&counter), 1);
}

#[test]
fn a_connection_goes_to_another_thread_with_its_statements_kept() {
    let Some(store) = memory() else { return };
    store.run("CREATE TABLE t (v)").unwrap();
    assert_eq!(store.prepare("INSERT INTO t VALUES (1)").unwrap().run(&[]), Ok(1));
    let store = thread::spawn(move || {
        assert_eq!(store.prepare("INSERT INTO t VALUES (1)").unwrap().run(&[]), Ok(1));
        store
    });
    let store = store.join().unwrap();
    assert_eq!(store.prepare("SELECT count(*) FROM t").unwrap().first(&[], |row| row.integer(0)), Ok(Some(Some(2))));
}

#[test]
fn a_name_is_a_files_and_no_other_and_what_cannot_be_opened_is_told() {
    let Some(_) = memory() else { return };
    let folder = Own::new("folder");
    let _ = fs::remove_dir_all(&folder.0);
    fs::create_dir(&folder.0).unwrap();
    for name in [":memory:", "file::memory:?mode=memory", "a?b#c%20d", "Ж"] {
        let store = Connection::open(&folder.0.join(name), Mode::Write).unwrap();
        store.run("CREATE TABLE t (v)").unwrap();
        assert!(folder.0.join(name).is_file(), "{name}");
    }
    let missing = Connection::open(&folder.0.join("missing"), Mode::Read).and_then(|store| store.run("SELECT * FROM sqlite_schema"));
    assert_eq!(missing.unwrap_err().to_string(), "unable to open database file: No such file or directory (SQLite 14)");
    let is_folder = Connection::open(&folder.0, Mode::Write).and_then(|store| store.run("SELECT * FROM sqlite_schema")).unwrap_err();
    assert_eq!(is_folder.code(), 14);
    let text = folder.0.join("text");
    fs::write(&text, "no database, but a text of more than a hundred bytes: ".repeat(20)).unwrap();
    let other = Connection::open(&text, Mode::Write).and_then(|store| store.run("SELECT * FROM sqlite_schema")).unwrap_err();
    assert_eq!((other.code(), other.words()), (26, "file is not a database"));
    fs::remove_dir_all(&folder.0).unwrap();
}

#[test]
fn who_finds_it_locked_waits_so_long_and_no_longer() {
    let Some(_) = memory() else { return };
    let own = Own::new("busy");
    let (one, two) = (Connection::open(&own.0, Mode::Write).unwrap(), Connection::open(&own.0, Mode::Write).unwrap());
    two.set_busy_timeout(Duration::from_millis(50)).unwrap();
    one.run("BEGIN IMMEDIATE").unwrap();
    assert!(one.in_transaction());
    let error = two.run("BEGIN IMMEDIATE").unwrap_err();
    assert_eq!((error.code(), error.words()), (5, "database is locked"));
    assert!(!two.in_transaction());
    one.run("ROLLBACK").unwrap();
    two.run("BEGIN IMMEDIATE; ROLLBACK").unwrap();
}

#[test]
fn without_triggers_checks_and_keys_still_hold() {
    let Some(store) = memory() else { return };
    let tables = "CREATE TABLE t (n INTEGER PRIMARY KEY CHECK (n < 9)); CREATE TABLE seen (n)";
    store.run(tables).unwrap();
    store.run("CREATE TRIGGER see AFTER INSERT ON t BEGIN INSERT INTO seen VALUES (NEW.n); END").unwrap();
    let mut file = store.prepare("INSERT INTO t VALUES (?1)").unwrap();
    for (number, run) in [(1, true), (2, false), (3, true)] {
        store.set_triggers(run).unwrap();
        assert_eq!(file.run(&[Value::Integer(number)]), Ok(1));
        assert_eq!(file.run(&[Value::Integer(9)]).unwrap_err().code(), 19, "the check");
        assert_eq!(file.run(&[Value::Integer(number)]).unwrap_err().code(), 19, "the key");
    }
    let seen = store.prepare("SELECT group_concat(n) FROM seen").unwrap().first(&[], |row| row.bytes(0).map(<[u8]>::to_vec));
    assert_eq!(seen, Ok(Some(Some(b"1,3".to_vec()))));
}
