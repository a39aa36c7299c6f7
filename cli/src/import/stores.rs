//! What holds of every store, tried on each that is at hand: in SQLite, and on the server that `MENKHODUR_TEST_POSTGRES` leads to (host/import/test).

use super::made;
use super::postgres::{Postgres, PostgresShelf};
use super::sqlite::{Sqlite, SqliteShelf};
use super::store::{Batch, Begun, Duplicates, Held, Options, Shelf, Source, Store, Twin, Written};
use super::tags;
use menkhodur_databases::{postgres, sqlite};
use std::path::PathBuf;
use std::sync::atomic::{AtomicU32, Ordering};
use std::{env, fs, process, thread};

pub const TELL: Options = Options { places: true, duplicates: Duplicates::Tell };
pub const BARE: Options = Options { places: false, ..TELL };

/// Says that the test that runs was skipped, by its name: tools/cargo-test shows it, and the gate tells it again.
pub fn skipped(why: &str) {
    println!("skipped: cli/run-tests: {}: {why}", thread::current().name().unwrap_or("a test"));
}

/// A place for a store of a test's own, which is removed.
pub enum Own {
    Folder(PathBuf),
    /// The server's own connection string, and the name of a database on it.
    Base(String, String),
}

impl Own {
    fn name() -> String {
        static NEXT: AtomicU32 = AtomicU32::new(0);
        format!("menkhodur_test_{}_{}", process::id(), NEXT.fetch_add(1, Ordering::Relaxed))
    }

    /// None where SQLite is not installed.
    pub fn sqlite() -> Option<Own> {
        sqlite::Connection::memory().map_err(|error| skipped(&error.to_string())).ok()?;
        let folder = env::temp_dir().join(Own::name());
        fs::create_dir_all(&folder).unwrap();
        Some(Own::Folder(folder))
    }

    pub fn postgres() -> Option<Own> {
        let Ok(server) = env::var("MENKHODUR_TEST_POSTGRES") else {
            println!("MENKHODUR_TEST_POSTGRES names no server; that of host/import/postgres-test does");
            return None;
        };
        let base = Own::name();
        postgres::Connection::open(&server).unwrap().run(&format!("CREATE DATABASE {base}")).unwrap();
        Some(Own::Base(server, base))
    }

    fn each() -> impl Iterator<Item = Own> {
        [Own::sqlite, Own::postgres].into_iter().filter_map(|own| own())
    }

    pub fn file(&self) -> PathBuf {
        match self {
            Own::Folder(folder) => folder.join("store"),
            Own::Base(..) => PathBuf::new(),
        }
    }

    pub fn conninfo(&self) -> String {
        match self {
            Own::Folder(_) => String::new(),
            Own::Base(server, base) => format!("{server} dbname={base}"),
        }
    }

    pub fn open(&self, options: Options) -> Result<Box<dyn Store>, String> {
        match self {
            Own::Folder(_) => Sqlite::open(&self.file(), options).map(|store| Box::new(store) as Box<dyn Store>),
            Own::Base(..) => Postgres::open(&self.conninfo(), options).map(|store| Box::new(store) as Box<dyn Store>),
        }
    }

    fn shelf(&self) -> Box<dyn Shelf> {
        match self {
            Own::Folder(_) => Box::new(SqliteShelf::open(&self.file()).unwrap()),
            Own::Base(..) => Box::new(PostgresShelf::open(&self.conninfo()).unwrap()),
        }
    }

    fn run(&self, sql: &str) {
        match self {
            Own::Folder(_) => sqlite::Connection::open(&self.file(), sqlite::Mode::Write).unwrap().run(sql).unwrap(),
            Own::Base(..) => drop(postgres::Connection::open(&self.conninfo()).unwrap().run(sql).unwrap()),
        }
    }

    pub fn count(&self, sql: &str) -> i64 {
        match self {
            Own::Folder(_) => {
                let db = sqlite::Connection::open(&self.file(), sqlite::Mode::Write).unwrap();
                db.prepare(sql).unwrap().first(&[], |row| row.integer(0)).unwrap().flatten().unwrap()
            }
            Own::Base(..) => postgres::Connection::open(&self.conninfo()).unwrap().ask(sql, &[]).unwrap().number(0, 0).unwrap(),
        }
    }
}

impl Drop for Own {
    fn drop(&mut self) {
        let _ = match self {
            Own::Folder(folder) => fs::remove_dir_all(folder).map_err(drop),
            Own::Base(server, base) => {
                let dropping = |mut db: postgres::Connection| db.run(&format!("DROP DATABASE {base} WITH (FORCE)"));
                postgres::Connection::open(server).and_then(dropping).map(drop).map_err(drop)
            }
        };
    }
}

#[test]
fn a_batch_is_filed_whole_and_told_again() {
    for own in Own::each() {
        let mut store = own.open(TELL).unwrap();
        assert_eq!(store.begin(&made::source("a.pgn")), Ok(Begun::default()));
        let (first, second) = (made::batch(0), made::batch(5));
        let mut keys: Vec<_> = first.games.iter().flat_map(|game| game.keys.iter()).collect();
        keys.sort();
        keys.dedup();
        assert_eq!(store.write(&first), Ok(Written { new: keys.len() as u64, twins: vec![] }));
        assert!(store.write(&second).unwrap().new < 4 * 9, "some are filed already");
        assert_eq!(store.begin(&made::source("a.pgn")), Ok(Begun { done: 10, digest: u64::MAX - 5 }));
        assert_eq!(store.finish(), Ok(()));
        let mut games = vec![];
        let mut shelf = own.shelf();
        let mut put = |game| {
            games.push(game);
            Ok(())
        };
        shelf.each(&mut put).unwrap();
        for (held, filed) in games.iter().zip(first.games.iter().chain(&second.games)) {
            assert_eq!((held.source.as_str(), held.number, held.line, &held.roll), ("a.pgn", filed.number, filed.line, &filed.roll));
            assert_eq!(held.variations, filed.variations);
            let tags = tags::apart(&filed.tags);
            assert_eq!(Some(&held.tags), tags::together(tags.seven.map(|tag| tag.map(str::to_string)), &tags.others).as_ref());
        }
        assert_eq!(games.len(), 8);
        let mut places = vec![];
        let mut put = |game: Held, ply| {
            places.push((game.number, ply));
            Ok(())
        };
        assert!(shelf.at(&made::key(0), &mut put).unwrap());
        assert_eq!(places, [1, 2, 4, 5, 6, 7, 9, 10].map(|number| (number, 0)));
        let mut of_first = 0;
        let mut count = |game: Held, _| {
            of_first += u32::from(game.number == 1);
            Ok(())
        };
        assert!(shelf.at(first.games[0].keys.get(8), &mut count).unwrap());
        assert_eq!(of_first, 0, "a variation's position has no place");
        assert_eq!(own.count("SELECT count(*) FROM position WHERE fen = '4k3/8/8/8/8/8/8/4K3 w - - 0 1'"), 1);
        let refused = "at_column = 3 AND answer = 4 AND kind = 'move' AND text LIKE 'Nf%' AND at_line = line + 2";
        assert_eq!(own.count(&format!("SELECT count(*) FROM refused WHERE {refused}")), 2);
        assert_eq!(own.count("SELECT sum(done) FROM source WHERE bytes = 1000 AND digest = -1 AND ended = 0"), 10);
    }
}

#[test]
fn a_store_of_before_gets_the_column_that_it_lacks() {
    for own in Own::each() {
        let mut store = own.open(TELL).unwrap();
        store.begin(&made::source("a.pgn")).unwrap();
        store.write(&made::batch(0)).unwrap();
        drop(store);
        own.run("ALTER TABLE game DROP COLUMN variations");
        // Whoever reads it leaves it as it is.
        let held = |own: &Own| {
            let mut held = vec![];
            let mut put = |game: Held| {
                held.push(game.variations.is_some());
                Ok(())
            };
            own.shelf().each(&mut put).unwrap();
            held
        };
        assert_eq!(held(&own), [false; 4]);
        let mut store = own.open(TELL).unwrap();
        store.begin(&made::source("a.pgn")).unwrap();
        store.write(&made::batch(5)).unwrap();
        assert_eq!(held(&own), [false, false, false, false, true, false, false, true]);
        assert!(own.shelf().at(&made::key(0), &mut |_, _| Ok(())).unwrap());
    }
}

#[test]
fn what_fails_in_the_middle_files_nothing() {
    for own in Own::each() {
        let mut store = own.open(TELL).unwrap();
        store.begin(&made::source("a.pgn")).unwrap();
        store.write(&made::batch(0)).unwrap();
        let counts = || ["game", "position", "game_position", "refused"].map(|table| own.count(&format!("SELECT count(*) FROM {table}")));
        let before = counts();
        let mut bad = made::batch(5);
        // A second name, which only the table refuses.
        bad.games[3].keys.push(b"8/8/8/8/4P3/8/8/8 b - e3 0 1");
        let told = store.write(&bad).unwrap_err();
        assert!(told.contains("one_name") && told.contains(", at "), "{told}");
        assert_eq!((counts(), own.count("SELECT done FROM source")), (before, 5));
        store.write(&made::batch(5)).unwrap();
        assert_eq!(own.count("SELECT done FROM source"), 10);
    }
}

#[test]
fn duplicates_are_kept_skipped_or_told() {
    let twin = |number, source: &str, of| Twin { number, source: source.to_string(), of };
    for (duplicates, told, games) in [(Duplicates::Keep, 0, 8), (Duplicates::Tell, 4, 8), (Duplicates::Skip, 4, 4)] {
        for own in Own::each() {
            let mut store = own.open(Options { places: true, duplicates }).unwrap();
            store.begin(&made::source("a.pgn")).unwrap();
            store.write(&made::batch(0)).unwrap();
            store.begin(&made::source("b.pgn")).unwrap();
            let written = store.write(&made::batch(0)).unwrap();
            assert_eq!((written.new, written.twins.len()), (0, told));
            assert_eq!(written.twins, [1, 2, 4, 5].map(|number| twin(number, "a.pgn", number))[..told]);
            assert_eq!((own.count("SELECT count(*) FROM game"), own.count("SELECT max(id) FROM game")), (games, games));
            assert_eq!(own.count("SELECT count(*) FROM game_position"), games * 7);
            // What is skipped is done all the same.
            assert_eq!(store.begin(&made::source("b.pgn")), Ok(Begun { done: 5, digest: u64::MAX }));
        }
    }
}

#[test]
fn another_file_of_the_same_name_and_a_second_import_of_it_are_told() {
    for own in Own::each() {
        let (mut one, mut two) = (own.open(TELL).unwrap(), own.open(TELL).unwrap());
        one.begin(&made::source("a.pgn")).unwrap();
        // Nothing of it is done yet: it may change.
        one.begin(&Source { bytes: Some(9), ..made::source("a.pgn") }).unwrap();
        one.begin(&made::source("a.pgn")).unwrap();
        two.begin(&made::source("a.pgn")).unwrap();
        one.write(&made::batch(0)).unwrap();
        let told = two.write(&made::batch(0)).unwrap_err();
        assert!(told.ends_with("a.pgn: another import of it is under way: 0 games were done here, and 5 are now"), "{told}");
        assert!(one.begin(&Source { digest: Some(1), ..made::source("a.pgn") }).unwrap_err().contains("of as many bytes, but other ones"));
        assert_eq!(two.begin(&made::source("a.pgn")), Ok(Begun { done: 5, digest: u64::MAX }));
        two.write(&made::batch(5)).unwrap();
        let unknown = Source { bytes: None, digest: None, ..made::source("-:0123456789abcdef") };
        assert_eq!((one.begin(&unknown), one.begin(&unknown)), (Ok(Begun::default()), Ok(Begun::default())));
        assert!(own.open(TELL).unwrap().write(&made::batch(0)).is_err(), "no source was begun");
    }
}

#[test]
fn a_file_that_is_begun_under_the_name_of_another_is_told() {
    for own in Own::each() {
        let (mut one, mut two) = (own.open(TELL).unwrap(), own.open(TELL).unwrap());
        one.begin(&made::source("a.pgn")).unwrap();
        two.begin(&Source { bytes: Some(9), ..made::source("a.pgn") }).unwrap();
        let told = one.write(&made::batch(0)).unwrap_err();
        assert!(told.ends_with("a.pgn: another import of it is under way: of another file"), "{told}");
        assert_eq!((own.count("SELECT count(*) FROM game"), own.count("SELECT bytes FROM source")), (0, 9));
        two.write(&made::batch(0)).unwrap();
    }
}

#[test]
fn several_may_make_a_store_at_once() {
    for own in (0..8).flat_map(|_| Own::each()) {
        thread::scope(|scope| {
            let opened: Vec<_> = (0..4).map(|_| scope.spawn(|| own.open(TELL).err())).collect();
            opened.into_iter().for_each(|opened| assert_eq!(opened.join().unwrap(), None));
        });
    }
}

#[test]
fn all_games_have_places_or_none_has() {
    let with = "games have places: say --places";
    for (first, second, told) in [(TELL, BARE, with), (BARE, TELL, "games have no places: leave --places out")] {
        for own in Own::each() {
            // Both are opened while there is no game yet.
            let (mut one, mut two) = (own.open(first).unwrap(), own.open(second).unwrap());
            one.begin(&made::source("a.pgn")).unwrap();
            one.write(&made::batch(0)).unwrap();
            two.begin(&made::source("b.pgn")).unwrap();
            assert!(two.write(&made::batch(0)).unwrap_err().contains(told));
            assert!(own.open(second).err().unwrap().contains(told));
            own.open(first).unwrap();
            assert_eq!(own.shelf().at(&made::key(0), &mut |_, _| Ok(())).unwrap(), first.places);
        }
    }
}

#[test]
fn two_who_write_take_turns() {
    for own in Own::each() {
        let write = |name: &'static str| {
            let mut store = own.open(TELL).unwrap();
            move || {
                store.begin(&made::source(name)).unwrap();
                (0..20).for_each(|round| drop(store.write(&made::batch(round * 5)).unwrap()));
            }
        };
        let (one, two) = (write("a.pgn"), write("b.pgn"));
        let (one, two) = (thread::spawn(one), thread::spawn(two));
        one.join().unwrap();
        two.join().unwrap();
        assert_eq!(own.count("SELECT count(*) FROM game"), 2 * 80);
        assert_eq!(own.count("SELECT count(*) FROM game_position"), 2 * 80 * 7);
        assert_eq!(own.count("SELECT sum(done) FROM source"), 200);
    }
}

#[test]
fn places_of_other_programs_keep_their_numbers() {
    for own in Own::each() {
        let mut store = own.open(BARE).unwrap();
        store.begin(&made::source("a.pgn")).unwrap();
        store.write(&Batch { done: 0, ..Batch::default() }).unwrap();
        let places = "INSERT INTO position VALUES ('8/8/8/8/8/8/8/8 w - - 0 1'); INSERT INTO game_position VALUES (77, 0, '8/8/8/8/8/8/8/8 w - - 0 1')";
        match &own {
            Own::Folder(_) => {
                let db = sqlite::Connection::open(&own.file(), sqlite::Mode::Write).unwrap();
                super::names::create(&db).unwrap();
                db.run(places).unwrap();
            }
            Own::Base(..) => drop(postgres::Connection::open(&own.conninfo()).unwrap().run(places).unwrap()),
        }
        store.write(&made::batch(0)).unwrap();
        assert_eq!(own.count("SELECT min(id) FROM game"), 78);
    }
}
