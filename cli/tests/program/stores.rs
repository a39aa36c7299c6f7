//! Stores that the program itself has filled: in SQLite, and in PostgreSQL where `MENKHODUR_TEST_POSTGRES` names a server with the extension. The
//! shells of both tell what is in them. What is missing is skipped by name.

use crate::common::{Folder, Ran, run, skipped};
use std::process::Command;
use std::sync::atomic::{AtomicUsize, Ordering};

pub struct Store {
    /// The option that names it.
    option: &'static str,
    named: String,
    /// The server's own database, in which this one was made.
    server: Option<(String, String)>,
}

/// Whether a program that is not ours is there.
fn has(program: &str) -> bool {
    Command::new(program).arg("--version").output().is_ok_and(|told| told.status.success())
}

impl Store {
    /// An empty store of each kind.
    pub fn each(folder: &Folder) -> Vec<Store> {
        [Store::sqlite(folder), Store::postgres()].into_iter().flatten().collect()
    }

    /// One more of the same kind.
    pub fn another(&self, folder: &Folder) -> Store {
        let made = if self.server.is_some() { Store::postgres() } else { Store::sqlite(folder) };
        made.expect("what was there is there again")
    }

    fn sqlite(folder: &Folder) -> Option<Store> {
        static COUNT: AtomicUsize = AtomicUsize::new(0);
        let named = folder.path(&format!("{}.db", COUNT.fetch_add(1, Ordering::Relaxed)));
        let ran = run(&["import", "--sqlite", &folder.path("tried.db"), "-"], b"");
        if ran.err.contains("libsqlite3-0") || !has("sqlite3") {
            skipped("SQLite is missing, of the Debian packages libsqlite3-0 and sqlite3");
            return None;
        }
        Some(Store { option: "--sqlite", named, server: None })
    }

    fn postgres() -> Option<Store> {
        static COUNT: AtomicUsize = AtomicUsize::new(0);
        let Ok(server) = std::env::var("MENKHODUR_TEST_POSTGRES") else {
            eprintln!("MENKHODUR_TEST_POSTGRES names no server; that of host/import/postgres-test does");
            return None;
        };
        let base = format!("menkhodur_out_{}_{}", std::process::id(), COUNT.fetch_add(1, Ordering::Relaxed));
        psql(&server, &format!("CREATE DATABASE {base} ENCODING 'UTF8' TEMPLATE template0"));
        // Of a word that stands twice, libpq takes the last.
        let named = format!("{server} dbname={base}");
        psql(&named, "CREATE EXTENSION menkhodur");
        Some(Store { option: "--postgres", named, server: Some((server, base)) })
    }

    /// Runs a command over this store.
    pub fn run(&self, command: &str, words: &[&str]) -> Ran {
        run(&[&[command, self.option, &self.named], words].concat(), b"")
    }

    /// Files games, of which some may have notes, and none is refused. Answers the last line of standard error.
    #[track_caller]
    pub fn file(&self, words: &[&str]) -> String {
        let ran = self.run("import", words);
        let last = ran.err.lines().last().unwrap_or_default().to_string();
        assert!(ran.status < 2 && last.contains(", 0 refused; "), "{ran:?}");
        last
    }

    /// What the store's own shell answers.
    pub fn ask(&self, sql: &str) -> String {
        if self.server.is_some() {
            return psql(&self.named, &sql.replace("hex(roll)", "encode(roll, 'hex')"));
        }
        told(Command::new("sqlite3").args(["-batch", "-readonly", &self.named, sql]))
    }
}

impl Drop for Store {
    fn drop(&mut self) {
        if let Some((server, base)) = &self.server {
            psql(server, &format!("DROP DATABASE {base}"));
        }
    }
}

fn psql(named: &str, sql: &str) -> String {
    told(Command::new("psql").args(["-XqAt", "-v", "ON_ERROR_STOP=1", "-d", named, "-c", sql]))
}

fn told(command: &mut Command) -> String {
    let ran = command.output().expect("the shell of the database runs");
    assert!(ran.status.success(), "{}", String::from_utf8_lossy(&ran.stderr));
    String::from_utf8(ran.stdout).expect("UTF-8")
}

/// pgn-extract over a file, by its standard output and what it told, if it is installed.
pub fn extracted(words: &[&str], file: &str) -> Option<(String, String)> {
    let run = |name: &str| Command::new(name).arg("-s").args(words).arg(file).output().ok();
    let Some(ran) = run("pgn-extract").or_else(|| run("/usr/games/pgn-extract")) else {
        skipped("pgn-extract is missing, of the Debian package pgn-extract");
        return None;
    };
    let text = |bytes: Vec<u8>| String::from_utf8_lossy(&bytes).into_owned();
    Some((text(ran.stdout), text(ran.stderr)))
}
