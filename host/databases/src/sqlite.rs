//! SQLite 3.31 or later.
//!
//! A connection is one thread's at a time and may go to another. A statement is lent by its connection, and whoever drops it gives it back reset: one
//! that is not reset holds a read lock, and then the log of a database in WAL mode grows without end.
//!
//! ```
//! use menkhodur_databases::sqlite::{Connection, Value};
//!
//! # if Connection::memory().is_err() { return } // where SQLite is not installed
//! let store = Connection::memory().unwrap();
//! store.run("CREATE TABLE man (letter TEXT PRIMARY KEY, worth INTEGER)").unwrap();
//! let mut file = store.prepare("INSERT INTO man VALUES (?1, ?2) ON CONFLICT DO NOTHING").unwrap();
//! assert_eq!(file.run(&[Value::Text(b"Q"), Value::Integer(9)]).unwrap(), 1);
//! assert_eq!(file.run(&[Value::Text(b"Q"), Value::Integer(8)]).unwrap(), 0);
//! let mut worth = store.prepare("SELECT worth FROM man WHERE letter = ?1").unwrap();
//! assert_eq!(worth.first(&[Value::Text(b"Q")], |row| row.integer(0)).unwrap(), Some(Some(9)));
//! ```

use crate::library::{self, Library};
use std::cell::RefCell;
use std::ffi::{CStr, CString, c_char, c_int, c_uint, c_void};
use std::os::unix::ffi::OsStrExt;
use std::path::Path;
use std::ptr::{self, NonNull};
use std::sync::OnceLock;
use std::time::Duration;
use std::{fmt, io, slice};

#[repr(C)]
struct Db([u8; 0]);
#[repr(C)]
struct Prepared([u8; 0]);
#[repr(C)]
struct Context([u8; 0]);
#[repr(C)]
struct Given([u8; 0]);

type Free = Option<unsafe extern "C" fn(*mut c_void)>;
type Call = Option<unsafe extern "C" fn(*mut Context, c_int, *mut *mut Given)>;
type Final = Option<unsafe extern "C" fn(*mut Context)>;

library::table! {
    struct Calls;
    sqlite3_libversion_number() -> c_int;
    sqlite3_threadsafe() -> c_int;
    sqlite3_open_v2(*const c_char, *mut *mut Db, c_int, *const c_char) -> c_int;
    sqlite3_close_v2(*mut Db) -> c_int;
    sqlite3_busy_timeout(*mut Db, c_int) -> c_int;
    sqlite3_db_config(*mut Db, c_int; ...) -> c_int;
    sqlite3_extended_errcode(*mut Db) -> c_int;
    sqlite3_errmsg(*mut Db) -> *const c_char;
    sqlite3_errstr(c_int) -> *const c_char;
    sqlite3_system_errno(*mut Db) -> c_int;
    sqlite3_changes(*mut Db) -> c_int;
    sqlite3_get_autocommit(*mut Db) -> c_int;
    sqlite3_prepare_v3(*mut Db, *const c_char, c_int, c_uint, *mut *mut Prepared, *mut *const c_char) -> c_int;
    sqlite3_step(*mut Prepared) -> c_int;
    sqlite3_reset(*mut Prepared) -> c_int;
    sqlite3_finalize(*mut Prepared) -> c_int;
    sqlite3_clear_bindings(*mut Prepared) -> c_int;
    sqlite3_bind_null(*mut Prepared, c_int) -> c_int;
    sqlite3_bind_int64(*mut Prepared, c_int, i64) -> c_int;
    sqlite3_bind_text64(*mut Prepared, c_int, *const c_char, u64, isize, u8) -> c_int;
    sqlite3_bind_blob64(*mut Prepared, c_int, *const c_void, u64, isize) -> c_int;
    sqlite3_column_count(*mut Prepared) -> c_int;
    sqlite3_column_type(*mut Prepared, c_int) -> c_int;
    sqlite3_column_int64(*mut Prepared, c_int) -> i64;
    sqlite3_column_text(*mut Prepared, c_int) -> *const u8;
    sqlite3_column_blob(*mut Prepared, c_int) -> *const c_void;
    sqlite3_column_bytes(*mut Prepared, c_int) -> c_int;
    sqlite3_create_function_v2(*mut Db, *const c_char, c_int, c_int, *mut c_void, Call, Call, Final, Free) -> c_int;
    sqlite3_user_data(*mut Context) -> *mut c_void;
    sqlite3_value_type(*mut Given) -> c_int;
    sqlite3_value_text(*mut Given) -> *const u8;
    sqlite3_value_blob(*mut Given) -> *const c_void;
    sqlite3_value_bytes(*mut Given) -> c_int;
    sqlite3_result_null(*mut Context);
    sqlite3_result_int64(*mut Context, i64);
    sqlite3_result_text64(*mut Context, *const c_char, u64, isize, u8);
    sqlite3_result_error(*mut Context, *const c_char, c_int);
    sqlite3_result_error_nomem(*mut Context);
}

const OK: c_int = 0;
const ROW: c_int = 100;
const DONE: c_int = 101;
const OPEN_READ: c_int = 1;
const OPEN_WRITE: c_int = 2 | 4; // and make it
const OPEN_NOMUTEX: c_int = 0x8000;
const PERSISTENT: c_uint = 1;
const UTF8: u8 = 1;
/// Bytes that stay where they are until they are bound no more; and bytes that are copied at once.
const STATIC: isize = 0;
const TRANSIENT: isize = -1;
const INTEGER: c_int = 1;
const TEXT: c_int = 3;
const BLOB: c_int = 4;
const NULL: c_int = 5;
const DETERMINISTIC: c_int = 0x800;
const INNOCUOUS: c_int = 0x20_0000;
const CONFIG_MEMSTATUS: c_int = 9;
const DBCONFIG_ENABLE_TRIGGER: c_int = 1003;
const OLDEST: c_int = 3_031_000;
/// As many statements as a connection keeps for the next who wants one.
const KEPT: usize = 64;

fn calls() -> Result<&'static Calls, Error> {
    static FOUND: OnceLock<Result<Calls, String>> = OnceLock::new();
    FOUND.get_or_init(find).as_ref().map_err(|words| Error { code: 0, words: words.clone(), statement: String::new() })
}

fn find() -> Result<Calls, String> {
    let library = Library::open(c"libsqlite3.so.0", "libsqlite3-0")?;
    // SAFETY: the types are those of sqlite3.h, which SQLite keeps from version to version.
    let calls = unsafe { Calls::find(library) }?;
    // SAFETY: nothing of the library was called yet, which is when this may be; the option takes one number. Should it be refused, all is a little slower:
    // nobody asks how much memory is used, and counting it takes a lock each time.
    unsafe { library.function::<unsafe extern "C" fn(c_int, ...) -> c_int>(c"sqlite3_config")?(CONFIG_MEMSTATUS, 0 as c_int) };
    // SAFETY: both take nothing and tell a number.
    let (version, threads) = unsafe { ((calls.sqlite3_libversion_number)(), (calls.sqlite3_threadsafe)()) };
    match (version, threads) {
        (..OLDEST, _) => {
            Err(format!("libsqlite3.so.0 is SQLite {}.{}: 3.31 or later is needed", version / 1_000_000, version / 1_000 % 1_000))
        }
        (_, 0) => Err("libsqlite3.so.0 was built for programs of one thread".to_string()),
        _ => Ok(calls),
    }
}

/// What SQLite refused, in its words.
#[derive(Clone, Debug, PartialEq, Eq)]
pub struct Error {
    code: c_int,
    words: String,
    statement: String,
}

impl Error {
    /// SQLite's number, the primary one: 5 busy, 8 read only, 10 a failed read or write, 13 full, 14 cannot be opened, 26 no database, .. 0 if the error
    /// is none of SQLite's.
    #[must_use]
    pub fn code(&self) -> i32 {
        self.code & 255
    }

    /// Without number and statement.
    #[must_use]
    pub fn words(&self) -> &str {
        &self.words
    }
}

impl fmt::Display for Error {
    fn fmt(&self, f: &mut fmt::Formatter<'_>) -> fmt::Result {
        f.write_str(&self.words)?;
        if self.code != 0 {
            write!(f, " (SQLite {})", self.code)?;
        }
        if self.statement.is_empty() { Ok(()) } else { write!(f, ", at {}", self.statement) }
    }
}

impl std::error::Error for Error {}

/// A value that goes in. Texts are read over their whole length, 0 bytes too; that they are UTF-8 nobody asks.
#[derive(Clone, Copy, Debug, PartialEq, Eq)]
pub enum Value<'a> {
    Null,
    Integer(i64),
    Text(&'a [u8]),
    Blob(&'a [u8]),
}

/// What a connection may do.
#[derive(Clone, Copy, Debug, PartialEq, Eq)]
pub enum Mode {
    Read,
    /// The database is made if it is not there.
    Write,
}

pub struct Connection {
    calls: &'static Calls,
    db: NonNull<Db>,
    /// Statements that nobody uses, all of them reset.
    kept: RefCell<Vec<(String, NonNull<Prepared>)>>,
}

// SAFETY: SQLite was built for several threads, and lets a connection without a lock of its own be used by any of them, one at a time: `Connection` is
// not `Sync`, for the cell, and statements and rows hold a reference to it and so stay on its thread. Functions that it calls are `Send` too.
unsafe impl Send for Connection {}

impl Connection {
    /// The database in a file, by its path: no name means anything else than a file.
    pub fn open(file: &Path, mode: Mode) -> Result<Connection, Error> {
        let plain = if file.is_absolute() { file.to_owned() } else { Path::new(".").join(file) };
        let flags = if mode == Mode::Read { OPEN_READ } else { OPEN_WRITE };
        let name = CString::new(plain.as_os_str().as_bytes());
        let name = name.map_err(|_| Error { code: 0, words: "the name has a 0 byte".into(), statement: String::new() })?;
        Connection::open_by(&name, flags)
    }

    /// A database that is nowhere but in memory.
    pub fn memory() -> Result<Connection, Error> {
        Connection::open_by(c":memory:", OPEN_WRITE)
    }

    fn open_by(name: &CStr, flags: c_int) -> Result<Connection, Error> {
        let calls = calls()?;
        let mut db = ptr::null_mut();
        // SAFETY: the name ends with a 0 byte, and `db` is where the answer is written. No name of a file system is the default one.
        let code = unsafe { (calls.sqlite3_open_v2)(name.as_ptr(), &mut db, flags | OPEN_NOMUTEX, ptr::null()) };
        let Some(db) = NonNull::new(db) else {
            return Err(Error { code, words: "there is no memory for a connection".into(), statement: String::new() });
        };
        // A connection that could not be opened is one all the same: it says why, and is closed when it is dropped.
        let connection = Connection { calls, db, kept: RefCell::default() };
        if code == OK { Ok(connection) } else { Err(connection.error(code, "")) }
    }

    /// For how long whoever finds the database locked waits and tries again.
    pub fn set_busy_timeout(&self, most: Duration) -> Result<(), Error> {
        let most = c_int::try_from(most.as_millis()).unwrap_or(c_int::MAX);
        // SAFETY: the connection is open.
        self.judge(unsafe { (self.calls.sqlite3_busy_timeout)(self.db.as_ptr(), most) }, "sqlite3_busy_timeout")
    }

    /// Whether triggers run on this connection, as they do until this is said. `CHECK` and keys hold in any case.
    pub fn set_triggers(&self, run: bool) -> Result<(), Error> {
        let nowhere: *mut c_int = ptr::null_mut();
        // SAFETY: the connection is open, and this option takes a number and where to tell what holds now, which nobody asks.
        let code = unsafe { (self.calls.sqlite3_db_config)(self.db.as_ptr(), DBCONFIG_ENABLE_TRIGGER, c_int::from(run), nowhere) };
        self.judge(code, "sqlite3_db_config")
    }

    /// Whether a transaction is open.
    pub fn in_transaction(&self) -> bool {
        // SAFETY: the connection is open.
        unsafe { (self.calls.sqlite3_get_autocommit)(self.db.as_ptr()) == 0 }
    }

    /// Runs statements one after the other. Their rows are dropped.
    pub fn run(&self, sql: &str) -> Result<(), Error> {
        let mut left = sql;
        while !left.trim().is_empty() {
            let (statement, rest) = self.compile(left, 0)?;
            left = rest;
            if let Some(prepared) = statement {
                let statement = Statement { connection: self, sql: sql.to_string(), prepared, keep: false };
                statement.finish()?;
            }
        }
        Ok(())
    }

    /// The statement of a text that has one.
    pub fn prepare(&self, sql: &str) -> Result<Statement<'_>, Error> {
        let mut kept = self.kept.borrow_mut();
        if let Some(at) = kept.iter().position(|(known, _)| known == sql) {
            let (sql, prepared) = kept.swap_remove(at);
            return Ok(Statement { connection: self, sql, prepared, keep: true });
        }
        drop(kept);
        let one = |words: &str| Error { code: 0, words: words.into(), statement: sql.into() };
        let (prepared, rest) = self.compile(sql, PERSISTENT)?;
        let statement = prepared.map(|prepared| Statement { connection: self, sql: sql.to_string(), prepared, keep: true });
        let statement = statement.ok_or_else(|| one("there is no statement"))?;
        if rest.trim().is_empty() { Ok(statement) } else { Err(one("there is more than one statement")) }
    }

    /// The first statement of a text, none if it has only comments, and what stands behind it.
    fn compile<'a>(&self, sql: &'a str, flags: c_uint) -> Result<(Option<NonNull<Prepared>>, &'a str), Error> {
        let (mut prepared, mut tail) = (ptr::null_mut(), ptr::null());
        let length = c_int::try_from(sql.len()).ok().filter(|_| !sql.contains('\0'));
        let length =
            length.ok_or_else(|| Error { code: 0, words: "the statement is too long or has a 0 byte".into(), statement: sql.into() })?;
        let (db, text) = (self.db.as_ptr(), sql.as_ptr().cast());
        // SAFETY: the connection is open, the text is read over its length only, and both answers are written to variables.
        let code = unsafe { (self.calls.sqlite3_prepare_v3)(db, text, length, flags, &mut prepared, &mut tail) };
        self.judge(code, sql)?;
        // The tail points into the text, or to its end.
        let read = (tail as usize).saturating_sub(sql.as_ptr() as usize);
        Ok((NonNull::new(prepared), sql.get(read..).unwrap_or_default()))
    }

    /// Makes an SQL function of one value, for `CHECK`, triggers, indexes and queries. It must give the same answer for the same value each time.
    pub fn create_function<F>(&self, name: &str, function: F) -> Result<(), Error>
    where
        F: Fn(Argument<'_>) -> Answer + Send + 'static,
    {
        self.create(name, 1, function)
    }

    /// The same of no value.
    pub fn create_constant(&self, name: &str, value: i64) -> Result<(), Error> {
        self.create(name, 0, move |_| Answer::Integer(value))
    }

    fn create<F>(&self, name: &str, arguments: c_int, function: F) -> Result<(), Error>
    where
        F: Fn(Argument<'_>) -> Answer + Send + 'static,
    {
        let unnamed = |_| Error { code: 0, words: "the name has a 0 byte".into(), statement: name.into() };
        let known = CString::new(name).map_err(unnamed)?;
        let data = Box::into_raw(Box::new(function)).cast();
        let flags = c_int::from(UTF8) | DETERMINISTIC | INNOCUOUS;
        // SAFETY: the connection is open and the name ends with a 0 byte. `data` is an `F`, which is what `call::<F>` takes it for and `free::<F>`
        // frees, once: when the function is made anew, when the connection is closed, or now if it is refused.
        let code = unsafe {
            let (db, free) = (self.db.as_ptr(), Some(free::<F> as unsafe extern "C" fn(*mut c_void)));
            (self.calls.sqlite3_create_function_v2)(db, known.as_ptr(), arguments, flags, data, Some(call::<F>), None, None, free)
        };
        self.judge(code, name)
    }

    fn judge(&self, code: c_int, statement: &str) -> Result<(), Error> {
        if code == OK { Ok(()) } else { Err(self.error(code, statement)) }
    }

    /// The last call on this connection was refused with this code.
    fn error(&self, code: c_int, statement: &str) -> Error {
        let db = self.db.as_ptr();
        // SAFETY: the connection is there, if it was opened or not, and nothing else has used it since. Both texts end with a 0 byte, and are copied before
        // the next call.
        let (full, system, told) = unsafe {
            let full = (self.calls.sqlite3_extended_errcode)(db);
            let told = if full & 255 == code & 255 { (self.calls.sqlite3_errmsg)(db) } else { (self.calls.sqlite3_errstr)(code) };
            let words = if told.is_null() { "unknown".into() } else { CStr::from_ptr(told).to_string_lossy().into_owned() };
            (if full & 255 == code & 255 { full } else { code }, (self.calls.sqlite3_system_errno)(db), words)
        };
        // Of these the system knows more: a failed read or write, and a file that cannot be opened.
        let words = if matches!(full & 255, 10 | 14) && system != 0 { format!("{told}: {}", of_system(system)) } else { told };
        Error { code: full, words, statement: crate::shown(statement) }
    }
}

/// What the system says of an error number, without the number.
fn of_system(number: c_int) -> String {
    let told = io::Error::from_raw_os_error(number).to_string();
    told.split(" (os error ").next().unwrap_or_default().to_string()
}

impl Drop for Connection {
    fn drop(&mut self) {
        for (_, prepared) in self.kept.get_mut().drain(..) {
            // SAFETY: nobody has it but this connection, which is open.
            unsafe { (self.calls.sqlite3_finalize)(prepared.as_ptr()) };
        }
        // SAFETY: statements and rows hold a reference to the connection, so that none is left; one that was forgotten keeps it open.
        unsafe { (self.calls.sqlite3_close_v2)(self.db.as_ptr()) };
    }
}

/// A statement, whose values are none of an earlier use.
pub struct Statement<'c> {
    connection: &'c Connection,
    sql: String,
    prepared: NonNull<Prepared>,
    keep: bool,
}

impl<'c> Statement<'c> {
    /// Runs it to its end, dropping its rows. The number of rows that it changed, for one that changes rows.
    pub fn run(&mut self, values: &[Value<'_>]) -> Result<u64, Error> {
        // What is bound without a copy is lent for this call, and unbound before its end, on every way.
        let ended = self.bind(values, STATIC).and_then(|()| self.finish());
        self.reset();
        ended?;
        // SAFETY: the connection is open.
        let changed = unsafe { (self.connection.calls.sqlite3_changes)(self.connection.db.as_ptr()) };
        Ok(u64::try_from(changed).unwrap_or_default())
    }

    /// Its rows, for `WHERE` and the like with these values.
    pub fn rows(&mut self, values: &[Value<'_>]) -> Result<Rows<'_, 'c>, Error> {
        let bound = self.bind(values, TRANSIENT);
        let rows = Rows { statement: self, ended: false };
        bound.map(|()| rows)
    }

    /// What is read of its first row, if it has one.
    pub fn first<T>(&mut self, values: &[Value<'_>], read: impl FnOnce(&Row<'_>) -> T) -> Result<Option<T>, Error> {
        let mut rows = self.rows(values)?;
        Ok(rows.next()?.map(|row| read(&row)))
    }

    fn bind(&mut self, values: &[Value<'_>], lent: isize) -> Result<(), Error> {
        let (calls, statement) = (self.connection.calls, self.prepared.as_ptr());
        for (place, value) in (1..).zip(values) {
            // SAFETY: the statement is there, and a place that it has not is refused. Bytes are read over their length; where they are not copied, `run`
            // unbinds them while they are lent.
            let code = unsafe {
                match *value {
                    Value::Null => (calls.sqlite3_bind_null)(statement, place),
                    Value::Integer(number) => (calls.sqlite3_bind_int64)(statement, place, number),
                    Value::Text(bytes) => {
                        (calls.sqlite3_bind_text64)(statement, place, bytes.as_ptr().cast(), bytes.len() as u64, lent, UTF8)
                    }
                    Value::Blob(bytes) => (calls.sqlite3_bind_blob64)(statement, place, bytes.as_ptr().cast(), bytes.len() as u64, lent),
                }
            };
            self.connection.judge(code, &self.sql)?;
        }
        Ok(())
    }

    /// One step: whether there is a row.
    fn step(&self) -> Result<bool, Error> {
        // SAFETY: the statement is there, and its connection is open.
        match unsafe { (self.connection.calls.sqlite3_step)(self.prepared.as_ptr()) } {
            ROW => Ok(true),
            DONE => Ok(false),
            code => Err(self.connection.error(code, &self.sql)),
        }
    }

    fn finish(&self) -> Result<(), Error> {
        while self.step()? {}
        Ok(())
    }

    fn reset(&mut self) {
        // SAFETY: the statement is there. What `reset` gives is the last step's error, which was told.
        unsafe {
            (self.connection.calls.sqlite3_reset)(self.prepared.as_ptr());
            (self.connection.calls.sqlite3_clear_bindings)(self.prepared.as_ptr());
        }
    }
}

impl Drop for Statement<'_> {
    fn drop(&mut self) {
        self.reset();
        if self.keep {
            let mut kept = self.connection.kept.borrow_mut();
            if kept.len() < KEPT {
                kept.push((std::mem::take(&mut self.sql), self.prepared));
                return;
            }
        }
        // SAFETY: nobody else has it.
        unsafe { (self.connection.calls.sqlite3_finalize)(self.prepared.as_ptr()) };
    }
}

/// The rows of a statement, which is reset when they are dropped.
pub struct Rows<'s, 'c> {
    statement: &'s mut Statement<'c>,
    ended: bool,
}

impl Rows<'_, '_> {
    /// The next row, until there is none. After the last one, or an error, there is none.
    #[expect(clippy::should_implement_trait)] // a row is lent until the next, which no iterator can say
    pub fn next(&mut self) -> Result<Option<Row<'_>>, Error> {
        // Whoever steps behind the end would begin again.
        if self.ended {
            return Ok(None);
        }
        self.ended = true;
        self.ended = !self.statement.step()?;
        Ok(if self.ended { None } else { Some(Row { statement: self.statement }) })
    }
}

impl Drop for Rows<'_, '_> {
    fn drop(&mut self) {
        self.statement.reset();
    }
}

/// A row. What it lends stays until the next one.
pub struct Row<'r> {
    statement: &'r Statement<'r>,
}

impl<'r> Row<'r> {
    /// A column's number, from 0; none if it holds something else.
    pub fn integer(&self, column: usize) -> Option<i64> {
        let (calls, statement, column) = self.column(column)?;
        // SAFETY: the statement stands on a row that has the column. A number that is asked for as a number is not converted.
        unsafe { ((calls.sqlite3_column_type)(statement, column) == INTEGER).then(|| (calls.sqlite3_column_int64)(statement, column)) }
    }

    /// A column's text or blob, in UTF-8 if it is a text; none if it holds something else.
    pub fn bytes(&self, column: usize) -> Option<&'r [u8]> {
        let (calls, statement, column) = self.column(column)?;
        // SAFETY: the statement stands on a row that has the column. A text is asked for as UTF-8 alone, and a blob as a blob, so that a second call converts
        // nothing and leaves the bytes of the first where they are, until the next step or the reset, both of which need the statement that the row lends.
        unsafe {
            let first = match (calls.sqlite3_column_type)(statement, column) {
                TEXT => (calls.sqlite3_column_text)(statement, column),
                BLOB => (calls.sqlite3_column_blob)(statement, column).cast(),
                _ => return None,
            };
            Some(bytes(first, (calls.sqlite3_column_bytes)(statement, column)))
        }
    }

    fn column(&self, column: usize) -> Option<(&'static Calls, *mut Prepared, c_int)> {
        let (calls, statement) = (self.statement.connection.calls, self.statement.prepared.as_ptr());
        // SAFETY: the statement is there.
        let count = unsafe { (calls.sqlite3_column_count)(statement) };
        c_int::try_from(column).ok().filter(|column| *column < count).map(|column| (calls, statement, column))
    }
}

/// # Safety
///
/// NULL, or the first of `length` bytes that nobody changes while they are lent.
unsafe fn bytes<'a>(first: *const u8, length: c_int) -> &'a [u8] {
    let length = usize::try_from(length).unwrap_or_default();
    // SAFETY: as the caller has said.
    if first.is_null() { &[] } else { unsafe { slice::from_raw_parts(first, length) } }
}

/// What an SQL function is given.
#[derive(Clone, Copy, Debug, PartialEq, Eq)]
pub enum Argument<'a> {
    Null,
    /// In UTF-8.
    Text(&'a [u8]),
    Blob(&'a [u8]),
    /// As the text that SQLite makes of it.
    Number(&'a [u8]),
}

/// What it answers.
#[derive(Clone, Debug, PartialEq, Eq)]
pub enum Answer {
    Null,
    Integer(i64),
    Text(Vec<u8>),
    /// The statement fails, with these words.
    Refused(String),
}

/// # Safety
///
/// For SQLite alone, as the call of a function whose data is an `F`.
unsafe extern "C" fn call<F>(context: *mut Context, count: c_int, values: *mut *mut Given)
where
    F: Fn(Argument<'_>) -> Answer,
{
    // It was found, or nobody could call this.
    let Ok(calls) = calls() else { return };
    // SAFETY: the context is SQLite's, and its data an `F`, which lives until it is freed, not before the connection is closed or the function made
    // anew, neither of which a statement that runs allows. There are `count` values, valid for this call, in which the argument is dropped.
    unsafe {
        let function = &*(calls.sqlite3_user_data)(context).cast::<F>();
        let argument = if count == 0 { Some(Argument::Null) } else { argument(calls, *values) };
        match argument {
            Some(argument) => answer(calls, context, &function(argument)),
            None => (calls.sqlite3_result_error_nomem)(context),
        }
    }
}

/// None if there was no memory for it.
///
/// # Safety
///
/// A value of SQLite, which stays as long as the argument.
unsafe fn argument<'a>(calls: &Calls, value: *mut Given) -> Option<Argument<'a>> {
    // SAFETY: as the caller has said. The length is asked for behind the bytes, which may be converted first.
    unsafe {
        let kind = (calls.sqlite3_value_type)(value);
        let first: *const u8 = match kind {
            NULL => return Some(Argument::Null),
            BLOB => (calls.sqlite3_value_blob)(value).cast(),
            _ => (calls.sqlite3_value_text)(value),
        };
        let length = (calls.sqlite3_value_bytes)(value);
        let given = bytes(first, length);
        match kind {
            BLOB if !first.is_null() || length == 0 => Some(Argument::Blob(given)),
            _ if first.is_null() => None,
            TEXT => Some(Argument::Text(given)),
            _ => Some(Argument::Number(given)),
        }
    }
}

/// # Safety
///
/// The context of a call that is under way.
unsafe fn answer(calls: &Calls, context: *mut Context, answer: &Answer) {
    // SAFETY: as the caller has said. Texts are copied at once.
    unsafe {
        match answer {
            Answer::Null => (calls.sqlite3_result_null)(context),
            Answer::Integer(number) => (calls.sqlite3_result_int64)(context, *number),
            Answer::Text(text) => (calls.sqlite3_result_text64)(context, text.as_ptr().cast(), text.len() as u64, TRANSIENT, UTF8),
            Answer::Refused(words) => {
                let length = c_int::try_from(words.len()).unwrap_or(c_int::MAX);
                (calls.sqlite3_result_error)(context, words.as_ptr().cast(), length);
            }
        }
    }
}

/// # Safety
///
/// For SQLite alone, once, of the data of a function that was made with it.
unsafe extern "C" fn free<F>(data: *mut c_void) {
    // SAFETY: it comes from `Box::into_raw` of a box with an `F`, and nobody has it any more.
    drop(unsafe { Box::from_raw(data.cast::<F>()) });
}

#[cfg(test)]
#[path = "sqlite_tests.rs"]
mod tests;
