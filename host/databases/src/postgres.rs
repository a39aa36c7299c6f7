//! PostgreSQL by its C library.
//!
//! A connection is one thread's at a time and may go to another. Texts go in and out as UTF-8. What the server only remarks upon is dropped.

use crate::library::{self, Library};
use std::ffi::{CStr, CString, c_char, c_int, c_void};
use std::ptr::{self, NonNull};
use std::sync::OnceLock;
use std::{env, fmt, slice};

#[repr(C)]
struct Session([u8; 0]);
#[repr(C)]
struct Told([u8; 0]);

type Remark = Option<unsafe extern "C" fn(*mut c_void, *const c_char)>;

library::table! {
    struct Calls;
    PQconninfoParse(*const c_char, *mut *mut c_char) -> *mut c_void;
    PQconninfoFree(*mut c_void);
    PQfreemem(*mut c_void);
    PQconnectdbParams(*const *const c_char, *const *const c_char, c_int) -> *mut Session;
    PQfinish(*mut Session);
    PQstatus(*const Session) -> c_int;
    PQtransactionStatus(*const Session) -> c_int;
    PQserverVersion(*const Session) -> c_int;
    PQparameterStatus(*const Session, *const c_char) -> *const c_char;
    PQerrorMessage(*const Session) -> *const c_char;
    PQsetNoticeProcessor(*mut Session, Remark, *mut c_void) -> Remark;
    PQexec(*mut Session, *const c_char) -> *mut Told;
    PQexecParams(*mut Session, *const c_char, c_int, *const u32, *const *const c_char, *const c_int, *const c_int, c_int) -> *mut Told;
    PQgetResult(*mut Session) -> *mut Told;
    PQputCopyData(*mut Session, *const c_char, c_int) -> c_int;
    PQputCopyEnd(*mut Session, *const c_char) -> c_int;
    PQresultStatus(*const Told) -> c_int;
    PQresultErrorField(*const Told, c_int) -> *const c_char;
    PQcmdTuples(*mut Told) -> *const c_char;
    PQntuples(*const Told) -> c_int;
    PQnfields(*const Told) -> c_int;
    PQgetisnull(*const Told, c_int, c_int) -> c_int;
    PQgetvalue(*const Told, c_int, c_int) -> *const c_char;
    PQgetlength(*const Told, c_int, c_int) -> c_int;
    PQclear(*mut Told);
}

/// Of a session, and of its transaction.
const GOOD: c_int = 0;
const IDLE: c_int = 0;
/// Of what a statement has told.
const COMMAND: c_int = 1;
const TUPLES: c_int = 2;
const COPY_IN: c_int = 4;
/// Fields of an error: its SQLSTATE, its message, and more about it.
const SQLSTATE: u8 = b'C';
const MESSAGE: u8 = b'M';
const DETAIL: u8 = b'D';
/// Bytes that are handed to the library at once, which keeps them until they are sent.
const PORTION: usize = 1 << 16;

fn calls() -> Result<&'static Calls, Error> {
    static FOUND: OnceLock<Result<Calls, String>> = OnceLock::new();
    FOUND.get_or_init(find).as_ref().map_err(|words| Error::own(words, ""))
}

fn find() -> Result<Calls, String> {
    let library = Library::open(c"libpq.so.5", "libpq5")?;
    // SAFETY: the types are those of libpq-fe.h, which the library keeps as long as it has this number.
    unsafe { Calls::find(library) }
}

/// What the server refused, or why it could not be asked.
#[derive(Clone, Debug, PartialEq, Eq)]
pub struct Error {
    sqlstate: String,
    words: String,
    statement: String,
    lost: bool,
}

impl Error {
    fn own(words: &str, statement: &str) -> Error {
        Error { sqlstate: String::new(), words: words.into(), statement: statement.into(), lost: false }
    }

    /// Five letters and digits, as PostgreSQL's manual has them; empty if the server has not said any.
    #[must_use]
    pub fn sqlstate(&self) -> &str {
        &self.sqlstate
    }

    /// Whether there is no connection any more.
    #[must_use]
    pub fn is_lost(&self) -> bool {
        self.lost
    }

    /// Without SQLSTATE and statement.
    #[must_use]
    pub fn words(&self) -> &str {
        &self.words
    }
}

impl fmt::Display for Error {
    fn fmt(&self, f: &mut fmt::Formatter<'_>) -> fmt::Result {
        f.write_str(&self.words)?;
        if !self.sqlstate.is_empty() {
            write!(f, " (SQLSTATE {})", self.sqlstate)?;
        }
        if self.statement.is_empty() { Ok(()) } else { write!(f, ", at {}", self.statement) }
    }
}

impl std::error::Error for Error {}

pub struct Connection {
    calls: &'static Calls,
    session: NonNull<Session>,
}

// SAFETY: the library lets any thread use a session, one at a time. Whatever uses one here needs it `&mut`, or only looks at it, and `Connection` is not
// `Sync`.
unsafe impl Send for Connection {}

/// Drops what the server remarks upon, which would go to standard error.
extern "C" fn unheard(_: *mut c_void, _: *const c_char) {}

impl Connection {
    /// By a connection string or URI, as `psql` takes it. Where neither it nor the environment says otherwise, a host that does not answer is given up after
    /// some 15 seconds.
    pub fn open(conninfo: &str) -> Result<Connection, Error> {
        let calls = calls()?;
        let conninfo = CString::new(conninfo).map_err(|_| Error::own("the connection string has a 0 byte", ""))?;
        judge(calls, &conninfo)?;
        let timeout = if env::var_os("PGCONNECT_TIMEOUT").is_none() { c"10" } else { c"" };
        // What stands before the connection string is overruled by it, what stands behind it overrules it.
        let parts = [
            (c"connect_timeout", timeout),
            (c"keepalives_idle", c"5"),
            (c"keepalives_interval", c"5"),
            (c"keepalives_count", c"2"),
            (c"tcp_user_timeout", c"15000"),
            (c"fallback_application_name", c"menkhodur"),
            (c"dbname", conninfo.as_c_str()),
            (c"client_encoding", c"UTF8"),
        ];
        let end = [ptr::null()];
        let names: Vec<_> = parts.iter().map(|(name, _)| name.as_ptr()).chain(end).collect();
        let values: Vec<_> = parts.iter().map(|(_, value)| value.as_ptr()).chain(end).collect();
        // SAFETY: two lists of the same length, of texts that end with a 0 byte, each list ended by NULL; they are only read, and copied.
        let session = NonNull::new(unsafe { (calls.PQconnectdbParams)(names.as_ptr(), values.as_ptr(), 1) });
        let connection = Connection { calls, session: session.ok_or_else(|| Error::own("there is no memory for a connection", ""))? };
        // SAFETY: the session is there, and the function keeps nothing of what it is given.
        unsafe { (calls.PQsetNoticeProcessor)(connection.session.as_ptr(), Some(unheard), ptr::null_mut()) };
        if connection.is_open() { Ok(connection) } else { Err(connection.error(None, "")) }
    }

    /// As far as is known: a connection that was lost is noticed at its next use.
    pub fn is_open(&self) -> bool {
        // SAFETY: the session is there.
        unsafe { (self.calls.PQstatus)(self.session.as_ptr()) == GOOD }
    }

    pub fn in_transaction(&self) -> bool {
        // SAFETY: the session is there.
        unsafe { (self.calls.PQtransactionStatus)(self.session.as_ptr()) != IDLE }
    }

    /// The server's version: 150018 is 15.18.
    pub fn server_version(&self) -> i32 {
        // SAFETY: the session is there.
        unsafe { (self.calls.PQserverVersion)(self.session.as_ptr()) }
    }

    /// The encoding of the database's texts.
    pub fn server_encoding(&self) -> String {
        // SAFETY: the session is there and the name ends with a 0 byte; the answer is copied before the session is used again.
        unsafe { copied((self.calls.PQparameterStatus)(self.session.as_ptr(), c"server_encoding".as_ptr())) }
    }

    /// Runs statements one after the other, all of them one transaction if none is open and they do not say otherwise. How many rows the last of them changed.
    pub fn run(&mut self, sql: &str) -> Result<u64, Error> {
        let text = CString::new(sql).map_err(|_| Error::own("the statement has a 0 byte", sql))?;
        // SAFETY: the session is there, and the text ends with a 0 byte.
        let told = unsafe { (self.calls.PQexec)(self.session.as_ptr(), text.as_ptr()) };
        self.judged(told, &[COMMAND, TUPLES], sql).map(|rows| rows.changed())
    }

    /// The rows of a statement with values, `$1` being the first. Values are texts, from which the server makes what it needs.
    pub fn ask(&mut self, sql: &str, values: &[Option<&str>]) -> Result<Rows, Error> {
        let zero = |_| Error::own("the statement or a value has a 0 byte", sql);
        let text = CString::new(sql).map_err(zero)?;
        let values: Vec<_> = values.iter().map(|value| value.map(CString::new).transpose()).collect::<Result<_, _>>().map_err(zero)?;
        let texts: Vec<_> = values.iter().map(|value| value.as_ref().map_or(ptr::null(), |text| text.as_ptr())).collect();
        let count = c_int::try_from(texts.len()).map_err(|_| Error::own("there are too many values", sql))?;
        let (lengths, forms) = (ptr::null(), ptr::null());
        // SAFETY: the session is there. There are `count` values, each NULL or a text that ends with a 0 byte, as they are without lengths and forms; the
        // server is to find their types.
        let told = unsafe {
            (self.calls.PQexecParams)(self.session.as_ptr(), text.as_ptr(), count, ptr::null(), texts.as_ptr(), lengths, forms, 0)
        };
        self.judged(told, &[COMMAND, TUPLES], sql)
    }

    /// Begins a `COPY .. FROM STDIN`.
    pub fn copy(&mut self, sql: &str) -> Result<Copy<'_>, Error> {
        let text = CString::new(sql).map_err(|_| Error::own("the statement has a 0 byte", sql))?;
        // SAFETY: the session is there, and the text ends with a 0 byte.
        let told = unsafe { (self.calls.PQexec)(self.session.as_ptr(), text.as_ptr()) };
        self.judged(told, &[COPY_IN], sql)?;
        Ok(Copy { connection: self, sql: sql.to_string(), open: true })
    }

    /// What a statement has told, if it is one of these.
    fn judged(&self, told: *mut Told, good: &[c_int], sql: &str) -> Result<Rows, Error> {
        let Some(told) = NonNull::new(told) else { return Err(self.error(None, sql)) };
        let rows = Rows { calls: self.calls, told };
        // SAFETY: it is there.
        let status = unsafe { (self.calls.PQresultStatus)(told.as_ptr()) };
        if good.contains(&status) { Ok(rows) } else { Err(self.error(Some(&rows), sql)) }
    }

    fn error(&self, rows: Option<&Rows>, sql: &str) -> Error {
        let field = |field: u8| rows.map(|rows| rows.field(field)).unwrap_or_default();
        let (message, detail) = (field(MESSAGE), field(DETAIL));
        // SAFETY: the session is there, and the text is copied before it is used again.
        let whole = || unsafe { copied((self.calls.PQerrorMessage)(self.session.as_ptr())) };
        let words = match (message.as_str(), detail.as_str()) {
            ("", _) => whole(),
            (_, "") => message,
            _ => format!("{message}: {detail}"),
        };
        let words = if words.trim().is_empty() { "the server says nothing" } else { &words };
        let words = words.split_whitespace().collect::<Vec<_>>().join(" ");
        Error { sqlstate: field(SQLSTATE), words, statement: crate::shown(sql), lost: !self.is_open() }
    }
}

/// A connection string that cannot be read is refused without the library's words: they show pieces of it, and one may be of a password.
fn judge(calls: &Calls, conninfo: &CStr) -> Result<(), Error> {
    let bytes = conninfo.to_bytes();
    let named = [&b"postgresql://"[..], b"postgres://"].iter().any(|scheme| bytes.starts_with(scheme)) || bytes.contains(&b'=');
    let mut words = ptr::null_mut();
    // SAFETY: the text ends with a 0 byte and is only read; what is given is freed by the library, once, and so are its words, for either of which NULL is
    // nothing to free.
    let read = !named
        || unsafe {
            let options = (calls.PQconninfoParse)(conninfo.as_ptr(), &mut words);
            (calls.PQfreemem)(words.cast());
            (calls.PQconninfoFree)(options);
            !options.is_null()
        };
    let shape = "it is a URI, with % as %25, or words like dbname=store with a space between two, and a value with spaces stands between apostrophes";
    if read { Ok(()) } else { Err(Error::own(&format!("the connection string cannot be read: {shape}"), "")) }
}

impl Drop for Connection {
    fn drop(&mut self) {
        // SAFETY: nobody else has it: rows do not need it, and a copy borrows it.
        unsafe { (self.calls.PQfinish)(self.session.as_ptr()) };
    }
}

/// A copy of a text.
///
/// # Safety
///
/// NULL, or a text that ends with a 0 byte and that nobody changes meanwhile.
unsafe fn copied(text: *const c_char) -> String {
    // SAFETY: as the caller has said.
    if text.is_null() { String::new() } else { unsafe { CStr::from_ptr(text) }.to_string_lossy().into_owned() }
}

/// Rows that were answered, which need the connection no more.
pub struct Rows {
    calls: &'static Calls,
    told: NonNull<Told>,
}

impl Rows {
    pub fn len(&self) -> usize {
        // SAFETY: it is there.
        usize::try_from(unsafe { (self.calls.PQntuples)(self.told.as_ptr()) }).unwrap_or_default()
    }

    pub fn is_empty(&self) -> bool {
        self.len() == 0
    }

    /// How many rows the statement changed.
    pub fn changed(&self) -> u64 {
        // SAFETY: it is there, and the text is copied at once.
        unsafe { copied((self.calls.PQcmdTuples)(self.told.as_ptr())) }.parse().unwrap_or_default()
    }

    /// The value of a row and a column, both from 0, as text; none if it is NULL or not there.
    pub fn get(&self, row: usize, column: usize) -> Option<&[u8]> {
        let (calls, told) = (self.calls, self.told.as_ptr());
        let (row, column) = (c_int::try_from(row).ok()?, c_int::try_from(column).ok()?);
        // SAFETY: it is there, and the row and the column are in it before anything is asked of them. The bytes stay as long as it does, of the length told.
        unsafe {
            let there = row < (calls.PQntuples)(told) && column < (calls.PQnfields)(told) && (calls.PQgetisnull)(told, row, column) == 0;
            let length = if there { usize::try_from((calls.PQgetlength)(told, row, column)).ok()? } else { return None };
            Some(slice::from_raw_parts((calls.PQgetvalue)(told, row, column).cast(), length))
        }
    }

    /// The same as a number.
    pub fn number(&self, row: usize, column: usize) -> Option<i64> {
        std::str::from_utf8(self.get(row, column)?).ok()?.parse().ok()
    }

    fn field(&self, field: u8) -> String {
        // SAFETY: it is there, and the text is copied at once.
        unsafe { copied((self.calls.PQresultErrorField)(self.told.as_ptr(), c_int::from(field))) }
    }
}

impl Drop for Rows {
    fn drop(&mut self) {
        // SAFETY: nobody else has it.
        unsafe { (self.calls.PQclear)(self.told.as_ptr()) };
    }
}

/// A `COPY` that is under way. One that is dropped before its end is given up, and nothing of it stays.
pub struct Copy<'c> {
    connection: &'c mut Connection,
    sql: String,
    open: bool,
}

impl Copy<'_> {
    pub fn put(&mut self, bytes: &[u8]) -> Result<(), Error> {
        let (calls, session) = (self.connection.calls, self.connection.session.as_ptr());
        for portion in bytes.chunks(PORTION) {
            // SAFETY: the session is there and in a copy; the bytes are read over their length, which a portion's type has room for.
            let taken = unsafe { (calls.PQputCopyData)(session, portion.as_ptr().cast(), portion.len() as c_int) };
            if taken != 1 {
                return Err(self.connection.error(None, &self.sql));
            }
        }
        Ok(())
    }

    /// All is put: how many rows there were.
    pub fn end(mut self) -> Result<u64, Error> {
        self.close(ptr::null())
    }

    /// Ends it, well for NULL and else with a reason.
    fn close(&mut self, reason: *const c_char) -> Result<u64, Error> {
        self.open = false;
        let (calls, session) = (self.connection.calls, self.connection.session.as_ptr());
        // SAFETY: the session is there and in a copy; the reason is NULL or ends with a 0 byte.
        let sent = unsafe { (calls.PQputCopyEnd)(session, reason) } == 1;
        let mut told = if sent { Ok(0) } else { Err(self.connection.error(None, &self.sql)) };
        loop {
            // SAFETY: the session is there. There is no more when it is NULL, and only then is the session free for another statement.
            let more = unsafe { (calls.PQgetResult)(session) };
            if more.is_null() {
                return told;
            }
            let judged = self.connection.judged(more, &[COMMAND], &self.sql);
            told = told.and_then(|_| judged.map(|rows| rows.changed()));
            // A session that is lost in the middle of a copy says so again and again.
            if !self.connection.is_open() {
                return told;
            }
        }
    }
}

impl Drop for Copy<'_> {
    fn drop(&mut self) {
        if self.open {
            let _ = self.close(c"given up".as_ptr());
        }
    }
}

#[cfg(test)]
#[path = "postgres_tests.rs"]
mod tests;
