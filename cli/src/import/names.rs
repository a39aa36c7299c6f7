//! The SQL functions by which a store asks for names, made of the archive that is linked: with the same answers as the extension that other programs load
//! (`host/sqlite/menkhodur_sqlite.c`), so that a store in SQLite needs no file beside the program.

use super::bits;
use crate::json::Object;
use menkhodur::Error;
use menkhodur::lent::{self, MAX_FEN};
use menkhodur_databases::sqlite::{self, Answer, Argument, Connection};
use std::cell::RefCell;

/// Bytes of the shortest key.
const SHORTEST: usize = 25;

/// Which key: that of the record that a text says, or that of its settled record.
type Rule = fn(&[u8], &mut [u8]) -> Result<usize, Error>;

fn key(text: &[u8], room: &mut [u8]) -> Result<usize, Error> {
    lent::fen_write(&lent::fen_read(text)?, room)
}

const KEY: Rule = key;
const SETTLED: Rule = lent::fen_settled;

/// Makes them for a connection.
pub fn create(connection: &Connection) -> Result<(), sqlite::Error> {
    connection.create_function("menkhodur_key", |argument| named(KEY, argument))?;
    connection.create_function("menkhodur_settled", |argument| named(SETTLED, argument))?;
    connection.create_function("menkhodur_is_key", is_own(KEY))?;
    connection.create_function("menkhodur_is_settled", is_own(SETTLED))?;
    connection.create_function("menkhodur_fault", fault)?;
    connection.create_constant("menkhodur_version", bits::signed(lent::version()))
}

/// The bytes of a value that is not NULL; numbers are the texts that SQLite makes of them.
fn bytes(argument: Argument<'_>) -> Option<&[u8]> {
    match argument {
        Argument::Null => None,
        Argument::Text(bytes) | Argument::Blob(bytes) | Argument::Number(bytes) => Some(bytes),
    }
}

fn named(rule: Rule, argument: Argument<'_>) -> Answer {
    let Some(text) = bytes(argument) else { return Answer::Null };
    let mut room = [0; MAX_FEN];
    match rule(text, &mut room) {
        Ok(length) => Answer::Text(room[..length].to_vec()),
        Err(refused) => Answer::Refused(refused.to_string()),
    }
}

fn fault(argument: Argument<'_>) -> Answer {
    match bytes(argument).map(lent::fen_read) {
        None | Some(Ok(_)) => Answer::Null,
        Some(Err(refused)) => {
            let object = Object::new().raw("number", refused.number()).raw("offset", refused.offset().unwrap_or_default());
            Answer::Text(object.text("reason", refused.meaning()).end().into_bytes())
        }
    }
}

/// Whether a text is its own key, byte for byte. A table asks by its `CHECK` and by its trigger, and the table of places asks again of each place: what was
/// said of a text lately is said again without a look.
fn is_own(rule: Rule) -> impl Fn(Argument<'_>) -> Answer + Send + 'static {
    let said = RefCell::new(vec![Said::default(); LATELY]);
    move |argument| {
        let Argument::Text(text) = argument else { return Answer::Integer(0) };
        if !(SHORTEST..=MAX_FEN).contains(&text.len()) {
            return Answer::Integer(0);
        }
        let said = &mut said.borrow_mut()[place(text)];
        if said.text[..said.length] != *text {
            let mut room = [0; MAX_FEN];
            said.own = rule(text, &mut room).is_ok_and(|length| room[..length] == *text);
            said.text[..text.len()].copy_from_slice(text);
            said.length = text.len();
        }
        Answer::Integer(i64::from(said.own))
    }
}

/// How many texts are remembered, each in its place.
const LATELY: usize = 256;

/// A text of which was said whether it is its own key.
#[derive(Clone)]
struct Said {
    text: [u8; MAX_FEN],
    length: usize,
    own: bool,
}

impl Default for Said {
    fn default() -> Said {
        Said { text: [0; MAX_FEN], length: 0, own: false }
    }
}

/// Texts that differ may have one place: the later one is remembered.
fn place(text: &[u8]) -> usize {
    let stirred = |sum: u64, word: u64| (sum.rotate_left(21) ^ word).wrapping_mul(0x9e37_79b9_7f4a_7c15);
    let (mut sum, mut rest) = (0, text);
    while let Some((word, more)) = rest.split_first_chunk() {
        sum = stirred(sum, u64::from_le_bytes(*word));
        rest = more;
    }
    let sum = rest.iter().fold(sum, |sum, byte| stirred(sum, u64::from(*byte)));
    (sum >> 56) as usize % LATELY
}

#[cfg(test)]
mod tests {
    use super::*;
    use menkhodur_databases::sqlite::{Mode, Value};
    use std::path::Path;

    const EMPTY: &[u8] = b"8/8/8/8/8/8/8/8 w - - 0 1";
    const UNSETTLED: &[u8] = b"8/8/8/8/4P3/8/8/8 b - e3 0 1";

    fn ask(store: &Connection, function: &str, value: Value<'_>) -> Result<(Option<i64>, Option<Vec<u8>>), String> {
        let mut statement = store.prepare(&format!("SELECT {function}(?1)")).unwrap();
        let told = statement.first(&[value], |row| (row.integer(0), row.bytes(0).map(<[u8]>::to_vec)));
        told.map(Option::unwrap).map_err(|error| error.words().to_string())
    }

    #[test]
    fn texts_blobs_numbers_and_null_are_told_apart() {
        let store = match Connection::memory() {
            Ok(store) => store,
            Err(missing) => return crate::import::stores::skipped(&missing.to_string()),
        };
        create(&store).unwrap();
        let zero = [EMPTY, b"\0"].concat();
        for (value, key, settled) in [
            (Value::Text(EMPTY), 1, 1),
            (Value::Text(UNSETTLED), 1, 0),
            (Value::Text(b"8/8/8/8/8/8/8/8 w - - 5 9"), 0, 0),
            (Value::Text(&zero), 0, 0),
            (Value::Text(b""), 0, 0),
            (Value::Blob(EMPTY), 0, 0),
            (Value::Integer(-88), 0, 0),
            (Value::Null, 0, 0),
        ] {
            for _ in 0..2 {
                assert_eq!(ask(&store, "menkhodur_is_key", value), Ok((Some(key), None)), "{value:?}");
                assert_eq!(ask(&store, "menkhodur_is_settled", value), Ok((Some(settled), None)), "{value:?}");
            }
        }
        assert_eq!(ask(&store, "menkhodur_key", Value::Blob(b" w - - 7 9")), Ok((None, Some(EMPTY.to_vec()))));
        assert_eq!(ask(&store, "menkhodur_settled", Value::Text(UNSETTLED)).unwrap().1, Some(b"8/8/8/8/4P3/8/8/8 b - - 0 1".to_vec()));
        let short = "the FEN text ends before its fourth token, at byte 3 (answer 18)";
        assert_eq!(ask(&store, "menkhodur_key", Value::Integer(-88)), Err(short.to_string()));
        let fault = br#"{"number":18,"offset":3,"reason":"the FEN text ends before its fourth token"}"#;
        assert_eq!(ask(&store, "menkhodur_fault", Value::Text(b"-88")), Ok((None, Some(fault.to_vec()))));
        for function in ["menkhodur_key", "menkhodur_settled", "menkhodur_fault"] {
            assert_eq!(ask(&store, function, Value::Null), Ok((None, None)));
        }
        let version = store.prepare("SELECT menkhodur_version()").unwrap().first(&[], |row| row.integer(0));
        assert_eq!(version, Ok(Some(Some(bits::signed(menkhodur::VERSION)))));
    }

    /// host/import/test makes the file, with the extension's answers in it: `asked (value, key, is_key, settled, is_settled, fault, version)`.
    #[test]
    fn the_extension_answers_the_same() {
        let Some(file) = std::env::var_os("MENKHODUR_TEST_NAMES") else { return };
        let store = Connection::open(Path::new(&file), Mode::Read).unwrap();
        create(&store).unwrap();
        let count = |condition: &str| {
            let sql = format!("SELECT count(*) FROM asked WHERE {condition}");
            store.prepare(&sql).unwrap().first(&[], |row| row.integer(0)).unwrap().flatten().unwrap()
        };
        assert!(count("fault IS NULL") > 1_000 && count("fault IS NOT NULL") > 1_000 && count("is_settled") > 1_000);
        assert_eq!(count("is_key IS NOT menkhodur_is_key(value) OR is_settled IS NOT menkhodur_is_settled(value)"), 0);
        assert_eq!(count("fault IS NOT menkhodur_fault(value) OR version IS NOT menkhodur_version()"), 0);
        assert_eq!(count("fault IS NULL AND (key IS NOT menkhodur_key(value) OR settled IS NOT menkhodur_settled(value))"), 0);
        let mut statement = store.prepare("SELECT value FROM asked WHERE fault IS NOT NULL AND typeof(value) = 'text'").unwrap();
        let mut rows = statement.rows(&[]).unwrap();
        while let Some(row) = rows.next().unwrap() {
            let text = row.bytes(0).unwrap();
            let told = lent::fen_read(text).unwrap_err().to_string();
            assert_eq!(ask(&store, "menkhodur_key", Value::Text(text)), Err(told.clone()));
            assert_eq!(ask(&store, "menkhodur_settled", Value::Text(text)), Err(told));
        }
    }
}
