//! Rows for PostgreSQL, in the text form of its `COPY`.

use super::bits;
use menkhodur_databases::postgres::{Copy, Error};

/// Bytes that are handed on at once.
const PORTION: usize = 65_536;

/// A `COPY` that is under way, and the row that is being made. Fields are put in the order of the columns.
pub struct Rows<'c> {
    copy: Copy<'c>,
    text: Vec<u8>,
    /// The next field is the first of its row.
    first: bool,
}

impl<'c> Rows<'c> {
    pub fn new(copy: Copy<'c>) -> Rows<'c> {
        Rows { copy, text: Vec::with_capacity(2 * PORTION), first: true }
    }

    fn field(&mut self) -> &mut Vec<u8> {
        if !self.first {
            self.text.push(b'\t');
        }
        self.first = false;
        &mut self.text
    }

    pub fn number(&mut self, number: i64) -> &mut Rows<'c> {
        let text = self.field();
        if number < 0 {
            text.push(b'-');
        }
        digits(number.unsigned_abs(), text);
        self
    }

    /// A number of 64 bits.
    pub fn bits(&mut self, number: u64) -> &mut Rows<'c> {
        self.number(bits::signed(number))
    }

    /// A key, in which nothing needs to be escaped: whatever it was made of, the column takes nothing else.
    pub fn key(&mut self, key: &[u8]) -> &mut Rows<'c> {
        self.field().extend(key);
        self
    }

    pub fn text(&mut self, text: Option<&str>) -> &mut Rows<'c> {
        let out = self.field();
        match text {
            Some(text) => escape(text, out),
            None => out.extend(b"\\N"),
        }
        self
    }

    /// A `bytea`.
    pub fn bytes(&mut self, bytes: &[u8]) -> &mut Rows<'c> {
        const DIGITS: &[u8; 16] = b"0123456789abcdef";
        let out = self.field();
        out.extend(b"\\\\x");
        out.extend(bytes.iter().flat_map(|byte| [DIGITS[usize::from(byte >> 4)], DIGITS[usize::from(byte & 15)]]));
        self
    }

    /// The row is whole.
    pub fn end_row(&mut self) -> Result<(), Error> {
        self.text.push(b'\n');
        self.first = true;
        if self.text.len() < PORTION {
            return Ok(());
        }
        self.copy.put(&self.text)?;
        self.text.clear();
        Ok(())
    }

    pub fn end(mut self) -> Result<u64, Error> {
        self.copy.put(&self.text)?;
        self.copy.end()
    }
}

fn digits(mut number: u64, out: &mut Vec<u8>) {
    let from = out.len();
    loop {
        out.push(b'0' + (number % 10) as u8);
        number /= 10;
        if number == 0 {
            break;
        }
    }
    out[from..].reverse();
}

/// PostgreSQL has no texts with a 0 byte: it is kept as U+FFFD, which stands for what cannot be said.
fn escape(text: &str, out: &mut Vec<u8>) {
    for byte in text.bytes() {
        match byte {
            b'\\' => out.extend(b"\\\\"),
            b'\t' => out.extend(b"\\t"),
            b'\n' => out.extend(b"\\n"),
            b'\r' => out.extend(b"\\r"),
            0 => out.extend("\u{fffd}".as_bytes()),
            byte => out.push(byte),
        }
    }
}

#[cfg(test)]
mod tests {
    use super::*;

    #[test]
    fn numbers_are_written_as_they_are() {
        for number in [0, 9, 10, 123, u64::MAX, bits::unsigned(i64::MAX), i64::MIN.unsigned_abs()] {
            let mut out = b"x".to_vec();
            digits(number, &mut out);
            assert_eq!(out, format!("x{number}").into_bytes());
        }
    }

    #[test]
    fn what_means_something_to_copy_is_escaped() {
        let mut out = vec![];
        escape("a\\b\tc\nd\re\0f\\N\\.Ж", &mut out);
        assert_eq!(out, "a\\\\b\\tc\\nd\\re\u{fffd}f\\\\N\\\\.Ж".as_bytes());
    }
}
