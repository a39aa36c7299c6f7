//! One JSON object per line.

use std::fmt::{Display, Write};
use std::str;

/// An object in the making.
pub struct Object(String);

impl Object {
    pub fn new() -> Object {
        Object("{".to_string())
    }

    /// A value that is JSON already: a number, `true`, `null`, an array.
    pub fn raw(mut self, name: &str, value: impl Display) -> Object {
        if self.0.len() > 1 {
            self.0.push(',');
        }
        // Writing to a string does not fail.
        let _ = write!(self.0, "\"{name}\":{value}");
        self
    }

    pub fn raw_or_null(self, name: &str, value: Option<impl Display>) -> Object {
        match value {
            Some(value) => self.raw(name, value),
            None => self.raw(name, "null"),
        }
    }

    pub fn text(self, name: &str, value: &str) -> Object {
        self.raw(name, quoted(value))
    }

    pub fn text_or_null(self, name: &str, value: Option<&str>) -> Object {
        self.raw_or_null(name, value.map(quoted))
    }

    /// Any bytes. JSON has characters only: where they are no UTF-8, each bad part is U+FFFD, and `NAME_hex` has the bytes themselves.
    pub fn bytes(self, name: &str, value: &[u8]) -> Object {
        match str::from_utf8(value) {
            Ok(text) => self.text(name, text),
            Err(_) => {
                let hex: String = value.iter().map(|byte| format!("{byte:02x}")).collect();
                self.text(name, &String::from_utf8_lossy(value)).text(&format!("{name}_hex"), &hex)
            }
        }
    }

    pub fn end(self) -> String {
        self.0 + "}"
    }

    /// All that stands before the first value of an array that ends the object. Whoever puts the values ends both.
    pub fn open(self, name: &str) -> String {
        self.raw(name, "[").0
    }
}

/// `[a,b]`, of values that are JSON already.
pub fn array(values: impl IntoIterator<Item = String>) -> String {
    format!("[{}]", values.into_iter().collect::<Vec<_>>().join(","))
}

/// A text as JSON has it.
pub fn quoted(text: &str) -> String {
    let mut out = String::with_capacity(text.len() + 2);
    out.push('"');
    for letter in text.chars() {
        match letter {
            '"' | '\\' => out.extend(['\\', letter]),
            // From DEL on they may stand as they are, but a terminal should not see them.
            letter if letter.is_control() => {
                let _ = write!(out, "\\u{:04x}", u32::from(letter));
            }
            letter => out.push(letter),
        }
    }
    out.push('"');
    out
}

#[cfg(test)]
mod tests {
    use super::*;

    #[test]
    fn every_control_character_is_escaped() {
        for code in (0..32).chain(127..160) {
            let letter = char::from(code);
            assert_eq!(quoted(&letter.to_string()), format!("\"\\u{code:04x}\""));
        }
        assert_eq!(quoted("a\"b\\cé😀"), "\"a\\\"b\\\\cé😀\"");
    }

    #[test]
    fn an_object_has_commas_between_its_fields_and_bad_bytes_beside_their_text() {
        assert_eq!(Object::new().end(), "{}");
        let object = Object::new().raw("n", 3).bytes("t", b"K\xff").text_or_null("none", None).raw("a", array(["1".into(), "2".into()]));
        assert_eq!(object.end(), "{\"n\":3,\"t\":\"K\u{fffd}\",\"t_hex\":\"4bff\",\"none\":null,\"a\":[1,2]}");
    }
}
