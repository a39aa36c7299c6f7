//! What is said on standard error. Every message begins with `menkhodur: ` and goes out whole.

use std::io::{self, IsTerminal, Write};
use std::time::{Duration, Instant};

/// Says a message. Should standard error be gone, the status still tells.
pub fn tell(parts: &[&[u8]]) {
    let message = [b"menkhodur: ", parts.concat().as_slice(), b"\n"].concat();
    let _ = io::stderr().write_all(&message);
}

/// What the system says about an error, without its number.
pub fn system(error: &io::Error) -> String {
    let told = error.to_string();
    told.split(" (os error ").next().unwrap_or_default().to_string()
}

/// "1 line", "2 lines"
pub fn counted(count: u64, what: &str) -> String {
    format!("{count} {what}{}", if count == 1 { "" } else { "s" })
}

/// "2 lines, 1 accepted, 1 refused": what the last line of standard error begins with, where a command counts.
pub fn tallied(accepted: u64, refused: u64, what: &str) -> String {
    format!("{}, {accepted} accepted, {refused} refused", counted(accepted + refused, what))
}

/// How it goes on.
pub fn incomplete(whole: bool) -> &'static str {
    if whole { "" } else { "; input incomplete" }
}

/// Bytes as a terminal should be given them: control characters, and what is not UTF-8, as `\xNN`.
pub fn visible(bytes: &[u8]) -> String {
    let hex = |bytes: &[u8]| bytes.iter().map(|byte| format!("\\x{byte:02x}")).collect::<String>();
    let letter = |letter: char| match letter.is_control() {
        true => hex(letter.to_string().as_bytes()),
        false => letter.to_string(),
    };
    bytes.utf8_chunks().map(|chunk| chunk.valid().chars().map(letter).collect::<String>() + &hex(chunk.invalid())).collect()
}

/// Says how far long work has come, if someone looks on.
pub struct Progress {
    next: Option<Instant>,
}

const EVERY: Duration = Duration::from_secs(1);

impl Progress {
    pub fn new() -> Progress {
        Progress { next: io::stderr().is_terminal().then(|| Instant::now() + EVERY) }
    }

    pub fn lines(&mut self, lines: u64) {
        self.so_far(lines, "line");
    }

    pub fn so_far(&mut self, count: u64, what: &str) {
        let Some(next) = self.next else { return };
        let now = Instant::now();
        if now >= next {
            tell(&[counted(count, what).as_bytes(), b" so far"]);
            self.next = Some(now + EVERY);
        }
    }
}

#[cfg(test)]
mod tests {
    use super::*;

    #[test]
    fn a_terminal_is_given_no_control_character_and_no_bad_byte() {
        assert_eq!(visible("a\x1b[2J\x7f\u{9b}é".as_bytes()), "a\\x1b[2J\\x7f\\xc2\\x9bé");
        assert_eq!(visible(b"K\xff\x9b w\r"), "K\\xff\\x9b w\\x0d");
    }
}
