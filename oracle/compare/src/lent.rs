//! Rooms and parts lent to a writer, and what must be in them afterwards.

use both::abi::Answer;
use both::random::Random;

const GUARD: usize = 16;
const FILL: u8 = 0xA5;

/// `check_bytes` for a text.
pub fn check_writer(
    owed: Result<&str, u64>, off: i64, write: impl FnOnce(&mut [u8]) -> Answer,
) -> Result<bool, String> {
    check_bytes(owed.map(str::as_bytes), off, write, |bytes| format!("{:?}", String::from_utf8_lossy(bytes)))
}

/// Lends a room of `length + off` bytes between guard bytes, where `length` is that of the bytes owed, and compares the
/// answer and every byte. `owed` is what must be written or the number of a refusal. Says whether it was written.
pub fn check_bytes(
    owed: Result<&[u8], u64>, off: i64, write: impl FnOnce(&mut [u8]) -> Answer, show: impl Fn(&[u8]) -> String,
) -> Result<bool, String> {
    let text = owed.unwrap_or(&[]);
    let room = (text.len() as i64 + off).max(0) as usize;
    let answer = match owed {
        Err(number) => Answer { number, value: 0 },
        Ok(_) => Answer { number: if text.len() <= room { 0 } else { 7 }, value: text.len() as u64 },
    };
    let mut bytes = vec![FILL; room + 2 * GUARD];
    let got = write(&mut bytes[GUARD..GUARD + room]);
    let mut want = vec![FILL; room + 2 * GUARD];
    if answer.number == 0 {
        want[GUARD..GUARD + text.len()].copy_from_slice(text);
    }
    if got != answer {
        return Err(format!("room {}: owed {:?} {}, ours {:?}", room, answer, show(text), got));
    }
    if bytes != want {
        let ours = show(&bytes[GUARD..GUARD + room]);
        return Err(format!("room {}: owed {:?} {}, the room or its guards hold {}", room, answer, show(text), ours));
    }
    Ok(answer.number == 0)
}

/// A part full of noise between guard bytes, lent again and again.
pub struct Lent {
    bytes: Vec<u8>,
    noise: Vec<u8>,
}

impl Lent {
    pub fn new(longest: usize) -> Lent {
        let mut random = Random::new(1, "lent");
        let noise: Vec<u8> = (0..longest + 2 * GUARD).map(|_| random.next() as u8).collect();
        Lent { bytes: noise.clone(), noise }
    }

    pub fn part(&mut self, length: usize) -> &mut [u8] {
        &mut self.bytes[GUARD..GUARD + length]
    }

    /// Whether these bytes stand at the part's front and the noise everywhere else. Then all is noise again.
    pub fn holds(&mut self, written: &[u8]) -> bool {
        let end = GUARD + written.len();
        let (bytes, noise) = (&mut self.bytes, &self.noise);
        let as_owed = bytes[GUARD..end] == *written && bytes[..GUARD] == noise[..GUARD] && bytes[end..] == noise[end..];
        match as_owed {
            true => bytes[GUARD..end].copy_from_slice(&noise[GUARD..end]),
            false => bytes.copy_from_slice(noise),
        }
        as_owed
    }
}
