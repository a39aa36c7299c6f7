//! Digests of 64 bits, by which a source is known again and games that may be equal are found. They are made to be fast, eight bytes a step, and
//! not to withstand someone who looks for two texts with one digest.

use crate::games::Game;

/// A digest in the making. How the bytes are handed to it, in one part or in many, does not matter.
#[derive(Default)]
pub struct Digest {
    state: u64,
    /// Bytes that do not fill a step yet, the first lowest.
    left: u64,
    length: u64,
}

/// Odd, with as many ones as zeros: 2 to the 64th over the golden ratio.
const FACTOR: u64 = 0x9e37_79b9_7f4a_7c15;

/// Both halves of a product, so that the upper bits of a word reach the lower ones too.
fn stirred(state: u64, word: u64) -> u64 {
    let product = u128::from(state ^ word) * u128::from(FACTOR);
    (product as u64 ^ (product >> 64) as u64).rotate_left(23)
}

impl Digest {
    pub fn add(&mut self, bytes: &[u8]) -> &mut Digest {
        let missing = (8 - self.held()) % 8;
        let (front, mut rest) = bytes.split_at(missing.min(bytes.len()));
        self.add_few(front);
        while let Some((step, more)) = rest.split_first_chunk() {
            self.state = stirred(self.state, u64::from_le_bytes(*step));
            self.length += 8;
            rest = more;
        }
        self.add_few(rest);
        self
    }

    /// A part that could be told from the next one by its length alone.
    pub fn add_part(&mut self, bytes: &[u8]) -> &mut Digest {
        self.add(&(bytes.len() as u64).to_le_bytes()).add(bytes)
    }

    pub fn end(&self) -> u64 {
        stirred(stirred(stirred(self.state, self.left), self.length), FACTOR)
    }

    fn held(&self) -> usize {
        (self.length % 8) as usize
    }

    fn add_few(&mut self, bytes: &[u8]) {
        for byte in bytes {
            self.left |= u64::from(*byte) << (8 * self.held());
            self.length += 1;
            if self.held() == 0 {
                self.state = stirred(self.state, self.left);
                self.left = 0;
            }
        }
    }
}

/// The running digest over a source's games with one game more: its line, its tag pairs and its text as they stand. Before the first it is 0.
pub fn running(before: u64, game: &Game) -> u64 {
    let mut digest = Digest::default();
    digest.add(&before.to_le_bytes()).add(&game.line.to_le_bytes());
    // How much of a game that is too large was kept may depend on the room that there was.
    if game.large.is_none() {
        digest.add_part(&game.tags).add_part(&game.text);
    }
    digest.end()
}

/// The tags that every game has by the PGN standard, and by which games are equal.
pub const SEVEN: [&str; 7] = ["Event", "Site", "Date", "Round", "White", "Black", "Result"];

/// The mark of a game: of its roll and its seven tags, one that is missing being empty.
pub fn mark(roll: &[u8], tags: &[(String, String)]) -> u64 {
    let mut digest = Digest::default();
    digest.add_part(roll);
    for name in SEVEN {
        let value = tags.iter().find(|tag| tag.0 == name).map_or("", |tag| &tag.1);
        digest.add_part(value.as_bytes());
    }
    digest.end()
}

#[cfg(test)]
mod tests {
    use super::*;
    use std::collections::HashSet;

    fn of(parts: &[&[u8]]) -> u64 {
        let mut digest = Digest::default();
        for part in parts {
            digest.add(part);
        }
        digest.end()
    }

    #[test]
    fn parts_do_not_matter_and_every_byte_does() {
        let bytes: Vec<u8> = (0..100u8).map(|index| index.wrapping_mul(7)).collect();
        let whole = of(&[&bytes]);
        for first in 0..=bytes.len() {
            for second in [first, (first + 3).min(100), (first + 8).min(100), 100] {
                assert_eq!(of(&[&bytes[..first], &bytes[first..second], &bytes[second..]]), whole, "{first} {second}");
            }
        }
        let mut seen = HashSet::from([whole]);
        for at in 0..bytes.len() {
            for bit in 0..8 {
                let mut other = bytes.clone();
                other[at] ^= 1 << bit;
                assert!(seen.insert(of(&[&other])), "{at} {bit}");
            }
            assert!(seen.insert(of(&[&bytes[..at]])), "{at}");
        }
        // Two bits too, of one word or of words that follow each other.
        for pair in 0..128 * 127 {
            let (one, two) = (pair / 127, (pair / 127 + 1 + pair % 127) % 128);
            let mut other = bytes.clone();
            other[40 + one / 8] ^= 1 << (one % 8);
            other[40 + two / 8] ^= 1 << (two % 8);
            assert!(one > two || seen.insert(of(&[&other])), "{one} {two}");
        }
        // Zeros at the end count too.
        assert_eq!((0..40).map(|zeros| of(&[&vec![0; zeros]])).collect::<HashSet<u64>>().len(), 40);
    }

    #[test]
    fn a_mark_goes_by_the_roll_and_seven_tags_only() {
        let tag = |name: &str, value: &str| (name.to_string(), value.to_string());
        let plain = mark(b"roll", &[tag("White", "a"), tag("Black", "b")]);
        assert_eq!(
            plain,
            mark(b"roll", &[tag("Black", "b"), tag("WhiteElo", "2700"), tag("White", "a"), tag("White", "c"), tag("Site", "")])
        );
        for tags in [[tag("White", "b"), tag("Black", "a")], [tag("White", "ab"), tag("Black", "")], [tag("White", "a"), tag("Site", "b")]]
        {
            assert_ne!(plain, mark(b"roll", &tags));
        }
        assert_ne!(plain, mark(b"rolL", &[tag("White", "a"), tag("Black", "b")]));
    }
}
