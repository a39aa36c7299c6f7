//! Which positions were seen, over pages and files of any number.

use menkhodur::Page;
use menkhodur::lent::{Numbers, PAGE_RECORD};
use std::collections::HashSet;

/// A position in half as many bytes as its record has numbers, each of which is under 16. That two records of pages have one key exactly if
/// they are equal is proved, so that the numbers stand for the key. They are kept themselves: of a hash, equal would not mean the same.
type Kept = [u8; PAGE_RECORD / 2];

/// What an accepted line is kept as.
fn kept(record: &Numbers) -> Kept {
    std::array::from_fn(|at| record[2 * at] << 4 | record[2 * at + 1])
}

/// Parts of the set. A part that grows is there twice for a moment: of one set of all, that would be half as much memory again.
const PARTS: usize = 256;

/// The positions of all accepted lines so far, in parts; none any more once there was no memory for them.
pub struct Positions(Option<Vec<HashSet<Kept>>>);

impl Positions {
    pub fn new() -> Positions {
        Positions(Some(vec![HashSet::new(); PARTS]))
    }

    /// How many of the accepted lines of a page have a position that was seen before, there or on an earlier page. None if there is no memory;
    /// what was kept is given up then.
    pub fn repeated(&mut self, page: &Page<'_>) -> Option<u64> {
        let parts = self.0.as_mut()?;
        let mut accepted = page.records().iter().zip(page.numbers()).filter(|(_, told)| told[0] == 0);
        let repeated = accepted.try_fold(0, |sum, (record, _)| Some(sum + u64::from(!insert(parts, kept(record))?)));
        if repeated.is_none() {
            self.0 = None;
        }
        repeated
    }
}

/// Whether a position is new. None if there is no memory for it.
fn insert(parts: &mut [HashSet<Kept>], kept: Kept) -> Option<bool> {
    let mixed = kept.iter().fold(0u8, |mixed, byte| mixed.rotate_left(3) ^ byte);
    let part = &mut parts[usize::from(mixed) % PARTS];
    part.try_reserve(1).ok()?;
    Some(part.insert(kept))
}

#[cfg(test)]
mod tests {
    use super::*;

    // The largest that each of the 68 may be, as HOST-ABI.md has it: a man, a side, rights of both sides, a file from 1.
    #[test]
    fn no_two_numbers_of_a_record_are_kept_as_one() {
        let most = |at: usize| [12, 1, 3, 3, 8][at.saturating_sub(63)];
        for at in 0..PAGE_RECORD {
            let mut seen = HashSet::new();
            for number in 0..=most(at) {
                let mut record = [0; PAGE_RECORD];
                record[at] = number;
                assert!(seen.insert(kept(&record)), "{number} at {at}");
                record[at ^ 1] = most(at ^ 1);
                assert!(seen.insert(kept(&record)), "{number} at {at} beside another");
            }
        }
    }
}
