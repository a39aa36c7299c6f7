//! The positions of a batch in the order of keys, as a store files them: neighbours in the index one after the other, and each key once.

use super::store::Batch;

/// A position of a batch: its key, the game's index, and the position's in the game.
#[derive(Clone, Copy, Debug, PartialEq, Eq, PartialOrd, Ord)]
pub struct Entry<'a> {
    pub key: &'a [u8],
    pub game: u32,
    pub at: u32,
}

/// All of a batch, equal keys in the order of games.
pub fn sorted(batch: &Batch) -> Vec<Entry<'_>> {
    let mut entries = Vec::with_capacity(batch.games.iter().map(|game| game.keys.len()).sum());
    for (game, filed) in (0..).zip(&batch.games) {
        entries.extend((0..).zip(filed.keys.iter()).map(|(at, key)| Entry { key, game, at }));
    }
    entries.sort_unstable();
    entries
}
