//! Games that were filed before: those with the same roll and the same seven tags, in whatever source.

use super::digest::SEVEN;
use super::store::{Batch, Filed, Twin};
use super::tags;
use std::collections::HashMap;

/// A game that the store holds, with the mark of one of the batch.
#[derive(Clone, Debug, PartialEq, Eq)]
pub struct Candidate {
    pub source: String,
    pub number: u64,
    pub roll: Vec<u8>,
    pub seven: [Option<String>; SEVEN.len()],
}

impl Candidate {
    fn equals(&self, game: &Filed) -> bool {
        self.roll == game.roll && self.seven.each_ref().map(|value| value.as_deref().unwrap_or_default()) == seven(game)
    }
}

/// A tag that is missing is as an empty one.
fn seven(game: &Filed) -> [&str; SEVEN.len()] {
    tags::apart(&game.tags).seven.map(Option::unwrap_or_default)
}

/// For each game of a batch the first that equals it, in the store or before it in the batch. `held` gives the store's games with a mark, the first filed
/// first.
pub fn twins<E>(batch: &Batch, source: &str, mut held: impl FnMut(u64) -> Result<Vec<Candidate>, E>) -> Result<Vec<Option<Twin>>, E> {
    let mut before: HashMap<u64, Vec<&Filed>> = HashMap::new();
    let mut twins = Vec::with_capacity(batch.games.len());
    for game in &batch.games {
        let stored = held(game.mark)?.into_iter().find(|candidate| candidate.equals(game));
        let first = stored.map(|first| Twin { number: game.number, source: first.source, of: first.number });
        let met = before.entry(game.mark).or_default();
        twins.push(first.or_else(|| {
            let first = met.iter().find(|earlier| earlier.roll == game.roll && seven(earlier) == seven(game))?;
            Some(Twin { number: game.number, source: source.to_string(), of: first.number })
        }));
        met.push(game);
    }
    Ok(twins)
}

#[cfg(test)]
mod tests {
    use super::*;
    use crate::import::store::Keys;

    fn game(number: u64, roll: &[u8], tags: &[(&str, &str)], mark: u64) -> Filed {
        let tags = tags.iter().map(|(name, value)| (name.to_string(), value.to_string())).collect();
        Filed { number, line: 1, tags, moves: 0, roll: roll.to_vec(), variations: None, keys: Keys::default(), main: 0, mark }
    }

    #[test]
    fn equal_is_who_has_the_roll_and_the_seven_tags_and_not_who_has_the_mark() {
        let held = |mark: u64| -> Result<Vec<Candidate>, ()> {
            let seven = [None, Some(String::new()), None, None, Some("a".to_string()), None, None];
            let candidate = |number, roll: &[u8]| Candidate { source: "old".into(), number, roll: roll.to_vec(), seven: seven.clone() };
            Ok(if mark == 1 { vec![candidate(3, b"other"), candidate(5, b"r"), candidate(6, b"r")] } else { vec![] })
        };
        let games = vec![
            game(1, b"r", &[("ECO", "x"), ("White", "a"), ("Event", "")], 1),
            game(2, b"r", &[("White", "b")], 1),
            game(4, b"r", &[("White", "b"), ("White", "c")], 1),
            game(5, b"s", &[("White", "b")], 1),
            game(6, b"s", &[("White", "b")], 1),
        ];
        let batch = Batch { games, ..Batch::default() };
        let told = twins(&batch, "new", held).unwrap();
        let twin = |number, source: &str, of| Some(Twin { number, source: source.to_string(), of });
        assert_eq!(told, [twin(1, "old", 5), None, twin(4, "new", 2), None, twin(6, "new", 5)]);
    }
}
