//! What the import hands to a store, and what a store answers. Where positions and games are kept is the store's own affair.

use crate::options::Stop;

/// A game that is filed.
#[derive(Clone, Debug, PartialEq, Eq)]
pub struct Filed {
    /// From 1 in its source, refused ones counted.
    pub number: u64,
    /// The line it begins in.
    pub line: u64,
    /// All tag pairs in the file's order, as text.
    pub tags: Vec<(String, String)>,
    /// Half-moves of the main line.
    pub moves: u64,
    pub roll: Vec<u8>,
    /// The moves with the variations, in the export form, if they were played and it has some.
    pub variations: Option<String>,
    /// Settled keys: of the start, after each move of the main line, and from `main` on those of variations.
    pub keys: Keys,
    pub main: usize,
    /// A mark of the roll and the seven tags: equal games have equal marks. Not the other way round: the store compares.
    pub mark: u64,
}

/// Keys, one behind the other.
#[derive(Clone, Debug, Default, PartialEq, Eq)]
pub struct Keys {
    bytes: Vec<u8>,
    ends: Vec<u32>,
}

impl Keys {
    pub fn push(&mut self, key: &[u8]) {
        self.bytes.extend(key);
        // A game has some million positions at most, of 85 bytes each.
        self.ends.push(self.bytes.len() as u32);
    }

    /// Adds other keys behind these.
    pub fn append(&mut self, other: &Keys) {
        let before = self.bytes.len() as u32;
        self.bytes.extend(&other.bytes);
        self.ends.extend(other.ends.iter().map(|end| before + end));
    }

    /// Gives back the room that no key has taken.
    pub fn fit(&mut self) {
        self.bytes.shrink_to_fit();
        self.ends.shrink_to_fit();
    }

    /// The key of an index, empty past the last.
    pub fn get(&self, index: usize) -> &[u8] {
        let begin = index.checked_sub(1).and_then(|before| self.ends.get(before)).map_or(0, |end| *end as usize);
        self.ends.get(index).and_then(|end| self.bytes.get(begin..*end as usize)).unwrap_or_default()
    }

    pub fn len(&self) -> usize {
        self.ends.len()
    }

    pub fn iter(&self) -> impl Iterator<Item = &[u8]> {
        (0..self.len()).map(|index| self.get(index))
    }
}

/// A game that is not.
#[derive(Clone, Debug, PartialEq, Eq)]
pub struct Refused {
    pub number: u64,
    pub line: u64,
    pub at_line: u64,
    pub at_column: u64,
    /// The archive's number; 0 if it has none for this.
    pub answer: u64,
    pub kind: &'static str,
    pub text: String,
}

/// Whole games, in order, filed in one transaction with the source's progress.
#[derive(Debug, Default)]
pub struct Batch {
    pub games: Vec<Filed>,
    pub refused: Vec<Refused>,
    /// The games of the source that are done with this batch, refused ones counted, and the running digest over them.
    pub done: u64,
    pub digest: u64,
    /// Whether the source has ended.
    pub ended: bool,
}

/// `bytes` and `digest` of the whole for a regular file; none for standard input and pipes.
#[derive(Clone, Debug, PartialEq, Eq)]
pub struct Source {
    pub name: String,
    pub bytes: Option<u64>,
    pub digest: Option<u64>,
}

/// How many games are done, and the running digest over them (0 games: 0).
#[derive(Clone, Copy, Debug, Default, PartialEq, Eq)]
pub struct Begun {
    pub done: u64,
    pub digest: u64,
}

/// How many of a batch's positions were new, and which of its games are twins of games filed before.
#[derive(Clone, Debug, Default, PartialEq, Eq)]
pub struct Written {
    pub new: u64,
    pub twins: Vec<Twin>,
}

/// A game's number, and the source and number of the first that equals it.
#[derive(Clone, Debug, PartialEq, Eq)]
pub struct Twin {
    pub number: u64,
    pub source: String,
    pub of: u64,
}

/// What is done with a game that was filed before.
#[derive(Clone, Copy, Debug, PartialEq, Eq)]
pub enum Duplicates {
    Keep,
    Skip,
    Tell,
}

/// What a store needs to know of the command line.
#[derive(Clone, Copy, Debug)]
pub struct Options {
    pub places: bool,
    pub duplicates: Duplicates,
}

/// A store that is written. An error is trouble, in words.
pub trait Store: Send {
    fn begin(&mut self, source: &Source) -> Result<Begun, String>;
    /// Whole or not at all.
    fn write(&mut self, batch: &Batch) -> Result<Written, String>;
    fn finish(&mut self) -> Result<(), String>;
}

/// A game as a store holds it.
#[derive(Clone, Debug, PartialEq, Eq)]
pub struct Held {
    pub source: String,
    pub number: u64,
    pub line: u64,
    pub tags: Vec<(String, String)>,
    pub roll: Vec<u8>,
    /// The moves with the variations, if it was filed with them and has some.
    pub variations: Option<String>,
}

/// What a store holds, for `export` and `games`.
pub trait Shelf {
    /// In the order of sources and numbers.
    fn each(&mut self, each: &mut dyn FnMut(Held) -> Result<(), Stop>) -> Result<(), Stop>;
    /// By places, with the ply. False: the store has no places.
    fn at(&mut self, key: &[u8], each: &mut dyn FnMut(Held, u64) -> Result<(), Stop>) -> Result<bool, Stop>;
}
