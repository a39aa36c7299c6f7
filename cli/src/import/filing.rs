//! Games on their way to a store: cut again and passed over if they are done, else gathered into batches.

use super::digest;
use super::store::{Batch, Begun, Filed, Refused, Source};
use super::tally::Tally;
use super::writer::{Committed, Load, Writer};
use crate::games::Game;
use crate::input;
use crate::options::Stop;
use std::ffi::OsStr;
use std::os::unix::ffi::OsStrExt;
use std::sync::Arc;

/// How many bytes of tag pairs, rolls and variations a batch may have, however few its positions are.
const MOST_BYTES: usize = 1 << 25;

/// What a tag pair takes beside its own bytes.
const TAG_BYTES: usize = 128;

pub struct Filing {
    writer: Writer,
    /// After so many positions a batch is sent.
    most: u64,
    name: Arc<[u8]>,
    /// Where an earlier run has stopped, which games were cut, and which of them are judged: how many, and the running digest over them.
    begun: Begun,
    cut: Begun,
    judged: Begun,
    load: Gathered,
}

/// A batch in the making.
#[derive(Default)]
struct Gathered {
    games: Vec<Filed>,
    refused: Vec<Refused>,
    counted: Tally,
    positions: u64,
    bytes: usize,
}

impl Filing {
    pub fn new(writer: Writer, most: u64) -> Filing {
        let name = Arc::from(&b""[..]);
        let none = Begun::default();
        Filing { writer, most, name, begun: none, cut: none, judged: none, load: Gathered::default() }
    }

    /// Begins an input.
    pub fn begin(&mut self, name: &[u8], source: Source) -> Result<(), Stop> {
        (self.name, self.cut) = (Arc::from(name), Begun::default());
        self.begun = self.writer.begin(source)?;
        self.judged = self.begun;
        Ok(())
    }

    /// Takes note of the next game. Answers whether an earlier run was done with it.
    pub fn passes(&mut self, game: &Game) -> Result<bool, Stop> {
        self.cut = Begun { done: self.cut.done + 1, digest: digest::running(self.cut.digest, game) };
        if self.cut.done == self.begun.done && self.cut.digest != self.begun.digest {
            return Err(self.changed("the games that were filed from it are no longer the same"));
        }
        Ok(self.cut.done <= self.begun.done)
    }

    /// The game that was noted last is to be filed.
    pub fn file(&mut self, game: Filed, counted: &Tally) {
        let tags: usize = game.tags.iter().map(|(name, value)| name.len() + value.len() + TAG_BYTES).sum();
        self.load.positions += game.keys.len() as u64;
        self.load.bytes += tags + game.roll.len() + game.variations.as_ref().map_or(0, String::len);
        self.load.counted.add(counted);
        self.load.games.push(game);
        self.judged = self.cut;
    }

    /// The game that was noted last is refused.
    pub fn refuse(&mut self, refused: Refused) {
        self.load.bytes += refused.text.len() + TAG_BYTES;
        self.load.refused.push(refused);
        self.judged = self.cut;
    }

    /// Whether the batch has grown so large that it is to be sent.
    pub fn is_full(&self) -> bool {
        self.load.positions >= self.most || self.load.bytes >= MOST_BYTES
    }

    /// Sends what is gathered.
    pub fn send(&mut self, ended: bool) -> Result<(), Stop> {
        let Gathered { games, refused, counted, .. } = std::mem::take(&mut self.load);
        let batch = Batch { games, refused, done: self.judged.done, digest: self.judged.digest, ended };
        self.writer.write(Load { name: self.name.clone(), batch, counted })
    }

    /// The input has ended, or could not be read any further.
    pub fn end(&mut self, whole: bool) -> Result<(), Stop> {
        let fewer = self.cut.done < self.begun.done;
        match whole {
            true if fewer => Err(self.changed("it has fewer games than were filed from it")),
            true => self.send(true),
            false if self.judged == self.begun => Ok(()),
            false => self.send(false),
        }
    }

    /// What commits have told since this was asked last.
    pub fn filed(&mut self) -> Result<Vec<Committed>, Stop> {
        self.writer.filed()
    }

    /// Waits until all that was sent is filed. What is still gathered is not.
    pub fn finish(&mut self) -> Result<(), Stop> {
        self.writer.finish()
    }

    fn changed(&self, how: &str) -> Stop {
        let told = format!(": {how}; file it under another name, or into another store");
        Stop::Trouble([input::shown(OsStr::from_bytes(&self.name)), told.as_bytes()].concat())
    }
}
