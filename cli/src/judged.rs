//! What the archive says about lines, page by page, on as many threads as the machine has for it: a call keeps nothing, and any thread may make it.

use menkhodur::lent::{self, MAX_FEN, Numbers, Record};
use menkhodur::{Error, PageReader};
use std::thread::{self, Builder};

/// Bytes of the shortest key.
const SHORTEST_KEY: usize = 25;

/// Bytes of a page: few enough that its records are still near the processor when their keys are written. Pages one after the other are the
/// page of all, which is proved.
const PAGE: usize = 16_384;

/// The most lines that a page of keys has; one with more lines makes itself room.
const USUAL: usize = PAGE / SHORTEST_KEY;

/// More threads would wait for lines to be read and written, which one does.
const MOST: usize = 4;

/// Lines that were judged: their keys, one after the other, and of each line where its key ends, or the refusal.
pub struct Judged {
    /// Keys are those of settled records.
    settle: bool,
    reader: PageReader,
    keys: Vec<u8>,
    lines: Vec<Line>,
    done: bool,
}

struct Line {
    end: usize,
    cleared: bool,
    refused: Option<Error>,
}

/// The key of an accepted line.
#[derive(Clone, Copy, PartialEq, Eq)]
pub struct Key<'a> {
    pub text: &'a [u8],
    /// The line's record has an en passant file that no pawn can use, and the key is that of the settled record, which has none.
    pub cleared: bool,
}

impl Judged {
    fn new(settle: bool) -> Judged {
        Judged { settle, reader: PageReader::for_lines(USUAL), keys: vec![], lines: vec![], done: false }
    }

    /// The key of each line, or the refusal, in order.
    pub fn answers(&self) -> impl Iterator<Item = Result<Key<'_>, Error>> {
        let mut from = 0;
        self.lines.iter().map(move |line| {
            let key = Key { text: &self.keys[from..line.end], cleared: line.cleared };
            from = line.end;
            line.refused.map_or(Ok(key), Err)
        })
    }

    fn judge(&mut self, text: &[u8]) {
        self.lines.clear();
        let mut left = text;
        while !left.is_empty() {
            let (page, rest) = left.split_at(whole_lines(left, PAGE));
            self.judge_page(page);
            left = rest;
        }
        self.done = true;
    }

    fn judge_page(&mut self, text: &[u8]) {
        let mut end = self.lines.last().map_or(0, |line| line.end);
        let page = self.reader.read(text);
        let room = end + page.len() * MAX_FEN;
        if self.keys.len() < room {
            self.keys.resize(room, 0);
        }
        for (index, (numbers, [number, _])) in page.records().iter().zip(page.numbers()).enumerate() {
            let refused = if *number == 0 { None } else { page.get(index).and_then(Result::err) };
            let mut cleared = false;
            if refused.is_none() {
                let record = if self.settle { settled(numbers) } else { Record::from(*numbers) };
                cleared = record.numbers[EN_PASSANT] != numbers[EN_PASSANT];
                end += key_of(&record, &mut self.keys[end..]);
            }
            self.lines.push(Line { end, cleared, refused });
        }
    }
}

/// Which of its numbers is a record's en passant file, 0 if it has none (HOST-ABI.md).
const EN_PASSANT: usize = 67;

/// The settled record of a line that was accepted. Few have a file, and without one there is none to clear.
pub fn settled(numbers: &Numbers) -> Record {
    let record = Record::from(*numbers);
    if numbers[EN_PASSANT] == 0 { record } else { lent::board_settled(&record).expect("a record that was read has no number out of range") }
}

/// Writes the key of such a record, and gives its length.
pub fn key_of(record: &Record, room: &mut [u8]) -> usize {
    lent::fen_write(record, room).expect("a record that was read has a key, and the room is long enough")
}

/// How many bytes are whole lines from a text's front: as many lines as fit in `about` bytes, or the first.
fn whole_lines(text: &[u8], about: usize) -> usize {
    let newline = |byte: &u8| *byte == b'\n';
    if text.len() <= about {
        return text.len();
    }
    let (front, rest) = text.split_at(about);
    match front.iter().rposition(newline) {
        Some(at) => at + 1,
        None => rest.iter().position(newline).map_or(text.len(), |at| about + at + 1),
    }
}

/// As many as there are threads.
pub struct Judges(Vec<Judged>);

impl Judges {
    /// With `settle`, keys are those of settled records.
    pub fn new(settle: bool) -> Judges {
        let threads = thread::available_parallelism().map_or(1, |threads| threads.get().min(MOST));
        Judges((0..threads).map(|_| Judged::new(settle)).collect())
    }

    /// For the time in which others are at work.
    pub fn none() -> Judges {
        Judges(vec![])
    }

    /// Judges the lines of a text. The parts of the text, whole lines, in order, each with what was judged of it.
    pub fn judge<'a>(&'a mut self, text: &'a [u8]) -> Vec<(&'a [u8], &'a Judged)> {
        let parts = self.parts(text);
        for judged in &mut self.0 {
            judged.done = false;
        }
        thread::scope(|scope| {
            let mut shares = self.0.iter_mut().zip(&parts);
            let own = shares.next();
            for (judged, part) in shares {
                // Where no thread can be had, the part is judged below.
                let _ = Builder::new().spawn_scoped(scope, || judged.judge(part));
            }
            own.map(|(judged, part)| judged.judge(part))
        });
        for (judged, part) in self.0.iter_mut().zip(&parts).filter(|share| !share.0.done) {
            judged.judge(part);
        }
        parts.into_iter().zip(&self.0).collect()
    }

    /// The text in about equal parts, one for each thread, but none of less than a page.
    fn parts<'a>(&self, text: &'a [u8]) -> Vec<&'a [u8]> {
        let mut left = text;
        let count = (text.len() / PAGE).clamp(1, self.0.len());
        let part = |share: usize| {
            let (part, rest) = left.split_at(whole_lines(left, left.len() / share));
            left = rest;
            part
        };
        (1..=count).rev().map(part).collect()
    }
}

#[cfg(test)]
mod tests {
    use super::*;

    #[test]
    fn every_line_is_in_one_part() {
        let judges = Judges((0..4).map(|_| Judged::new(false)).collect());
        for text in [&b""[..], b"\n", b"x", &b"8/8 w - -\n".repeat(10_000), &[b'x'; 100_000], &b"\n".repeat(70_000)] {
            let parts = judges.parts(text);
            assert_eq!(parts.concat(), text);
            assert!(parts.iter().rev().skip(1).all(|part| part.is_empty() || part.ends_with(b"\n") || part.len() == text.len()));
        }
    }

    #[test]
    fn parts_are_answered_as_the_whole() {
        let text = [&b" w - -\n8/8 w -\n\nx x - -\n".repeat(5_000)[..], b"K b - e3"].concat();
        let told = |threads: usize, settle: bool| -> Vec<Result<(Vec<u8>, bool), Error>> {
            let mut judges = Judges((0..threads).map(|_| Judged::new(settle)).collect());
            let judged = judges.judge(&text);
            let answers = judged.iter().flat_map(|(_, judged)| judged.answers());
            answers.map(|answer| answer.map(|key| (key.text.to_vec(), key.cleared))).collect()
        };
        for settle in [false, true] {
            let (one, many) = (told(1, settle), told(4, settle));
            assert_eq!(one.len(), 20_001);
            assert!(one == many);
            assert!(one.last().is_some_and(|last| last.as_ref().is_ok_and(|(_, cleared)| *cleared == settle)));
        }
    }
}
