//! Games in a PGN file: where each begins and ends. Tag pairs and lines that begin with `%` are passed over here; what is said of a
//! game's move text is the archive's.

use crate::options::Stop;

/// A game as it stands in a file.
#[derive(Default)]
pub struct Game {
    /// The line of its first tag pair or, if it has none, of its first token that is no comment, or else of its text.
    pub line: u64,
    /// The line in which the move text begins. From there on its lines are those of the file, with what is no move text blank.
    pub text_line: u64,
    pub text: Vec<u8>,
    /// How many bytes stand before the move text in its first line, and the last of them.
    pub before: usize,
    pub front: Vec<u8>,
    /// Whether tag pairs stand before it, and whether more than comments is in it.
    pub tagged: bool,
    pub tokens: bool,
    /// The tag pairs as they stand, each with a newline, if they are wanted; and where each begins, its line and how many bytes stand before it.
    pub tags: Vec<u8>,
    pub tag_places: Vec<(u64, usize)>,
    /// The result that ends it.
    pub result: Option<&'static str>,
    /// Whether the file has ended before it has.
    pub cut: bool,
    /// The line with which it was too large to be kept.
    pub large: Option<u64>,
    /// Whether its text has begun.
    worded: bool,
    /// Whether it has an Event tag.
    event: bool,
}

impl Game {
    fn begun(&self) -> bool {
        self.tagged || self.worded
    }

    fn begin(&mut self, number: u64, line: &[u8], at: usize) {
        if !self.begun() {
            self.line = number;
        }
        (self.worded, self.text_line, self.before) = (true, number, at);
        self.front = line[at.saturating_sub(FRONT)..at].to_vec();
    }

    /// Adds to its text, unless that is too large then.
    fn keep(&mut self, number: u64, bytes: &[u8], limit: usize) {
        let held = self.text.len() + self.tags.len();
        if self.large.is_some() || held + bytes.len() > limit || self.text.try_reserve(bytes.len()).is_err() {
            return self.give_up(number);
        }
        self.text.extend(bytes);
    }

    /// The same for a tag pair.
    fn keep_tag(&mut self, (number, at): (u64, usize), tag: &[u8], limit: usize) {
        let held = self.text.len() + self.tags.len();
        let full = self.large.is_some() || held + tag.len() >= limit;
        if full || self.tags.try_reserve(tag.len() + 1).is_err() || self.tag_places.try_reserve(1).is_err() {
            return self.give_up(number);
        }
        self.tags.extend(tag);
        self.tags.push(b'\n');
        self.tag_places.push((number, at));
    }

    /// The tag pairs that are kept, as they stand.
    pub fn tag_pairs(&self) -> impl Iterator<Item = &[u8]> {
        self.tags.strip_suffix(b"\n").map(|tags| tags.split(|byte| *byte == b'\n')).into_iter().flatten()
    }

    fn give_up(&mut self, number: u64) {
        self.large.get_or_insert(number);
        self.text = vec![];
    }
}

/// Cuts lines into games: one ends with its result or at the next tag pairs.
pub struct Games {
    game: Game,
    scan: Scan,
    /// The most bytes that are kept of a game, and whether its tag pairs are.
    limit: usize,
    tags: bool,
}

/// What is done with a game.
pub type Each<'a> = &'a mut dyn FnMut(&Game) -> Result<(), Stop>;

/// How much is kept of what stands before a move text in its line: many games may stand in one line.
const FRONT: usize = 128;

const MARK: &[u8] = b"\xef\xbb\xbf";

/// Tag pairs of a new game end a comment that was left open, so that one bad game does not hide those behind it.
const FIRST_TAG: &[u8] = b"[Event \"";

impl Games {
    pub fn new(limit: usize, tags: bool) -> Games {
        Games { game: Game::default(), scan: Scan::default(), limit, tags }
    }

    /// The next line of the file, without its newline.
    pub fn line(&mut self, number: u64, line: &[u8], each: Each<'_>) -> Result<(), Stop> {
        let at = marked(line);
        let first_tag = line[at..].trim_ascii_start().starts_with(FIRST_TAG);
        let outside = !self.scan.comment || first_tag;
        match line.get(at) {
            Some(b'%') if outside => {
                self.newline(number);
                return Ok(());
            }
            Some(b'[') if outside && self.game.worded => self.end(None, each)?,
            _ if first_tag && self.game.worded => self.end(None, each)?,
            _ => {}
        }
        if self.game.worded {
            self.game.keep(number, &b"   "[..at], self.limit);
        }
        self.words(number, line, at, each)
    }

    /// A line that is too long: its game cannot be judged.
    pub fn long(&mut self, number: u64) {
        self.scan = Scan::default();
        if !self.game.worded {
            self.game.begin(number, b"", 0);
        }
        self.game.give_up(number);
    }

    /// The end of a file ends its last game.
    pub fn finish(&mut self, each: Each<'_>) -> Result<(), Stop> {
        if self.game.begun() {
            self.game.cut = true;
            self.end(None, each)?;
        }
        self.forget();
        Ok(())
    }

    /// What was begun is not whole.
    pub fn forget(&mut self) {
        *self = Games::new(self.limit, self.tags);
    }

    fn end(&mut self, result: Option<&'static str>, each: Each<'_>) -> Result<(), Stop> {
        let mut game = std::mem::take(&mut self.game);
        (game.tokens, game.result) = (self.scan.tokens, result);
        self.scan = Scan::default();
        each(&game)?;
        // Its room is kept for the next one.
        game.text.clear();
        game.tags.clear();
        game.tag_places.clear();
        self.game = Game { text: game.text, tags: game.tags, tag_places: game.tag_places, ..Game::default() };
        Ok(())
    }

    /// A line of move text from a column on.
    fn words(&mut self, number: u64, line: &[u8], mut at: usize, each: Each<'_>) -> Result<(), Stop> {
        loop {
            if !self.game.worded {
                at = self.tags(number, line, at, each)?;
                if at == line.len() {
                    return Ok(());
                }
                self.game.begin(number, line, at);
            }
            let comments = !self.scan.tokens;
            let (length, met) = self.scan.line(&line[at..]);
            if comments && self.scan.tokens && !self.game.tagged && self.game.large.is_none() {
                self.game.line = number;
            }
            self.game.keep(number, &line[at..at + length], self.limit);
            at += length;
            match met {
                Met::Nothing => break,
                Met::Result(result) => self.end(Some(result), each)?,
                Met::Tag => self.end(None, each)?,
            }
        }
        self.newline(number);
        Ok(())
    }

    /// Passes over blanks, marks and tag pairs, and tells where they end. A bracket that begins a line, or stands behind a tag pair, can be
    /// nothing else, whatever is in it.
    fn tags(&mut self, number: u64, line: &[u8], from: usize, each: Each<'_>) -> Result<usize, Stop> {
        let mut at = from;
        loop {
            let next = at + blank(&line[at..]);
            let is_bracket = line.get(next) == Some(&b'[');
            if !is_bracket || next > marked(line) && at == from && !is_tag(&line[next..]) {
                return Ok(next);
            }
            at = next + bracket_end(&line[next..]);
            self.tag((number, next), &line[next..at], each)?;
        }
    }

    /// A tag pair. No game has two Event tags: the second is that of the next, if the first has no text.
    fn tag(&mut self, place: (u64, usize), tag: &[u8], each: Each<'_>) -> Result<(), Stop> {
        let is_event = named(tag).is_some_and(|(name, _)| name == b"Event");
        if is_event && self.game.event {
            self.end(None, each)?;
        }
        if !self.game.tagged {
            (self.game.tagged, self.game.line) = (true, place.0);
        }
        self.game.event |= is_event;
        if self.tags && is_tag(tag) {
            self.game.keep_tag(place, tag, self.limit);
        }
        Ok(())
    }

    fn newline(&mut self, number: u64) {
        if self.game.worded {
            self.game.keep(number, b"\n", self.limit);
        }
    }
}

/// How many bytes a byte order mark takes at the front of a line: 3, or none.
fn marked(line: &[u8]) -> usize {
    if line.starts_with(MARK) { MARK.len() } else { 0 }
}

/// How many bytes at the front of a text are blanks and byte order marks.
fn blank(text: &[u8]) -> usize {
    let mut at = 0;
    loop {
        match text.get(at) {
            Some(byte) if byte.is_ascii_whitespace() => at += 1,
            Some(_) if text[at..].starts_with(MARK) => at += MARK.len(),
            _ => return at,
        }
    }
}

/// The name of the tag pair that a text begins with, and where its value begins, behind a quote.
fn named(text: &[u8]) -> Option<(&[u8], usize)> {
    let blank = |byte: u8| byte.is_ascii_whitespace();
    let name = run(text.strip_prefix(b"[")?, 0, blank) + 1;
    let end = run(text, name, |byte| byte.is_ascii_alphanumeric() || byte == b'_');
    let quote = run(text, end, blank);
    (end > name && text.get(quote) == Some(&b'"')).then(|| (&text[name..end], quote + 1))
}

fn is_tag(text: &[u8]) -> bool {
    named(text).is_some()
}

/// The name and the value of a tag pair. Not every file has a backslash before a quote in a value: it ends with the last quote.
pub fn parts(tag: &[u8]) -> Option<(&[u8], &[u8])> {
    placed(tag).map(|(name, _, value)| (name, value))
}

/// The same, with the value's place in the tag pair.
pub fn placed(tag: &[u8]) -> Option<(&[u8], usize, &[u8])> {
    let (name, from) = named(tag)?;
    let value = &tag[from..];
    Some((name, from, &value[..value.iter().rposition(|byte| *byte == b'"').unwrap_or(value.len())]))
}

/// What a value says: in it a backslash stands before a quote and before another backslash.
pub fn unquoted(value: &[u8]) -> Vec<u8> {
    let mut plain = vec![];
    let mut bytes = value.iter().copied().peekable();
    while let Some(byte) = bytes.next() {
        let escaped = if byte == b'\\' { bytes.next_if(|next| b"\"\\".contains(next)) } else { None };
        plain.push(escaped.unwrap_or(byte));
    }
    plain
}

/// Where the quote ends that a text begins in; a backslash takes the byte behind it with it.
fn quote_end(text: &[u8]) -> usize {
    let mut at = 0;
    while let Some(byte) = text.get(at) {
        match byte {
            b'\\' => at += 2,
            b'"' => return at,
            _ => at += 1,
        }
    }
    text.len()
}

/// Where the bracket ends that a text begins with; one in quotes ends none, and one that is not closed takes the whole line.
fn bracket_end(text: &[u8]) -> usize {
    let mut at = 1;
    while let Some(byte) = text.get(at) {
        match byte {
            b'"' => at += quote_end(&text[at + 1..]) + 2,
            b']' => return at + 1,
            _ => at += 1,
        }
    }
    text.len()
}

/// Looks for what ends a game, as far as lines have come: a result outside brackets and comments, or a tag pair outside comments.
#[derive(Default)]
struct Scan {
    comment: bool,
    depth: usize,
    tokens: bool,
}

/// What a part of a line ends with.
#[derive(Debug, PartialEq, Eq)]
enum Met {
    Nothing,
    Result(&'static str),
    /// It ends before a tag pair, and before a mark that stands before one.
    Tag,
}

const RESULTS: [&str; 4] = ["1-0", "0-1", "1/2-1/2", "*"];

fn run(line: &[u8], at: usize, inside: impl Fn(u8) -> bool) -> usize {
    line[at..].iter().position(|byte| !inside(*byte)).map_or(line.len(), |more| at + more)
}

impl Scan {
    /// How much of a line is of this game, and what ends it there.
    fn line(&mut self, line: &[u8]) -> (usize, Met) {
        let mut at = 0;
        while let Some(byte) = line.get(at) {
            if self.comment {
                at = run(line, at, |byte| byte != b'}');
                self.comment = at == line.len();
                at += usize::from(!self.comment);
                continue;
            }
            match byte {
                b' ' | b'\t' | b'\r' => at += 1,
                b'{' => (self.comment, at) = (true, at + 1),
                b';' => break,
                b'[' if is_tag(&line[at..]) => return (at, Met::Tag),
                0xef if line[at..].starts_with(MARK) => {
                    let behind = at + blank(&line[at..]);
                    if is_tag(&line[behind..]) {
                        return (at, Met::Tag);
                    }
                    (self.tokens, at) = (true, behind);
                }
                _ => {
                    self.tokens = true;
                    let end = self.token(line, at);
                    let result = RESULTS.iter().find(|result| self.depth == 0 && result.as_bytes() == &line[at..end]);
                    if let Some(result) = result {
                        return (end, Met::Result(result));
                    }
                    at = end;
                }
            }
        }
        (line.len(), Met::Nothing)
    }

    /// Where a token ends. One that is unknown has one byte: what is wrong with it, the archive tells.
    fn token(&mut self, line: &[u8], at: usize) -> usize {
        let left = &line[at..];
        match left[0] {
            b'(' => self.depth += 1,
            b')' => self.depth = self.depth.saturating_sub(1),
            b'a'..=b'h' | b'N' | b'B' | b'R' | b'Q' | b'K' | b'O' => {
                return run(line, at, |byte| byte.is_ascii_alphanumeric() || b"+#=-!?".contains(&byte));
            }
            b'$' => return run(line, at + 1, |byte| byte.is_ascii_digit()),
            b'0'..=b'9' | b'*' => {
                let result = RESULTS.iter().find(|result| left.starts_with(result.as_bytes()));
                return result.map_or_else(|| run(line, at, |byte| byte.is_ascii_digit()), |result| at + result.len());
            }
            _ => {}
        }
        at + 1
    }
}

#[cfg(test)]
mod tests {
    use super::*;

    const MOST: usize = 1_000;

    fn cut(file: &str) -> Vec<(u64, u64, String)> {
        let (mut games, mut all) = (Games::new(MOST, false), vec![]);
        let mut each = |game: &Game| {
            assert_eq!((game.large, game.front.len()), (None, game.before));
            all.push((game.line, game.text_line, String::from_utf8_lossy(&[&game.front[..], &game.text].concat()).into_owned()));
            Ok(())
        };
        for (index, line) in file.lines().enumerate() {
            games.line(index as u64 + 1, line.as_bytes(), &mut each).unwrap();
        }
        games.finish(&mut each).unwrap();
        all
    }

    #[test]
    fn a_game_ends_with_its_result_or_at_the_next_tag_pairs() {
        let file = "[Event \"a\"]\n[Site \"]\"]\n\n1. e4 1-0 1. d4\n[Event \"b\"] 1. c4\n\n(1. f4 1-0) *";
        let owed = [(1, 4, "1. e4 1-0"), (4, 4, "1. e4 1-0 1. d4\n"), (5, 5, "[Event \"b\"] 1. c4\n\n(1. f4 1-0) *")];
        assert_eq!(cut(file), owed.map(|(line, text_line, text)| (line, text_line, text.to_string())));
    }

    #[test]
    fn what_is_in_comments_moves_and_percent_lines_ends_nothing() {
        let file = "e4 {1-0\n[Site \"x\"]\n} a1-0 ; *\n% 1-0\n0-1";
        assert_eq!(cut(file), [(1, 1, "e4 {1-0\n[Site \"x\"]\n} a1-0 ; *\n\n0-1".to_string())]);
        assert_eq!(cut("e4 {open\n[Event \"b\"]\n\nd4 *").len(), 2);
        assert_eq!(cut("e4 {open\n \t[Event \"b\"]\n\nd4 *").len(), 2);
        assert_eq!(cut("e4 {open [Event \"b\"]\n\nd4 } *").len(), 1);
        assert_eq!(cut("\u{feff}[Event \"b\"]\n\nd4 *"), [(1, 3, "d4 *".to_string())]);
    }

    #[test]
    fn a_tag_pair_is_one_wherever_it_stands() {
        let games = |file: &str| cut(file).iter().map(|game| game.2.trim_end().to_string()).collect::<Vec<_>>();
        for between in ["[", "\n[", "\u{feff}[", "\n\u{feff}[", "  [", "\n \t[", " [ ", "\u{feff} ["] {
            assert_eq!(games(&format!("e4 1-0{between}Event \"b\"]\nd4 *")), ["e4 1-0", "d4 *"], "{between}");
            assert_eq!(games(&format!("e4 (e5{between}Event\"b\"]\nd4 *")).last().unwrap(), "d4 *", "{between}");
            assert_eq!(cut(&format!("[A \"a\"]{between}B \"b\"]\nd4 *"))[0].0, 1, "{between}");
        }
        // What is no tag pair is the archive's to refuse.
        assert_eq!(games("e4 [%clk 1:00] e5\n  [x]\nd4 *"), ["e4 [%clk 1:00] e5\n  [x]\nd4 *"]);
    }

    #[test]
    fn a_second_event_begins_a_game() {
        assert_eq!(cut("[Event \"a\"]\n[Site \"a\"]\n[Event \"b\"]\nd4 *").iter().map(|game| game.0).collect::<Vec<_>>(), [1, 3]);
        assert_eq!(cut("[Site \"a\"]\n[Event \"a\"]\nd4 *").len(), 1);
    }

    #[test]
    fn tag_pairs_end_behind_their_last_bracket() {
        let end = |line: &str| Games::new(MOST, false).tags(1, line.as_bytes(), 0, &mut |_| Ok(())).unwrap();
        assert_eq!((end("[A \"x\"] [B \"\\\"]\"] e4"), end("[A \"x\"][B] e4")), (18, 11));
        assert_eq!((end("[A \"x\"] "), end("[A \"x"), end("[A]"), end(" [A]"), end("[A \"\\")), (8, 5, 3, 1, 5));
    }

    #[test]
    fn a_game_over_the_limit_is_given_up_and_the_next_is_cut() {
        let (mut games, mut all) = (Games::new(10, true), vec![]);
        let mut each = |game: &Game| {
            all.push((game.line, game.large, game.text.len(), game.result));
            Ok(())
        };
        for (index, line) in ["d4", "{12345", "6}", "*", "e4 e5 e6", "*", "[A \"1234\"]", "*"].iter().enumerate() {
            games.line(index as u64 + 1, line.as_bytes(), &mut each).unwrap();
        }
        games.long(9);
        games.line(10, b"c4 *", &mut each).unwrap();
        assert_eq!(all, [(1, Some(3), 0, Some("*")), (5, None, 10, Some("*")), (7, Some(7), 0, Some("*")), (9, Some(9), 0, Some("*"))]);
    }
}
