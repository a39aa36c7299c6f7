//! What is owed for PGN move text, written from document 02, order 8, alone: a descent by its grammar. "A variation holds a
//! sequence and a sequence may hold variations."

/// A move as (start, length, level).
pub type Move = (usize, usize, usize);

/// How a walk ended before its text was done: a result outside brackets, or a refusal with its offset.
enum End {
    Result,
    Refused(u64, usize),
}

struct Descent<'a> {
    text: &'a [u8],
    at: usize,
    moves: Vec<Move>,
    /// The level of the sequence that the descent began in, or has come out to, and that level at the first move.
    outer: usize,
    outer_at_first: usize,
    /// For each move, which move's record it is played from; none for the start.
    from: Vec<Option<usize>>,
}

/// A sequence: which move's record its next move is played from, and which one its variations are.
#[derive(Clone, Copy)]
struct Sequence {
    level: usize,
    now: Option<usize>,
    before: Option<usize>,
}

impl Sequence {
    /// Of a sequence without a move both are what it begins with.
    fn new(level: usize, start: Option<usize>) -> Sequence {
        Sequence { level, now: start, before: start }
    }
}

impl Descent<'_> {
    fn here(&self) -> Option<u8> {
        self.text.get(self.at).copied()
    }

    fn run(&mut self, inside: impl Fn(u8) -> bool) -> usize {
        let from = self.at;
        while self.here().is_some_and(&inside) {
            self.at += 1;
        }
        self.at - from
    }

    /// "results (`1-0`, `0-1`, `1/2-1/2`, `*`, tried before numbers)"
    fn result(&self) -> bool {
        let left = &self.text[self.at..];
        ["1-0", "0-1", "1/2-1/2", "*"].iter().any(|r| left.starts_with(r.as_bytes()))
    }

    /// "brace comments": to the brace, or 21 where there is none.
    fn brace_comment(&mut self) -> Result<(), End> {
        let from = self.at;
        self.run(|b| b != b'}');
        if self.here().is_none() {
            return Err(End::Refused(21, from));
        }
        self.at += 1;
        Ok(())
    }

    /// "`$` and digits"
    fn glyph(&mut self) -> Result<(), End> {
        let from = self.at;
        self.at += 1;
        match self.run(|b| b.is_ascii_digit()) {
            0 => Err(End::Refused(23, from)),
            _ => Ok(()),
        }
    }

    /// "A move .. runs on over letters, digits and `+#=-!?`"
    fn a_move(&mut self, sequence: &mut Sequence) {
        let from = self.at;
        let length = self.run(|b| b.is_ascii_alphabetic() || b.is_ascii_digit() || b"+#=-!?".contains(&b));
        if self.moves.is_empty() {
            self.outer_at_first = self.outer;
        }
        self.from.push(sequence.now);
        (sequence.before, sequence.now) = (sequence.now, Some(self.moves.len()));
        self.moves.push((from, length, sequence.level));
    }

    /// "variations in round brackets .. down to 8 levels"; a variation is played from the record before the last move of the sequence that it stands in.
    fn variation(&mut self, around: &Sequence) -> Result<(), End> {
        let opened = self.at;
        if around.level == 8 {
            return Err(End::Refused(22, opened));
        }
        self.at += 1;
        self.sequence(Sequence::new(around.level + 1, around.before))?;
        if self.here().is_none() {
            return Err(End::Refused(21, opened));
        }
        self.at += 1;
        Ok(())
    }

    /// To the bracket that closes it, which is left there, or to the end.
    fn sequence(&mut self, mut sequence: Sequence) -> Result<(), End> {
        while let Some(b) = self.here() {
            match b {
                b')' => return Ok(()),
                _ if self.result() && sequence.level == 0 => return Err(End::Result),
                _ if self.result() => return Err(End::Refused(23, self.at)),
                b' ' | b'\t' | b'\r' | b'\n' => self.at += 1,
                b'0'..=b'9' => {
                    self.run(|b| b.is_ascii_digit());
                    self.run(|b| b == b'.');
                }
                b'a'..=b'h' | b'N' | b'B' | b'R' | b'Q' | b'K' | b'O' => self.a_move(&mut sequence),
                b'{' => self.brace_comment()?,
                b';' => drop(self.run(|b| b != b'\n')),
                b'$' => self.glyph()?,
                b'(' => self.variation(&sequence)?,
                _ => return Err(End::Refused(23, self.at)),
            }
        }
        Ok(())
    }

    /// "the text is read as if it began there at that level": out of the brackets that were opened before the place.
    fn outward(&mut self, place: usize, level: usize) -> Result<(), End> {
        for level in (0..=level).rev() {
            self.outer = level;
            self.sequence(Sequence::new(level, None))?;
            match (self.here(), level) {
                (None, 0) => return Ok(()),
                (None, _) => return Err(End::Refused(21, place)),
                (Some(_), 0) => return Err(End::Refused(23, self.at)),
                (Some(_), _) => self.at += 1,
            }
        }
        Ok(())
    }
}

/// The moves from a place in text order, and the number and offset of the end.
pub fn walk(text: &[u8], offset: u64, level: u64) -> (Vec<Move>, u64, u64) {
    if level > 8 {
        return (vec![], 22, offset);
    }
    if offset > text.len() as u64 {
        return (vec![], 23, offset);
    }
    let (descent, number, at) = descended(text, offset as usize, level as usize);
    (descent.moves, number, at)
}

fn descended(text: &[u8], offset: usize, level: usize) -> (Descent<'_>, u64, u64) {
    let mut descent = Descent { text, at: offset, moves: vec![], outer: level, outer_at_first: level, from: vec![] };
    match descent.outward(offset, level) {
        Ok(()) | Err(End::Result) => (descent, 0, 0),
        Err(End::Refused(number, at)) => (descent, number, at as u64),
    }
}

/// The brackets between a place and the first move from it: those that the descent came out of, and those that it then went into. 0 and 0 without a move.
pub fn crossed(text: &[u8], offset: u64, level: u64) -> (u64, u64) {
    if level > 8 || offset > text.len() as u64 {
        return (0, 0);
    }
    let (descent, ..) = descended(text, offset as usize, level as usize);
    let outer = descent.outer_at_first as u64;
    descent.moves.first().map_or((0, 0), |&(_, _, at)| (level - outer, at as u64 - outer))
}

/// Which move's record each move of a whole text is played from; none for the start.
pub fn played_from(text: &[u8]) -> Vec<Option<usize>> {
    descended(text, 0, 0).0.from
}

#[test]
fn crosses_and_branches() {
    assert_eq!(crossed(b"e4 (d4 d5) (c4 e5) e5", 9, 1), (1, 1));
    assert_eq!(crossed(b"e4 (d4 d5   c4 e5) e5", 9, 1), (0, 0));
    assert_eq!((crossed(b"e4 () e5", 2, 0), crossed(b"e4 ((d4", 2, 0), crossed(b"e4)) (e5", 2, 2)), ((0, 0), (0, 2), (2, 1)));
    assert_eq!((crossed(b"e4 )", 2, 1), crossed(b"e4", 0, 9), crossed(b"e4", 3, 0)), ((0, 0), (0, 0), (0, 0)));
    assert_eq!(played_from(b"e4 (d4 d5 (Nf6)) (c4) e5 Nf3"), [None, None, Some(1), Some(1), None, Some(0), Some(5)]);
    assert_eq!(played_from(b"e4 e5 ((d5) c5) Nf3"), [None, Some(0), Some(0), Some(0), Some(1)]);
}

#[test]
fn walks() {
    assert_eq!(walk(b"1. e4 (d4 (c4)) e5 1-0 )", 0, 0), (vec![(3, 2, 0), (7, 2, 1), (11, 2, 2), (16, 2, 0)], 0, 0));
    assert_eq!(walk(b"e4 (", 0, 0), (vec![(0, 2, 0)], 21, 3));
    assert_eq!(walk(b"e4 1.", 2, 1), (vec![], 21, 2));
    assert_eq!(walk(b"(((((((((", 0, 0), (vec![], 22, 8));
    assert_eq!(walk(b"10-1", 0, 0), (vec![], 23, 2));
    assert_eq!(walk(b"e4", 3, 9), (vec![], 22, 3));
}
