//! The same walk as `menkhodur_pgn_check` and `menkhodur_pgn_next`, in plain safe Rust, as one would write it who has no proofs:
//! sequence and variation call each other, and a walk either counts the moves or stops at the first.

pub type Refusal = (u64, usize);

enum Step {
    Found { start: usize, length: usize, level: usize },
    Closed(usize),
    Result,
    End,
}

struct Walker<'a> {
    text: &'a [u8],
    moves: usize,
    stop: bool,
}

fn in_move(b: u8) -> bool {
    b.is_ascii_alphanumeric() || matches!(b, b'+' | b'#' | b'=' | b'-' | b'!' | b'?')
}

fn run(text: &[u8], at: usize, inside: impl Fn(u8) -> bool) -> usize {
    text[at..].iter().position(|&b| !inside(b)).map_or(text.len(), |n| at + n)
}

fn is_result(left: &[u8]) -> bool {
    left[0] == b'*' || left.starts_with(b"1-0") || left.starts_with(b"0-1") || left.starts_with(b"1/2-1/2")
}

impl Walker<'_> {
    fn sequence(&mut self, mut at: usize, level: usize) -> Result<Step, Refusal> {
        let text = self.text;
        while let Some(&b) = text.get(at) {
            match b {
                b' ' | b'\t' | b'\r' | b'\n' => at += 1,
                b'a'..=b'h' | b'N' | b'B' | b'R' | b'Q' | b'K' | b'O' => {
                    let end = run(text, at + 1, in_move);
                    if self.stop {
                        return Ok(Step::Found { start: at, length: end - at, level });
                    }
                    self.moves += 1;
                    at = end;
                }
                b'{' => match text[at..].iter().position(|&b| b == b'}') {
                    Some(n) => at += n + 1,
                    None => return Err((21, at)),
                },
                b';' => at = run(text, at, |b| b != b'\n'),
                b'$' => {
                    let end = run(text, at + 1, |b| b.is_ascii_digit());
                    if end == at + 1 {
                        return Err((23, at));
                    }
                    at = end;
                }
                b'(' if level == 8 => return Err((22, at)),
                b'(' => match self.sequence(at + 1, level + 1)? {
                    Step::Closed(end) => at = end + 1,
                    Step::End => return Err((21, at)),
                    found => return Ok(found),
                },
                b')' => return Ok(Step::Closed(at)),
                b'0'..=b'9' | b'*' => {
                    if is_result(&text[at..]) {
                        return if level == 0 { Ok(Step::Result) } else { Err((23, at)) };
                    }
                    at = run(text, at, |b| b.is_ascii_digit());
                    at = run(text, at, |b| b == b'.');
                }
                _ => return Err((23, at)),
            }
        }
        Ok(Step::End)
    }

    fn outward(&mut self, offset: usize, level: usize) -> Result<Option<(usize, usize, usize)>, Refusal> {
        let mut at = offset;
        for level in (0..=level).rev() {
            match self.sequence(at, level)? {
                Step::Found { start, length, level } => return Ok(Some((start, length, level))),
                Step::Closed(end) if level == 0 => return Err((23, end)),
                Step::Closed(end) => at = end + 1,
                Step::End if level > 0 => return Err((21, offset)),
                Step::Result | Step::End => return Ok(None),
            }
        }
        Ok(None)
    }
}

pub fn check(text: &[u8]) -> Result<usize, Refusal> {
    let mut walker = Walker { text, moves: 0, stop: false };
    walker.outward(0, 0)?;
    Ok(walker.moves)
}

/// The next move as (start, length, level).
pub fn next(text: &[u8], offset: usize, level: usize) -> Result<Option<(usize, usize, usize)>, Refusal> {
    if level > 8 {
        return Err((22, offset));
    }
    if offset > text.len() {
        return Err((23, offset));
    }
    Walker { text, moves: 0, stop: true }.outward(offset, level)
}
