//! Sets of squares, a bit for each from a1, and what a man reaches from a square; the tables are made by the compiler.

/// A set of squares.
pub type Set = u64;

/// The squares of a set, in rising order.
#[inline]
pub fn each(mut set: Set) -> impl Iterator<Item = usize> {
    std::iter::from_fn(move || {
        if set == 0 {
            return None;
        }
        let square = set.trailing_zeros() as usize;
        set &= set - 1;
        Some(square)
    })
}

#[inline]
pub fn one(square: usize) -> Set {
    1 << square
}

#[inline]
pub fn has(set: Set, square: usize) -> bool {
    set >> square & 1 == 1
}

/// The squares of the rank from 0 to 7.
#[inline]
pub const fn rank(rank: usize) -> Set {
    0xff << (8 * rank)
}

/// The square so many files and ranks away, if it is on the board.
const fn away(square: usize, files: i32, ranks: i32) -> Set {
    let (file, rank) = (square as i32 % 8 + files, square as i32 / 8 + ranks);
    if file >= 0 && file < 8 && rank >= 0 && rank < 8 { 1 << (8 * rank + file) } else { 0 }
}

/// For each square the squares that lie away from it as told.
const fn leaps<const N: usize>(ways: [(i32, i32); N]) -> [Set; 64] {
    let mut table = [0; 64];
    let mut at = 0;
    while at < 64 * N {
        let (files, ranks) = ways[at % N];
        table[at / N] |= away(at / N, files, ranks);
        at += 1;
    }
    table
}

pub static KNIGHT: [Set; 64] = leaps([(1, 2), (2, 1), (2, -1), (1, -2), (-1, -2), (-2, -1), (-2, 1), (-1, 2)]);
pub static KING: [Set; 64] = leaps([(0, 1), (1, 1), (1, 0), (1, -1), (0, -1), (-1, -1), (-1, 0), (-1, 1)]);
/// What a pawn of each side attacks.
pub static PAWN: [[Set; 64]; 2] = [leaps([(-1, 1), (1, 1)]), leaps([(-1, -1), (1, -1)])];

/// A line through a square: its squares of lower and of higher numbers.
#[derive(Clone, Copy)]
struct Line {
    below: Set,
    above: Set,
}

/// The squares from here to the board's edge.
const fn ray(square: usize, files: i32, ranks: i32) -> Set {
    let (mut set, mut steps) = (0, 1);
    while steps < 8 {
        set |= away(square, steps * files, steps * ranks);
        steps += 1;
    }
    set
}

/// The lines through each square on which a man goes on so many files and ranks a step, and as many back.
const fn lines(files: i32, ranks: i32) -> [Line; 64] {
    let mut table = [Line { below: 0, above: 0 }; 64];
    let mut square = 0;
    while square < 64 {
        table[square] = Line { below: ray(square, -files, -ranks), above: ray(square, files, ranks) };
        square += 1;
    }
    table
}

static RANKS: [Line; 64] = lines(1, 0);
static FILES: [Line; 64] = lines(0, 1);
static RISING: [Line; 64] = lines(1, 1);
static FALLING: [Line; 64] = lines(-1, 1);

/// The squares of a line that are seen from its square: up to the nearest man on either side, and his.
#[inline]
fn seen(line: Line, all: Set) -> Set {
    // With the nearest man below subtracted from the men above, every bit from his to that of the nearest above changes, and no other.
    // Where there is no man below, the bit of a1 stands for him.
    let (below, above) = (line.below & all, line.above & all);
    let nearest = 1 << (63 - (below | 1).leading_zeros());
    (above ^ above.wrapping_sub(nearest)) & (line.below | line.above)
}

#[inline]
pub fn straight(square: usize, all: Set) -> Set {
    seen(RANKS[square], all) | seen(FILES[square], all)
}

#[inline]
pub fn diagonal(square: usize, all: Set) -> Set {
    seen(RISING[square], all) | seen(FALLING[square], all)
}

/// The squares between two squares of a line; none if they are not on one.
pub static BETWEEN: [[Set; 64]; 64] = betweens();

const fn betweens() -> [[Set; 64]; 64] {
    let mut table = [[0; 64]; 64];
    let mut at = 0;
    while at < 64 * 9 {
        let (square, files, ranks) = (at / 9, at as i32 % 3 - 1, at as i32 / 3 % 3 - 1);
        if files != 0 || ranks != 0 {
            between_along(&mut table[square], square, files, ranks);
        }
        at += 1;
    }
    table
}

const fn between_along(row: &mut [Set; 64], square: usize, files: i32, ranks: i32) {
    let (mut passed, mut steps) = (0, 1);
    while steps < 8 {
        let next = away(square, steps * files, steps * ranks);
        if next != 0 {
            row[next.trailing_zeros() as usize] = passed;
        }
        passed |= next;
        steps += 1;
    }
}

#[cfg(test)]
mod tests {
    use super::*;

    /// The squares of a text.
    fn set(text: &str) -> Set {
        let square = |name: &[u8]| usize::from(name[0] - b'a') + 8 * usize::from(name[1] - b'1');
        text.split_whitespace().map(|name| one(square(name.as_bytes()))).sum()
    }

    #[test]
    fn men_that_leap() {
        assert_eq!((KNIGHT[0], KNIGHT[63], KNIGHT[28]), (set("b3 c2"), set("f7 g6"), set("c3 c5 d2 d6 f2 f6 g3 g5")));
        assert_eq!((KING[0], KING[31], KING[28]), (set("a2 b1 b2"), set("g3 g4 g5 h3 h5"), set("d3 d4 d5 e3 e5 f3 f4 f5")));
        assert_eq!((PAWN[0][8], PAWN[0][28], PAWN[0][60]), (set("b3"), set("d5 f5"), 0));
        assert_eq!((PAWN[1][15], PAWN[1][28], PAWN[1][4]), (set("g1"), set("d3 f3"), 0));
    }

    #[test]
    fn men_that_slide() {
        let alone = one(28);
        assert_eq!(straight(28, alone), set("e1 e2 e3 e5 e6 e7 e8 a4 b4 c4 d4 f4 g4 h4"));
        assert_eq!(diagonal(28, alone), set("b1 c2 d3 f5 g6 h7 a8 b7 c6 d5 f3 g2 h1"));
        assert_eq!(straight(28, set("e2 e1 e6 e8 d4 h4 a1 h8")), set("e2 e3 e5 e6 d4 f4 g4 h4"));
        assert_eq!(diagonal(28, set("c2 b1 h7 d5 a8 h1 a1 h8")), set("c2 d3 f5 g6 h7 d5 f3 g2 h1"));
        assert_eq!((straight(0, !0), diagonal(63, !0)), (set("a2 b1"), set("g7")));
    }

    /// Step by step, as a man would go.
    #[test]
    fn sliding_is_going_step_by_step() {
        let mut numbers = 88_172_645_463_325_252_u64;
        for turn in 0..20_000 {
            numbers ^= numbers << 13;
            numbers ^= numbers >> 7;
            numbers ^= numbers << 17;
            let (square, all) = (turn % 64, numbers & numbers.rotate_left(21));
            let go = |(files, ranks): (i32, i32)| {
                let mut ways = (1..8).map(|steps| away(square, steps * files, steps * ranks));
                let until = ways.clone().position(|to| to & all != 0).unwrap_or(7);
                ways.by_ref().take(until + 1).fold(0, |set, to| set | to)
            };
            assert_eq!(straight(square, all), [(0, 1), (1, 0), (0, -1), (-1, 0)].into_iter().map(go).sum());
            assert_eq!(diagonal(square, all), [(1, 1), (1, -1), (-1, -1), (-1, 1)].into_iter().map(go).sum());
        }
    }

    #[test]
    fn squares_between() {
        assert_eq!((BETWEEN[0][63], BETWEEN[63][0]), (set("b2 c3 d4 e5 f6 g7"), set("b2 c3 d4 e5 f6 g7")));
        assert_eq!((BETWEEN[4][60], BETWEEN[7][56], BETWEEN[24][31]), (rank_line("e"), set("g2 f3 e4 d5 c6 b7"), set("b4 c4 d4 e4 f4 g4")));
        assert_eq!((BETWEEN[0][1], BETWEEN[0][10], BETWEEN[0][0]), (0, 0, 0));
    }

    fn rank_line(file: &str) -> Set {
        (2..8).map(|rank| set(&format!("{file}{rank}"))).sum()
    }

    #[test]
    fn sets_of_squares() {
        assert_eq!(each(set("h8 a1 e4")).collect::<Vec<_>>(), [0, 28, 63]);
        assert_eq!((each(0).count(), each(!0).count(), rank(3)), (0, 64, set("a4 b4 c4 d4 e4 f4 g4 h4")));
        assert!(has(one(63), 63) && !has(one(63), 62));
    }
}
