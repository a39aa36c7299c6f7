//! The legal moves that one text can mean: from its destination back to the men who come from there.

use crate::men::Men;
use crate::squares::{KING, KNIGHT, PAWN, Set, diagonal, each, has, one, rank, straight};
use crate::text::{Kind, Meant};
use menkhodur::{Error, Lent};

pub fn list(men: &Men, meant: Meant, into: &mut Lent) -> Result<(), Error> {
    match meant {
        Meant::Nothing => Ok(()),
        Meant::ShortCastling => castling(men, men.home() + 2, into),
        Meant::LongCastling => castling(men, men.home() - 2, into),
        Meant::Goes(Kind::Pawn, to) => pawns(men, to, into),
        Meant::Goes(kind, to) => put(into, pieces(men, kind, to), to, 0),
    }
}

fn castling(men: &Men, to: usize, into: &mut Lent) -> Result<(), Error> {
    if has(men.castlings(), to) { put(into, one(men.home()), to, 0) } else { Ok(()) }
}

/// The squares from which men of a kind may go to a square.
fn pieces(men: &Men, kind: Kind, to: usize) -> Set {
    if !has(men.ends(), to) {
        return 0;
    }
    let sources = match kind {
        Kind::Pawn => 0,
        Kind::Knight => KNIGHT[to] & men.own.knights,
        Kind::Bishop => diagonal(to, men.all) & men.own.bishops,
        Kind::Rook => straight(to, men.all) & men.own.rooks,
        Kind::Queen => (diagonal(to, men.all) | straight(to, men.all)) & men.own.queens,
        Kind::King => KING[to] & men.own.kings,
    };
    let castled = kind == Kind::King && to.abs_diff(men.home()) == 2 && has(men.castlings(), to);
    safe(men, sources, to) | if castled { one(men.home()) } else { 0 }
}

fn pawns(men: &Men, to: usize, into: &mut Lent) -> Result<(), Error> {
    if !has(men.ends(), to) {
        return Ok(());
    }
    let sources = safe(men, pawn_sources(men, to), to);
    let passing = men.passing().filter(|(end, _)| *end == to);
    let sources = sources | passing.map_or(0, |(to, taken)| men.passers(to, taken));
    if has(rank(0) | rank(7), to) { (2..=5).try_for_each(|kind| put(into, sources, to, kind)) } else { put(into, sources, to, 0) }
}

/// The squares of own pawns that go to a square otherwise than in passing.
fn pawn_sources(men: &Men, to: usize) -> Set {
    if has(men.all, to) {
        return PAWN[1 - men.side][to] & men.own.pawns;
    }
    let (back, fourth) = (men.back(one(to)), if men.side == 0 { 3 } else { 4 });
    let twice = if to / 8 == fourth { men.back(back & !men.all) } else { 0 };
    (back | twice) & men.own.pawns
}

/// Those from which a man may go without leaving a king attacked.
fn safe(men: &Men, sources: Set, to: usize) -> Set {
    each(sources).filter(|from| men.safe(*from, to, one(to))).fold(0, |set, from| set | one(from))
}

fn put(into: &mut Lent, sources: Set, to: usize, promotion: usize) -> Result<(), Error> {
    // Below 64 + 64 * 64 + 4,096 * 5, which a `u16` holds.
    each(sources).try_for_each(|from| into.push((from + 64 * to + 4_096 * promotion) as u16))
}
