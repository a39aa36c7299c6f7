//! All legal moves of a record, in rising order of their numbers: by promotion, then by destination, then by source.

use crate::men::{Army, Men};
use crate::squares::{KING, KNIGHT, Set, diagonal, each, has, one, rank, straight};
use menkhodur::{Error, Lent};

/// Moves, by their destinations.
struct Gathered {
    sources: [Set; 64],
    ends: Set,
}

impl Gathered {
    #[inline]
    fn add(&mut self, from: usize, ends: Set) {
        self.ends |= ends;
        each(ends).for_each(|to| self.sources[to] |= one(from));
    }
}

pub fn list(men: &Men, into: &mut Lent) -> Result<(), Error> {
    let mut found = Gathered { sources: [0; 64], ends: 0 };
    let (ends, pinned) = (men.answers() & men.ends(), men.pinned());
    if ends != 0 {
        let Army { pawns, knights, bishops, rooks, queens, .. } = men.own;
        others(men, pawns, pinned, ends, |from| men.pawn_reach(from), &mut found);
        others(men, knights, pinned, ends, |from| KNIGHT[from], &mut found);
        others(men, bishops | queens, pinned, ends, |from| diagonal(from, men.all), &mut found);
        others(men, rooks | queens, pinned, ends, |from| straight(from, men.all), &mut found);
    }
    kings(men, &mut found);
    if let Some((to, taken)) = men.passing() {
        each(men.passers(to, taken)).for_each(|from| found.add(from, one(to)));
    }
    put(men, &found, into)
}

/// Men who are no kings. Wherever they may end every check is answered, so that only one who is pinned can leave a king attacked.
#[inline]
fn others(men: &Men, kind: Set, pinned: Set, ends: Set, reach: impl Fn(usize) -> Set, found: &mut Gathered) {
    each(kind & !pinned).for_each(|from| found.add(from, reach(from) & ends));
    each(kind & pinned).for_each(|from| found.add(from, safe(men, from, reach(from) & ends)));
}

fn kings(men: &Men, found: &mut Gathered) {
    each(men.own.kings).for_each(|from| found.add(from, safe(men, from, KING[from] & men.ends())));
    found.add(men.home(), men.castlings());
}

/// The destinations to which a man may go without leaving a king attacked.
fn safe(men: &Men, from: usize, ends: Set) -> Set {
    each(ends).filter(|to| men.safe(from, *to, one(*to))).fold(0, |set, to| set | one(to))
}

fn put(men: &Men, found: &Gathered, into: &mut Lent) -> Result<(), Error> {
    let last = found.ends & if men.side == 0 { rank(7) } else { rank(0) };
    for to in each(found.ends) {
        let promotes = if has(last, to) { men.own.pawns } else { 0 };
        each(found.sources[to] & !promotes).try_for_each(|from| into.push((from + 64 * to) as u16))?;
    }
    for (kind, to) in (2..=5).flat_map(|kind| each(last).map(move |to| (kind, to))) {
        each(found.sources[to] & men.own.pawns).try_for_each(|from| into.push((from + 64 * to + 4_096 * kind) as u16))?;
    }
    Ok(())
}
