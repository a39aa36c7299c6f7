//! The men of a record as sets of squares, and what the side to move has to fear.

use crate::squares::{BETWEEN, KING, KNIGHT, PAWN, Set, diagonal, each, has, one, straight};
use menkhodur::Error;
use menkhodur::lent::{MAX_COUNT, Record};

/// The men of one side.
#[derive(Clone, Copy)]
pub struct Army {
    pub pawns: Set,
    pub knights: Set,
    pub bishops: Set,
    pub rooks: Set,
    pub queens: Set,
    pub kings: Set,
}

impl Army {
    #[inline]
    pub fn all(&self) -> Set {
        self.pawns | self.knights | self.bishops | self.rooks | self.queens | self.kings
    }
}

/// A record, as the side to move sees it.
pub struct Men {
    pub own: Army,
    pub their: Army,
    pub mine: Set,
    pub all: Set,
    /// 0 white, 1 black.
    pub side: usize,
    rights: u8,
    /// The file of capture in passing, from 1; 0 none.
    file: u8,
}

impl Men {
    /// Refused: 5, as the archive refuses a record.
    #[inline]
    pub fn of(record: &Record) -> Result<Men, Error> {
        let bits = bits(record.numbers.first_chunk().ok_or(Error::OutOfRange)?)?;
        let [.., side, white, black, file] = record.numbers;
        let counts = u64::from(record.half_moves) <= MAX_COUNT && (1..=MAX_COUNT).contains(&u64::from(record.full_moves));
        if side > 1 || white > 3 || black > 3 || file > 8 || !counts {
            return Err(Error::OutOfRange);
        }
        let (own, their, rights) = match side {
            0 => (army::<0>(bits), army::<6>(bits), white),
            _ => (army::<6>(bits), army::<0>(bits), black),
        };
        let mine = own.all();
        Ok(Men { own, their, mine, all: mine | their.all(), side: side.into(), rights, file })
    }

    /// Where a move may end: on any square but those of one's own men and of the other side's king.
    #[inline]
    pub fn ends(&self) -> Set {
        !(self.mine | self.their.kings)
    }

    /// Enemy men that attack a square if the squares of `all` are occupied.
    #[inline]
    pub fn attackers(&self, square: usize, all: Set) -> Set {
        let Army { pawns, knights, bishops, rooks, queens, kings } = self.their;
        let leap = (PAWN[self.side][square] & pawns) | (KNIGHT[square] & knights) | (KING[square] & kings);
        leap | (diagonal(square, all) & (bishops | queens)) | (straight(square, all) & (rooks | queens))
    }

    #[inline]
    pub fn in_check(&self) -> bool {
        each(self.own.kings).any(|king| self.attackers(king, self.all) != 0)
    }

    /// Whether no own king is attacked once a man has gone from one square to another and what stood on the squares `taken` is gone.
    #[inline]
    pub fn safe(&self, from: usize, to: usize, taken: Set) -> bool {
        let all = (self.all & !taken & !one(from)) | one(to);
        let kings = if has(self.own.kings, from) { self.own.kings & !one(from) | one(to) } else { self.own.kings };
        each(kings).all(|king| self.attackers(king, all) & !taken == 0)
    }

    /// The squares that end every check if a man who is no king goes there: all if there is none.
    pub fn answers(&self) -> Set {
        each(self.own.kings).fold(!0, |answers, king| {
            let attackers = self.attackers(king, self.all);
            match attackers.count_ones() {
                0 => answers,
                1 => answers & (attackers | BETWEEN[king][attackers.trailing_zeros() as usize]),
                _ => 0,
            }
        })
    }

    /// Own men who stand alone between an own king and an enemy man who would attack it.
    pub fn pinned(&self) -> Set {
        let theirs = self.all & !self.mine;
        let (slanting, upright) = (self.their.bishops | self.their.queens, self.their.rooks | self.their.queens);
        each(self.own.kings).fold(0, |pinned, king| {
            let behind = (diagonal(king, theirs) & slanting) | (straight(king, theirs) & upright);
            let alone = |between: &Set| between.count_ones() == 1;
            pinned | each(behind).map(|square| BETWEEN[king][square] & self.mine).filter(alone).fold(0, |set, man| set | man)
        })
    }

    /// Where a pawn goes from a square: one step, two from its second rank, and captures, but not in passing.
    #[inline]
    pub fn pawn_reach(&self, from: usize) -> Set {
        let second = if self.side == 0 { 1 } else { 6 };
        let step = self.ahead(one(from)) & !self.all;
        let twice = if from / 8 == second { self.ahead(step) & !self.all } else { 0 };
        step | twice | (PAWN[self.side][from] & self.all)
    }

    /// The squares one rank further on.
    #[inline]
    fn ahead(&self, set: Set) -> Set {
        if self.side == 0 { set << 8 } else { set >> 8 }
    }

    /// The squares one rank further back.
    #[inline]
    pub fn back(&self, set: Set) -> Set {
        if self.side == 0 { set >> 8 } else { set << 8 }
    }

    /// The square that a pawn taking in passing goes to, and that of the pawn it takes.
    #[inline]
    pub fn passing(&self) -> Option<(usize, usize)> {
        let file = usize::from(self.file).checked_sub(1)?;
        let (to, taken) = if self.side == 0 { (40 + file, 32 + file) } else { (16 + file, 24 + file) };
        (has(self.their.pawns, taken) && !has(self.all, to)).then_some((to, taken))
    }

    /// Own pawns that may take in passing with what is told of it.
    #[inline]
    pub fn passers(&self, to: usize, taken: usize) -> Set {
        let beside = PAWN[1 - self.side][to] & self.own.pawns;
        each(beside).filter(|from| self.safe(*from, to, one(taken))).fold(0, |set, from| set | one(from))
    }

    /// The king's home.
    #[inline]
    pub fn home(&self) -> usize {
        if self.side == 0 { 4 } else { 60 }
    }

    /// Where the king may castle to.
    pub fn castlings(&self) -> Set {
        let home = self.home();
        if self.rights == 0 || !has(self.own.kings, home) {
            return 0;
        }
        let castles = |right: u8, corner: usize, way: usize, end: usize| {
            let allowed = self.rights & right != 0 && has(self.own.rooks, corner) && BETWEEN[home][corner] & self.all == 0;
            if allowed && self.calm(way) && self.calm(end) && !self.in_check() { one(end) } else { 0 }
        };
        castles(1, home + 3, home + 1, home + 2) | castles(2, home - 4, home - 1, home - 2)
    }

    fn calm(&self, square: usize) -> bool {
        self.attackers(square, self.all) == 0
    }
}

/// For each of the four bits of a man's number the squares that have it. Refused: 5, for a number over 12.
#[inline]
fn bits(numbers: &[u8; 64]) -> Result<[Set; 4], Error> {
    let rank = |rank: usize| numbers[8 * rank..].first_chunk().map_or(0, |eight| u64::from_le_bytes(*eight));
    let ranks: [u64; 8] = std::array::from_fn(rank);
    let large = ranks.iter().fold(0, |bits, rank| bits | rank) & 0xf0f0_f0f0_f0f0_f0f0;
    // Half a byte is enough for a number: ranks 1 and 5, 2 and 6, 3 and 7, 4 and 8 together.
    let pairs: [u64; 4] = std::array::from_fn(|rank| ranks[rank] | ranks[rank + 4] << 4);
    let bits = std::array::from_fn(|bit| {
        let files = (0..4).fold(0, |files, rank| files | (pairs[rank] >> bit & 0x1111_1111_1111_1111) << rank);
        turned(files)
    });
    let [first, second, third, fourth] = bits;
    if large != 0 || fourth & third & (first | second) != 0 { Err(Error::OutOfRange) } else { Ok(bits) }
}

/// A set whose bytes are files and whose bits are ranks, with bytes for ranks and bits for files: the halves, quarters and eighths of the
/// board off its long diagonal change places.
#[inline]
fn turned(set: Set) -> Set {
    let swapped = |set: u64, shift: u32, mask: u64| {
        let moved = (set ^ set >> shift) & mask;
        set ^ moved ^ moved << shift
    };
    let set = swapped(set, 28, 0x0000_0000_f0f0_f0f0);
    let set = swapped(set, 14, 0x0000_cccc_0000_cccc);
    swapped(set, 7, 0x00aa_00aa_00aa_00aa)
}

/// The men with the six numbers behind `BEFORE`.
#[inline]
fn army<const BEFORE: u8>(bits: [Set; 4]) -> Army {
    let of = |kind: u8| {
        let number = BEFORE + kind;
        (0..4).fold(!0, |set, bit| set & if number >> bit & 1 == 1 { bits[bit] } else { !bits[bit] })
    };
    Army { pawns: of(1), knights: of(2), bishops: of(3), rooks: of(4), queens: of(5), kings: of(6) }
}
