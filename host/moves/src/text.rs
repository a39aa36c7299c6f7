//! What a move text in the form of the PGN standard can mean, as far as it is seen at a glance.

/// A kind of man, by its letter.
#[derive(Clone, Copy, Debug, PartialEq, Eq)]
pub enum Kind {
    Pawn,
    Knight,
    Bishop,
    Rook,
    Queen,
    King,
}

/// What a text can mean. A text that the archive's reader takes means this; one that it refuses, whatever is listed, may mean anything here.
#[derive(Clone, Copy, Debug, PartialEq, Eq)]
pub enum Meant {
    Nothing,
    ShortCastling,
    LongCastling,
    /// A man of this kind goes to this square.
    Goes(Kind, usize),
}

impl Meant {
    #[inline]
    pub fn of(text: &[u8]) -> Meant {
        let kind = match text.first() {
            Some(b'N') => Kind::Knight,
            Some(b'B') => Kind::Bishop,
            Some(b'R') => Kind::Rook,
            Some(b'Q') => Kind::Queen,
            Some(b'K') => Kind::King,
            Some(b'O') => return castling(text),
            _ => Kind::Pawn,
        };
        last_square(text).map_or(Meant::Nothing, |square| Meant::Goes(kind, square))
    }
}

fn castling(text: &[u8]) -> Meant {
    match text.strip_suffix(b"+").or(text.strip_suffix(b"#")).unwrap_or(text) {
        b"O-O" => Meant::ShortCastling,
        b"O-O-O" => Meant::LongCastling,
        _ => Meant::Nothing,
    }
}

/// Behind a move's destination the form has a promotion and a check mark, and no square.
#[inline]
fn last_square(text: &[u8]) -> Option<usize> {
    text.windows(2).rev().find_map(|pair| {
        let (file, rank) = (pair[0].wrapping_sub(b'a'), pair[1].wrapping_sub(b'1'));
        (file < 8 && rank < 8).then_some(usize::from(file) + 8 * usize::from(rank))
    })
}

#[cfg(test)]
mod tests {
    use super::*;

    #[test]
    fn what_texts_mean() {
        for (text, meant) in [
            ("e4", Meant::Goes(Kind::Pawn, 28)),
            ("exd6", Meant::Goes(Kind::Pawn, 43)),
            ("bxa8=Q+", Meant::Goes(Kind::Pawn, 56)),
            ("b1=N#", Meant::Goes(Kind::Pawn, 1)),
            ("bxc8=B", Meant::Goes(Kind::Pawn, 58)),
            ("Nb1d2", Meant::Goes(Kind::Knight, 11)),
            ("Bxh8", Meant::Goes(Kind::Bishop, 63)),
            ("R1a3", Meant::Goes(Kind::Rook, 16)),
            ("Qa1+", Meant::Goes(Kind::Queen, 0)),
            ("Kg1", Meant::Goes(Kind::King, 6)),
            ("O-O", Meant::ShortCastling),
            ("O-O#", Meant::ShortCastling),
            ("O-O-O", Meant::LongCastling),
            ("O-O-O+", Meant::LongCastling),
        ] {
            assert_eq!(Meant::of(text.as_bytes()), meant, "{text}");
        }
        for text in ["", "e", "4", "Nf", "Kx", "O", "O-", "O-O-", "O-O++", "O-O-O-O", "Oe4", "0-0", "i4", "e9", "--", "\u{e9}4"] {
            assert_eq!(Meant::of(text.as_bytes()), Meant::Nothing, "{text}");
        }
    }
}
