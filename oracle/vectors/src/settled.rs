//! FENs of positions with each en passant file put in, and the key of what the crate's `Board` keeps of each: for the tests of the host's side.

use both::games::Positions;
use both::numbers::record_of;
use both::random::Random;
use chess::BoardBuilder;
use compare::settled::told_by_crate;
use std::fmt::Write as _;

const POSITIONS: usize = 400;
const FILE: usize = 67;

const HEAD: &str = r#"# FENs and the keys of their settled records. Made by oracle/remake-vectors, not by hand: each position of a game with each en passant
# file put in, and what the crate's `Board` keeps of it, if it takes it, written with the square on the standard's rank.
#
#     TEXT -> KEY
"#;

pub fn written() -> String {
    let (mut positions, mut random) = (Positions::default(), Random::new(1, "vectors: settled"));
    let mut out = HEAD.to_string();
    for _ in 0..POSITIONS {
        let mut record = record_of(&BoardBuilder::from(positions.next(&mut random)));
        for file in 0..=8 {
            record.numbers[FILE] = file;
            if let Some((text, key)) = told_by_crate(&record) {
                writeln!(out, "{} -> {}", text, key).expect("a String takes all");
            }
        }
    }
    out
}
