//! Legal moves of random positions for bench/count-x86, 256 bytes each: the crate's board, at 160 its move, at 168 our record, at 240 our move number.

use both::games::{different_positions, moves_of};
use both::numbers::{number_of, record_of};
use both::random::Random;
use chess::BoardBuilder;
use std::io::Write;

const POSITIONS: usize = 128;

fn bytes<T>(value: &T) -> &[u8] {
    unsafe { std::slice::from_raw_parts((value as *const T).cast(), std::mem::size_of::<T>()) }
}

fn main() {
    let mut cases = 0;
    let mut out = std::fs::File::create("cases.bin").expect("cases.bin can be written");
    for board in different_positions(POSITIONS, &mut Random::new(7, "count")) {
        let record = record_of(&BoardBuilder::from(board));
        for m in moves_of(&board) {
            let mut row = [0; 256];
            let parts = [(0, bytes(&board)), (160, bytes(&m)), (168, bytes(&record)), (240, &number_of(m).to_le_bytes()[..])];
            for (at, part) in parts {
                row[at..at + part.len()].copy_from_slice(part);
            }
            out.write_all(&row).expect("cases.bin can be written");
            cases += 1;
        }
    }
    println!("{cases}");
}
